A script whose last line has no line feed may be cut, as a log is that was copied while it grew. `run` and `test` say so on
standard error; what is printed is the same.

  $ printf 'open 1 0 0 3\nclear 12' >cut.txt
  $ ./lab run examples/two_cells.toml cut.txt 2>errors
  in open 1 0 0 3
  event open 1 0/0/3 -> done
  out abis 0 0 0821010b0300060400010801
  in clear 12
  event look 12 -> refused 1
  end channels=1 calls=1 references=0 timers=0
  $ cat errors
  cut.txt: the last line has no line feed, and may be cut off
  cut.txt:2: this line has no effect: there is no call 12
  $ printf '#> end channels=0 calls=0 references=0 timers=0' >cut.txt
  $ ./lab test examples/two_cells.toml cut.txt 2>errors
  1..1
  ok 1 - cut.txt
  $ cat errors
  cut.txt: the last line has no line feed, and may be cut off
  $ printf 'sim' >cut.txt
  $ ./lab run examples/two_cells.toml cut.txt --words 2>errors >/dev/null
  $ cat errors
  cut.txt: the last line has no line feed, and may be cut off

A line that can't be read is told behind that.

  $ printf 'clear' >cut.txt
  $ ./lab run examples/two_cells.toml cut.txt 2>errors
  line 1
  [2]
  $ cat errors
  cut.txt: the last line has no line feed, and may be cut off
  cut.txt:1: CALL is missing in clear CALL

A text that ends with a line feed isn't cut, and neither is one without a line.

  $ printf 'open 1 0 0 3\r\n' >whole.txt
  $ ./lab run examples/two_cells.toml whole.txt 2>&1 >/dev/null
  $ ./lab run examples/two_cells.toml /dev/null 2>&1 >/dev/null
