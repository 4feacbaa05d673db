A line for each undone attempt of a trace, each taken out by itself. The others are told by the lines of their events, which a
person counted. An attempt that isn't undone has no line.

  $ cat >undone.trace <<'END'
  > in open 1 0 0 3
  > event open 1 0/0/3 -> done
  > out abis 0 0 0821010b0300060400010801
  > event confirm 0/0/3 -> owned 1
  > event look 1 -> record 0/0/3 on
  > event take 1 internal 1/1/3 -> done
  > event reserve 1 0 -> done
  > event activate 1 -> done
  > event undo 1 asked -> record 0/0/3 on internal sent 1/1/3 0
  > event look 5 -> refused 1
  > event released 1/1/3 -> done
  > event require 1 -> done
  > event open 2 1/1/3 -> done
  > event undo 1 t7 -> record 0/0/3 on outgoing required - -
  > event require 1 -> done
  > END
  $ ./lab rewind examples/two_cells.toml undone.trace --all --cut
  line 6 call 1 internal sent others 2-5,10,12-15 settled yes held - choices - same
  line 12 call 1 outgoing required others 2-11,13,15 settled yes held - choices - same
  $ ./lab rewind examples/two_cells.toml examples/handover_arrives.trace --all
  $ ./lab rewind examples/two_cells.toml examples/handover_returns.trace --all
  line 9 call 1 internal commanded others 2-8,19 settled yes held - choices - same

One whose release is awaited differs, and so does one that another call was refused for: the first reply that is another is
told, or else the first that the books hold.

  $ cat >held.trace <<'END'
  > event open 1 0/0/3 -> done
  > event confirm 0/0/3 -> owned 1
  > event take 1 internal 1/1/3 -> done
  > event open 2 1/1/3 -> refused 6 1/1/3
  > event undo 1 asked -> record 0/0/3 on internal taken 1/1/3 -
  > event take 1 internal 1/1/3 -> done
  > event reserve 1 0 -> done
  > event activate 1 -> done
  > event undo 1 asked -> record 0/0/3 on internal sent 1/1/3 0
  > END
  $ ./lab rewind examples/two_cells.toml held.trace --all
  line 3 call 1 internal taken others 1-2,4,6-9 settled yes held 4 choices - differs: line 4: refused 6 1/1/3; without: done
  line 6 call 1 internal sent others 1-5 settled no held - choices - differs: state channel 1/1/3 off; without: no state channel 1/1/3
  [1]
  $ head -n 5 held.trace >first.trace
  $ ./lab rewind examples/two_cells.toml first.trace --all
  line 3 call 1 internal taken others 1-2,4 settled yes held 4 choices - differs: line 4: refused 6 1/1/3; without: done
  [1]

Each says what rewind says of it alone.

  $ ./lab rewind examples/two_cells.toml held.trace 3
  others 7
  settled yes
  held 4
  choices -
  differs: line 4: refused 6 1/1/3; without: done
  [1]

A channel that would have been chosen otherwise is told by its line: calls 2 and 3 found none free, since the attempt of call 1
had the one channel of cell 1. Call 3 wouldn't have found one without it either, had call 2 got it: but that is no event.

  $ printf 'open 1 0 0 3\nabis 0 0 0822010b081234\nhandover 1 1\nseize 2 1 full\nseize 3 1 full\nundo 1\n' >none.txt
  $ printf 'abis 1 1 0833010b\nhandover 1 1\nundo 1\nabis 1 1 0833010b\n' >>none.txt
  $ ./lab run examples/two_cells.toml none.txt >none.trace
  $ grep -n 'none free\|event take\|event undo' none.trace
  9:event take 1 internal 1/1/3 -> done
  14:none free 1
  16:none free 1
  18:event undo 1 asked -> record 0/0/3 on internal sent 1/1/3 0
  24:event take 1 internal 1/1/3 -> done
  29:event undo 1 asked -> record 0/0/3 on internal sent 1/1/3 0
  $ ./lab rewind examples/two_cells.toml none.trace --all
  line 9 call 1 internal sent others 2-8,23-32 settled yes held - choices 14,16 same
  line 24 call 1 internal sent others 2-23 settled yes held - choices - same
  $ ./lab run examples/two_cells.toml none.txt --lines >none.trace
  $ ./lab rewind examples/two_cells.toml none.trace --all | grep -o 'choices.*'
  choices 14,16 same
  choices - same

The status is 1 where any of them differs: here the first one, and not the last.

  $ head -n 5 held.trace >again.trace
  $ sed -n '3p;5p' held.trace >>again.trace
  $ ./lab rewind examples/two_cells.toml again.trace --all
  line 3 call 1 internal taken others 1-2,4,6-7 settled yes held 4 choices - differs: line 4: refused 6 1/1/3; without: done
  line 6 call 1 internal taken others 1-5 settled yes held - choices - same
  [1]

Of two controllers each side is taken by itself, over its own site.

  $ printf 'sim\n2: hold 0 0 1\nopen 1 0 0 3\nhandover 1 64\n2: undo 40000\n' >two.txt
  $ ./lab run examples/two_cells.toml two.txt --peer examples/one_cell.toml >two.trace
  $ ./lab rewind examples/two_cells.toml two.trace --all --peer examples/one_cell.toml
  1: line 9 call 1 outgoing required others 2-8 settled yes held - choices - same
  2: line 13 call 40000 incoming sent others 12 settled yes held - choices - same
  $ ./lab rewind examples/two_cells.toml two.trace --all 2>errors
  line 1
  [2]
  $ cat errors
  two.trace:1: this is a trace of two controllers, but rewind without --peer reads the trace of one

The status is 1 where an attempt of the second controller alone differs.

  $ cat >second.trace <<'END'
  > 1: event open 1 0/0/3 -> done
  > 2: event take 40000 incoming 0/0/1 -> done
  > 2: event reserve 40000 0 -> done
  > 2: event activate 40000 -> done
  > 2: event undo 40000 asked -> record - - incoming sent 0/0/1 0
  > END
  $ ./lab rewind examples/two_cells.toml second.trace --all --peer examples/one_cell.toml
  2: line 2 call 40000 incoming sent others - settled no held - choices - differs: state channel 0/0/1 off; without: no state channel 0/0/1
  [1]

A line without its mark is refused, and so is a first one behind a byte order mark; one that is of no controller is passed over.

  $ for line in '1s/^1: in/in/' '9s/^1: event/event/' '13s/^2: event/event/' '1s/^/\xef\xbb\xbf/'; do
  >   sed "$line" two.trace >bad.trace
  >   ./lab rewind examples/two_cells.toml bad.trace --all --peer examples/one_cell.toml 2>>errors
  > done
  line 1
  line 9
  line 13
  line 1
  [2]
  $ tail -n 4 errors
  bad.trace:1: in a trace of two controllers this line has to begin with 1: or 2:
  bad.trace:9: in a trace of two controllers this line has to begin with 1: or 2:
  bad.trace:13: in a trace of two controllers this line has to begin with 1: or 2:
  bad.trace:1: the line begins with a byte order mark
  $ sed '12a sim limit' two.trace >limit.trace
  $ ./lab rewind examples/two_cells.toml limit.trace --all --peer examples/one_cell.toml | sed 's/ others .* settled/ .. settled/'
  1: line 9 call 1 outgoing required .. settled yes held - choices - same
  2: line 14 call 40000 incoming sent .. settled yes held - choices - same
  $ sed '1s/^/\xef\xbb\xbf/' undone.trace >bad.trace
  $ for words in 'rewind examples/two_cells.toml bad.trace --all' 'rewind examples/two_cells.toml bad.trace 6' \
  >   'audit examples/two_cells.toml bad.trace' 'summary bad.trace'; do
  >   ./lab $words 2>/dev/null
  > done
  line 1
  line 1
  line 1
  line 1
  [2]

What is refused, is refused as by rewind, and nothing else is printed: of two controllers also where only the second's lines are
wrong.

  $ sed '13s/done/owned 1/' two.trace >bad.trace
  $ ./lab rewind examples/two_cells.toml bad.trace --all --peer examples/one_cell.toml 2>errors
  line 13
  [2]
  $ cat errors
  bad.trace:13: the book of this site replies "done" here, but the trace says "owned 1"
  $ printf 'event look 1 -> done\n' >bad.trace
  $ ./lab rewind examples/two_cells.toml bad.trace --all 2>errors
  line 1
  [2]
  $ cat errors
  bad.trace:1: the book of this site replies "refused 1" here, but the trace says "done"
  $ printf 'end channels=0 calls=0 references=0 timers=0\n' >none.trace
  $ ./lab rewind examples/two_cells.toml none.trace --all
  $ ./lab rewind examples/two_cells.toml none.trace 2>&1
  *not provided: <LINE>* (glob)
  [2]
  $ ./lab rewind examples/two_cells.toml none.trace 1 --all
  *LINE* (glob)
  [2]
  $ ./lab rewind examples/two_cells.toml none.trace 1 --peer examples/one_cell.toml
  *'--peer <SITE>'* (glob)
  [2]
