A script meets its comments, or of each line that gives something the first comment that isn't met is named, with what it
expects and what came.


A script that expects nothing isn't met.

  $ printf 'open 1 0 0 3\nclear 1\n' >script.txt
  $ ./lab test examples/two_cells.toml script.txt
  1..1
  not ok 1 - script.txt
  # nothing is expected
  [1]

Any lines.

  $ printf 'open 1 0 0 3\n#> in open 1 0 0 3\n#> ..\nclear 1\n#> ..\n#> end channels=1 calls=0 references=0 timers=0\n' >script.txt
  $ ./lab test examples/two_cells.toml script.txt
  1..1
  ok 1 - script.txt

What comes of the first line differs, and of the second.

  $ printf 'open 1 0 0 3\n\n#> in open 1 0 0 3\n#> event open 1 0/0/2 -> done\n#> ..\nclear 1\n#> no\n' >script.txt
  $ ./lab test examples/two_cells.toml script.txt 2>/dev/null
  1..1
  not ok 1 - script.txt
  # line 4
  # expected: event open 1 0/0/2 -> done
  # came: event open 1 0/0/3 -> done
  # line 7
  # expected: no
  # came: no line of a trace is like this
  [1]

More comes than is expected.

  $ printf 'open 1 0 0 3\nclear 1\n#> in clear 1\n# note\n' >script.txt
  $ ./lab test examples/two_cells.toml script.txt
  1..1
  not ok 1 - script.txt
  # line 3
  # expected nothing more
  # came: event look 1 -> record 0/0/3 pending
  [1]

The line is that of the last comment that expects something.

  $ printf 'open 1 0 0 3\n#> in open 1 0 0 3\n\n#> event open 1 0/0/3 -> done\n# note\n\nclear 1\n' >script.txt
  $ ./lab test examples/two_cells.toml script.txt
  1..1
  not ok 1 - script.txt
  # line 4
  # expected nothing more
  # came: out abis 0 0 CHANNEL ACTIVATION tn=3 activation=0 mode=00010801 reference=-
  [1]

For any lines none may stand, or some of which one is like the line behind them.

  $ printf 'undo 1\n#> in undo 1\n#> event undo 1 asked -> refused 1\n#> ..\nundo 2\n' >none.txt
  $ printf 'sim\ndouble 0 0 3\nopen 1 0 0 3\n#> ..\n#> in abis 0 0 0822010b080000\n#> event confirm 0/0/3 -> refused 8 0/0/3\nundo 2\n' >some.txt
  $ ./lab test examples/two_cells.toml none.txt some.txt
  none.txt:5: this line has no effect: there is no call 2
  1..2
  ok 1 - none.txt
  some.txt:7: this line has no effect: there is no call 2
  ok 2 - some.txt
  $ printf 'open 1 0 0 3\n#> ..\n#> event open 1 0/0/3 -> done\nundo 2\n' >script.txt
  $ ./lab test examples/two_cells.toml script.txt
  script.txt:4: this line has no effect: there is no call 2
  1..1
  not ok 1 - script.txt
  # line 3
  # expected nothing more
  # came: out abis 0 0 CHANNEL ACTIVATION tn=3 activation=0 mode=00010801 reference=-
  [1]

The echo of the line may be left out, that of the second controller too, but no other input.

  $ printf 'undo 1\n#> 1: event undo 1 asked -> refused 1\n2: undo 1\n#> 2: event undo 1 asked -> refused 1\n' >script.txt
  $ ./lab test examples/two_cells.toml script.txt --peer examples/one_cell.toml
  1..1
  ok 1 - script.txt
  $ printf 'sim\nopen 1 0 0 3\n#> event open 1 0/0/3 -> done\n#> out abis 0 0 0821010b0300060400010801\n#> event confirm 0/0/3 -> owned 1\n' >script.txt
  $ ./lab test examples/two_cells.toml script.txt
  1..1
  not ok 1 - script.txt
  # line 5
  # expected: event confirm 0/0/3 -> owned 1
  # came: in abis 0 0 CHANNEL ACTIVATION ACK tn=3 frame=0
  [1]

Lines that never come, a comment that has slipped, and one that expects two dots behind a blank.

  $ printf 'undo 1\n#> in undo 1\n#> event undo 1 asked -> refused 1\n#> b\nundo 2\n# > c\nundo 3\n#>  ..\nundo 4\n' >script.txt
  $ ./lab test examples/two_cells.toml script.txt 2>/dev/null
  1..1
  not ok 1 - script.txt
  # line 4
  # expected: b
  # came: no line of a trace is like this
  # line 6 looks like an expectation, but isn't one
  # line 8
  # expected:  ..
  # came: no line of a trace is like this
  [1]

A line that doesn't come.

  $ printf 'open 1 0 0 3\n#> ..\n#> out a 1 00\nclear 1\n' >script.txt
  $ ./lab test examples/two_cells.toml script.txt
  1..1
  not ok 1 - script.txt
  # line 3
  # expected: out a 1 00
  # came: out abis 0 0 0821010b0300060400010801
  # nearest of the 3 that came: abis, not a
  [1]

Less comes than is expected.

  $ printf 'undo 1\n#> in undo 1\n#> event undo 1 asked -> refused 1\n#> out a 1 CLEAR COMPLETE\nundo 2\n' >script.txt
  $ ./lab test examples/two_cells.toml script.txt
  script.txt:5: this line has no effect: there is no call 2
  1..1
  not ok 1 - script.txt
  # line 4
  # expected: out a 1 CLEAR COMPLETE
  # came nothing more
  [1]

Nothing comes before the first line.

  $ printf '#> in open 1 0 0 3\nopen 1 0 0 3\n' >script.txt
  $ ./lab test examples/two_cells.toml script.txt 2>/dev/null
  1..1
  not ok 1 - script.txt
  # line 1
  # expected: in open 1 0 0 3
  # came: no script line comes before it
  [1]

A script without lines has its end.

  $ printf '#> end channels=0 calls=0 references=0 timers=0\n' >script.txt
  $ ./lab test examples/two_cells.toml script.txt
  1..1
  ok 1 - script.txt

Of two lines at the end of a trace both are expected, or none.

  $ printf 'undo 1\n#> 1: in undo 1\n#> 1: event undo 1 asked -> refused 1\n' >none.txt
  $ sed '$a #> 1: end channels=0 calls=0 references=0 timers=0' none.txt >one.txt
  $ sed '$a #> 2: end channels=0 calls=0 references=0 timers=0' one.txt >both.txt
  $ ./lab test examples/two_cells.toml none.txt one.txt both.txt --peer examples/one_cell.toml
  1..3
  ok 1 - none.txt
  not ok 2 - one.txt
  # line 4
  # expected nothing more
  # came: 2: end channels=0 calls=0 references=0 timers=0
  ok 3 - both.txt
  [1]

Names and texts are printed with escapes, so that each stands in one line, and that of a test as TAP has it.

  $ name=$(printf 'a#\\b\nc\177')
  $ printf 'undo 1\n#> \033[31m\t#\\\nundo 2\n' >"$name"
  $ ./lab test examples/two_cells.toml "$name" 2>/dev/null
  1..1
  not ok 1 - a\#\\b\nc\u{7f}
  # line 2
  # expected: \u{1b}[31m\t#\
  # came: no line of a trace is like this
  [1]

A line can't be read.

  $ printf 'open 1 0 0 3\n #> in open 1 0 0 3\n' >script.txt
  $ ./lab test examples/two_cells.toml script.txt 2>/dev/null
  1..1
  not ok 1 - script.txt
  # line 2 can't be read
  [2]

Scripts are tested one by one. One that is refused doesn't keep the others from their tests.

  $ printf '# A call.\r\nopen 1 0 0 3\r\n#> in open 1 0 0 3\r\n#> event open 1 0/0/3 -> done\r\n#> out abis 0 0 0821010b0300060400010801\r\n\r\n# Its station answers.\nabis 0 0 0822010b081234\n#> in abis 0 0 0822010b081234\n#> event confirm 0/0/3 -> owned 1\n#> event look 1 -> record 0/0/3 on\n#> end channels=1 calls=1 references=0 timers=0\n' >met.txt
  $ printf 'open 1 0 0 3\n#> in open 1 0 0 2\n' >differs.txt
  $ printf 'open 1 0 0 8\n' >unread.txt
  $ ./lab test examples/two_cells.toml met.txt
  1..1
  ok 1 - met.txt
  $ ./lab test examples/two_cells.toml differs.txt met.txt
  1..2
  not ok 1 - differs.txt
  # line 2
  # expected: in open 1 0 0 2
  # came: in open 1 0 0 3
  ok 2 - met.txt
  [1]
  $ ./lab test examples/two_cells.toml unread.txt differs.txt 'no file' met.txt 2>errors
  1..4
  not ok 1 - unread.txt
  # line 1 can't be read
  not ok 2 - differs.txt
  # line 2
  # expected: in open 1 0 0 2
  # came: in open 1 0 0 3
  not ok 3 - no file
  # the file can't be read
  ok 4 - met.txt
  [2]
  $ cat errors
  unread.txt:1: TN is 0 to 7, with /0 or /1 at the end for half rate, found 8
  no file: no such file

With a peer each line of the trace has its mark. A peer's file that is no site is refused, and so is a site's that isn't
there.

  $ ./lab test examples/two_cells.toml met.txt --peer examples/one_cell.toml 2>/dev/null | head -n 8
  1..1
  not ok 1 - met.txt
  # line 3
  # expected: in open 1 0 0 3
  # came: with two controllers it has to begin with 1: or 2:
  # line 4
  # expected: event open 1 0/0/3 -> done
  # came: with two controllers it has to begin with 1: or 2:
  $ sed 's/#> \(.*open\)/#> 1: \1/' met.txt >one.txt
  $ ./lab test examples/two_cells.toml one.txt --peer examples/one_cell.toml 2>&1 >/dev/null | head -n 1
  one.txt:5: can't be met: with two controllers it has to begin with 1: or 2:
  $ ./lab test examples/two_cells.toml met.txt --peer met.txt 2>errors
  site 1
  [2]
  $ cat errors
  met\.txt:[0-9]+:[0-9]+: .* (re)
  $ ./lab test 'no site.toml' met.txt 2>errors
  file no site.toml
  [2]
  $ cat errors
  no site.toml: no such file

Those scripts alone whose path has a text. Where none has, nothing is tested, and the status says so.

  $ ./lab test examples/two_cells.toml examples/one_call.txt examples/wrong.txt examples/handover_arrives.txt -k call
  1..1
  ok 1 - examples/one_call.txt
  $ ./lab test -k handover examples/two_cells.toml examples/one_call.txt examples/handover_arrives.txt --undo-everywhere | tail -n 1
  # same 3, held 0, not settled 0, differ 0
  $ ./lab test examples/two_cells.toml examples/one_call.txt -k toml 2>&1
  error: no script has toml in its path (-k)
  [2]
  $ ./lab test examples/two_cells.toml examples/one_call.txt -k 2>&1
  *'-k <TEXT>'* (glob)
  [2]
