With `--keep` a folder gets what came of each script that isn't met: trace, chart and capture, as `run` makes them. They are named
by the script's path.

  $ mkdir town
  $ printf 'open 1 0 0 3\n#> ..\n#= calls 2\n' >town/wrong.txt
  $ printf 'open 1 0 0 3\n#> ..\n#= calls 1\n' >town/right.txt
  $ printf 'frob\n' >town/odd.txt
  $ printf '#%% cells 2 full\nseize 1 0 full\n' >./says_nothing
  $ ./lab test examples/two_cells.toml town/wrong.txt town/right.txt town/odd.txt ./says_nothing town/gone.txt --keep kept/here 2>/dev/null | grep ok
  not ok 1 - town/wrong.txt
  ok 2 - town/right.txt
  not ok 3 - town/odd.txt
  not ok 4 - ./says_nothing
  not ok 5 - town/gone.txt
  $ ls kept/here
  says_nothing.pcap
  says_nothing.svg
  says_nothing.trace
  town-wrong.pcap
  town-wrong.svg
  town-wrong.trace
  $ ./lab run examples/two_cells.toml town/wrong.txt --pcap run.pcap --chart run.svg >run.trace
  $ for end in pcap svg trace; do cmp run.$end kept/here/town-wrong.$end; done
  $ ./lab run says_nothing | cmp - kept/here/says_nothing.trace

What was kept before is written over. What else is printed stays the same.

  $ echo old >kept/here/town-wrong.trace
  $ ./lab test examples/two_cells.toml town/wrong.txt --keep kept/here
  1..1
  not ok 1 - town/wrong.txt
  # line 3
  # expected: calls 2
  # came: calls 1
  [1]
  $ cmp run.trace kept/here/town-wrong.trace

Scripts whose paths give the same name have a number behind it, from the second on.

  $ cp town/wrong.txt town-wrong.txt
  $ ./lab test examples/two_cells.toml town/wrong.txt town/right.txt town-wrong.txt ./town/wrong.txt --keep kept/same 2>/dev/null | grep ok
  not ok 1 - town/wrong.txt
  ok 2 - town/right.txt
  not ok 3 - town-wrong.txt
  not ok 4 - ./town/wrong.txt
  $ ls kept/same
  town-wrong-2.pcap
  town-wrong-2.svg
  town-wrong-2.trace
  town-wrong-3.pcap
  town-wrong-3.svg
  town-wrong-3.trace
  town-wrong.pcap
  town-wrong.svg
  town-wrong.trace

A script that isn't met before a line whose name stands for nothing is kept, too.

  $ printf 'open 1 0 0 3\n#> event open 2 $channel -> done\n#> ..\nopen 2 $channel\n' >unmet.txt
  $ ./lab test examples/two_cells.toml unmet.txt --keep kept/unmet 2>/dev/null | grep ok
  not ok 1 - unmet.txt
  $ ls kept/unmet
  unmet.pcap
  unmet.svg
  unmet.trace

A folder that can't be made is refused, and no script is run. Where a file can't be written, its script is refused.

  $ ./lab test examples/two_cells.toml town/wrong.txt --keep town/right.txt 2>/dev/null
  file town/right.txt
  [2]
  $ cat town/right.txt
  open 1 0 0 3
  #> ..
  #= calls 1
  $ rm kept/here/town-wrong.trace
  $ mkdir kept/here/town-wrong.trace
  $ ./lab test examples/two_cells.toml town/wrong.txt town/right.txt --keep kept/here 2>errors | grep ok
  not ok 1 - town/wrong.txt
  ok 2 - town/right.txt
  $ grep -c '^kept/here/town-wrong.trace: ' errors
  1
  $ ./lab test examples/two_cells.toml town/wrong.txt --keep kept/here >/dev/null 2>&1
  [2]

With `--undo-everywhere` nothing is kept.

  $ ./lab test examples/two_cells.toml town/wrong.txt --keep kept --undo-everywhere
  error: *'--keep <FOLDER>'*'--undo-everywhere'* (glob)
  [2]
