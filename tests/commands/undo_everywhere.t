`test --undo-everywhere` takes each attempt back behind each input behind which it is open, in a run of its own, and takes it
out of what came of that.


The examples. Behind input 3 the attempt of call 1 was opened; where the mobile arrives it was seen behind input 5, and
came with input 6.

  $ ./lab test examples/two_cells.toml examples/one_call.txt examples/handover_undone.txt examples/handover_arrives.txt examples/handover_returns.txt examples/handover_reported.txt examples/station_stutters.txt --undo-everywhere
  ok 1 - examples/handover_undone.txt: undo 1 after input 3: same
  ok 2 - examples/handover_arrives.txt: undo 1 after input 3: same
  ok 3 - examples/handover_arrives.txt: undo 1 after input 4: same
  ok 4 - examples/handover_arrives.txt: undo 1 after input 5: same
  ok 5 - examples/handover_returns.txt: undo 1 after input 3: same
  ok 6 - examples/handover_returns.txt: undo 1 after input 4: same
  ok 7 - examples/handover_reported.txt: undo 1 after input 4: same
  ok 8 - examples/handover_reported.txt: undo 1 after input 5: same
  ok 9 - examples/handover_reported.txt: undo 1 after input 6: same
  1..9
  # same 9, held 0, not settled 0, differ 0

Two controllers: call 1 of the first is to leave, from input 3 on, and comes to the second as call 40000 with input 4.

  $ ./lab test examples/two_cells.toml examples/handover_between.txt --peer examples/one_cell.toml --undo-everywhere
  ok 1 - examples/handover_between.txt: undo 1 after input 3: same
  ok 2 - examples/handover_between.txt: undo 1 after input 4: same
  ok 3 - examples/handover_between.txt: 2: undo 40000 after input 4: same
  ok 4 - examples/handover_between.txt: undo 1 after input 5: same
  ok 5 - examples/handover_between.txt: 2: undo 40000 after input 5: same
  ok 6 - examples/handover_between.txt: undo 1 after input 6: same
  ok 7 - examples/handover_between.txt: 2: undo 40000 after input 6: same
  ok 8 - examples/handover_between.txt: undo 1 after input 7: same
  ok 9 - examples/handover_between.txt: 2: undo 40000 after input 7: same
  ok 10 - examples/handover_between.txt: undo 1 after input 8: same
  1..10
  # same 10, held 0, not settled 0, differ 0

What two stations of Osmocom sent: they acknowledge the release of the target.

  $ ./lab test bridge/demo.toml examples/real_stations.txt --undo-everywhere
  ok 1 - examples/real_stations.txt: undo 1 after input 4: same
  ok 2 - examples/real_stations.txt: undo 1 after input 5: same
  1..2
  # same 2, held 0, not settled 0, differ 0

Call 2 is refused the target, which it would have got: behind input 3 while its release is awaited, behind input 4 while
the attempt has it. And a script at whose end nobody has acknowledged the release.

  $ cat >held.txt <<'END'
  > open 1 0 0 3
  > abis 0 0 0822010b081234
  > handover 1 1
  > open 2 1 1 3
  > undo 1
  > abis 1 1 0833010b
  > END
  $ head -3 held.txt >awaited.txt
  $ head -4 held.txt >both.txt
  $ ./lab test examples/two_cells.toml held.txt awaited.txt both.txt --undo-everywhere
  ok 1 - held.txt: undo 1 after input 3: held open 2 1/1/3 -> refused 6 1/1/3, the reply to open 2 1/1/3 differs
  ok 2 - held.txt: undo 1 after input 4: held open 2 1/1/3 -> refused 6 1/1/3, the reply to open 2 1/1/3 differs
  ok 3 - awaited.txt: undo 1 after input 3: not settled, the book differs
  ok 4 - both.txt: undo 1 after input 3: not settled, held open 2 1/1/3 -> refused 6 1/1/3, the reply to open 2 1/1/3 differs
  ok 5 - both.txt: undo 1 after input 4: not settled, held open 2 1/1/3 -> refused 6 1/1/3, the reply to open 2 1/1/3 differs
  1..5
  # same 0, held 2, not settled 3, differ 0

Comments of what is expected are passed over, and a script that can't be read is refused; those behind it are run.

  $ printf 'open 1 0 0 8\n' >bad.txt
  $ printf '#> nothing\nopen 1 0 0 3\n#> nothing\n' >expects.txt
  $ ./lab test examples/two_cells.toml expects.txt bad.txt nothing.txt examples/handover_undone.txt --undo-everywhere 2>errors
  not ok 1 - bad.txt
  # line 1 can't be read
  not ok 2 - nothing.txt
  # the file can't be read
  ok 3 - examples/handover_undone.txt: undo 1 after input 3: same
  1..3
  # same 1, held 0, not settled 0, differ 0
  [2]
  $ cat errors
  bad.txt:1: TN is 0 to 7, with /0 or /1 at the end for half rate, found 8
  nothing.txt: no such file
  $ printf '' >empty.toml
  $ ./lab test empty.toml held.txt --undo-everywhere 2>/dev/null
  site 2 handover
  [2]

Nobody comes between the reports that one line gives at once: behind the second the attempt is open, and taken back behind the
third.

  $ printf 'sim\nopen 1 0 0 3\nreport 1 full=30 n=1:40 times=3\n' >reports.txt
  $ ./lab run examples/two_cells.toml reports.txt | grep -c '^in'
  9
  $ ./lab test examples/two_cells.toml reports.txt --undo-everywhere
  ok 1 - reports.txt: undo 1 after input 5: same
  ok 2 - reports.txt: undo 1 after input 6: same
  ok 3 - reports.txt: undo 1 after input 7: same
  1..3
  # same 3, held 0, not settled 0, differ 0

All scripts of the tests: none differs. Where no release is acknowledged by a script without simulators the attempt isn't
settled.

  $ ./lab test tests/two_cells/site.toml $(find tests/two_cells -name '*.txt' | sort) --undo-everywhere | tail -2
  1..304
  # same 156, held 0, not settled 148, differ 0
  $ ./lab test tests/two_controllers/site.toml $(find tests/two_controllers -name '*.txt' | sort) --peer tests/two_controllers/peer.toml --undo-everywhere | tail -2
  1..95
  # same 95, held 0, not settled 0, differ 0
  $ ./lab test tests/two_controllers_both_ways/site.toml $(find tests/two_controllers_both_ways -name '*.txt' | sort) --peer tests/two_controllers_both_ways/peer.toml --undo-everywhere | tail -2
  1..127
  # same 127, held 0, not settled 0, differ 0
  $ ./lab test tests/one_cell/site.toml $(find tests/one_cell -name '*.txt' | sort) --undo-everywhere | tail -2
  1..3
  # same 0, held 0, not settled 3, differ 0
  $ ./lab test tests/one_identity/site.toml $(find tests/one_identity -name '*.txt' | sort) --undo-everywhere | tail -2
  1..7
  # same 0, held 0, not settled 7, differ 0
  $ ./lab test tests/two_neighbours/site.toml $(find tests/two_neighbours -name '*.txt' | sort) --undo-everywhere | tail -2
  1..3
  # same 0, held 0, not settled 3, differ 0
  $ ./lab test tests/book/site.toml tests/book/handover_undone.txt tests/book/none_free.txt --undo-everywhere | tail -2
  1..1
  # same 1, held 0, not settled 0, differ 0

Of the 88 handovers in the two hundred lines 53 come to their end: they are open behind three inputs each (`handover`, the
acknowledgement, the detection). 7 are refused by the station, and open behind one; 7 mobiles return and 7 vanish, which
are two each; the acknowledgement of 14 is held, which is one each.

  $ ./lab test tests/four_cells/site.toml tests/four_cells/calls/two_hundred_lines.txt --undo-everywhere | tail -2
  1..208
  # same 208, held 0, not settled 0, differ 0
  $ ./lab test tests/four_cells/site.toml $(find tests/four_cells/reports -name '*.txt' | sort) --undo-everywhere | tail -2
  1..1
  # same 0, held 0, not settled 1, differ 0
