Inputs for a cell, a TRX or a channel that the site lacks, or for a call that isn't there: nothing comes of them in any state of
the book. If all that is expected is that something doesn't come, the script isn't met.

  $ cat >absent.txt <<'END'
  > open 1 0 0 3
  > abis 7 0 0822010b080000
  > #! out
  > abis 1 2 CHANNEL ACTIVATION ACK tn=3 frame=0
  > #! out
  > abis 0 0 0822010d080000
  > #! out
  > open 2 0 0 5
  > #! out
  > seize 2 7 full
  > #! out
  > handover 1 77
  > #! out
  > handover 11 1
  > #! out
  > expire 11 T3103
  > #! out
  > undo 11
  > #! out
  > clear 11
  > #! out
  > a 11 HANDOVER REQUIRED REJECT cause=33
  > #! out
  > a 11 CLEAR COMPLETE
  > #! out
  > abis 7 0 0811010b
  > #! out
  > seize 12 0 half
  > #! out
  > END
  $ ./lab test examples/two_cells.toml absent.txt 2>&1 >/dev/null
  absent.txt:2: this line has no effect: the site has no cell 7
  absent.txt:4: this line has no effect: the site has no TRX 2 in cell 1
  absent.txt:6: this line has no effect: the site has no channel 0/0/5
  absent.txt:8: this line has no effect: the site has no channel 0/0/5
  absent.txt:10: this line has no effect: the site has no cell 7
  absent.txt:12: this line has no effect: the site has no cell 77
  absent.txt:14: this line has no effect: there is no call 11
  absent.txt:16: this line has no effect: there is no call 11
  absent.txt:18: this line has no effect: there is no call 11
  absent.txt:20: this line has no effect: there is no call 11
  absent.txt:22: this line has no effect: there is no call 11
  absent.txt:24: this line has no effect: there is no call 11
  absent.txt:26: this line has no effect: the site has no cell 7
  absent.txt:28: this line has no effect: the site has no half-rate channel in cell 0
  [1]
  $ ./lab test examples/two_cells.toml absent.txt 2>/dev/null
  1..1
  not ok 1 - absent.txt
  # line 2 has no effect
  # line 4 has no effect
  # line 6 has no effect
  # line 8 has no effect
  # line 10 has no effect
  # line 12 has no effect
  # line 14 has no effect
  # line 16 has no effect
  # line 18 has no effect
  # line 20 has no effect
  # line 22 has no effect
  # line 24 has no effect
  # line 26 has no effect
  # line 28 has no effect
  [1]

run and record say the same.

  $ ./lab test examples/two_cells.toml absent.txt 2>said >/dev/null
  [1]
  $ ./lab run examples/two_cells.toml absent.txt 2>&1 >/dev/null | cmp - said
  $ ./lab record examples/two_cells.toml absent.txt 2>&1 >/dev/null | cmp - said

`#- idle` says that it is meant, in any place behind the line. Then nothing is said.

  $ sed 's/^#! out$/#! out\n# not yet\n#- idle/' absent.txt >meant.txt
  $ ./lab test examples/two_cells.toml meant.txt
  1..1
  ok 1 - meant.txt
  $ ./lab run examples/two_cells.toml meant.txt 2>&1 >/dev/null

So does a line that is expected. Any lines, and what the books hold, don't say it. With the latter the script is met.

  $ printf 'undo 11\n#> event undo 11 asked -> refused 1\n' >known.txt
  $ printf 'undo 11\n#> ..\n#! out\n' >any.txt
  $ printf 'undo 11\n#! out\n#= calls 0\n' >held.txt
  $ ./lab test examples/two_cells.toml known.txt any.txt held.txt 2>&1
  1..3
  ok 1 - known.txt
  any.txt:1: this line has no effect: there is no call 11
  not ok 2 - any.txt
  # line 1 has no effect
  held.txt:1: this line has no effect: there is no call 11
  ok 3 - held.txt
  [1]

CLEAR COMMAND and HANDOVER REQUEST are answered where there is no such call. Octets that are no message have their fault.

  $ cat >answered.txt <<'END'
  > a 11 CLEAR COMMAND cause=9
  > #! event clear
  > a 12 HANDOVER REQUEST channel=0108 encryption=01 classmark=33 serving=23/102 target=23/102
  > #! event take
  > a 13 0000
  > #! out
  > END
  $ ./lab test examples/two_cells.toml answered.txt
  1..1
  ok 1 - answered.txt

What this state of the book alone doesn't expect isn't told: another one may.

  $ printf 'open 1 0 0 3\nundo 1\n#! out\nabis 0 0 0833010b\n#! out\n' >later.txt
  $ ./lab test examples/two_cells.toml later.txt
  1..1
  ok 1 - later.txt

The second controller has a site and calls of its own.

  $ cat >two.txt <<'END'
  > open 1 0 0 3
  > 2: undo 1
  > #! out
  > 2: abis 1 0 0822010b080000
  > #! out
  > 2: handover 1 64
  > #! out
  > END
  $ ./lab test examples/two_cells.toml two.txt --peer examples/one_cell.toml 2>&1 | grep -v ok
  two.txt:2: this line has no effect: there is no call 1
  two.txt:4: this line has no effect: the second controller's site has no cell 1
  two.txt:6: this line has no effect: the second controller's site has no cell 64
  1..1
  # line 2 has no effect
  # line 4 has no effect
  # line 6 has no effect

Stations restart that the site lacks. That of a cell or a TRX without a call may be meant.

  $ printf 'sim\nrestart 7\nrestart 1 2\n2: restart 1\nrestart 1\nrestart 1 0\nopen 1 0 0 3\n#> ..\n' >restarts.txt
  $ ./lab test examples/two_cells.toml restarts.txt --peer examples/one_cell.toml 2>&1 | grep -v ok
  restarts.txt:2: the site has no cell 7
  restarts.txt:3: the site has no TRX 2 in cell 1
  restarts.txt:4: the second controller's site has no cell 1
  1..1
  # line 2 has no effect
  # line 3 has no effect
  # line 4 has no effect

A setting that comes to nothing may be meant, too.

  $ printf 'sim\nrefuse 0 0 3\n#- idle\nopen 1 0 0 2\n#> ..\n' >setting.txt
  $ ./lab test examples/two_cells.toml setting.txt
  1..1
  ok 1 - setting.txt
  $ sed '/idle/d' setting.txt >unmeant.txt
  $ ./lab test examples/two_cells.toml unmeant.txt 2>/dev/null | tail -n 1
  # line 2 has no effect

`#- idle` behind a line that has an effect: it sends a message, its octets have a fault, it changes the book, or without a
setting something else comes.

  $ cat >effects.txt <<'END'
  > open 1 0 0 3
  > #- idle
  > abis 0 0 0822010b080000
  > #- idle
  > open 2 0 0 3
  > #- idle
  > abis 0 0 08
  > #- idle
  > #= calls 1
  > END
  $ ./lab test examples/two_cells.toml effects.txt 2>&1
  effects.txt:1: this line has an effect, but "#- idle" says that it has none
  effects.txt:3: this line has an effect, but "#- idle" says that it has none
  effects.txt:7: this line has an effect, but "#- idle" says that it has none
  1..1
  not ok 1 - effects.txt
  # line 1
  # expected: no effect
  # came: an effect
  # line 3
  # expected: no effect
  # came: an effect
  # line 7
  # expected: no effect
  # came: an effect
  [1]
  $ printf 'sim\nrefuse 0 0 3\n#- idle\nopen 1 0 0 3\n#> ..\n' >refused.txt
  $ ./lab test examples/two_cells.toml refused.txt 2>/dev/null
  1..1
  not ok 1 - refused.txt
  # line 2
  # expected: no effect
  # came: an effect
  [1]

A script that opened a call itself under a number for which the switching centre asks then: the call doesn't come there.

  $ cat >taken.txt <<'END'
  > sim
  > 2: open 40000 0 0 1
  > open 1 0 0 3
  > handover 1 64
  > #! out a 40000
  > END
  $ ./lab test examples/two_cells.toml taken.txt --peer examples/one_cell.toml 2>&1
  taken.txt:2: opens call 40000, for which the switching centre asks in line 4
  1..1
  ok 1 - taken.txt

Not one that has ended before, nor one of the other controller, nor another number.

  $ printf 'sim\n2: open 40000 0 0 1\n2: clear 40000\nopen 1 0 0 3\nhandover 1 64\n#> ..\n' >ended.txt
  $ printf 'sim\nopen 40000 0 0 2\n2: open 40001 0 0 1\nopen 1 0 0 3\nhandover 1 64\n#> ..\n' >other.txt
  $ ./lab test examples/two_cells.toml ended.txt other.txt --peer examples/one_cell.toml
  1..2
  ok 1 - ended.txt
  ok 2 - other.txt
