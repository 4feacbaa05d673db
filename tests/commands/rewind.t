An attempt that was undone is taken out of a trace. In the first trace its release is acknowledged; in the second it
isn't yet; in the third call 2 is refused the channel that the attempt holds.

  $ cat >undone.trace <<'END'
  > in open 1 0 0 3
  > event open 1 0/0/3 -> done
  > out abis 0 0 0821010b0300060400010801
  > event confirm 0/0/3 -> owned 1
  > event look 1 -> record 0/0/3 on
  > event take 1 internal 1/1/3 -> done
  > event reserve 1 0 -> done
  > event activate 1 -> done
  > event undo 1 asked -> record 0/0/3 on internal sent 1/1/3 0
  > event released 1/1/3 -> done
  > end channels=1 calls=1 references=0 timers=0
  > END
  $ cat >awaited.trace <<'END'
  > event open 1 0/0/3 -> done
  > event confirm 0/0/3 -> owned 1
  > event take 1 internal 1/1/3 -> done
  > event reserve 1 0 -> done
  > event activate 1 -> done
  > event undo 1 asked -> record 0/0/3 on internal sent 1/1/3 0
  > END
  $ cat >held.trace <<'END'
  > event open 1 0/0/3 -> done
  > event confirm 0/0/3 -> owned 1
  > event take 1 internal 1/1/3 -> done
  > event open 2 1/1/3 -> refused 6 1/1/3
  > event undo 1 asked -> record 0/0/3 on internal taken 1/1/3 -
  > END
  $ ./lab rewind examples/two_cells.toml undone.trace 6
  others 3
  settled yes
  held -
  choices -
  same
  $ ./lab rewind examples/two_cells.toml awaited.trace 3
  others 2
  settled no
  held -
  choices -
  differs: state channel 1/1/3 off; without: no state channel 1/1/3
  [1]
  $ ./lab rewind examples/two_cells.toml held.trace 3
  others 3
  settled yes
  held 4
  choices -
  differs: line 4: refused 6 1/1/3; without: done
  [1]
  $ ./lab rewind examples/two_cells.toml undone.trace 1 2>errors
  no attempt
  [2]
  $ cat errors
  undone.trace: line 1 doesn't open an attempt that is undone later
  $ ./lab rewind examples/two_cells.toml undone.trace 2 2>errors
  no attempt
  [2]
  $ cat errors
  undone.trace: line 2 doesn't open an attempt that is undone later
  $ ./lab rewind examples/two_cells.toml undone.trace 100 2>errors
  no attempt
  [2]
  $ cat errors
  undone.trace: line 100 doesn't open an attempt that is undone later

Of a long trace, too: 5,000 events of others stand between the undo and the release.

  $ grep -v released undone.trace >long.trace
  $ for _ in $(seq 5000); do echo 'event look 9 -> refused 1'; done >>long.trace
  $ grep released undone.trace >>long.trace
  $ ./lab rewind examples/two_cells.toml long.trace 6
  others 5003
  settled yes
  held -
  choices -
  same

Nothing opens in a line that no trace has.

  $ printf 'end channels=0 calls=0 references=0 timers=0\n' >run.trace
  $ ./lab rewind examples/two_cells.toml run.trace 1 2>errors
  no attempt
  [2]
  $ cat errors
  run.trace: line 1 doesn't open an attempt that is undone later
  $ printf 'event look 1 -> done\nevent look 01 -> done' >run.trace
  $ ./lab rewind examples/two_cells.toml run.trace 1 2>errors
  line 2
  [2]
  $ cat errors
  run.trace:2: this isn't an event with its reply, as in: event look 1 -> refused 1
  $ printf 'event look 1\n' >run.trace
  $ ./lab rewind examples/two_cells.toml run.trace 1 2>/dev/null
  line 1
  [2]
  $ printf '\n1: event look 1 -> refused 1\n' >run.trace
  $ ./lab rewind examples/two_cells.toml run.trace 1 2>/dev/null
  line 2
  [2]
  $ printf '\n\n2: event look 1 -> refused 1\n' >run.trace
  $ ./lab rewind examples/two_cells.toml run.trace 1 2>errors
  line 3
  [2]
  $ cat errors
  run.trace:3: this is a trace of two controllers, but rewind reads the trace of one
  $ printf 'event look 1 -> done\n' >run.trace
  $ ./lab rewind examples/two_cells.toml run.trace 1 2>errors
  line 1
  [2]
  $ cat errors
  run.trace:1: the book of this site replies "refused 1" here, but the trace says "done"
  $ printf 'event look 1 -> refused 1\r\nevent look 1 -> refused 1 \r\n' >run.trace
  $ ./lab rewind examples/two_cells.toml run.trace 1 2>/dev/null
  line 2
  [2]
  $ printf 'event look 1 -> refused 1\r\n' >run.trace
  $ ./lab rewind examples/two_cells.toml run.trace 1 2>errors
  no attempt
  [2]
  $ cat errors
  run.trace: line 1 doesn't open an attempt that is undone later

Why nothing is taken out.

  $ printf 'event look 1\nevent look 1 -> done' >run.trace
  $ ./lab rewind examples/two_cells.toml run.trace 2 2>errors
  line 1
  [2]
  $ cat errors
  run.trace:1: this isn't an event with its reply, as in: event look 1 -> refused 1
  $ printf 'in clear 1\nevent look 1 -> refused 1\r\nevent look 1 -> done\nevent look 1 -> owned 1\nend channels=0 calls=0 references=0 timers=0\n' >run.trace
  $ ./lab rewind examples/two_cells.toml run.trace 2 2>errors
  line 3
  [2]
  $ cat errors
  run.trace:3: the book of this site replies "refused 1" here, but the trace says "done"
  $ printf 'event open 1 0/0/3 -> done\nevent confirm 0/0/3 -> owned 1\nevent look 1 -> record 0/0/4 on\n' >run.trace
  $ ./lab rewind examples/two_cells.toml run.trace 1 2>errors
  line 3
  [2]
  $ cat errors
  run.trace:3: the book of this site replies "record 0/0/3 on" here, but the trace says "record 0/0/4 on"
  $ printf 'event look 1 -> refused 1 \r\n' >run.trace
  $ ./lab rewind examples/two_cells.toml run.trace 1 2>errors
  line 1
  [2]
  $ cat errors
  run.trace:1: the book of this site replies "refused 1" here, but the trace says "refused 1 "
  $ printf 'event look 1 -> \n' >run.trace
  $ ./lab rewind examples/two_cells.toml run.trace 1 2>errors
  line 1
  [2]
  $ cat errors
  run.trace:1: the book of this site replies "refused 1" here, but the trace says ""
  $ printf 'event look 1 -> \033[31m -> \tdone\n' >run.trace
  $ ./lab rewind examples/two_cells.toml run.trace 1 2>errors
  line 1
  [2]
  $ cat errors
  run.trace:1: the book of this site replies "refused 1" here, but the trace says "\u{1b}[31m -> \tdone"
  $ printf 'event look 1 -> x123456789x123456789x123456789x123456789x123456789x123456789\n' >run.trace
  $ ./lab rewind examples/two_cells.toml run.trace 1 2>errors
  line 1
  [2]
  $ cat errors
  run.trace:1: the book of this site replies "refused 1" here, but the trace says "x123456789x123456789x123456789x123456789x123456789x123456789"
  $ printf 'event look 1 -> x123456789x123456789x123456789x123456789x123456789x123456789y\n' >run.trace
  $ ./lab rewind examples/two_cells.toml run.trace 1 2>errors
  line 1
  [2]
  $ cat errors
  run.trace:1: the book of this site replies "refused 1" here, but the trace says "x123456789x123456789x123456789x123456789x123456789x123456789"..
  $ printf 'event look 1 -> refused 1 # call 1; NoCall: there is no such call\n' >run.trace
  $ ./lab rewind examples/two_cells.toml run.trace 1 2>errors
  line 1
  [2]
  $ cat errors
  run.trace:1: words follow this event: the trace was printed with --words
  $ printf 'event look 1 -> refused 1\n' >run.trace
  $ ./lab rewind examples/two_cells.toml run.trace 1 2>errors
  no attempt
  [2]
  $ cat errors
  run.trace: line 1 doesn't open an attempt that is undone later

A control character in the trace's name is escaped.

  $ printf 'event look 1 -> refused 1\n' >"$(printf 'unwound\t.trace')"
  $ ./lab rewind examples/two_cells.toml "$(printf 'unwound\t.trace')" 1 2>errors
  no attempt
  [2]
  $ cat errors
  unwound\t.trace: line 1 doesn't open an attempt that is undone later

Attempts are taken out of traces that were printed. Call 1 is on, and an attempt to move it opens in line 9: the station
is asked to activate the target.


It is taken back, and the release acknowledged.

  $ cat >script.txt <<'END'
  > open 1 0 0 3
  > abis 0 0 0822010b081234
  > handover 1 1
  > undo 1
  > abis 1 1 0833010b
  > END
  $ ./lab run examples/two_cells.toml script.txt >run.trace
  $ ./lab rewind examples/two_cells.toml run.trace 9
  others 4
  settled yes
  held -
  choices -
  same

The station refuses the target, which another call has then: no release is awaited.

  $ cat >script.txt <<'END'
  > open 1 0 0 3
  > abis 0 0 0822010b081234
  > handover 1 1
  > abis 1 1 0823010b1a0120
  > open 2 1 1 3
  > END
  $ ./lab run examples/two_cells.toml script.txt >run.trace
  $ ./lab rewind examples/two_cells.toml run.trace 9
  others 5
  settled yes
  held -
  choices -
  same

The station confirms a target that was given up; the second acknowledgement of its release is no part of the attempt.

  $ cat >script.txt <<'END'
  > open 1 0 0 3
  > abis 0 0 0822010b081234
  > handover 1 1
  > undo 1
  > abis 1 1 0822010b081234
  > abis 1 1 0833010b
  > abis 1 1 0833010b
  > END
  $ ./lab run examples/two_cells.toml script.txt >run.trace
  $ ./lab rewind examples/two_cells.toml run.trace 9
  others 5
  settled yes
  held -
  choices -
  same

Call 2 is refused the target, in line 14, and would have got it.

  $ cat >script.txt <<'END'
  > open 1 0 0 3
  > abis 0 0 0822010b081234
  > handover 1 1
  > open 2 1 1 3
  > undo 1
  > abis 1 1 0833010b
  > END
  $ ./lab run examples/two_cells.toml script.txt >run.trace
  $ ./lab rewind examples/two_cells.toml run.trace 9
  others 5
  settled yes
  held 14
  choices -
  differs: line 14: refused 6 1/1/3; without: done
  [1]

The station's acknowledgement is still to come.

  $ cat >script.txt <<'END'
  > open 1 0 0 3
  > abis 0 0 0822010b081234
  > handover 1 1
  > undo 1
  > END
  $ ./lab run examples/two_cells.toml script.txt >run.trace
  $ ./lab rewind examples/two_cells.toml run.trace 9
  others 4
  settled no
  held -
  choices -
  differs: state channel 1/1/3 off; without: no state channel 1/1/3
  [1]

The call ends, and the attempt is undone with it.

  $ cat >script.txt <<'END'
  > open 1 0 0 3
  > abis 0 0 0822010b081234
  > handover 1 1
  > clear 1
  > abis 1 1 0833010b
  > abis 0 0 0833010b
  > END
  $ ./lab run examples/two_cells.toml script.txt >run.trace
  $ ./lab rewind examples/two_cells.toml run.trace 9
  others 6
  settled yes
  held -
  choices -
  same

It is never undone.

  $ cat >script.txt <<'END'
  > open 1 0 0 3
  > abis 0 0 0822010b081234
  > handover 1 1
  > clear 2
  > END
  $ ./lab run examples/two_cells.toml script.txt >run.trace
  script.txt:4: this line has no effect: there is no call 2
  $ ./lab rewind examples/two_cells.toml run.trace 9 2>errors
  no attempt
  [2]
  $ cat errors
  run.trace: line 9 doesn't open an attempt that is undone later

An attempt to move call 1 to another controller is taken back.

  $ cat >script.txt <<'END'
  > open 1 0 0 3
  > abis 0 0 0822010b081234
  > handover 1 64
  > undo 1
  > END
  $ ./lab run examples/two_cells.toml script.txt >run.trace
  $ ./lab rewind examples/two_cells.toml run.trace 9
  others 4
  settled yes
  held -
  choices -
  same

A call without an attempt has none in any line.

  $ cat >script.txt <<'END'
  > open 1 0 0 3
  > abis 0 0 0822010b081234
  > clear 1
  > abis 0 0 0833010b
  > END
  $ ./lab run examples/two_cells.toml script.txt >run.trace
  $ for line in $(seq 14); do ./lab rewind examples/two_cells.toml run.trace $line 2>/dev/null; done
  no attempt
  no attempt
  no attempt
  no attempt
  no attempt
  no attempt
  no attempt
  no attempt
  no attempt
  no attempt
  no attempt
  no attempt
  no attempt
  no attempt
  [2]
