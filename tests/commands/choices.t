Channels that would have been chosen otherwise, had an attempt not held its target: a choice is no event, so it isn't held,
and makes no difference.

None was free, because the attempt of call 1 had the channel; without it call 2 would have got that.

  $ cat >none.txt <<'END'
  > open 1 0 0 3
  > abis 0 0 0822010b081234
  > handover 1 1
  > seize 2 1 full
  > undo 1
  > abis 1 1 0833010b
  > END
  $ ./lab run examples/two_cells.toml none.txt >none.trace
  $ sed -n '9p;14p' none.trace
  event take 1 internal 1/1/3 -> done
  none free 1
  $ ./lab rewind examples/two_cells.toml none.trace 9
  others 4
  settled yes
  held -
  choices 14
  same
  $ ./lab audit examples/two_cells.toml none.trace
  attempts 1
  held -
  choices 14
  same
  $ ./lab run examples/two_cells.toml none.txt --audit | tail -n 4
  attempts 1
  held -
  choices 14
  same

So it is of a trace that was cut, or is still written, within what came of its last line; also within that line.

  $ { head -n 19 none.trace; echo 'in open 3 0 0 2'; } >cut.trace
  $ ./lab audit examples/two_cells.toml cut.trace --cut | grep choices
  choices 14
  $ { cat cut.trace; printf 'event open 3 0/0/2 -> done\nin clea'; } >within.trace
  $ ./lab rewind examples/two_cells.toml within.trace 9 --cut | grep choices
  choices 14

Of a trace that lacks a line `none free`, or has other events than come of its lines `in`, nothing else is known than which events
take a channel.

  $ sed 14d none.trace >lacks.trace
  $ ./lab audit examples/two_cells.toml lacks.trace | grep choices
  choices -

Another channel: the attempt of call 5 had 0/0/2, so call 6 got 0/0/3. Call 7 gets what it would have got: call 6 has its
channel in either case.

  $ cat >other.txt <<'END'
  > open 5 1 1 3
  > abis 1 1 0822010b081234
  > handover 5 0
  > seize 6 0 full
  > undo 5
  > abis 0 0 0833010a
  > seize 7 0 full
  > END
  $ ./lab run examples/two_cells.toml other.txt >other.trace
  $ grep -n 'event take\|event open' other.trace
  2:event open 5 1/1/3 -> done
  9:event take 5 internal 0/0/2 -> done
  14:event open 6 0/0/3 -> done
  22:event open 7 0/0/2 -> done
  $ ./lab audit examples/two_cells.toml other.trace
  attempts 1
  held -
  choices 14
  same

At each rate: without the attempt of call 1, which has a half, the whole timeslot is free for call 2, and call 3 gets the
other half.

  $ cat >halves.txt <<'END'
  > seize 1 0 half
  > abis 0 0 08220113081234
  > handover 1 1
  > seize 2 1 full
  > seize 3 1 half
  > undo 1
  > abis 1 1 08330113
  > END
  $ ./lab run examples/half_rate.toml halves.txt >halves.trace
  $ grep -n 'none free\|event take\|event open' halves.trace
  2:event open 1 0/0/3/0 -> done
  9:event take 1 internal 1/1/3/0 -> done
  14:none free 1
  16:event open 3 1/1/3/1 -> done
  $ ./lab rewind examples/half_rate.toml halves.trace 9 | grep choices
  choices 14 16

Call 5 has the other half, so there is no whole timeslot either way; but call 2 would have got the half.

  $ cat >half.txt <<'END'
  > seize 1 0 half
  > abis 0 0 08220113081234
  > open 5 1 1 3/1
  > handover 1 1
  > seize 2 1 half
  > undo 1
  > abis 1 1 08330113
  > END
  $ ./lab run examples/half_rate.toml half.txt >half.trace
  $ grep -n 'none free\|event take' half.trace
  12:event take 1 internal 1/1/3/0 -> done
  17:none free 1
  $ ./lab rewind examples/half_rate.toml half.trace 12 | grep choices
  choices 17

Of two controllers each has its own: the attempt of call 9 has the one channel of the second one's cell, that of call 1 cell 1's
of the first one.

  $ cat >two.txt <<'END'
  > open 1 0 0 3
  > abis 0 0 0822010b081234
  > handover 1 1
  > 2: a 9 0019100b030108010a01011d330505010017006505050100170066
  > 2: seize 2 0 full
  > 2: undo 9
  > 2: abis 0 0 08330109
  > seize 2 1 full
  > undo 1
  > abis 1 1 0833010b
  > END
  $ ./lab run examples/two_cells.toml two.txt --peer examples/one_cell.toml >two.trace
  $ grep -n 'none free\|event take' two.trace
  9:1: event take 1 internal 1/1/3 -> done
  15:2: event take 9 incoming 0/0/1 -> done
  20:2: none free 0
  28:1: none free 1
  $ ./lab run examples/two_cells.toml two.txt --peer examples/one_cell.toml --audit | grep choices
  1: choices 28
  2: choices 20
  $ ./lab rewind examples/two_cells.toml two.trace --all --peer examples/one_cell.toml | sed 's/ others.*held - / .. /'
  1: line 9 call 1 internal sent .. choices 28 same
  2: line 15 call 9 incoming sent .. choices 20 same
