`run --audit` says behind the trace's end what `audit` says of the trace, with the lines of what was printed.


An attempt is undone, and its release acknowledged.

  $ ./lab run examples/two_cells.toml examples/handover_undone.txt --audit >printed
  $ tail -5 printed
  end channels=1 calls=1 references=0 timers=0
  attempts 1
  held -
  choices -
  same
  $ head -18 printed | cmp - examples/handover_undone.trace

The mobile comes back; it arrives, so nothing was undone.

  $ ./lab run examples/two_cells.toml examples/handover_returns.txt --audit | tail -4
  attempts 1
  held -
  choices -
  same
  $ ./lab run examples/two_cells.toml examples/handover_arrives.txt --audit | tail -4
  attempts 0
  held -
  choices -
  same

Call 2 is refused the target of call 1, in line 14 of the trace. With states that is line 22.

  $ cat >held.txt <<'END'
  > open 1 0 0 3
  > abis 0 0 0822010b081234
  > handover 1 1
  > open 2 1 1 3
  > undo 1
  > abis 1 1 0833010b
  > END
  $ ./lab run examples/two_cells.toml held.txt --audit >printed
  [1]
  $ sed -n 14p printed
  event open 2 1/1/3 -> refused 6 1/1/3
  $ tail -4 printed
  attempts 1
  held 14
  choices -
  differs: line 14: refused 6 1/1/3; without: done
  $ ./lab run examples/two_cells.toml held.txt --audit --words >printed
  [1]
  $ tail -4 printed
  attempts 1
  held 14
  choices -
  differs: line 14: refused 6 1/1/3; without: done
  $ ./lab run examples/two_cells.toml held.txt --state --audit >printed
  [1]
  $ sed -n 22p printed
  event open 2 1/1/3 -> refused 6 1/1/3
  $ tail -4 printed
  attempts 1
  held 22
  choices -
  differs: line 22: refused 6 1/1/3; without: done
  $ ./lab run examples/two_cells.toml held.txt >printed
  $ ./lab audit examples/two_cells.toml printed
  attempts 1
  held 14
  choices -
  differs: line 14: refused 6 1/1/3; without: done
  [1]

A call for which no channel is free is no event, but a choice; the next one is an event.

  $ cat >full.txt <<'END'
  > open 1 0 0 3
  > abis 0 0 0822010b081234
  > open 3 0 0 2
  > abis 0 0 0822010a081234
  > handover 1 1
  > handover 3 1
  > open 2 1 1 3
  > undo 1
  > abis 1 1 0833010b
  > END
  $ ./lab run examples/two_cells.toml full.txt --audit >printed
  [1]
  $ sed -n '19,23p' printed
  in handover 3 1
  event look 3 -> record 0/0/2 on
  none free 1
  in open 2 1 1 3
  event open 2 1/1/3 -> refused 6 1/1/3
  $ tail -4 printed
  attempts 1
  held 23
  choices 21
  differs: line 23: refused 6 1/1/3; without: done

The release is awaited at the end, so the attempt stays.

  $ head -5 held.txt >awaited.txt
  $ ./lab run examples/two_cells.toml awaited.txt --audit | tail -4
  attempts 0
  held -
  choices -
  same

Two controllers: each has four lines. Of the first a handover to the second is taken back, of the second one that comes to
it, in whose way a call is.

  $ ./lab run examples/two_cells.toml examples/handover_between.txt --peer examples/one_cell.toml --audit | tail -10
  1: end channels=0 calls=0 references=0 timers=0
  2: end channels=1 calls=1 references=0 timers=0
  1: attempts 0
  1: held -
  1: choices -
  1: same
  2: attempts 0
  2: held -
  2: choices -
  2: same
  $ cat >both.txt <<'END'
  > open 1 0 0 3
  > abis 0 0 0822010b081234
  > handover 1 64
  > undo 1
  > 2: a 9 0019100b030108010a01011d330505010017006505050100170066
  > 2: open 2 0 0 1
  > 2: undo 9
  > 2: abis 0 0 08330109
  > END
  $ ./lab run examples/two_cells.toml both.txt --peer examples/one_cell.toml --audit >printed
  [1]
  $ sed -n '19,20p' printed
  2: in open 2 0 0 1
  2: event open 2 0/0/1 -> refused 6 0/0/1
  $ tail -8 printed
  1: attempts 1
  1: held -
  1: choices -
  1: same
  2: attempts 1
  2: held 20
  2: choices -
  2: differs: line 20: refused 6 0/0/1; without: done

Where nothing is run, nothing is taken out.

  $ printf 'open 1 0 0 3\nopen 1 0 0 8\n' >bad.txt
  $ ./lab run examples/two_cells.toml bad.txt --audit 2>errors
  line 2
  [2]
  $ cat errors
  bad.txt:2: TN is 0 to 7, with /0 or /1 at the end for half rate, found 8
  $ printf '' >empty.toml
  $ ./lab run empty.toml bad.txt --audit 2>/dev/null
  site 2 handover
  [2]
  $ ./lab run examples/two_cells.toml nothing.txt --audit 2>/dev/null
  file nothing.txt
  [2]

The files of views are written.

  $ ./lab run examples/two_cells.toml examples/handover_returns.txt --audit --chart run.svg | tail -1
  same
  $ cmp run.svg examples/handover_returns.svg
  $ ./lab run examples/two_cells.toml examples/handover_returns.txt --audit --chart nothing/run.svg 2>/dev/null
  file nothing/run.svg
  [2]
