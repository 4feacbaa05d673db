What was decided by each report of a call that has no attempt at handover. All sums are added up by hand.

The site looks at two reports together (window 2); a neighbour has to have 3 more than the serving cell (margin), and 10
(minimum), on average. Cell 0 has the carriers 62, 70 and 871 in its list, at the positions 0, 1 and 2; no cell has 70. Cell 64
has carrier 62 and the colour codes 3 and 0, which is the code 24; cell 1 has 871, 2 and 5, which is 21. A report names them so:

  $ result() { ./lab encode abis "MEASUREMENT RESULT tn=3 number=0 uplink=001e00 power=0 layer3=$(./lab encode rr "MEASUREMENT REPORT ba=0 ba3g=0 si23=0 qfull=0 qsub=0 $1")"; }
  $ report() { full=$1; shift; named=; for n; do named="$named n=$n"; done; echo "abis 0 0 $(result "dtx=0 valid=1 full=$full sub=0 count=$#$named")"; }
  $ on() { printf 'open 1 0 0 3\nabis 0 0 0822010b081234\n'; }
  $ decisions() { ./lab run site.toml script.txt --decisions "$@" | grep decision; }
  $ cp examples/two_cells.toml site.toml

A call moves by its second report. What was decided stands behind what was asked and sent.

  $ (on; report 30 40/2/21; report 30 40/2/21) >script.txt
  $ ./lab run site.toml script.txt --decisions | tail -n +7
  in abis 0 0 0828010b1b001903001e0004000b001206151e00006812a000000000000000000000
  event owner 0/0/3 -> owned 1
  event look 1 -> record 0/0/3 on
  decision call 1 window 1 of 2: serving 30, margin asks 33, minimum asks 10
  decision call 1 neighbour 2/21 level 40: cell 1, sum 40
  decision call 1 no candidate: the window isn't full
  in abis 0 0 0828010b1b001903001e0004000b001206151e00006812a000000000000000000000
  event owner 0/0/3 -> owned 1
  event look 1 -> record 0/0/3 on
  event take 1 internal 1/1/3 -> done
  event reserve 1 0 -> done
  event activate 1 -> done
  out abis 1 1 0821010b03020604000108010900
  decision call 1 window 2 of 2: serving 60, margin asks 66, minimum asks 20
  decision call 1 neighbour 2/21 level 40: cell 1, sum 80
  decision call 1 candidate 1: tried, a channel is taken
  end channels=2 calls=1 references=1 timers=0

The other lines are those of a run without decisions. A trace with them is read as one without.

  $ ./lab run examples/two_cells.toml examples/handover_reported.txt --decisions >printed
  $ grep -v decision printed | cmp - examples/handover_reported.trace
  $ ./lab run examples/two_cells.toml examples/handover_reported.txt | cmp - examples/handover_reported.trace
  $ grep decision printed
  decision call 1 window 1 of 2: serving 30, margin asks 33, minimum asks 10
  decision call 1 neighbour 2/21 level 40: cell 1, sum 40
  decision call 1 no candidate: the window isn't full
  decision call 1 window 2 of 2: serving 60, margin asks 66, minimum asks 20
  decision call 1 neighbour 2/21 level 40: cell 1, sum 80
  decision call 1 candidate 1: tried, a channel is taken
  $ ./lab live examples/two_cells.toml --decisions <examples/handover_reported.txt | cmp - printed
  $ ./lab summary printed >counted
  $ ./lab summary examples/handover_reported.trace | cmp - counted
  $ (on; report 30 40/2/21; report 30 40/2/21; echo undo 1; echo abis 1 1 0833010b) >script.txt
  $ ./lab run site.toml script.txt --decisions >printed
  $ ./lab rewind site.toml printed "$(grep -n 'event take' printed | cut -d: -f1)" | tail -n 1
  same
  $ ./lab audit site.toml printed | tail -n 1
  same

What a neighbour may be, and why it is none.

  $ (on; report 30 40/2/21 39/0/24 50/1/17 51/2/20 52/3/21 10/2/21) >script.txt
  $ decisions
  decision call 1 window 1 of 2: serving 30, margin asks 33, minimum asks 10
  decision call 1 neighbour 2/21 level 40: cell 1, sum 40
  decision call 1 neighbour 0/24 level 39: cell 64, sum 39
  decision call 1 neighbour 1/17 level 50: none: no cell has carrier 70
  decision call 1 neighbour 2/20 level 51: none: no cell with carrier 871 has this code
  decision call 1 neighbour 3/21 level 52: none: ba has no carrier at this position
  decision call 1 neighbour 2/21 level 10: named twice, the first counts
  decision call 1 no candidate: the window isn't full
  $ sed -z 's/\[62, 70, 871\]/[60, 0, 871]/' examples/two_cells.toml >site.toml
  $ (on; report 30 40/0/9 40/0/10 40/2/0 40/1/21) >script.txt
  $ decisions
  decision call 1 window 1 of 2: serving 30, margin asks 33, minimum asks 10
  decision call 1 neighbour 0/9 level 40: none: the serving cell itself
  decision call 1 neighbour 0/10 level 40: none: no cell with carrier 60 has this code
  decision call 1 neighbour 2/0 level 40: none: no cell has carrier 0
  decision call 1 neighbour 1/21 level 40: cell 1, sum 40
  decision call 1 no candidate: the window isn't full
  $ cp examples/two_cells.toml site.toml

A report names a neighbour as check does.

  $ for named in $(./lab check site.toml | sed -n 's/^cell 0 .*neighbours //p'); do
  >   (on; report 30 "9/${named#*:}") >script.txt
  >   decisions | grep -c ": cell ${named%:*}, sum 9"
  > done
  1
  1

What margin and minimum ask: at least so much. With three reports the oldest counts no more.

  $ (on; report 60 63/2/21; report 31 33/2/21; report 30 33/2/21) >script.txt
  $ decisions | tail -n 6
  decision call 1 window 2 of 2: serving 91, margin asks 97, minimum asks 20
  decision call 1 neighbour 2/21 level 33: cell 1, sum 96, margin asks more
  decision call 1 no candidate: no neighbour has what margin and minimum ask
  decision call 1 window 2 of 2: serving 61, margin asks 67, minimum asks 20
  decision call 1 neighbour 2/21 level 33: cell 1, sum 66, margin asks more
  decision call 1 no candidate: no neighbour has what margin and minimum ask
  $ (on; report 30 33/2/21; report 30 33/2/21) >script.txt
  $ decisions | tail -n 3
  decision call 1 window 2 of 2: serving 60, margin asks 66, minimum asks 20
  decision call 1 neighbour 2/21 level 33: cell 1, sum 66
  decision call 1 candidate 1: tried, a channel is taken
  $ (on; report 0 10/2/21 9/0/24; report 1 9/2/21 11/0/24) >script.txt
  $ decisions | tail -n 4
  decision call 1 window 2 of 2: serving 1, margin asks 7, minimum asks 20
  decision call 1 neighbour 2/21 level 9: cell 1, sum 19, minimum asks more
  decision call 1 neighbour 0/24 level 11: cell 64, sum 20
  decision call 1 candidate 64: tried, the centre is asked
  $ (on; report 20 3/2/21; report 20 3/2/21) >script.txt
  $ decisions | tail -n 2
  decision call 1 neighbour 2/21 level 3: cell 1, sum 6, margin and minimum ask more
  decision call 1 no candidate: no neighbour has what margin and minimum ask

A cell that the last report doesn't name counts by those before it. Without any neighbour there is none.

  $ (on; report 10 40/0/24; report 10 20/2/21) >script.txt
  $ decisions | tail -n 4
  decision call 1 window 2 of 2: serving 20, margin asks 26, minimum asks 20
  decision call 1 neighbour 2/21 level 20: cell 1, sum 20, margin asks more
  decision call 1 neighbour 0/24 no level: cell 64, sum 40
  decision call 1 candidate 64: tried, the centre is asked
  $ (on; report 10; report 10) >script.txt
  $ decisions | tail -n 2
  decision call 1 window 2 of 2: serving 20, margin asks 26, minimum asks 20
  decision call 1 no candidate: no neighbour has what margin and minimum ask

Where no level is asked for, a cell that no report names is a candidate, too.

  $ sed 's/^margin = 3 /margin = 0 /; s/^minimum = 10 /minimum = 0 /' examples/two_cells.toml >site.toml
  $ (on; report 1; report 0; report 0) >script.txt
  $ decisions | tail -n 7
  decision call 1 window 2 of 2: serving 1, margin asks 1, minimum asks 0
  decision call 1 no candidate: no neighbour has what margin and minimum ask
  decision call 1 window 2 of 2: serving 0, margin asks 0, minimum asks 0
  decision call 1 neighbour 2/21 no level: cell 1, sum 0
  decision call 1 neighbour 0/24 no level: cell 64, sum 0
  decision call 1 candidate 1: tried, a channel is taken
  decision call 1 candidate 64: not tried
  $ cp examples/two_cells.toml site.toml

Candidates are tried by their sums, the largest first. Cell 1 has one channel, which call 2 has; then cell 64 is tried. Where
cell 1's channel is free, cell 64 isn't.

  $ (on; report 10 40/2/21 39/0/24; echo open 2 1 1 3; report 10 40/2/21 39/0/24) >script.txt
  $ decisions | tail -n 2
  decision call 1 candidate 1: tried, no channel is free at full rate
  decision call 1 candidate 64: tried, the centre is asked
  $ (on; report 10 40/2/21 39/0/24; report 10 40/2/21 39/0/24) >script.txt
  $ decisions | tail -n 2
  decision call 1 candidate 1: tried, a channel is taken
  decision call 1 candidate 64: not tried
  $ (on; report 10 40/2/21; echo open 2 1 1 3; report 10 40/2/21) >script.txt
  $ decisions | tail -n 1
  decision call 1 candidate 1: tried, no channel is free at full rate

A call keeps its rate: cell 1 has a half that is free, but no whole timeslot; then a whole one, but no half.

  $ sed 's/tch = \[3\]/tch = [3], half = [3]/' examples/two_cells.toml >site.toml
  $ (on; report 10 40/2/21; echo open 2 1 1 3/0; report 10 40/2/21) >script.txt
  $ decisions | tail -n 1
  decision call 1 candidate 1: tried, no channel is free at full rate
  $ sed 's/tch = \[2, 3\]/tch = [2, 3], half = [3]/' examples/two_cells.toml >site.toml
  $ (echo open 1 0 0 3/0; echo abis 0 0 08220113081234; report 10 40/2/21; report 10 40/2/21) | sed s/0828010b/08280113/ >script.txt
  $ decisions | tail -n 1
  decision call 1 candidate 1: tried, no channel is free at half rate
  $ cp examples/two_cells.toml site.toml

An invalid report doesn't count. Where transmission was discontinuous, the level over a subset of frames does.

  $ (on; report 30 40/2/21; echo "abis 0 0 $(result 'dtx=0 valid=0 full=1 sub=1 count=1 n=63/2/21')"; echo "abis 0 0 $(result 'dtx=1 valid=1 full=1 sub=40 count=1 n=41/2/21')") >script.txt
  $ decisions | tail -n 4
  decision call 1 window 1 of 2: the report isn't valid, and doesn't count
  decision call 1 window 2 of 2: serving 70, margin asks 76, minimum asks 20
  decision call 1 neighbour 2/21 level 41: cell 1, sum 81
  decision call 1 candidate 1: tried, a channel is taken

Nothing is said of a report that counts for no call, nor while an attempt is open. Behind an undo a call begins anew.

  $ (report 30 40/2/21; on; report 30 40/2/21; report 30 40/2/21; report 30 40/2/21; echo undo 1; report 30 40/2/21) >script.txt
  $ decisions | grep ' of 2'
  decision call 1 window 1 of 2: serving 30, margin asks 33, minimum asks 10
  decision call 1 window 2 of 2: serving 60, margin asks 66, minimum asks 20
  decision call 1 window 1 of 2: serving 30, margin asks 33, minimum asks 10
  $ (on; report 30 40/2/21; echo clear 1; echo abis 0 0 0833010b; on; report 30 40/2/21) >script.txt
  $ decisions | grep ' of 2'
  decision call 1 window 1 of 2: serving 30, margin asks 33, minimum asks 10
  decision call 1 window 1 of 2: serving 30, margin asks 33, minimum asks 10

Calls report apart from each other, and so do two controllers. With --call there are those of one call alone.

  $ (on; printf 'open 2 0 0 2\nabis 0 0 0822010a081234\n'; report 30 40/2/21; report 20 | sed s/0828010b/0828010a/; report 30 40/2/21) >script.txt
  $ decisions | grep ' of 2'
  decision call 1 window 1 of 2: serving 30, margin asks 33, minimum asks 10
  decision call 2 window 1 of 2: serving 20, margin asks 23, minimum asks 10
  decision call 1 window 2 of 2: serving 60, margin asks 66, minimum asks 20
  $ decisions --call 2
  decision call 2 window 1 of 2: serving 20, margin asks 23, minimum asks 10
  decision call 2 no candidate: the window isn't full
  $ decisions --state --words | grep -c decision
  8
  $ (on; on | sed 's/^/2: /'; report 30 40/2/21; report 20 40/2/21 | sed 's/^/2: /'; report 20 40/2/21 | sed 's/^/2: /') >script.txt
  $ decisions --peer site.toml
  1: decision call 1 window 1 of 2: serving 30, margin asks 33, minimum asks 10
  1: decision call 1 neighbour 2/21 level 40: cell 1, sum 40
  1: decision call 1 no candidate: the window isn't full
  2: decision call 1 window 1 of 2: serving 20, margin asks 23, minimum asks 10
  2: decision call 1 neighbour 2/21 level 40: cell 1, sum 40
  2: decision call 1 no candidate: the window isn't full
  2: decision call 1 window 2 of 2: serving 40, margin asks 46, minimum asks 20
  2: decision call 1 neighbour 2/21 level 40: cell 1, sum 80
  2: decision call 1 candidate 1: tried, a channel is taken

In all scripts here with reports just those cells are told as tried of which the book was asked for a channel, or for leave.

  $ cat >agree.awk <<'LAST'
  > function ended() { if (report) { all += tried; if (tried != told) print "differs: " input } }
  > /^([12]: )?in / { ended(); input = $0; report = /abis [0-9]+ [0-9]+ 0828/; tried = told = 0 }
  > /^([12]: )?(none free|event (take|require) )/ { tried++ }
  > /decision call [0-9]+ candidate [0-9]+: tried/ { told++ }
  > END { ended(); print (all > 9 ? "enough" : "too few") }
  > LAST
  $ for site in tests/*/site.toml; do
  >   peer=${site%site.toml}peer.toml; [ -f "$peer" ] || peer=
  >   grep -rl ' 0828' "${site%/*}/" --include='*.txt' | while read -r script; do ./lab run "$site" "$script" ${peer:+--peer "$peer"} --decisions 2>/dev/null; done
  > done | awk -f agree.awk
  enough
