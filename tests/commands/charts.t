What a chart shows, row by row, and the bars beside it. A row is 20 high, the first from 72 on; a bar is 2 lower than its
rows. (Whole charts stand beside the examples.) With --chart-all nothing is left out of it.

A cell without a free channel; an attempt that ends by its timer; octets that name no channel, and that name one and are cut
behind it; a message about a half that no call has; and what is left. The attempt has rows 14 to 17, counted from 0.

  $ cat >script.txt <<'END'
  > open 1 0 0 3
  > abis 0 0 0822010b080000
  > open 2 1 1 3
  > handover 1 1
  > handover 1 64
  > expire 1 T7
  > abis 0 0 08
  > abis 0 0 0822010b08
  > abis 2 0 0833011f
  > END
  $ ./lab run examples/two_cells.toml script.txt --chart run.svg --chart-all >printed
  script.txt:9: this line has no effect: the site has no cell 2
  $ sed -n 's/^<text.*>\(.*\)<.text>$/\1/p' run.svg | tail -n 29
  1 open 1 0 0 3
  open 1 0/0/3 -&gt; done
  0/0/3 CHANNEL ACTIVATION, call 1
  2
  0/0/3 CHANNEL ACTIVATION ACK, call 1
  confirm 0/0/3 -&gt; owned 1
  look 1 -&gt; record 0/0/3 on
  3 open 2 1 1 3
  open 2 1/1/3 -&gt; done
  1/1/3 CHANNEL ACTIVATION, call 2
  4 handover 1 1
  look 1 -&gt; record 0/0/3 on
  none free in cell 1
  5 handover 1 64
  look 1 -&gt; record 0/0/3 on
  require 1 -&gt; done
  HANDOVER REQUIRED, call 1
  6 expire 1 T7
  undo 1 t7 -&gt; record 0/0/3 on outgoing required - -
  7
  0/0 no message
  fault abis 5 1
  8
  0/0/3 no message, call 1
  fault abis 5 4
  9
  2/0/7/1 RF CHANNEL RELEASE ACK
  released 2/0/7/1 -&gt; refused 8 2/0/7/1
  channels=2 calls=2 references=0 timers=0
  $ grep -A 2 'height="78"' run.svg
  <rect x="213" y="352" width="11" height="78" fill="url(#hatched)" stroke="#000"/>
  <line x1="205" y1="360" x2="213" y2="360" stroke="#000"/>
  <text x="201" y="364" text-anchor="end">call 1</text>

The attempt of call 1 has rows 14 to 27. The first one of call 2 begins meanwhile, and stands beside it: its channel is
refused, so no release is awaited, and it has rows 18 to 25. The second one of call 2 has rows 30 to 37, the last, since the
release of its channel never comes. (Headings have 15 letters of 7, so the first bar is at 12 + 105 + 96, the next 16 behind.)

  $ cat >script.txt <<'END'
  > open 1 0 0 3
  > abis 0 0 0822010b080000
  > open 2 0 0 2
  > abis 0 0 0822010a080000
  > handover 1 64
  > handover 2 1
  > abis 1 1 0823010b1a0120
  > undo 1
  > handover 2 1
  > undo 2
  > END
  $ ./lab run examples/two_cells.toml script.txt --chart run.svg --chart-all | grep ^end
  end channels=3 calls=2 references=0 timers=0
  $ grep -A 2 'height="[0-9]*" fill="url(#hatched)"' run.svg | grep -A 2 'height="[0-9]\{3\}"'
  <rect x="213" y="352" width="11" height="278" fill="url(#hatched)" stroke="#000"/>
  <line x1="205" y1="360" x2="213" y2="360" stroke="#000"/>
  <text x="201" y="364" text-anchor="end">call 1</text>
  <rect x="229" y="432" width="11" height="158" fill="url(#hatched)" stroke="#000"/>
  <line x1="205" y1="440" x2="229" y2="440" stroke="#000"/>
  <text x="201" y="444" text-anchor="end">call 2</text>
  <rect x="213" y="672" width="11" height="158" fill="url(#hatched)" stroke="#000"/>
  <line x1="205" y1="680" x2="213" y2="680" stroke="#000"/>
  <text x="201" y="684" text-anchor="end">call 2</text>

A call that has moved has no bar.

  $ ./lab run examples/two_cells.toml examples/handover_arrives.txt --chart run.svg >printed
  $ grep -c '>call [0-9]*<' run.svg
  0
  [1]

An attempt of the second controller is taken back, of which the first one hears: that of call 40000 has rows 12 to 24, the
last, since the answers of its station are held; that of call 1 has rows 8 to 22. Bars of the second controller are dotted.

  $ cat >script.txt <<'END'
  > sim
  > 2: hold 0 0 1
  > 2: hold 0 0 1
  > open 1 0 0 3
  > handover 1 64
  > 2: undo 40000
  > END
  $ ./lab run examples/two_cells.toml script.txt --peer examples/one_cell.toml --chart run.svg --chart-all | grep end
  1: end channels=1 calls=1 references=0 timers=0
  2: end channels=1 calls=0 references=0 timers=0
  $ sed -n 's/^<text.*>\(undone.*\)<.text>$/\1/p' run.svg
  undone attempts of controller 1
  undone attempts of controller 2
  $ sed -n 's/^<rect .* y="\([0-9]*\)" .* height="\([0-9]\{3\}\)" fill="url(#\(.*\))".*$/\1 \2 \3/p' run.svg
  232 298 hatched
  312 258 dotted
  $ sed -n 's/^<text.*>\(call [0-9]*\)<.text>$/\1/p' run.svg
  call 1
  call 40000
  $ sed -n 's/^<text.*>\(.*\)<.text>$/\1/p' run.svg | grep -e '^[0-9]' -e ', call'
  1 1: open 1 0 0 3
  0/0/3 CHANNEL ACTIVATION, call 1
  2
  0/0/3 CHANNEL ACTIVATION ACK, call 1
  3 1: handover 1 64
  HANDOVER REQUIRED, call 1
  4
  HANDOVER REQUEST, call 40000
  0/0/1 CHANNEL ACTIVATION, call 40000
  5 2: undo 40000
  0/0/1 RF CHANNEL RELEASE, call 40000
  HANDOVER FAILURE, call 40000: equipment failure
  6
  HANDOVER REQUIRED REJECT, call 1: equipment failure

Behind the ten thousandth answer (limit_of_answers.t) stands what was dropped.

  $ { echo sim; for _ in $(seq 5001); do printf 'hold 0 0 3\nhold 0 0 3\nopen 1 0 0 3\nclear 1\nabis 0 0 0833010b\n'; done; echo let 0 0 3; } >held.txt
  $ ./lab run tests/two_cells/site.toml held.txt --words --chart run.svg | grep '^sim'
  held.txt: settings without effect aren't looked for: over 100,000 lines would have to be played
  sim limit # the answers that still waited were dropped
  $ grep -c '>sim limit<' run.svg
  1

Nine calls are to leave for another controller at once, and are taken back. Eight bars stand beside one another, each 16
behind the one before it; the ninth lies on the eighth. (Headings have 16 letters of 7, so the first is at 12 + 112 + 96.)

  $ sed 's/tch = \[2, 3\]/tch = [1, 2, 3, 4, 5, 6, 7]/; s/tch = \[\]/tch = [1, 2]/' tests/two_cells/site.toml >nine.toml
  $ open() { printf 'open %d %d 0 %d\nabis %d 0 0822010%x080000\n' $1 $2 $3 $2 $((8 + $3)); }
  $ for call in 1 2 3 4 5 6 7; do open $call 0 $call; done >nine.txt
  $ for call in 8 9; do open $call 1 $((call - 7)); done >>nine.txt
  $ for call in $(seq 9); do echo handover $call 64; done >>nine.txt
  $ for call in $(seq 9); do echo undo $call; done >>nine.txt
  $ ./lab run nine.toml nine.txt --chart run.svg >printed
  $ grep -c '^event require . -> done$' printed; grep -c '^event undo . asked -> record ' printed
  9
  9
  $ sed -n 's/^<rect x="\([0-9]*\)" y="[0-9]*" width="11" height="[0-9]*" fill="url(#hatched)".*/\1/p' run.svg | tail -n 9 | paste -sd ' '
  220 236 252 268 284 300 316 332 332

Each station has a lane, by the number of its cell, where a message comes or goes; then stand controller and switching centre.
Arrows go between the lanes of those who say and hear it. A mobile has a lane where a station passes a radio resource message
on, which has two arrows in one row. (Lanes and arrows are found by where they stand.)

  $ cat >arrows.py <<'END'
  > import re
  > text = open("run.svg").read()
  > bold = re.search('<g font-weight="bold">(.*?)</g>', text, re.DOTALL)[1]
  > lanes = {x: name for x, name in re.findall('<text x="([0-9]*)".*>(.*)</text>', bold)}
  > print(", ".join(lanes.values()))
  > for start, end, said in re.findall('<line x1="([0-9]*)" .* x2="([0-9]*)" .*marker-end.*\n<text .*>(.*)</text>', text):
  >     print(f"{lanes[start]} to {lanes[end]}: {said}")
  > END
  $ ./lab run examples/two_cells.toml examples/handover_returns.txt --chart run.svg >printed
  $ python3 arrows.py
  mobile, station 0, station 1, controller, switching centre
  controller to station 0: 0/0/3 CHANNEL ACTIVATION, call 1
  station 0 to controller: 0/0/3 CHANNEL ACTIVATION ACK, call 1
  controller to station 1: 1/1/3 CHANNEL ACTIVATION, call 1
  station 1 to controller: 1/1/3 CHANNEL ACTIVATION ACK, call 1
  controller to station 0: 0/0/3 DATA REQUEST, call 1
  station 0 to mobile: HANDOVER COMMAND
  mobile to station 0: HANDOVER FAILURE: abnormal release, unspecified
  station 0 to controller: 0/0/3 DATA INDICATION, call 1
  controller to station 1: 1/1/3 RF CHANNEL RELEASE, call 1
  station 1 to controller: 1/1/3 RF CHANNEL RELEASE ACK, call 1
  $ ./lab run examples/two_cells.toml examples/handover_between.txt --peer examples/one_cell.toml --chart run.svg >printed
  $ python3 arrows.py | sed -n 1,6p
  mobile, station 0 of 1, controller 1, switching centre, controller 2, station 0 of 2, mobile
  controller 1 to station 0 of 1: 0/0/3 CHANNEL ACTIVATION, call 1
  station 0 of 1 to controller 1: 0/0/3 CHANNEL ACTIVATION ACK, call 1
  controller 1 to switching centre: HANDOVER REQUIRED, call 1
  switching centre to controller 2: HANDOVER REQUEST, call 40000
  controller 2 to station 0 of 2: 0/0/1 CHANNEL ACTIVATION, call 40000
  $ printf 'open 1 1 1 3\n' >one.txt
  $ ./lab run examples/two_cells.toml one.txt --chart run.svg >printed
  $ python3 arrows.py
  station 1, controller, switching centre
  controller to station 1: 1/1/3 CHANNEL ACTIVATION, call 1
  $ printf 'clear 1\n' >none.txt
  $ ./lab run examples/two_cells.toml none.txt --chart run.svg >printed
  none.txt:1: this line has no effect: there is no call 1
  $ python3 arrows.py
  controller, switching centre

A measurement report comes from the mobile; what isn't a radio resource message that can be read comes from the station alone.

  $ cat >reports.txt <<'END'
  > open 1 0 0 3
  > abis 0 0 0822010b080000
  > abis 0 0 0828010b1b001903001e0004000b001206151e1e006812a000000000000000000000
  > abis 0 0 0302010b02000b0003050102
  > END
  $ ./lab run examples/two_cells.toml reports.txt --chart run.svg >printed
  $ python3 arrows.py | tail -n 3
  mobile to station 0: MEASUREMENT REPORT
  station 0 to controller: 0/0/3 MEASUREMENT RESULT, call 1
  station 0 to controller: 0/0/3 DATA INDICATION, call 1

A chart has a title: the script and its sites, as they stand on the command line. It is the picture's title, too.

  $ ./lab run examples/two_cells.toml reports.txt --chart run.svg >printed
  $ grep -o '<title>.*</title>\|<text.*font-weight="bold".*</text>' run.svg
  <title>reports.txt over examples/two_cells.toml</title>
  <text x="12" y="18" text-anchor="start" font-weight="bold">reports.txt over examples/two_cells.toml</text>
  $ ./lab run examples/two_cells.toml examples/handover_between.txt --peer examples/one_cell.toml --audit --chart run.svg >printed
  $ grep -o '<title>.*</title>' run.svg
  <title>examples/handover_between.txt over examples/two_cells.toml and examples/one_cell.toml</title>

What is only looked up, look and owner, is left out unless it is refused. What is refused has a thick frame; so have octets that
are no message, and a cell without a free channel.

  $ cat >refusals.txt <<'END'
  > open 1 0 0 3
  > abis 0 0 0822010b080000
  > open 2 0 0 3
  > clear 5
  > abis 0 0 08
  > open 2 1 1 3
  > handover 1 1
  > END
  $ ./lab run examples/two_cells.toml refusals.txt --chart run.svg >printed
  refusals.txt:4: this line has no effect: there is no call 5
  $ grep '^event \(look\|owner\)' printed
  event look 1 -> record 0/0/3 on
  event look 5 -> refused 1
  event look 1 -> record 0/0/3 on
  $ sed -n 's/^<text x="[0-9]*" y="[0-9]*" text-anchor="[a-z]*">\(.*\)<.text>$/\1/p' run.svg | tail -n 19
  1 open 1 0 0 3
  open 1 0/0/3 -&gt; done
  0/0/3 CHANNEL ACTIVATION, call 1
  2
  0/0/3 CHANNEL ACTIVATION ACK, call 1
  confirm 0/0/3 -&gt; owned 1
  3 open 2 0 0 3
  open 2 0/0/3 -&gt; refused 6 0/0/3
  4 clear 5
  look 5 -&gt; refused 1
  5
  0/0 no message
  fault abis 5 1
  6 open 2 1 1 3
  open 2 1/1/3 -&gt; done
  1/1/3 CHANNEL ACTIVATION, call 2
  7 handover 1 1
  none free in cell 1
  channels=2 calls=2 references=0 timers=0
  $ grep -A 1 'stroke-width="3"' run.svg | sed -n 's/^<text.*>\(.*\)<.text>$/\1/p'
  open 2 0/0/3 -&gt; refused 6 0/0/3
  look 5 -&gt; refused 1
  fault abis 5 1
  none free in cell 1
  $ ./lab run examples/two_cells.toml refusals.txt --chart run.svg --chart-all >printed 2>/dev/null
  $ grep -c '>look [15] -&gt; record 0/0/3 on<\|>look 5 -&gt; refused 1<' run.svg
  3

A cause stands behind a message that says that something fails: TS 48.058 clause 9.3.26 names 0x20 and 0x01, TS 48.008 clause
3.2.2.5 names 0x01.

  $ cat >causes.txt <<'END'
  > open 1 0 0 3
  > abis 0 0 0822010b080000
  > handover 1 1
  > abis 1 1 0823010b1a0120
  > abis 0 0 0824010b1a0101
  > a 1 000420040109
  > END
  $ ./lab run examples/two_cells.toml causes.txt --chart run.svg >printed
  $ python3 arrows.py | sed -n '5,$p'
  station 1 to controller: 1/1/3 CHANNEL ACTIVATION NACK, call 1: equipment failure
  station 0 to controller: 0/0/3 CONNECTION FAILURE INDICATION, call 1: radio link failure
  controller to switching centre: CLEAR REQUEST, call 1: radio interface failure
  switching centre to controller: CLEAR COMMAND, call 1
  controller to station 0: 0/0/3 DATA REQUEST, call 1
  station 0 to mobile: CHANNEL RELEASE
  controller to station 0: 0/0/3 RF CHANNEL RELEASE, call 1
  controller to switching centre: CLEAR COMPLETE, call 1

Pages have 60 rows each. Their files have numbers before the end of the name; the file of that name itself isn't made. Here 130
inputs have a row each, and the end of the trace one.

  $ for number in $(seq 130); do echo handover 1 99; done >many.txt
  $ ./lab run examples/two_cells.toml many.txt --chart many.svg --chart-pages >printed 2>errors
  $ grep -c '^many.txt:[0-9]*: this line has no effect: the site has no cell 99$' errors
  130
  $ ls many*
  many-1.svg
  many-2.svg
  many-3.svg
  many.txt
  $ grep -h '<title>' many-?.svg
  <title>many.txt over examples/two_cells.toml, page 1 of 3</title>
  <title>many.txt over examples/two_cells.toml, page 2 of 3</title>
  <title>many.txt over examples/two_cells.toml, page 3 of 3</title>
  $ for page in 1 2 3; do sed -n 's/^<text x="12" .*>\([0-9].*\)<.text>$/\1/p' many-$page.svg | sed -n '1p;$p'; done
  1 handover 1 99
  60 handover 1 99
  61 handover 1 99
  120 handover 1 99
  121 handover 1 99
  130 handover 1 99
  $ grep -o '<svg.* height="[0-9]*"' many-1.svg | sed 's/.* //'
  height="1320"

A bar goes on over pages: rows 6 to 59 of the first, and the 14 rows of the second, where its text stands between it and the
lanes. A page has lanes for the stations that do something on it. (Headings have 16 letters, so the bar is at 12 + 112 + 96.)

  $ printf 'open 1 0 0 3\nabis 0 0 0822010b080000\nhandover 1 1\n' >long.txt
  $ for number in $(seq 60); do echo handover 1 99; done >>long.txt
  $ echo undo 1 >>long.txt
  $ ./lab run examples/two_cells.toml long.txt --chart long.svg --chart-pages >printed 2>/dev/null
  $ for page in 1 2; do sed -n 's/^<rect x="220" y="\([0-9]*\)" width="11" height="\([0-9]*\)" fill="url(#hatched)".*/\1 \2/p' long-$page.svg; done
  192 1098
  72 278
  $ for page in 1 2; do grep -o '<text.*>call 1<' long-$page.svg; done
  <text x="208" y="204" text-anchor="end">call 1<
  <text x="240" y="84" text-anchor="start">call 1<
  $ for page in 1 2; do cp long-$page.svg run.svg; python3 arrows.py | sed -n 1p; done
  station 0, station 1, controller, switching centre
  station 1, controller, switching centre

A name without an end has the number behind it; a dot in a folder's name, or before the name, begins no end.

  $ mkdir a.b
  $ for path in a.b/run .run ./plain; do ./lab run examples/two_cells.toml reports.txt --chart $path --chart-pages >printed; done
  $ ls a.b; ls -d .run-1; ls plain-1
  run-1
  .run-1
  plain-1

The first page mustn't be a file that the run reads, and no other is written over one.

  $ cp many.txt run-1.svg
  $ ./lab run examples/two_cells.toml run-1.svg --chart run.svg --chart-pages 2>errors
  file run-1.svg
  [2]
  $ cat errors
  run-1.svg: named twice
  $ cmp many.txt run-1.svg
  $ cp many.txt run-2.svg; ln -s run-2.svg link.txt
  $ ./lab run examples/two_cells.toml link.txt --chart run.svg --chart-pages 2>errors >printed
  [2]
  $ cat errors
  run-2.svg: named twice
  $ tail -n 1 printed
  end channels=0 calls=0 references=0 timers=0
  $ cmp many.txt run-2.svg; ls run-*
  run-1.svg
  run-2.svg

Both options want a chart.

  $ ./lab run examples/two_cells.toml many.txt --chart-pages 2>&1
  *--chart* (glob)
  [2]
  $ ./lab run examples/two_cells.toml many.txt --chart-all 2>&1
  *--chart* (glob)
  [2]
