Channels at half rate, by each command and view: a half of a timeslot has /0 or /1 behind it.

  $ ./lab check examples/half_rate.toml
  cell 0 lac=23 ci=100 bcch=60 bsic=1/1 power=5 channels 0/0/2 0/0/3 0/0/3/0 0/0/3/1 neighbours 1:0/21
  cell 1 lac=23 ci=101 bcch=871 bsic=2/5 power=5 channels 1/1/3 1/1/3/0 1/1/3/1 neighbours 0:0/9

A run, in words and with what its book holds:

  $ ./lab run examples/half_rate.toml examples/half_rate.txt --words | sed -n '1,5p;14p;20p;25p'
  in open 1 0 0 3/0 # call 1
  event open 1 0/0/3/0 -> done # call 1
  out abis 0 0 082101130300060400010901 # call 1; CHANNEL ACTIVATION tn=3/0 activation=0 mode=00010901 reference=-
  in abis 0 0 08220113080000 # call 1; CHANNEL ACTIVATION ACK tn=3/0 frame=0
  event confirm 0/0/3/0 -> owned 1 # call 1
  event open 3 0/0/3 -> refused 6 0/0/3/0 # call 3; ChannelBusy: this channel isn't free
  out abis 1 1 0821011303020604000109010900 # call 1; CHANNEL ACTIVATION tn=3/0 activation=2 mode=00010901 reference=0
  out abis 0 0 0301011302000b0009062bd56713a36b0005 # call 1; DATA REQUEST tn=3/0 link=0 layer3=062bd56713a36b0005; HANDOVER COMMAND arfcn=871 ncc=2 bcc=5 tn=3/0 tsc=5 carrier=875 reference=0 atc=0 power=5
  $ ./lab run examples/half_rate.toml examples/half_rate.txt --state | sed -n '/^in abis 0 0 0822011b/,/^in open 3/p'
  in abis 0 0 0822011b080000
  event confirm 0/0/3/1 -> owned 2
  event look 2 -> record 0/0/3/1 on
  state channel 0/0/3/0 on call 1
  state channel 0/0/3/1 on call 2
  state call 1 record 0/0/3/0 on
  state call 2 record 0/0/3/1 on
  in open 3 0 0 3

Its chart, and the packet of a message:

  $ ./lab run examples/half_rate.toml examples/half_rate.txt --chart run.svg >/dev/null
  $ grep -o '>[^<]*CHANNEL ACTIVATION, call [12]<' run.svg
  >0/0/3/0 CHANNEL ACTIVATION, call 1<
  >0/0/3/1 CHANNEL ACTIVATION, call 2<
  >1/1/3/0 CHANNEL ACTIVATION, call 1<
  >1/1/3/1 CHANNEL ACTIVATION, call 2<
  >1/1/3/1 CHANNEL ACTIVATION, call 2<
  $ printf 'open 1 0 0 3/1\n' >one.txt
  $ ./lab run examples/half_rate.toml one.txt --pcap one.pcap >/dev/null
  $ tail -c 12 one.pcap | od -An -tx1
   08 21 01 1b 03 00 06 04 00 01 09 01

Calls 1 and 2 are to move to the two halves of timeslot 3. Both attempts are undone, and both halves await their release
at once; that of the second half comes first. Each line of the trace is a row of the whole chart; a row has a height of 20, and
the first bar of a row stands from 72 on. So a bar is told by its first and its last line: the one in which its attempt
opens, and the one in which its own half is released. The bars stand in the order of the openings.

  $ cat >halves.txt <<'END'
  > open 1 1 1 3/0
  > abis 1 1 08220113080000
  > open 2 1 1 3/1
  > abis 1 1 0822011b080000
  > handover 1 0
  > handover 2 0
  > undo 1
  > undo 2
  > abis 0 0 0833011b
  > abis 0 0 08330113
  > END
  $ ./lab run examples/half_rate.toml halves.txt --chart run.svg --chart-all | grep -n -e ' take ' -e ' undo . ' -e ' released '
  15:event take 1 internal 0/0/3/0 -> done
  21:event take 2 internal 0/0/3/1 -> done
  26:event undo 1 asked -> record 1/1/3/0 on internal sent 0/0/3/0 0
  29:event undo 2 asked -> record 1/1/3/1 on internal sent 0/0/3/1 1
  32:event released 0/0/3/1 -> done
  34:event released 0/0/3/0 -> done
  $ bars() { sed -n 's/^<rect x="[0-9]*" y="\([0-9]*\)" width="11" height="\([0-9]*\)" fill="url(#hatched)".*/\1 \2/p' run.svg; }
  $ bars | while read y height; do test "$y" -lt 72 || echo "$(((y - 72) / 20 + 1)) $(((y - 72 + height - 18) / 20 + 1))"; done
  15 34
  21 32
  $ grep -o '>call [12]<' run.svg
  >call 1<
  >call 2<

Lines as they come:

  $ printf 'open 1 0 0 3/0\nopen 2 0 0 3/2\nabis 0 0 08220113080000\n' | ./lab live examples/half_rate.toml 2>errors
  in open 1 0 0 3/0
  event open 1 0/0/3/0 -> done
  out abis 0 0 082101130300060400010901
  line 2
  in abis 0 0 08220113080000
  event confirm 0/0/3/0 -> owned 1
  event look 1 -> record 0/0/3/0 on
  end channels=1 calls=1 references=0 timers=0
  $ cat errors
  standard input:2: TN is 0 to 7, with /0 or /1 at the end for half rate, found 3/2

Messages in words, and from words:

  $ ./lab decode abis 0821011b0300060400010901
  CHANNEL ACTIVATION tn=3/1 activation=0 mode=00010901 reference=-
  $ ./lab decode rr 062bd56713a36b2a05
  HANDOVER COMMAND arfcn=871 ncc=2 bcc=5 tn=3/0 tsc=5 carrier=875 reference=42 atc=0 power=5
  $ printf 'abis 0301011302000b0009062bd5671ba36b0005\n' | ./lab decode --from - --all 2>/dev/null
  1 DATA REQUEST tn=3/0 link=0 layer3=062bd5671ba36b0005 | HANDOVER COMMAND arfcn=871 ncc=2 bcc=5 tn=3/1 tsc=5 carrier=875 reference=0 atc=0 power=5
  $ ./lab encode abis "RF CHANNEL RELEASE tn=3/1"
  082e011b
  $ ./lab encode rr "HANDOVER COMMAND arfcn=871 ncc=2 bcc=5 tn=3/0 tsc=5 carrier=875 reference=42 atc=0 power=5"
  062bd56713a36b2a05
  $ ./lab explain fault rr 4 2
  an element is bad: no traffic channel

Scripts as tests, and recorded:

  $ ./lab test examples/half_rate.toml examples/half_rate.txt
  1..1
  ok 1 - examples/half_rate.txt
  $ ./lab record examples/half_rate.toml examples/half_rate.txt | diff examples/half_rate.txt -
  $ ./lab test examples/half_rate.toml examples/half_rate.txt --undo-everywhere
  ok 1 - examples/half_rate.txt: undo 1 after input 6: same
  ok 2 - examples/half_rate.txt: undo 1 after input 7: same
  ok 3 - examples/half_rate.txt: undo 1 after input 8: same
  ok 4 - examples/half_rate.txt: undo 2 after input 11: same
  ok 5 - examples/half_rate.txt: undo 2 after input 12: same
  ok 6 - examples/half_rate.txt: undo 2 after input 15: same
  ok 7 - examples/half_rate.txt: undo 2 after input 16: same
  ok 8 - examples/half_rate.txt: undo 2 after input 17: same
  1..8
  # same 8, held 0, not settled 0, differ 0

Traces that are read back. In the second the other half begins and goes on, and is in the way of the whole timeslot; in the
third the whole timeslot is refused for the half that the attempt holds.

  $ ./lab rewind examples/half_rate.toml examples/half_rate.trace 39
  others 49
  settled yes
  held -
  choices -
  same
  $ ./lab audit examples/half_rate.toml examples/half_rate.trace
  attempts 1
  held -
  choices -
  same
  $ ./lab run examples/half_rate.toml examples/half_rate.txt --audit | tail -n 5
  end channels=0 calls=0 references=0 timers=0
  attempts 1
  held -
  choices -
  same
  $ cat >beside.trace <<'END'
  > event open 1 0/0/3 -> done
  > event confirm 0/0/3 -> owned 1
  > event take 1 internal 1/1/3/0 -> done
  > event open 2 1/1/3/1 -> done
  > event undo 1 asked -> record 0/0/3 on internal taken 1/1/3/0 -
  > event take 3 incoming 1/1/3 -> refused 6 1/1/3/1
  > END
  $ ./lab rewind examples/half_rate.toml beside.trace 3
  others 4
  settled yes
  held -
  choices -
  same
  $ cat >held.trace <<'END'
  > event open 1 0/0/3/1 -> done
  > event confirm 0/0/3/1 -> owned 1
  > event take 1 internal 1/1/3/0 -> done
  > event take 3 incoming 1/1/3 -> refused 6 1/1/3/0
  > event undo 1 asked -> record 0/0/3/1 on internal taken 1/1/3/0 -
  > END
  $ ./lab rewind examples/half_rate.toml held.trace 3
  others 3
  settled yes
  held 4
  choices -
  differs: line 4: refused 6 1/1/3/0; without: done
  [1]

A storm uses whole timeslots alone:

  $ ./lab storm examples/half_rate.toml --workers 1 --calls 1 2>errors
  site too small
  [2]
  $ cat errors
  examples/half_rate.toml: cell 1 has 1 full rate channels, and needs 2

What a line may not say:

  $ printf 'open 1 0 0 3/00\n' >bad.txt
  $ ./lab run examples/half_rate.toml bad.txt 2>errors
  line 1
  [2]
  $ cat errors
  bad.txt:1: TN is 0 to 7, with /0 or /1 at the end for half rate, found 3/00

Each type of a channel on each timeslot, in a channel number and in a channel description; the other types are bad:

  $ cat >types.txt <<'END'
  > abis 082e0100
  > abis 082e0108
  > abis 082e0110
  > abis 082e0118
  > abis 082e0120
  > abis 082e0140
  > abis 082e0180
  > abis 082e01f8
  > abis 082e0103
  > abis 082e010b
  > abis 082e0113
  > abis 082e011b
  > abis 082e0123
  > abis 082e0143
  > abis 082e0183
  > abis 082e01fb
  > abis 082e0107
  > abis 082e010f
  > abis 082e0117
  > abis 082e011f
  > abis 082e0127
  > abis 082e0147
  > abis 082e0187
  > abis 082e01ff
  > rr 062bd56700a36b2a05
  > rr 062bd56708a36b2a05
  > rr 062bd56710a36b2a05
  > rr 062bd56718a36b2a05
  > rr 062bd56720a36b2a05
  > rr 062bd56740a36b2a05
  > rr 062bd56780a36b2a05
  > rr 062bd567f8a36b2a05
  > rr 062bd56703a36b2a05
  > rr 062bd5670ba36b2a05
  > rr 062bd56713a36b2a05
  > rr 062bd5671ba36b2a05
  > rr 062bd56723a36b2a05
  > rr 062bd56743a36b2a05
  > rr 062bd56783a36b2a05
  > rr 062bd567fba36b2a05
  > rr 062bd56707a36b2a05
  > rr 062bd5670fa36b2a05
  > rr 062bd56717a36b2a05
  > rr 062bd5671fa36b2a05
  > rr 062bd56727a36b2a05
  > rr 062bd56747a36b2a05
  > rr 062bd56787a36b2a05
  > rr 062bd567ffa36b2a05
  > END
  $ ./lab decode --from types.txt 2>/dev/null
  1 fault abis 4 1
  2 RF CHANNEL RELEASE tn=0
  3 RF CHANNEL RELEASE tn=0/0
  4 RF CHANNEL RELEASE tn=0/1
  5 fault abis 4 1
  6 fault abis 4 1
  7 fault abis 4 1
  8 fault abis 4 1
  9 fault abis 4 1
  10 RF CHANNEL RELEASE tn=3
  11 RF CHANNEL RELEASE tn=3/0
  12 RF CHANNEL RELEASE tn=3/1
  13 fault abis 4 1
  14 fault abis 4 1
  15 fault abis 4 1
  16 fault abis 4 1
  17 fault abis 4 1
  18 RF CHANNEL RELEASE tn=7
  19 RF CHANNEL RELEASE tn=7/0
  20 RF CHANNEL RELEASE tn=7/1
  21 fault abis 4 1
  22 fault abis 4 1
  23 fault abis 4 1
  24 fault abis 4 1
  25 fault rr 4 2
  26 HANDOVER COMMAND arfcn=871 ncc=2 bcc=5 tn=0 tsc=5 carrier=875 reference=42 atc=0 power=5
  27 HANDOVER COMMAND arfcn=871 ncc=2 bcc=5 tn=0/0 tsc=5 carrier=875 reference=42 atc=0 power=5
  28 HANDOVER COMMAND arfcn=871 ncc=2 bcc=5 tn=0/1 tsc=5 carrier=875 reference=42 atc=0 power=5
  29 fault rr 4 2
  30 fault rr 4 2
  31 fault rr 4 2
  32 fault rr 4 2
  33 fault rr 4 2
  34 HANDOVER COMMAND arfcn=871 ncc=2 bcc=5 tn=3 tsc=5 carrier=875 reference=42 atc=0 power=5
  35 HANDOVER COMMAND arfcn=871 ncc=2 bcc=5 tn=3/0 tsc=5 carrier=875 reference=42 atc=0 power=5
  36 HANDOVER COMMAND arfcn=871 ncc=2 bcc=5 tn=3/1 tsc=5 carrier=875 reference=42 atc=0 power=5
  37 fault rr 4 2
  38 fault rr 4 2
  39 fault rr 4 2
  40 fault rr 4 2
  41 fault rr 4 2
  42 HANDOVER COMMAND arfcn=871 ncc=2 bcc=5 tn=7 tsc=5 carrier=875 reference=42 atc=0 power=5
  43 HANDOVER COMMAND arfcn=871 ncc=2 bcc=5 tn=7/0 tsc=5 carrier=875 reference=42 atc=0 power=5
  44 HANDOVER COMMAND arfcn=871 ncc=2 bcc=5 tn=7/1 tsc=5 carrier=875 reference=42 atc=0 power=5
  45 fault rr 4 2
  46 fault rr 4 2
  47 fault rr 4 2
  48 fault rr 4 2
  [2]

Each half is written as it is read:

  $ ./lab encode abis "CHANNEL ACTIVATION tn=7 activation=0 mode=00010801 reference=-"
  0821010f0300060400010801
  $ ./lab encode rr "HANDOVER COMMAND arfcn=871 ncc=2 bcc=5 tn=0 tsc=5 carrier=875 reference=42 atc=0 power=5"
  062bd56708a36b2a05
  $ ./lab encode abis "CHANNEL ACTIVATION tn=7/0 activation=0 mode=00010901 reference=-"
  082101170300060400010901
  $ ./lab encode rr "HANDOVER COMMAND arfcn=871 ncc=2 bcc=5 tn=0/0 tsc=5 carrier=875 reference=42 atc=0 power=5"
  062bd56710a36b2a05
  $ ./lab encode abis "CHANNEL ACTIVATION tn=7/1 activation=0 mode=00010901 reference=-"
  0821011f0300060400010901
  $ ./lab encode rr "HANDOVER COMMAND arfcn=871 ncc=2 bcc=5 tn=0/1 tsc=5 carrier=875 reference=42 atc=0 power=5"
  062bd56718a36b2a05

What a site file may not say of halves, and what is passed over:

  $ sed 's/tch = .3., half = .3./tch = [3], half = [4]/' examples/half_rate.toml >bad.toml
  $ ./lab check bad.toml 2>errors
  site 3 half
  [2]
  $ cat errors
  bad.toml: cell 1, trx 1: half: 4 isn't one of the timeslots in tch
  $ sed 's/tch = .3., half = .3./tch = [3], half = [8]/' examples/half_rate.toml >bad.toml
  $ ./lab check bad.toml 2>errors
  site 3 half
  [2]
  $ cat errors
  bad.toml: cell 1, trx 1: half: 8 isn't a timeslot from 0 to 7
  $ sed 's/tch = .3., half = .3./tch = [3], half = [3, 3]/' examples/half_rate.toml >bad.toml
  $ ./lab check bad.toml 2>errors
  site 4 slot
  [2]
  $ cat errors
  bad.toml: cell 1, trx 1: half: 3 is listed twice
  $ sed 's/tch = .3., half = .3./tch = [3], half = [3, 3, 9]/' examples/half_rate.toml >bad.toml
  $ ./lab check bad.toml 2>errors
  site 3 half
  [2]
  $ cat errors
  bad.toml: cell 1, trx 1: half: 9 isn't a timeslot from 0 to 7
  $ sed 's/tch = .3., half = .3./tch = [3, 3], half = [4]/' examples/half_rate.toml >bad.toml
  $ ./lab check bad.toml 2>errors
  site 3 half
  [2]
  $ cat errors
  bad.toml: cell 1, trx 1: half: 4 isn't one of the timeslots in tch
  $ sed 's/tch = .3., half = .3./tch = [9], half = [9]/' examples/half_rate.toml >bad.toml
  $ ./lab check bad.toml 2>errors
  site 3 tch
  [2]
  $ cat errors
  bad.toml: cell 1, trx 1: tch: 9 isn't a timeslot from 0 to 7
  $ sed 's/tch = .3., half = .3./tch = [3], half = 3/' examples/half_rate.toml >bad.toml
  $ ./lab check bad.toml 2>errors
  site 3 half
  [2]
  $ cat errors
  bad.toml: cell 1, trx 1: half: 3 isn't an array of timeslots that are in tch too
  $ sed 's/tch = .3., half = .3./tch = [3], half = ["3"]/' examples/half_rate.toml >bad.toml
  $ ./lab check bad.toml 2>errors
  site 3 half
  [2]
  $ cat errors
  bad.toml: cell 1, trx 1: half: a value of the kind string isn't a timeslot from 0 to 7
  $ sed 's/tch = .3., half = .3./half = [3]/' examples/half_rate.toml >bad.toml
  $ ./lab check bad.toml 2>errors
  site 2 tch
  [2]
  $ cat errors
  bad.toml: cell 1, trx 1: tch is missing: it has to be an array of timeslots from 0 to 7
  $ sed 's/tch = .3., half = .3./tch = [3], half = [3], half = [3]/' examples/half_rate.toml >bad.toml
  $ ./lab check bad.toml 2>errors
  site 1
  [2]
  $ cat errors
  bad.toml:29:73: duplicate key
  $ sed 's/tch = .3., half = .3./tch = [3], half = []/' examples/half_rate.toml >bad.toml
  $ ./lab check bad.toml 2>errors
  cell 0 lac=23 ci=100 bcch=60 bsic=1/1 power=5 channels 0/0/2 0/0/3 0/0/3/0 0/0/3/1 neighbours 1:0/21
  cell 1 lac=23 ci=101 bcch=871 bsic=2/5 power=5 channels 1/1/3 neighbours 0:0/9
  $ cat errors
  $ sed 's/tch = .3., half = .3./tch = [3], halves = [3]/' examples/half_rate.toml >bad.toml
  $ ./lab check bad.toml 2>errors
  cell 0 lac=23 ci=100 bcch=60 bsic=1/1 power=5 channels 0/0/2 0/0/3 0/0/3/0 0/0/3/1 neighbours 1:0/21
  cell 1 lac=23 ci=101 bcch=871 bsic=2/5 power=5 channels 1/1/3 neighbours 0:0/9
  warning: cell 1, trx 1: unknown key "halves" is ignored
  $ cat errors

Octets about a half that is no channel of the site, or that are cut:

  $ printf 'abis 0 0 08220112080000\nabis 9 9 0822011b080000\nabis 0 0 0822011b0800\nabis 0 0 08220123080000\n' >octets.txt
  $ ./lab run examples/half_rate.toml octets.txt
  octets.txt:1: this line has no effect: the site has no channel 0/0/2/0
  octets.txt:2: this line has no effect: the site has no cell 9
  in abis 0 0 08220112080000
  event confirm 0/0/2/0 -> refused 8 0/0/2/0
  in abis 9 9 0822011b080000
  event confirm 9/9/3/1 -> refused 8 9/9/3/1
  in abis 0 0 0822011b0800
  fault abis 5 4
  in abis 0 0 08220123080000
  fault abis 4 1
  end channels=0 calls=0 references=0 timers=0

A timeslot that isn't in half has no halves, nor has a line with what is no half:

  $ printf 'open 1 0 0 2/0\n' >two.txt
  $ ./lab run examples/half_rate.toml two.txt
  two.txt:1: this line has no effect: the site has no channel 0/0/2/0
  in open 1 0 0 2/0
  event open 1 0/0/2/0 -> refused 4
  end channels=0 calls=0 references=0 timers=0
  $ printf 'sim\nhold 0 0 3/2\n' >bad.txt
  $ ./lab run examples/half_rate.toml bad.txt 2>&1 >/dev/null
  bad.txt:2: TN is 0 to 7, with /0 or /1 at the end for half rate, found 3/2
  [2]
  $ printf 'sim\nhold 0 0 3/\n' >bad.txt
  $ ./lab run examples/half_rate.toml bad.txt 2>&1 >/dev/null
  bad.txt:2: TN is 0 to 7, with /0 or /1 at the end for half rate, found 3/
  [2]
  $ printf 'sim\nhold 0 0 /0\n' >bad.txt
  $ ./lab run examples/half_rate.toml bad.txt 2>&1 >/dev/null
  bad.txt:2: TN is 0 to 7, with /0 or /1 at the end for half rate, found /0
  [2]
  $ printf 'sim\nhold 0 0 3/0/\n' >bad.txt
  $ ./lab run examples/half_rate.toml bad.txt 2>&1 >/dev/null
  bad.txt:2: TN is 0 to 7, with /0 or /1 at the end for half rate, found 3/0/
  [2]
  $ printf 'sim\nhold 0 0 8/1\n' >bad.txt
  $ ./lab run examples/half_rate.toml bad.txt 2>&1 >/dev/null
  bad.txt:2: TN is 0 to 7, with /0 or /1 at the end for half rate, found 8/1
  [2]
  $ printf 'sim\nhold 0 0 3/-0\n' >bad.txt
  $ ./lab run examples/half_rate.toml bad.txt 2>&1 >/dev/null
  bad.txt:2: TN is 0 to 7, with /0 or /1 at the end for half rate, found 3/-0
  [2]
  $ printf 'event open 1 0/0/3/2 -> done\n' >bad.trace
  $ ./lab audit examples/half_rate.toml bad.trace 2>&1 >/dev/null
  bad.trace:1: this isn't an event with its reply, as in: event look 1 -> refused 1
  [2]
  $ printf 'event open 1 0/0/3/ -> done\n' >bad.trace
  $ ./lab audit examples/half_rate.toml bad.trace 2>&1 >/dev/null
  bad.trace:1: this isn't an event with its reply, as in: event look 1 -> refused 1
  [2]
  $ printf 'event open 1 0/0/3/01 -> done\n' >bad.trace
  $ ./lab audit examples/half_rate.toml bad.trace 2>&1 >/dev/null
  bad.trace:1: this isn't an event with its reply, as in: event look 1 -> refused 1
  [2]

The last timeslot of the largest site, 64 cells with four TRX each:

  $ printf '[handover]\nwindow = 2\nmargin = 3\nminimum = 10\n' >wide.toml
  $ for n in $(seq 0 63); do printf '[[cell]]\nlac = 1\nci = %d\nbcch = %d\nncc = 0\nbcc = 0\npower = 5\nba = []\ntrx = [{ arfcn = %d, tch = [7] }' $n $((4 * n)) $((4 * n)); for m in 1 2 3; do printf ', { arfcn = %d, tch = [7], half = [7] }' $((4 * n + m)); done; printf ']\n'; done >>wide.toml
  $ printf 'open 1 63 3 7\nclear 1\nabis 63 3 0833010f\nopen 1 63 3 7/0\nopen 2 63 3 7/1\nopen 3 63 3 7\n' >last.txt
  $ ./lab run wide.toml last.txt | grep -v '^in'
  event open 1 63/3/7 -> done
  out abis 63 3 0821010f0300060400010801
  event look 1 -> record 63/3/7 pending
  event clear 1 -> done
  out abis 63 3 082e010f
  event released 63/3/7 -> done
  event open 1 63/3/7/0 -> done
  out abis 63 3 082101170300060400010901
  event open 2 63/3/7/1 -> done
  out abis 63 3 0821011f0300060400010901
  event open 3 63/3/7 -> refused 6 63/3/7/0
  end channels=2 calls=2 references=0 timers=0
