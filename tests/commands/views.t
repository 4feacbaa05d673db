A run of one call with all views: words and states in the trace; a capture with its header and four packets (56 octets,
3 and the message's 12, 7, 4 and 4); a chart with four arrows.

  $ cat >script.txt <<'END'
  > open 1 0 0 3
  > abis 0 0 0822010b081234
  > clear 1
  > abis 0 0 0833010b
  > END
  $ ./lab run examples/two_cells.toml script.txt --words --state --pcap run.pcap --chart run.svg
  in open 1 0 0 3 # call 1
  event open 1 0/0/3 -> done # call 1
  out abis 0 0 0821010b0300060400010801 # call 1; CHANNEL ACTIVATION tn=3 activation=0 mode=00010801 reference=-
  state channel 0/0/3 pending call 1
  state call 1 record 0/0/3 pending
  in abis 0 0 0822010b081234 # call 1; CHANNEL ACTIVATION ACK tn=3 frame=4660
  event confirm 0/0/3 -> owned 1 # call 1
  event look 1 -> record 0/0/3 on # call 1
  state channel 0/0/3 on call 1
  state call 1 record 0/0/3 on
  in clear 1 # call 1
  event look 1 -> record 0/0/3 on # call 1
  event clear 1 -> done # call 1
  out abis 0 0 082e010b # call 1; RF CHANNEL RELEASE tn=3
  state channel 0/0/3 off
  in abis 0 0 0833010b # call 1; RF CHANNEL RELEASE ACK tn=3
  event released 0/0/3 -> done # call 1
  state empty
  end channels=0 calls=0 references=0 timers=0 # nothing is left
  state empty
  $ wc -c <run.pcap
  287
  $ grep -o marker-end run.svg | wc -l
  4
  $ tail -n 1 run.svg
  </svg>

A run of two controllers: calls and books are each controller's own. Call 7 of the second one ends, call 1 of the first
stays. Six packets: the messages have 12, 12, 7, 7, 4 and 4 octets.

  $ cat >script.txt <<'END'
  > open 1 0 0 3
  > 2: open 7 0 0 1
  > 2: abis 0 0 08220109080000
  > abis 0 0 0822010b081234
  > 2: clear 7
  > 2: abis 0 0 08330109
  > END
  $ ./lab run examples/two_cells.toml script.txt --peer examples/one_cell.toml --words --state --pcap run.pcap --chart run.svg
  1: in open 1 0 0 3 # call 1
  1: event open 1 0/0/3 -> done # call 1
  1: out abis 0 0 0821010b0300060400010801 # call 1; CHANNEL ACTIVATION tn=3 activation=0 mode=00010801 reference=-
  1: state channel 0/0/3 pending call 1
  1: state call 1 record 0/0/3 pending
  2: in open 7 0 0 1 # call 7
  2: event open 7 0/0/1 -> done # call 7
  2: out abis 0 0 082101090300060400010801 # call 7; CHANNEL ACTIVATION tn=1 activation=0 mode=00010801 reference=-
  2: state channel 0/0/1 pending call 7
  2: state call 7 record 0/0/1 pending
  2: in abis 0 0 08220109080000 # call 7; CHANNEL ACTIVATION ACK tn=1 frame=0
  2: event confirm 0/0/1 -> owned 7 # call 7
  2: event look 7 -> record 0/0/1 on # call 7
  2: state channel 0/0/1 on call 7
  2: state call 7 record 0/0/1 on
  1: in abis 0 0 0822010b081234 # call 1; CHANNEL ACTIVATION ACK tn=3 frame=4660
  1: event confirm 0/0/3 -> owned 1 # call 1
  1: event look 1 -> record 0/0/3 on # call 1
  1: state channel 0/0/3 on call 1
  1: state call 1 record 0/0/3 on
  2: in clear 7 # call 7
  2: event look 7 -> record 0/0/1 on # call 7
  2: event clear 7 -> done # call 7
  2: out abis 0 0 082e0109 # call 7; RF CHANNEL RELEASE tn=1
  2: state channel 0/0/1 off
  2: in abis 0 0 08330109 # call 7; RF CHANNEL RELEASE ACK tn=1
  2: event released 0/0/1 -> done # call 7
  2: state empty
  1: end channels=1 calls=1 references=0 timers=0 # this is left
  1: state channel 0/0/3 on call 1
  1: state call 1 record 0/0/3 on
  2: end channels=0 calls=0 references=0 timers=0 # nothing is left
  2: state empty
  $ wc -c <run.pcap
  424
  $ grep -o marker-end run.svg | wc -l
  6
  $ tail -n 1 run.svg
  </svg>
  $ grep -c -e '>controller 2<' -e '>station 0 of 2<' run.svg
  4

A mobile comes back.

  $ cat >script.txt <<'END'
  > open 1 0 0 3
  > abis 0 0 0822010b080000
  > handover 1 1
  > abis 1 1 0822010b080000
  > abis 0 0 0302010b02000b0003062801
  > abis 1 1 0833010b
  > END
  $ ./lab run examples/two_cells.toml script.txt --words
  in open 1 0 0 3 # call 1
  event open 1 0/0/3 -> done # call 1
  out abis 0 0 0821010b0300060400010801 # call 1; CHANNEL ACTIVATION tn=3 activation=0 mode=00010801 reference=-
  in abis 0 0 0822010b080000 # call 1; CHANNEL ACTIVATION ACK tn=3 frame=0
  event confirm 0/0/3 -> owned 1 # call 1
  event look 1 -> record 0/0/3 on # call 1
  in handover 1 1 # call 1
  event look 1 -> record 0/0/3 on # call 1
  event take 1 internal 1/1/3 -> done # call 1
  event reserve 1 0 -> done # call 1
  event activate 1 -> done # call 1
  out abis 1 1 0821010b03020604000108010900 # call 1; CHANNEL ACTIVATION tn=3 activation=2 mode=00010801 reference=0
  in abis 1 1 0822010b080000 # call 1; CHANNEL ACTIVATION ACK tn=3 frame=0
  event confirm 1/1/3 -> owned 1 # call 1
  event look 1 -> record 0/0/3 on internal confirmed 1/1/3 0 # call 1
  event command 1 -> done # call 1
  out abis 0 0 0301010b02000b0009062bd5670ba36b0005 # call 1; DATA REQUEST tn=3 link=0 layer3=062bd5670ba36b0005; HANDOVER COMMAND arfcn=871 ncc=2 bcc=5 tn=3 tsc=5 carrier=875 reference=0 atc=0 power=5
  in abis 0 0 0302010b02000b0003062801 # call 1; DATA INDICATION tn=3 link=0 layer3=062801; HANDOVER FAILURE cause=1; abnormal release, unspecified
  event owner 0/0/3 -> owned 1 # call 1
  event look 1 -> record 0/0/3 on internal commanded 1/1/3 0 # call 1
  event undo 1 asked -> record 0/0/3 on internal commanded 1/1/3 0 # call 1
  out abis 1 1 082e010b # call 1; RF CHANNEL RELEASE tn=3
  in abis 1 1 0833010b # call 1; RF CHANNEL RELEASE ACK tn=3
  event released 1/1/3 -> done # call 1
  end channels=1 calls=1 references=0 timers=0 # this is left

Nothing comes of these inputs, of a fault does.

  $ cat >script.txt <<'END'
  > open 1 0 0 3
  > abis 0 0 0821010b0300060400010801
  > a 1 00011b
  > handover 1 99
  > seize 3 99 full
  > abis 0 0 08
  > a 2 000121
  > abis 0 0 0822010b08
  > END
  $ ./lab run examples/two_cells.toml script.txt --words
  script.txt:4: this line has no effect: the site has no cell 99
  script.txt:5: this line has no effect: the site has no cell 99
  script.txt:7: this line has no effect: there is no call 2
  in open 1 0 0 3 # call 1
  event open 1 0/0/3 -> done # call 1
  out abis 0 0 0821010b0300060400010801 # call 1; CHANNEL ACTIVATION tn=3 activation=0 mode=00010801 reference=-
  in abis 0 0 0821010b0300060400010801 # call 1; CHANNEL ACTIVATION tn=3 activation=0 mode=00010801 reference=-; ignored: no row
  in a 1 00011b # call 1; HANDOVER DETECT; ignored: no row
  in handover 1 99 # call 1; ignored: no such cell
  in seize 3 99 full # call 3; ignored: no such cell
  none free 99 # call 3
  in abis 0 0 08 # no call
  fault abis 5 1 # no call; an element is cut at offset 1
  in a 2 000121 # call 2; CLEAR COMPLETE; ignored: no row
  in abis 0 0 0822010b08 # call 1
  fault abis 5 4 # call 1; an element is cut at offset 4
  end channels=1 calls=1 references=0 timers=0 # this is left

Octets that are too long are about the channel that their first element names.

  $ printf 'open 1 0 0 3\nabis 0 0 0822010b%02042d\n' 0 >script.txt
  $ ./lab run examples/two_cells.toml script.txt --words | grep ^fault
  fault abis 6 # call 1;* (glob)
  $ printf 'open 1 0 0 3\nabis 0 0 08220108%02042d\n' 0 >script.txt
  $ ./lab run examples/two_cells.toml script.txt --words | grep ^fault
  fault abis 6 # no call;* (glob)
  $ printf 'open 1 0 0 3\nabis 0 0 0822020b%02042d\n' 0 >script.txt
  $ ./lab run examples/two_cells.toml script.txt --words | grep ^fault
  fault abis 6 # no call;* (glob)
  $ printf 'open 1 0 0 3\nabis 0 0 0f01010b%02042d\n' 0 >script.txt
  $ ./lab run examples/two_cells.toml script.txt --words | grep ^fault
  fault abis 6 # no call;* (glob)
  $ printf 'open 1 0 0 3\nabis 0 0 082208123401%02042d\n' 0 >script.txt
  $ ./lab run examples/two_cells.toml script.txt --words | grep ^fault
  fault abis 6 # no call;* (glob)

What the book holds stands behind each input, and behind the end.

  $ cat >script.txt <<'END'
  > open 1 0 0 3
  > abis 0 0 0822010b080000
  > handover 1 1
  > a 1 00011b
  > abis 1 1 0822010b080000
  > undo 1
  > abis 1 1 0833010b
  > handover 1 64
  > END
  $ ./lab run examples/two_cells.toml script.txt --words --state | grep -E '^(in|state|end) '
  in open 1 0 0 3 # call 1
  state channel 0/0/3 pending call 1
  state call 1 record 0/0/3 pending
  in abis 0 0 0822010b080000 # call 1; CHANNEL ACTIVATION ACK tn=3 frame=0
  state channel 0/0/3 on call 1
  state call 1 record 0/0/3 on
  in handover 1 1 # call 1
  state channel 0/0/3 on call 1
  state channel 1/1/3 pending call 1
  state call 1 record 0/0/3 on internal sent 1/1/3 0
  state reference 1 0 call 1
  in a 1 00011b # call 1; HANDOVER DETECT; ignored: no row
  state channel 0/0/3 on call 1
  state channel 1/1/3 pending call 1
  state call 1 record 0/0/3 on internal sent 1/1/3 0
  state reference 1 0 call 1
  in abis 1 1 0822010b080000 # call 1; CHANNEL ACTIVATION ACK tn=3 frame=0
  state channel 0/0/3 on call 1
  state channel 1/1/3 on call 1
  state call 1 record 0/0/3 on internal commanded 1/1/3 0
  state reference 1 0 call 1
  state timer T3103 call 1
  in undo 1 # call 1
  state channel 0/0/3 on call 1
  state channel 1/1/3 off
  state call 1 record 0/0/3 on
  in abis 1 1 0833010b # call 1; RF CHANNEL RELEASE ACK tn=3
  state channel 0/0/3 on call 1
  state call 1 record 0/0/3 on
  in handover 1 64 # call 1
  state channel 0/0/3 on call 1
  state call 1 record 0/0/3 on outgoing required - -
  state timer T7 call 1
  end channels=1 calls=1 references=0 timers=1 # this is left
  state channel 0/0/3 on call 1
  state call 1 record 0/0/3 on outgoing required - -
  state timer T7 call 1

Whose a line is: a message about a channel that no call has; a handover that finds no channel; a timer that isn't armed.

  $ cat >script.txt <<'END'
  > abis 0 0 0833010b
  > open 1 0 0 3
  > abis 0 0 0822010b080000
  > open 2 1 1 3
  > handover 1 1
  > expire 1 T3103
  > undo 3
  > END
  $ ./lab run examples/two_cells.toml script.txt --words | grep -v -e '^out' -e '^in open' -e '^event open'
  script.txt:7: this line has no effect: there is no call 3
  in abis 0 0 0833010b # no call; RF CHANNEL RELEASE ACK tn=3; ignored: this stage doesn't expect it
  event released 0/0/3 -> refused 8 0/0/3 # no call; Unexpected: no call has this channel, or it doesn't wait for this message of its station
  in abis 0 0 0822010b080000 # call 1; CHANNEL ACTIVATION ACK tn=3 frame=0
  event confirm 0/0/3 -> owned 1 # call 1
  event look 1 -> record 0/0/3 on # call 1
  in handover 1 1 # call 1
  event look 1 -> record 0/0/3 on # call 1
  none free 1 # call 1
  in expire 1 T3103 # call 1; ignored: nothing changes
  event undo 1 t3103 -> refused 9 # call 1; NotArmed: the timer isn't armed for the call
  in undo 3 # call 3; ignored: nothing changes
  event undo 3 asked -> refused 1 # call 3; NoCall: there is no such call
  end channels=2 calls=2 references=0 timers=0 # this is left

A call that was to leave comes back: the causes of what is sent, and that of the radio path which is passed on.

  $ cat >script.txt <<'END'
  > open 1 0 0 3
  > abis 0 0 0822010b080000
  > handover 1 64
  > a 1 000c131709062bd5670ba36b2a05
  > abis 0 0 0302010b02000b0003062803
  > a 1 0005200401098f
  > END
  $ ./lab run examples/two_cells.toml script.txt --words | grep -e ' a 1 '
  out a 1 000c1104010c1b1a050100170066 # call 1; HANDOVER REQUIRED cause=12 response=1 cells=23/102; better cell
  in a 1 000c131709062bd5670ba36b2a05 # call 1; HANDOVER COMMAND layer3=062bd5670ba36b2a05; HANDOVER COMMAND arfcn=871 ncc=2 bcc=5 tn=3 tsc=5 carrier=875 reference=42 atc=0 power=5
  out a 1 00061604010a1503 # call 1; HANDOVER FAILURE cause=10 rr=3; radio interface failure, reversion to old channel; abnormal release, timer expired
  in a 1 0005200401098f # call 1; CLEAR COMMAND cause=9; call control
  out a 1 000121 # call 1; CLEAR COMPLETE

Of two controllers each has its own channels. A half has a call of its own, also where octets are cut behind its number; the
other half has none, nor has a channel number of another type (TS 48.058 clause 9.3.1).

  $ cat >script.txt <<'END'
  > 2: open 7 0 0 3/1
  > 2: abis 0 0 0824011b1a0101
  > 2: abis 0 0 0824011b
  > 2: abis 0 0 08240113
  > 2: abis 0 0 08240123
  > open 1 0 0 1
  > abis 0 0 08330109
  > END
  $ ./lab run examples/one_cell.toml script.txt --peer examples/half_rate.toml --words | grep ': in '
  2: in open 7 0 0 3/1 # call 7
  2: in abis 0 0 0824011b1a0101 # call 7; CONNECTION FAILURE INDICATION tn=3/1 cause=1; radio link failure
  2: in abis 0 0 0824011b # call 7
  2: in abis 0 0 08240113 # no call
  2: in abis 0 0 08240123 # no call
  1: in open 1 0 0 1 # call 1
  1: in abis 0 0 08330109 # call 1; RF CHANNEL RELEASE ACK tn=1; ignored: this stage doesn't expect it
