The octets of a message in words are those that decode reads it from, without what the message doesn't use.

  $ ./lab encode rr 'HANDOVER COMMAND arfcn=871 ncc=2 bcc=5 tn=3 tsc=5 carrier=875 reference=42 atc=0 power=5'
  062bd5670ba36b2a05
  $ ./lab encode rr 'HANDOVER COMMAND arfcn=871 ncc=2 bcc=5 tn=3 tsc=5 carrier=875 reference=255 atc=1 power=5'
  062bd5670ba36bff85
  $ ./lab encode rr 'HANDOVER COMPLETE cause=0'
  062c00
  $ ./lab encode rr 'HANDOVER FAILURE cause=10'
  06280a
  $ ./lab encode rr 'CHANNEL RELEASE cause=1'
  060d01
  $ ./lab encode rr 'PHYSICAL INFORMATION ta=63'
  062d3f
  $ ./lab encode rr 'MEASUREMENT REPORT ba=0 dtx=0 full=30 ba3g=0 valid=1 sub=30 si23=0 qfull=0 qsub=0 count=1 n=40/2/21'
  06151e1e006812a000000000000000000000
  $ ./lab encode rr 'MEASUREMENT REPORT ba=0 dtx=0 full=30 ba3g=0 valid=1 sub=30 si23=0 qfull=0 qsub=0 count=7'
  06151e1e01c0000000000000000000000000
  $ ./lab encode rr 'MEASUREMENT REPORT ba=1 dtx=0 full=17 ba3g=0 valid=0 sub=5 si23=1 qfull=3 qsub=4 count=2 n=9/3/44 n=50/30/7'
  06159145b8891d9978700000000000000000
  $ ./lab encode rr 'MEASUREMENT REPORT ba=1 dtx=1 full=63 ba3g=1 valid=0 sub=63 si23=1 qfull=7 qsub=7 count=6 n=63/31/63 n=63/31/63 n=63/31/63 n=63/31/63 n=63/31/63 n=63/31/63'
  0615ffffffbfffffffffffffffffffffffff
  $ ./lab encode abis 'DATA REQUEST tn=3 link=0 layer3=0628'
  0301010b02000b00020628
  $ ./lab encode abis 'DATA INDICATION tn=7 link=33 layer3=ff'
  0302010f02210b0001ff
  $ ./lab encode abis 'CHANNEL ACTIVATION tn=3 activation=2 mode=00010801 reference=42'
  0821010b0302060400010801092a
  $ ./lab encode abis 'CHANNEL ACTIVATION tn=0 activation=0 mode=ab reference=-'
  0821010803000601ab
  $ ./lab encode abis 'CHANNEL ACTIVATION ACK tn=3 frame=4660'
  0822010b081234
  $ ./lab encode abis 'CHANNEL ACTIVATION NACK tn=2 cause=32'
  0823010a1a0120
  $ ./lab encode abis 'CONNECTION FAILURE INDICATION tn=1 cause=1'
  082401091a0101
  $ ./lab encode abis 'HANDOVER DETECTION tn=3 delay=2'
  0827010b1102
  $ ./lab encode abis 'HANDOVER DETECTION tn=3 delay=-'
  0827010b
  $ ./lab encode abis 'MEASUREMENT RESULT tn=3 number=0 uplink=001e00 power=0 layer3=06151e1e006812a000000000000000000000'
  0828010b1b001903001e0004000b001206151e1e006812a000000000000000000000
  $ ./lab encode abis 'MEASUREMENT RESULT tn=3 number=5 uplink= power=255 layer3=-'
  0828010b1b05190004ff
  $ ./lab encode abis 'RF CHANNEL RELEASE tn=4'
  082e010c
  $ ./lab encode abis 'RF CHANNEL RELEASE ACK tn=3'
  0833010b
  $ ./lab encode a 'HANDOVER REQUEST ACKNOWLEDGE layer3=062bd5'
  0006121703062bd5
  $ ./lab encode a 'HANDOVER COMMAND layer3=06'
  000413170106
  $ ./lab encode a 'HANDOVER COMPLETE rr=-'
  000114
  $ ./lab encode a 'HANDOVER COMPLETE rr=0'
  0003141500
  $ ./lab encode a 'HANDOVER FAILURE cause=33 rr=-'
  000416040121
  $ ./lab encode a 'HANDOVER FAILURE cause=10 rr=111'
  00061604010a156f
  $ ./lab encode a 'HANDOVER PERFORMED cause=12 cell=23/102'
  000b1704010c05050100170066
  $ ./lab encode a 'HANDOVER REQUIRED REJECT cause=33'
  00041a040121
  $ ./lab encode a 'HANDOVER DETECT'
  00011b
  $ ./lab encode a 'CLEAR COMMAND cause=9'
  000420040109
  $ ./lab encode a 'CLEAR COMPLETE'
  000121
  $ ./lab encode a 'CLEAR REQUEST cause=0'
  000422040100
  $ ./lab encode a 'HANDOVER REQUEST channel=010801 encryption=01 classmark=33 serving=23/102 target=23/101'
  0019100b030108010a01011d330505010017006605050100170065
  $ ./lab encode a 'HANDOVER REQUEST channel=0108 encryption=01 classmark= serving=23/102 target=23/101'
  0018100b0201080a010112000505010017006605050100170065
  $ ./lab encode a 'HANDOVER REQUIRED cause=12 response=1 cells=23/102'
  000c1104010c1b1a050100170066
  $ ./lab encode a 'HANDOVER REQUIRED cause=33 response=0 cells=23/102,65535/0'
  000f110401211a090100170066ffff0000
  $ ./lab encode a 'CLEAR COMMAND cause=9'
  000420040109

What isn't written comes back, too.

  $ ./lab decode rr 062bd5670ba36bff85
  HANDOVER COMMAND arfcn=871 ncc=2 bcc=5 tn=3 tsc=5 carrier=875 reference=255 atc=1 power=5
  $ ./lab decode rr 06151e1e01c0000000000000000000000000
  MEASUREMENT REPORT ba=0 dtx=0 full=30 ba3g=0 valid=1 sub=30 si23=0 qfull=0 qsub=0 count=7
  $ ./lab decode rr 0615ffffffbfffffffffffffffffffffffff
  MEASUREMENT REPORT ba=1 dtx=1 full=63 ba3g=1 valid=0 sub=63 si23=1 qfull=7 qsub=7 count=6 n=63/31/63 n=63/31/63 n=63/31/63 n=63/31/63 n=63/31/63 n=63/31/63
  $ ./lab decode abis 0302010f02210b0001ff
  DATA INDICATION tn=7 link=33 layer3=ff
  $ ./lab decode abis 082401091a0101
  CONNECTION FAILURE INDICATION tn=1 cause=1
  $ ./lab decode a 000416040121
  HANDOVER FAILURE cause=33 rr=-
  $ ./lab decode a 000420040109
  CLEAR COMMAND cause=9

A text that is no message, or can't be written, is refused with a reason on standard error.

  $ ./lab encode rr 'CLEAR COMPLETE' 2>&1 >>printed
  "CLEAR COMPLETE" is no message of the link rr: write a name and then fields as KEY=VALUE; bsc_lab help encode lists both
  [2]
  $ ./lab encode a 'CLEAR cause=9' 2>&1 >>printed
  "CLEAR" is no message of the link a: write a name and then fields as KEY=VALUE; bsc_lab help encode lists both
  [2]
  $ ./lab encode abis '' 2>&1 >>printed
  "" is no message of the link abis: write a name and then fields as KEY=VALUE; bsc_lab help encode lists both
  [2]
  $ ./lab encode abis 'RF CHANNEL RELEASE tn 3' 2>&1 >>printed
  "RF CHANNEL RELEASE tn 3" is no message of the link abis: write a name and then fields as KEY=VALUE; bsc_lab help encode lists both
  [2]
  $ ./lab encode abis 'RF CHANNEL RELEASE tn=3 frame=4660' 2>&1 >>printed
  "frame=4660" is no field of the message: bsc_lab help encode lists the fields
  [2]
  $ ./lab encode a "$(printf 'CLEAR COMPLETE rr=\033')" 2>&1 >>printed
  "rr=\u{1b}" is no field of the message: bsc_lab help encode lists the fields
  [2]
  $ ./lab encode a 'CLEAR COMMAND' 2>&1 >>printed
  cause is missing: bsc_lab help encode lists the fields
  [2]
  $ ./lab encode a 'CLEAR COMMAND cause=9 cause=9' 2>&1 >>printed
  cause is given twice
  [2]
  $ ./lab encode rr 'HANDOVER COMPLETE cause=256' 2>&1 >>printed
  cause is 0 to 255, found "256"
  [2]
  $ ./lab encode rr 'MEASUREMENT REPORT ba=0 dtx=0 full=30 ba3g=0 valid=1 sub=30 si23=0 qfull=0 qsub=0 count=1' 2>&1 >>printed
  count is 1, but n is given 0 times (none with count 7)
  [2]
  $ ./lab encode abis 'RF CHANNEL RELEASE tn=8' 2>&1 >>printed
  tn is 0 to 7, with /0 or /1 at the end for half rate, found "8"
  [2]
  $ ./lab encode a CLEAR 2>&1 >>printed
  "CLEAR" is no message of the link a: write a name and then fields as KEY=VALUE; bsc_lab help encode lists both
  [2]

A cell is read without its location area, but isn't written so.

  $ ./lab encode a 'HANDOVER PERFORMED cause=12 cell=-/102' 2>&1 >>printed
  cell is a cell with its location area, as in 23/102, found "-/102"
  [2]
  $ ./lab encode a 'HANDOVER REQUEST channel=0108 encryption=03ff classmark=331981 serving=-/102 target=23/101' 2>&1 >>printed
  serving is a cell with its location area, as in 23/102, found "-/102"
  [2]
  $ ./lab encode a 'HANDOVER REQUIRED cause=12 response=0 cells=-/102,-/101,-/99' 2>&1 >>printed
  cells is *, found "-/102,-/101,-/99" (glob)
  [2]
  $ cat printed
