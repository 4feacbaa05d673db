The layer 3 of a message on Abis may stand in words behind it, with ; and a blank in front, in place of the field layer3.

  $ ./lab encode abis 'DATA INDICATION tn=1 link=0; HANDOVER COMPLETE cause=0'
  0302010902000b0003062c00
  $ ./lab encode abis 'DATA INDICATION link=0 tn=1; HANDOVER FAILURE cause=0x0a'
  0302010902000b000306280a
  $ ./lab encode abis 'DATA REQUEST tn=3 link=0; HANDOVER COMMAND arfcn=871 ncc=2 bcc=5 tn=3 tsc=5 carrier=875 reference=42 atc=0 power=5'
  0301010b02000b0009062bd5670ba36b2a05
  $ ./lab encode abis 'MEASUREMENT RESULT tn=3 number=0 uplink=001e00 power=0; MEASUREMENT REPORT ba=0 dtx=0 full=30 ba3g=0 valid=1 sub=30 si23=0 qfull=0 qsub=0 count=1 n=40/2/21'
  0828010b1b001903001e0004000b001206151e1e006812a000000000000000000000

Only a message that has layer 3 has it in words.

  $ ./lab encode abis 'RF CHANNEL RELEASE tn=3; CHANNEL RELEASE cause=0' 2>&1 >>printed
  "RF CHANNEL RELEASE" is no message that has layer 3
  [2]
  $ ./lab encode abis 'DATA INDICATION tn=1 link=0; HANDOVER COMPLET cause=0' 2>&1 >>printed
  "HANDOVER COMPLET" is no radio resource message
  [2]
  $ ./lab encode abis 'DATA INDICATION tn=1 link=0 layer3=062c00; HANDOVER COMPLETE cause=0' 2>&1 >>printed
  "layer3=062c00" is no field of the message: bsc_lab help encode lists the fields
  [2]
  $ ./lab encode abis 'DATA INDICATION tn=9 link=0; HANDOVER COMPLETE cause=256' 2>&1 >>printed
  cause is 0 to 255, found "256"
  [2]
  $ ./lab encode abis 'DATA INDICATION tn=9 link=0; HANDOVER COMPLETE cause=0' 2>&1 >>printed
  tn is 0 to 7, with /0 or /1 at the end for half rate, found "9"
  [2]
  $ cat printed

A cause is read in hexadecimal, too, behind 0x and in two digits.

  $ ./lab encode a 'CLEAR COMMAND cause=0x20'
  000420040120
  $ ./lab encode abis 'CONNECTION FAILURE INDICATION tn=1 cause=0X01' 2>&1 >>printed
  cause is 0 to 255, found "0X01"
  [2]
  $ ./lab encode abis 'CONNECTION FAILURE INDICATION tn=1 cause=0x1' 2>&1 >>printed
  cause is 0 to 255, found "0x1"
  [2]
  $ ./lab encode rr 'CHANNEL RELEASE cause=0xAb'
  060dab

So it is in scripts.

  $ printf 'open 1 0 0 3\nabis 0 0 CHANNEL ACTIVATION ACK tn=3 frame=0\nhandover 1 1\nabis 1 1 CHANNEL ACTIVATION ACK tn=3 frame=0\nabis 1 1 HANDOVER DETECTION tn=3 delay=0\nabis 1 1 DATA INDICATION tn=3 link=0; HANDOVER COMPLETE cause=0x00\n' > came.txt
  $ ./lab run examples/two_cells.toml came.txt | grep -A3 '^in abis 1 1 03'
  in abis 1 1 0302010b02000b0003062c00
  event owner 1/1/3 -> owned 1
  event look 1 -> record 0/0/3 on internal detected 1/1/3 0
  event complete 1 -> done
  $ printf 'open 1 0 0 3\nabis 1 1 DATA INDICATION tn=3 link=0; HANDOVER COMPLET cause=0\n' > wrong.txt
  $ ./lab run examples/two_cells.toml wrong.txt 2>&1
  wrong.txt:2: "HANDOVER COMPLET" is no radio resource message
  line 2
  [2]
  $ printf 'abis 1 1 MEASUREMENT RESULT tn=3 number=0 uplink= power=0; MEASUREMENT REPORT ba=0 dtx=0 full=30 ba3g=0 valid=1 sub=30 si23=0 qfull=0 qsub=0 count=2 n=40/2/21\n' > short.txt
  $ ./lab run examples/two_cells.toml short.txt 2>&1
  short.txt:1: count is 2, but n is given 1 times (none with count 7)
  line 1
  [2]
