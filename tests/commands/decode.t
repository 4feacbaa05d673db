Radio resource messages; the second has spare bits, and octets behind it.

  $ ./lab decode rr 062BD5670BA36B2A05
  HANDOVER COMMAND arfcn=871 ncc=2 bcc=5 tn=3 tsc=5 carrier=875 reference=42 atc=0 power=5
  $ ./lab decode rr 062bd5670baf6bffe50909
  HANDOVER COMMAND arfcn=871 ncc=2 bcc=5 tn=3 tsc=5 carrier=875 reference=255 atc=1 power=5
  $ ./lab decode rr 062c00
  HANDOVER COMPLETE cause=0
  $ ./lab decode rr 06280a
  HANDOVER FAILURE cause=10
  $ ./lab decode rr 060d01
  CHANNEL RELEASE cause=1
  $ ./lab decode rr 062d3f
  PHYSICAL INFORMATION ta=63

Measurement reports: with one neighbour; with a count of 7, and none; with two; with all bits that a report has, and one
octet behind it.

  $ ./lab decode rr 06151E1E006812A000000000000000000000
  MEASUREMENT REPORT ba=0 dtx=0 full=30 ba3g=0 valid=1 sub=30 si23=0 qfull=0 qsub=0 count=1 n=40/2/21
  $ ./lab decode rr 06151E1E01E812A000000000000000000000
  MEASUREMENT REPORT ba=0 dtx=0 full=30 ba3g=0 valid=1 sub=30 si23=0 qfull=0 qsub=0 count=7
  $ ./lab decode rr 06159145b8891d9978700000000000000000
  MEASUREMENT REPORT ba=1 dtx=0 full=17 ba3g=0 valid=0 sub=5 si23=1 qfull=3 qsub=4 count=2 n=9/3/44 n=50/30/7
  $ ./lab decode rr 0615ffffffbfffffffffffffffffffffffff00
  MEASUREMENT REPORT ba=1 dtx=1 full=63 ba3g=1 valid=0 sub=63 si23=1 qfull=7 qsub=7 count=6 n=63/31/63 n=63/31/63 n=63/31/63 n=63/31/63 n=63/31/63 n=63/31/63

Messages on Abis.

  $ ./lab decode abis 0301010b02000b00020628
  DATA REQUEST tn=3 link=0 layer3=0628
  $ ./lab decode abis 0202010f02210b0001ff
  DATA INDICATION tn=7 link=33 layer3=ff
  $ ./lab decode abis 0821010B0302060400010801092A
  CHANNEL ACTIVATION tn=3 activation=2 mode=00010801 reference=42
  $ ./lab decode abis 0821010803000601AB
  CHANNEL ACTIVATION tn=0 activation=0 mode=ab reference=-
  $ ./lab decode abis 0822010b081234
  CHANNEL ACTIVATION ACK tn=3 frame=4660
  $ ./lab decode abis 0823010a1a0120
  CHANNEL ACTIVATION NACK tn=2 cause=32
  $ ./lab decode abis 082401091a020109
  CONNECTION FAILURE INDICATION tn=1 cause=1
  $ ./lab decode abis 0827010b1102
  HANDOVER DETECTION tn=3 delay=2
  $ ./lab decode abis 0827010b
  HANDOVER DETECTION tn=3 delay=-
  $ ./lab decode abis 0828010b1b001903001e0004000b001206151e1e006812a000000000000000000000
  MEASUREMENT RESULT tn=3 number=0 uplink=001e00 power=0 layer3=06151e1e006812a000000000000000000000
  $ ./lab decode abis 0828010b1b05190004ff
  MEASUREMENT RESULT tn=3 number=5 uplink= power=255 layer3=-
  $ ./lab decode abis 082e010c
  RF CHANNEL RELEASE tn=4
  $ ./lab decode abis 0833010b
  RF CHANNEL RELEASE ACK tn=3

Messages on A. In the fifth an element that no message has comes first.

  $ ./lab decode a 0006121703062bd5
  HANDOVER REQUEST ACKNOWLEDGE layer3=062bd5
  $ ./lab decode a 000413170106
  HANDOVER COMMAND layer3=06
  $ ./lab decode a 000114
  HANDOVER COMPLETE rr=-
  $ ./lab decode a 0003141500
  HANDOVER COMPLETE rr=0
  $ ./lab decode a 000716990100040121
  HANDOVER FAILURE cause=33 rr=-
  $ ./lab decode a 00061604010a156f
  HANDOVER FAILURE cause=10 rr=111
  $ ./lab decode a 000b1704010c05050100170066
  HANDOVER PERFORMED cause=12 cell=23/102
  $ ./lab decode a 00091704010c0503020066
  HANDOVER PERFORMED cause=12 cell=-/102
  $ ./lab decode a 00041a040121
  HANDOVER REQUIRED REJECT cause=33
  $ ./lab decode a 00011b
  HANDOVER DETECT
  $ ./lab decode a 0005200401098F
  CLEAR COMMAND cause=9
  $ ./lab decode a 000121
  CLEAR COMPLETE
  $ ./lab decode a 000422040100
  CLEAR REQUEST cause=0

Messages on A with a list of octets or of cells: with a classmark 1; with a classmark 2, a cell by its identity alone,
and one with its network; with an empty classmark 2; and with lists of cells.

  $ ./lab decode a 0019100b030108010a01011d330505010017006605050100170065
  HANDOVER REQUEST channel=010801 encryption=01 classmark=33 serving=23/102 target=23/101
  $ ./lab decode a 001d100b0201080a0203ff1203331981050302006605080062f21000170065
  HANDOVER REQUEST channel=0108 encryption=03ff classmark=331981 serving=-/102 target=23/101
  $ ./lab decode a 0018100b0201080a010112000505010017006605050100170065
  HANDOVER REQUEST channel=0108 encryption=01 classmark= serving=23/102 target=23/101
  $ ./lab decode a 000c1104010c1b1a050100170066
  HANDOVER REQUIRED cause=12 response=1 cells=23/102
  $ ./lab decode a 000f110401211a090100170066ffff0000
  HANDOVER REQUIRED cause=33 response=0 cells=23/102,65535/0
  $ ./lab decode a 000d1104010c1a0702006600650063
  HANDOVER REQUIRED cause=12 response=0 cells=-/102,-/101,-/99

Octets that are no radio resource message. The fifth are fifteen octets of measurement results.

  $ ./lab decode rr '' 2>/dev/null
  fault rr 1
  [2]
  $ ./lab decode rr 05 2>/dev/null
  fault rr 1
  [2]
  $ ./lab decode rr 06ff 2>/dev/null
  fault rr 2 255
  [2]
  $ ./lab decode rr 06 2>/dev/null
  fault rr 3
  [2]
  $ ./lab decode rr 06151e1e006812a0000000000000000000 2>/dev/null
  fault rr 3
  [2]
  $ ./lab decode rr 062BD56723A36B2A05 2>/dev/null
  fault rr 4 2
  [2]
  $ ./lab decode rr 062BD5670BB36B2A05 2>/dev/null
  fault rr 4 3
  [2]

Octets that are no message on A. The eighth have one cell of two, the ninth no classmark; the last are one octet more than a
message has.

  $ ./lab decode a '' 2>/dev/null
  fault a 1
  [2]
  $ ./lab decode a 01 2>/dev/null
  fault a 1
  [2]
  $ ./lab decode a 00 2>/dev/null
  fault a 2
  [2]
  $ ./lab decode a 0000 2>/dev/null
  fault a 2
  [2]
  $ ./lab decode a 00051b 2>/dev/null
  fault a 2
  [2]
  $ ./lab decode a 0001ff 2>/dev/null
  fault a 3 255
  [2]
  $ ./lab decode a 000116 2>/dev/null
  fault a 4 4
  [2]
  $ ./lab decode a 0012100B030108010A01011D3305050100170066 2>/dev/null
  fault a 4 5
  [2]
  $ ./lab decode a 0016100b0201080a01010505010017006605050100170065 2>/dev/null
  fault a 4 18
  [2]
  $ ./lab decode a 0003160400 2>/dev/null
  fault a 5 4
  [2]
  $ ./lab decode a 0003160405 2>/dev/null
  fault a 6 3
  [2]
  $ ./lab decode a "00fe21$(printf '00%.0s' $(seq 253))" 2>/dev/null
  fault a 2
  [2]

Octets that are no message on Abis; the last are one octet more than a message has.

  $ ./lab decode abis '' 2>/dev/null
  fault abis 1
  [2]
  $ ./lab decode abis 04 2>/dev/null
  fault abis 1
  [2]
  $ ./lab decode abis 08ff 2>/dev/null
  fault abis 2 255
  [2]
  $ ./lab decode abis 0822010b 2>/dev/null
  fault abis 3 8
  [2]
  $ ./lab decode abis 08330100 2>/dev/null
  fault abis 4 1
  [2]
  $ ./lab decode abis 08 2>/dev/null
  fault abis 5 1
  [2]
  $ ./lab decode abis 082201 2>/dev/null
  fault abis 5 2
  [2]
  $ ./lab decode abis "$(printf '08%.0s' $(seq 1025))" 2>/dev/null
  fault abis 6
  [2]

Texts that are not hexadecimal, on each link.

  $ ./lab decode rr 0g 2>/dev/null
  hex
  [2]
  $ ./lab decode rr 0 2>/dev/null
  hex
  [2]
  $ ./lab decode rr 082 2>/dev/null
  hex
  [2]
  $ ./lab decode rr '06 2c00' 2>/dev/null
  hex
  [2]
  $ ./lab decode rr '062c00 ' 2>/dev/null
  hex
  [2]
  $ ./lab decode rr 0x062c 2>/dev/null
  hex
  [2]
  $ ./lab decode rr -- -1 2>/dev/null
  hex
  [2]
  $ ./lab decode rr 'é' 2>/dev/null
  hex
  [2]
  $ ./lab decode a 0g 2>/dev/null
  hex
  [2]
  $ ./lab decode a 0 2>/dev/null
  hex
  [2]
  $ ./lab decode a 082 2>/dev/null
  hex
  [2]
  $ ./lab decode a '06 2c00' 2>/dev/null
  hex
  [2]
  $ ./lab decode a '062c00 ' 2>/dev/null
  hex
  [2]
  $ ./lab decode a 0x062c 2>/dev/null
  hex
  [2]
  $ ./lab decode a -- -1 2>/dev/null
  hex
  [2]
  $ ./lab decode a 'é' 2>/dev/null
  hex
  [2]
  $ ./lab decode abis 0g 2>/dev/null
  hex
  [2]
  $ ./lab decode abis 0 2>/dev/null
  hex
  [2]
  $ ./lab decode abis 082 2>/dev/null
  hex
  [2]
  $ ./lab decode abis '06 2c00' 2>/dev/null
  hex
  [2]
  $ ./lab decode abis '062c00 ' 2>/dev/null
  hex
  [2]
  $ ./lab decode abis 0x062c 2>/dev/null
  hex
  [2]
  $ ./lab decode abis -- -1 2>/dev/null
  hex
  [2]
  $ ./lab decode abis 'é' 2>/dev/null
  hex
  [2]

Why octets are refused stands on standard error, as explain says it.

  $ ./lab decode rr 062c00
  HANDOVER COMPLETE cause=0
  $ ./lab decode abis 082e010b
  RF CHANNEL RELEASE tn=3
  $ ./lab decode a 0005200401098f
  CLEAR COMMAND cause=9
  $ ./lab decode rr 06ff 2>errors
  fault rr 2 255
  [2]
  $ cat errors
  unknown type: FF
  $ ./lab decode rr '' 2>errors
  fault rr 1
  [2]
  $ cat errors
  no message of this link
  $ ./lab decode abis 0822010b 2>errors
  fault abis 3 8
  [2]
  $ cat errors
  an element is missing: identifier 08
  $ ./lab decode rr 062 2>errors
  hex
  [2]
  $ cat errors
  *nothing may separate octets: the last octet has only one (glob)
  $ ./lab decode rr 0g1 2>errors
  hex
  [2]
  $ cat errors
  *nothing may separate octets: character 2 is 'g' (glob)
  $ ./lab decode rr "$(printf '0\342\240\200\033')" 2>errors
  hex
  [2]
  $ cat errors
  *nothing may separate octets: character 2 is '\\u{2800}' (glob)
  $ ./lab decode abis 0g 2>errors
  hex
  [2]
  $ cat errors
  *nothing may separate octets: character 2 is 'g' (glob)

Lines of standard input and of a file.

  $ printf 'rr 06 2c 00 77 # note' >lines.txt
  $ ./lab decode --from - <lines.txt 2>errors
  1 HANDOVER COMPLETE cause=0 # note
  $ cat errors
  -: messages 1, refused 0
  $ ./lab decode --from - --all <lines.txt 2>errors
  1 HANDOVER COMPLETE cause=0 rest=77 # note
  $ cat errors
  -: messages 1, refused 0
  $ ./lab decode a --from - <lines.txt 2>errors
  1 hex # note
  [2]
  $ cat errors
  -: messages 0, refused 1
  $ ./lab decode rr --from 'no file' 2>errors
  file no file
  [2]
  $ cat errors
  no file: no such file
