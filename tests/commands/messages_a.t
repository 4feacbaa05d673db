Messages on A (TS 48.008 clause 3.2): what is read of the octets of each, and the octets that are written for it.

  $ ./lab decode a 0019100b030108010a01011d330505010017006605050100170065
  HANDOVER REQUEST channel=010801 encryption=01 classmark=33 serving=23/102 target=23/101
  $ ./lab encode a "HANDOVER REQUEST channel=010801 encryption=01 classmark=33 serving=23/102 target=23/101"
  0019100b030108010a01011d330505010017006605050100170065
  $ ./lab decode a 001c100b030108010a010112033319810505010017006605050100170065
  HANDOVER REQUEST channel=010801 encryption=01 classmark=331981 serving=23/102 target=23/101
  $ ./lab encode a "HANDOVER REQUEST channel=010801 encryption=01 classmark=331981 serving=23/102 target=23/101"
  001c100b030108010a010112033319810505010017006605050100170065
  $ ./lab decode a 000c1104010c1b1a050100170066
  HANDOVER REQUIRED cause=12 response=1 cells=23/102
  $ ./lab encode a "HANDOVER REQUIRED cause=12 response=1 cells=23/102"
  000c1104010c1b1a050100170066
  $ ./lab decode a 000c121709062bd5670ba36b0005
  HANDOVER REQUEST ACKNOWLEDGE layer3=062bd5670ba36b0005
  $ ./lab encode a "HANDOVER REQUEST ACKNOWLEDGE layer3=062bd5670ba36b0005"
  000c121709062bd5670ba36b0005
  $ ./lab decode a 000c131709062bd5670ba36b2a05
  HANDOVER COMMAND layer3=062bd5670ba36b2a05
  $ ./lab encode a "HANDOVER COMMAND layer3=062bd5670ba36b2a05"
  000c131709062bd5670ba36b2a05
  $ ./lab decode a 0003141500
  HANDOVER COMPLETE rr=0
  $ ./lab encode a "HANDOVER COMPLETE rr=0"
  0003141500
  $ ./lab decode a 00061604010a1500
  HANDOVER FAILURE cause=10 rr=0
  $ ./lab encode a "HANDOVER FAILURE cause=10 rr=0"
  00061604010a1500
  $ ./lab decode a 000b1704010c05050100170065
  HANDOVER PERFORMED cause=12 cell=23/101
  $ ./lab encode a "HANDOVER PERFORMED cause=12 cell=23/101"
  000b1704010c05050100170065
  $ ./lab decode a 00041a040121
  HANDOVER REQUIRED REJECT cause=33
  $ ./lab encode a "HANDOVER REQUIRED REJECT cause=33"
  00041a040121
  $ ./lab decode a 00011b
  HANDOVER DETECT
  $ ./lab encode a "HANDOVER DETECT"
  00011b
  $ ./lab decode a 000420040109
  CLEAR COMMAND cause=9
  $ ./lab encode a "CLEAR COMMAND cause=9"
  000420040109
  $ ./lab decode a 000121
  CLEAR COMPLETE
  $ ./lab encode a "CLEAR COMPLETE"
  000121
  $ ./lab decode a 000422040120
  CLEAR REQUEST cause=32
  $ ./lab encode a "CLEAR REQUEST cause=32"
  000422040120
  $ ./lab decode a 0019100b030108010a010112000505010017006605050100170065
  HANDOVER REQUEST channel=010801 encryption=01 classmark= serving=23/102 target=23/101
  $ ./lab encode a "HANDOVER REQUEST channel=010801 encryption=01 classmark= serving=23/102 target=23/101"
  0019100b030108010a010112000505010017006605050100170065
  $ ./lab decode a 0019100b030108010a01021d330505010017006605050100170063
  HANDOVER REQUEST channel=010801 encryption=02 classmark=33 serving=23/102 target=23/99
  $ ./lab encode a "HANDOVER REQUEST channel=010801 encryption=02 classmark=33 serving=23/102 target=23/99"
  0019100b030108010a01021d330505010017006605050100170063
  $ ./lab decode a 001c100b0201080a0203ff12033319810505010017006605050100170065
  HANDOVER REQUEST channel=0108 encryption=03ff classmark=331981 serving=23/102 target=23/101
  $ ./lab encode a "HANDOVER REQUEST channel=0108 encryption=03ff classmark=331981 serving=23/102 target=23/101"
  001c100b0201080a0203ff12033319810505010017006605050100170065
  $ ./lab decode a 0018100b0201080a010112000505010017006605050100170065
  HANDOVER REQUEST channel=0108 encryption=01 classmark= serving=23/102 target=23/101
  $ ./lab encode a "HANDOVER REQUEST channel=0108 encryption=01 classmark= serving=23/102 target=23/101"
  0018100b0201080a010112000505010017006605050100170065
  $ ./lab decode a 000f110401211a090100170066ffff0000
  HANDOVER REQUIRED cause=33 response=0 cells=23/102,65535/0
  $ ./lab encode a "HANDOVER REQUIRED cause=33 response=0 cells=23/102,65535/0"
  000f110401211a090100170066ffff0000
  $ ./lab decode a 0006121703062bd5
  HANDOVER REQUEST ACKNOWLEDGE layer3=062bd5
  $ ./lab encode a "HANDOVER REQUEST ACKNOWLEDGE layer3=062bd5"
  0006121703062bd5
  $ ./lab decode a 000413170106
  HANDOVER COMMAND layer3=06
  $ ./lab encode a "HANDOVER COMMAND layer3=06"
  000413170106
  $ ./lab decode a 000114
  HANDOVER COMPLETE rr=-
  $ ./lab encode a "HANDOVER COMPLETE rr=-"
  000114
  $ ./lab decode a 000416040121
  HANDOVER FAILURE cause=33 rr=-
  $ ./lab encode a "HANDOVER FAILURE cause=33 rr=-"
  000416040121
  $ ./lab decode a 00061604010a156f
  HANDOVER FAILURE cause=10 rr=111
  $ ./lab encode a "HANDOVER FAILURE cause=10 rr=111"
  00061604010a156f
  $ ./lab decode a 000b1704010c05050100170066
  HANDOVER PERFORMED cause=12 cell=23/102
  $ ./lab encode a "HANDOVER PERFORMED cause=12 cell=23/102"
  000b1704010c05050100170066
  $ ./lab decode a 000422040100
  CLEAR REQUEST cause=0
  $ ./lab encode a "CLEAR REQUEST cause=0"
  000422040100

Other octets that say a message: spare bits, elements that it has no use for, another order, elements that come again.

  $ ./lab decode a 000716990100040121
  HANDOVER FAILURE cause=33 rr=-
  $ ./lab decode a 0005200401098f
  CLEAR COMMAND cause=9
  $ ./lab decode a 00091604010a400715008c
  HANDOVER FAILURE cause=10 rr=0
  $ ./lab decode a 0003217000
  CLEAR COMPLETE
  $ ./lab decode a 00061b7f01020304
  HANDOVER DETECT
  $ ./lab decode a 000616150004010a
  HANDOVER FAILURE cause=10 rr=0
  $ ./lab decode a 0006200401090400
  CLEAR COMMAND cause=9
  $ ./lab decode a 00052204022007
  CLEAR REQUEST cause=32
  $ ./lab decode a 000416040140
  HANDOVER FAILURE cause=64 rr=-
  $ ./lab encode a "HANDOVER FAILURE cause=64 rr=-"
  000416040140
  $ ./lab decode a 000416040151
  HANDOVER FAILURE cause=81 rr=-
  $ ./lab encode a "HANDOVER FAILURE cause=81 rr=-"
  000416040151
  $ ./lab decode a 000420040120
  CLEAR COMMAND cause=32
  $ ./lab encode a "CLEAR COMMAND cause=32"
  000420040120
  $ ./lab decode a 001c101201090b030108010a01011d330505010017006605050100170065
  HANDOVER REQUEST channel=010801 encryption=01 classmark=33 serving=23/102 target=23/101

Octets that say a message which is written with others, or with none.

  $ ./lab decode a 000f1104010c1a09f10102030405060708
  HANDOVER REQUIRED cause=12 response=0 cells=258/772,1286/1800
  $ ./lab decode a 000e1104010c1a080009090901020304
  HANDOVER REQUIRED cause=12 response=0 cells=258/772
  $ ./lab decode a 00091104010c1a03020506
  HANDOVER REQUIRED cause=12 response=0 cells=-/1286
  $ ./lab decode a 000b1104010c1a051205060506
  HANDOVER REQUIRED cause=12 response=0 cells=-/1286,-/1286

Octets that are no message, and the first thing that is wrong with them.

  $ ./lab decode a "" 2>/dev/null
  fault a 1
  [2]
  $ ./lab decode a 01 2>/dev/null
  fault a 1
  [2]
  $ ./lab decode a 01011b 2>/dev/null
  fault a 1
  [2]
  $ ./lab decode a 00 2>/dev/null
  fault a 2
  [2]
  $ ./lab decode a 0000 2>/dev/null
  fault a 2
  [2]
  $ ./lab decode a 00051b 2>/dev/null
  fault a 2
  [2]
  $ ./lab decode a 00001b 2>/dev/null
  fault a 2
  [2]
  $ ./lab decode a 00021b 2>/dev/null
  fault a 2
  [2]
  $ ./lab decode a 00031b 2>/dev/null
  fault a 2
  [2]
  $ ./lab decode a 000100 2>/dev/null
  fault a 3 0
  [2]
  $ ./lab decode a 000115 2>/dev/null
  fault a 3 21
  [2]
  $ ./lab decode a 00021504 2>/dev/null
  fault a 3 21
  [2]
  $ ./lab decode a 0003160405 2>/dev/null
  fault a 6 3
  [2]
  $ ./lab decode a 0006111b1b040209 2>/dev/null
  fault a 6 5
  [2]
  $ ./lab decode a 00021b15 2>/dev/null
  fault a 6 3
  [2]
  $ ./lab decode a 000116 2>/dev/null
  fault a 4 4
  [2]
  $ ./lab decode a 000110 2>/dev/null
  fault a 4 11
  [2]
  $ ./lab decode a 0005100b020108 2>/dev/null
  fault a 4 10
  [2]
  $ ./lab decode a 0008100b0201080a0101 2>/dev/null
  fault a 4 18
  [2]
  $ ./lab decode a 000a100b0201080a01011200 2>/dev/null
  fault a 4 5
  [2]
  $ ./lab decode a 000411040100 2>/dev/null
  fault a 4 26
  [2]
  $ ./lab decode a 000112 2>/dev/null
  fault a 4 23
  [2]
  $ ./lab decode a 000417040100 2>/dev/null
  fault a 4 5
  [2]
  $ ./lab decode a 0003100a00 2>/dev/null
  fault a 4 11
  [2]
  $ ./lab decode a 0004100b0101 2>/dev/null
  fault a 5 11
  [2]
  $ ./lab decode a 0007100b0201080a00 2>/dev/null
  fault a 5 10
  [2]
  $ ./lab decode a 0003220400 2>/dev/null
  fault a 5 4
  [2]
  $ ./lab decode a 0003131700 2>/dev/null
  fault a 5 23
  [2]
  $ ./lab decode a 0007110401001a0101 2>/dev/null
  fault a 5 26
  [2]
  $ ./lab decode a 0006110401001a00 2>/dev/null
  fault a 5 26
  [2]
  $ ./lab decode a 000a110401001a0401010101 2>/dev/null
  fault a 5 26
  [2]
  $ ./lab decode a 0009170401000503030101 2>/dev/null
  fault a 5 5
  [2]
  $ ./lab decode a 000b1704010005050201010101 2>/dev/null
  fault a 5 5
  [2]
  $ ./lab decode a 0012100b030108010a01011d3305050100170066 2>/dev/null
  fault a 4 5
  [2]
  $ ./lab decode a 0012100b030108010a01011d3305050300170066 2>/dev/null
  fault a 5 5
  [2]
  $ ./lab decode a 0016100b000a01011d330505010017006605050100170065 2>/dev/null
  fault a 5 11
  [2]
  $ ./lab decode a 0018100b030108010a001d330505010017006605050100170065 2>/dev/null
  fault a 5 10
  [2]
  $ ./lab decode a 0014100b030108010a01011d33050005050100170065 2>/dev/null
  fault a 5 5
  [2]
  $ ./lab decode a 0014100b030108010a01011d33050501001700660500 2>/dev/null
  fault a 5 5
  [2]
  $ ./lab decode a 000b1104001b1a050100170066 2>/dev/null
  fault a 5 4
  [2]
  $ ./lab decode a 00071104010c1b1a00 2>/dev/null
  fault a 5 26
  [2]
  $ ./lab decode a 0003121700 2>/dev/null
  fault a 5 23
  [2]
  $ ./lab decode a 00051604001500 2>/dev/null
  fault a 5 4
  [2]
  $ ./lab decode a 000a17040005050100170065 2>/dev/null
  fault a 5 4
  [2]
  $ ./lab decode a 00061704010c0500 2>/dev/null
  fault a 5 5
  [2]
  $ ./lab decode a 00031a0400 2>/dev/null
  fault a 5 4
  [2]
  $ ./lab decode a 0003200400 2>/dev/null
  fault a 5 4
  [2]
