Messages on Abis (TS 48.058 clauses 8 and 9): what is read of the octets of each, and the octets that are written for it.

  $ ./lab decode abis 0301010b02000b0003060d00
  DATA REQUEST tn=3 link=0 layer3=060d00
  $ ./lab encode abis "DATA REQUEST tn=3 link=0 layer3=060d00"
  0301010b02000b0003060d00
  $ ./lab decode abis 0302010b02000b0003062c00
  DATA INDICATION tn=3 link=0 layer3=062c00
  $ ./lab encode abis "DATA INDICATION tn=3 link=0 layer3=062c00"
  0302010b02000b0003062c00
  $ ./lab decode abis 0821010b0302060400010801092a
  CHANNEL ACTIVATION tn=3 activation=2 mode=00010801 reference=42
  $ ./lab encode abis "CHANNEL ACTIVATION tn=3 activation=2 mode=00010801 reference=42"
  0821010b0302060400010801092a
  $ ./lab decode abis 0822010b081234
  CHANNEL ACTIVATION ACK tn=3 frame=4660
  $ ./lab encode abis "CHANNEL ACTIVATION ACK tn=3 frame=4660"
  0822010b081234
  $ ./lab decode abis 0823010a1a0120
  CHANNEL ACTIVATION NACK tn=2 cause=32
  $ ./lab encode abis "CHANNEL ACTIVATION NACK tn=2 cause=32"
  0823010a1a0120
  $ ./lab decode abis 0824010b1a0101
  CONNECTION FAILURE INDICATION tn=3 cause=1
  $ ./lab encode abis "CONNECTION FAILURE INDICATION tn=3 cause=1"
  0824010b1a0101
  $ ./lab decode abis 0827010b1102
  HANDOVER DETECTION tn=3 delay=2
  $ ./lab encode abis "HANDOVER DETECTION tn=3 delay=2"
  0827010b1102
  $ ./lab decode abis 0828010b1b001903001e0004000b001206151e1e006812a000000000000000000000
  MEASUREMENT RESULT tn=3 number=0 uplink=001e00 power=0 layer3=06151e1e006812a000000000000000000000
  $ ./lab encode abis "MEASUREMENT RESULT tn=3 number=0 uplink=001e00 power=0 layer3=06151e1e006812a000000000000000000000"
  0828010b1b001903001e0004000b001206151e1e006812a000000000000000000000
  $ ./lab decode abis 082e010b
  RF CHANNEL RELEASE tn=3
  $ ./lab encode abis "RF CHANNEL RELEASE tn=3"
  082e010b
  $ ./lab decode abis 0833010b
  RF CHANNEL RELEASE ACK tn=3
  $ ./lab encode abis "RF CHANNEL RELEASE ACK tn=3"
  0833010b
  $ ./lab decode abis 08210113030206040001090109ff
  CHANNEL ACTIVATION tn=3/0 activation=2 mode=00010901 reference=255
  $ ./lab encode abis "CHANNEL ACTIVATION tn=3/0 activation=2 mode=00010901 reference=255"
  08210113030206040001090109ff
  $ ./lab decode abis 0822011f081234
  CHANNEL ACTIVATION ACK tn=7/1 frame=4660
  $ ./lab encode abis "CHANNEL ACTIVATION ACK tn=7/1 frame=4660"
  0822011f081234
  $ ./lab decode abis 082e0110
  RF CHANNEL RELEASE tn=0/0
  $ ./lab encode abis "RF CHANNEL RELEASE tn=0/0"
  082e0110
  $ ./lab decode abis 08330118
  RF CHANNEL RELEASE ACK tn=0/1
  $ ./lab encode abis "RF CHANNEL RELEASE ACK tn=0/1"
  08330118
  $ ./lab decode abis 0828010b1b0019000400
  MEASUREMENT RESULT tn=3 number=0 uplink= power=0 layer3=-
  $ ./lab encode abis "MEASUREMENT RESULT tn=3 number=0 uplink= power=0 layer3=-"
  0828010b1b0019000400
  $ ./lab decode abis 0301010b02000b00020628
  DATA REQUEST tn=3 link=0 layer3=0628
  $ ./lab encode abis "DATA REQUEST tn=3 link=0 layer3=0628"
  0301010b02000b00020628
  $ ./lab decode abis 0302010f02210b0001ff
  DATA INDICATION tn=7 link=33 layer3=ff
  $ ./lab encode abis "DATA INDICATION tn=7 link=33 layer3=ff"
  0302010f02210b0001ff
  $ ./lab decode abis 0821010803000601ab
  CHANNEL ACTIVATION tn=0 activation=0 mode=ab reference=-
  $ ./lab encode abis "CHANNEL ACTIVATION tn=0 activation=0 mode=ab reference=-"
  0821010803000601ab
  $ ./lab decode abis 082401091a0101
  CONNECTION FAILURE INDICATION tn=1 cause=1
  $ ./lab encode abis "CONNECTION FAILURE INDICATION tn=1 cause=1"
  082401091a0101
  $ ./lab decode abis 0827010b
  HANDOVER DETECTION tn=3 delay=-
  $ ./lab encode abis "HANDOVER DETECTION tn=3 delay=-"
  0827010b
  $ ./lab decode abis 0828010b1b05190004ff
  MEASUREMENT RESULT tn=3 number=5 uplink= power=255 layer3=-
  $ ./lab encode abis "MEASUREMENT RESULT tn=3 number=5 uplink= power=255 layer3=-"
  0828010b1b05190004ff
  $ ./lab decode abis 082e010c
  RF CHANNEL RELEASE tn=4
  $ ./lab encode abis "RF CHANNEL RELEASE tn=4"
  082e010c

Other octets that say a message: spare bits, elements that it has no use for, another order, elements that come again.

  $ ./lab decode abis 092e010b
  RF CHANNEL RELEASE tn=3
  $ ./lab decode abis 0201010b02000b0003060d00
  DATA REQUEST tn=3 link=0 layer3=060d00
  $ ./lab decode abis 0822081234010b
  CHANNEL ACTIVATION ACK tn=3 frame=4660
  $ ./lab decode abis 082e010b010c
  RF CHANNEL RELEASE tn=3
  $ ./lab decode abis 082e010b011b
  RF CHANNEL RELEASE tn=3
  $ ./lab decode abis 083318010a01010b0001017f00010b
  RF CHANNEL RELEASE ACK tn=3
  $ ./lab decode abis 0824010b1a03010707
  CONNECTION FAILURE INDICATION tn=3 cause=1
  $ ./lab decode abis 0828040f19001b07010f
  MEASUREMENT RESULT tn=7 number=7 uplink= power=15 layer3=-
  $ ./lab decode abis 0828010f1b071900040f
  MEASUREMENT RESULT tn=7 number=7 uplink= power=15 layer3=-
  $ ./lab encode abis "MEASUREMENT RESULT tn=7 number=7 uplink= power=15 layer3=-"
  0828010f1b071900040f

Octets that say a message which is written with others, or with none.

  $ ./lab decode abis 0827010f
  HANDOVER DETECTION tn=7 delay=-

Fields in another order, digits in capitals, zeros before numbers.

  $ ./lab encode abis "CHANNEL ACTIVATION reference=042 mode=AB activation=0 tn=00"
  0821010803000601ab092a

Octets that are no message, and the first thing that is wrong with them.

  $ ./lab decode abis "" 2>/dev/null
  fault abis 1
  [2]
  $ ./lab decode abis 04 2>/dev/null
  fault abis 1
  [2]
  $ ./lab decode abis 00 2>/dev/null
  fault abis 1
  [2]
  $ ./lab decode abis 0a21010b 2>/dev/null
  fault abis 1
  [2]
  $ ./lab decode abis 0c 2>/dev/null
  fault abis 1
  [2]
  $ ./lab decode abis 08 2>/dev/null
  fault abis 5 1
  [2]
  $ ./lab decode abis 09 2>/dev/null
  fault abis 5 1
  [2]
  $ ./lab decode abis 02 2>/dev/null
  fault abis 5 1
  [2]
  $ ./lab decode abis 0820 2>/dev/null
  fault abis 2 32
  [2]
  $ ./lab decode abis 082001 2>/dev/null
  fault abis 2 32
  [2]
  $ ./lab decode abis 0801 2>/dev/null
  fault abis 2 1
  [2]
  $ ./lab decode abis 0321 2>/dev/null
  fault abis 2 33
  [2]
  $ ./lab decode abis 0303010b 2>/dev/null
  fault abis 2 3
  [2]
  $ ./lab decode abis 082201 2>/dev/null
  fault abis 5 2
  [2]
  $ ./lab decode abis 0822010b0800 2>/dev/null
  fault abis 5 4
  [2]
  $ ./lab decode abis 082e011b06 2>/dev/null
  fault abis 5 4
  [2]
  $ ./lab decode abis 082e010b060200 2>/dev/null
  fault abis 5 4
  [2]
  $ ./lab decode abis 0301010b02000b00 2>/dev/null
  fault abis 5 6
  [2]
  $ ./lab decode abis 0301010b02000b010006 2>/dev/null
  fault abis 5 6
  [2]
  $ ./lab decode abis 082e 2>/dev/null
  fault abis 3 1
  [2]
  $ ./lab decode abis 0822080000 2>/dev/null
  fault abis 3 1
  [2]
  $ ./lab decode abis 0822010b 2>/dev/null
  fault abis 3 8
  [2]
  $ ./lab decode abis 0821010b0600 2>/dev/null
  fault abis 3 3
  [2]
  $ ./lab decode abis 0821010b0300 2>/dev/null
  fault abis 3 6
  [2]
  $ ./lab decode abis 0823010b 2>/dev/null
  fault abis 3 26
  [2]
  $ ./lab decode abis 0302010b0b000106 2>/dev/null
  fault abis 3 2
  [2]
  $ ./lab decode abis 0302010b0200 2>/dev/null
  fault abis 3 11
  [2]
  $ ./lab decode abis 0828010b19000400 2>/dev/null
  fault abis 3 27
  [2]
  $ ./lab decode abis 0828010b1b000400 2>/dev/null
  fault abis 3 25
  [2]
  $ ./lab decode abis 0828010b1b001900 2>/dev/null
  fault abis 3 4
  [2]
  $ ./lab decode abis 082e0123 2>/dev/null
  fault abis 4 1
  [2]
  $ ./lab decode abis 082e012b010b 2>/dev/null
  fault abis 4 1
  [2]
  $ ./lab decode abis 082e0107 2>/dev/null
  fault abis 4 1
  [2]
  $ ./lab decode abis 082e0120 2>/dev/null
  fault abis 4 1
  [2]
  $ ./lab decode abis 08210103 2>/dev/null
  fault abis 4 1
  [2]
  $ ./lab decode abis 0821010b03000600 2>/dev/null
  fault abis 4 6
  [2]
  $ ./lab decode abis 0823010b1a00 2>/dev/null
  fault abis 4 26
  [2]
  $ ./lab decode abis 0824010b1a00 2>/dev/null
  fault abis 4 26
  [2]
  $ ./lab decode abis 0301010b02000b0000 2>/dev/null
  fault abis 4 11
  [2]
  $ ./lab decode abis 0828010b1b00190004000b0000 2>/dev/null
  fault abis 4 11
  [2]

Channel numbers (9.3.1): the first and the last of each kind of traffic channel, and numbers beside them, which are of none.

  $ for number in 07 08 0f 10 17 18 1f 20 ff; do ./lab decode abis "082e01$number" 2>/dev/null; done
  fault abis 4 1
  RF CHANNEL RELEASE tn=0
  RF CHANNEL RELEASE tn=7
  RF CHANNEL RELEASE tn=0/0
  RF CHANNEL RELEASE tn=7/0
  RF CHANNEL RELEASE tn=0/1
  RF CHANNEL RELEASE tn=7/1
  fault abis 4 1
  fault abis 4 1
  [2]

Where an element is cut: one of two octets and one of three, one without its length, and one of two octets of length; with a
list that is too short; behind an element whose list is empty.

  $ for octets in 01 010b0812 010b1a 010b1a01 010b0b 010b0b00 010b1a000b010007; do ./lab decode abis "0824$octets" 2>/dev/null; done
  fault abis 5 2
  fault abis 5 4
  fault abis 5 4
  fault abis 5 4
  fault abis 5 4
  fault abis 5 4
  fault abis 5 6
  [2]

Numbers of two octets, and a list whose length has two, with an element behind it.

  $ ./lab decode abis 0822010b08fffe
  CHANNEL ACTIVATION ACK tn=3 frame=65534
  $ ./lab encode abis 'CHANNEL ACTIVATION ACK tn=3 frame=65534'
  0822010b08fffe
  $ long=$(printf '2a%.0s' $(seq 258))
  $ ./lab decode abis "030102000b0102${long}010b" | sed "s/$long/258 octets/"
  DATA REQUEST tn=3 link=0 layer3=258 octets
  $ ./lab encode abis "DATA REQUEST tn=3 link=0 layer3=$long" | sed "s/$long/ and 258 octets/"
  0301010b02000b0102 and 258 octets

A list whose length has one octet is read with each length, and written as it was read.

  $ for length in $(seq 255); do
  >   list=$(printf '2a%.0s' $(seq "$length"))
  >   printf '0821010b030006%02x%s\n' "$length" "$list" >>octets
  >   echo "CHANNEL ACTIVATION tn=3 activation=0 mode=$list reference=-" >>words
  >   printf '0828010b1b0019%02x%s0400\n' "$length" "$list" >>octets
  >   echo "MEASUREMENT RESULT tn=3 number=0 uplink=$list power=0 layer3=-" >>words
  > done
  $ ./lab decode abis --from octets 2>/dev/null | sed 's/^[0-9]* //' | cmp - words
  $ while read -r text; do ./lab encode abis "$text"; done <words | cmp - octets
