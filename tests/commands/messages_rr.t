Messages of the radio path (TS 44.018 clauses 9.1 and 10.5.2): what is read of the octets of each, and the octets that are written for it.

  $ ./lab decode rr 062bd5670ba36b2a05
  HANDOVER COMMAND arfcn=871 ncc=2 bcc=5 tn=3 tsc=5 carrier=875 reference=42 atc=0 power=5
  $ ./lab encode rr "HANDOVER COMMAND arfcn=871 ncc=2 bcc=5 tn=3 tsc=5 carrier=875 reference=42 atc=0 power=5"
  062bd5670ba36b2a05
  $ ./lab decode rr 062bd5670ba36b0005
  HANDOVER COMMAND arfcn=871 ncc=2 bcc=5 tn=3 tsc=5 carrier=875 reference=0 atc=0 power=5
  $ ./lab encode rr "HANDOVER COMMAND arfcn=871 ncc=2 bcc=5 tn=3 tsc=5 carrier=875 reference=0 atc=0 power=5"
  062bd5670ba36b0005
  $ ./lab decode rr 062b183e09003e0007
  HANDOVER COMMAND arfcn=62 ncc=3 bcc=0 tn=1 tsc=0 carrier=62 reference=0 atc=0 power=7
  $ ./lab encode rr "HANDOVER COMMAND arfcn=62 ncc=3 bcc=0 tn=1 tsc=0 carrier=62 reference=0 atc=0 power=7"
  062b183e09003e0007
  $ ./lab decode rr 062bd56713a36b2a05
  HANDOVER COMMAND arfcn=871 ncc=2 bcc=5 tn=3/0 tsc=5 carrier=875 reference=42 atc=0 power=5
  $ ./lab encode rr "HANDOVER COMMAND arfcn=871 ncc=2 bcc=5 tn=3/0 tsc=5 carrier=875 reference=42 atc=0 power=5"
  062bd56713a36b2a05
  $ ./lab decode rr 062bd5671fa36b2a05
  HANDOVER COMMAND arfcn=871 ncc=2 bcc=5 tn=7/1 tsc=5 carrier=875 reference=42 atc=0 power=5
  $ ./lab encode rr "HANDOVER COMMAND arfcn=871 ncc=2 bcc=5 tn=7/1 tsc=5 carrier=875 reference=42 atc=0 power=5"
  062bd5671fa36b2a05
  $ ./lab decode rr 062c00
  HANDOVER COMPLETE cause=0
  $ ./lab encode rr "HANDOVER COMPLETE cause=0"
  062c00
  $ ./lab decode rr 062808
  HANDOVER FAILURE cause=8
  $ ./lab encode rr "HANDOVER FAILURE cause=8"
  062808
  $ ./lab decode rr 062800
  HANDOVER FAILURE cause=0
  $ ./lab encode rr "HANDOVER FAILURE cause=0"
  062800
  $ ./lab decode rr 060d01
  CHANNEL RELEASE cause=1
  $ ./lab encode rr "CHANNEL RELEASE cause=1"
  060d01
  $ ./lab decode rr 062d3f
  PHYSICAL INFORMATION ta=63
  $ ./lab encode rr "PHYSICAL INFORMATION ta=63"
  062d3f
  $ ./lab decode rr 062dff
  PHYSICAL INFORMATION ta=255
  $ ./lab encode rr "PHYSICAL INFORMATION ta=255"
  062dff
  $ ./lab decode rr 06151e1e006812a000000000000000000000
  MEASUREMENT REPORT ba=0 dtx=0 full=30 ba3g=0 valid=1 sub=30 si23=0 qfull=0 qsub=0 count=1 n=40/2/21
  $ ./lab encode rr "MEASUREMENT REPORT ba=0 dtx=0 full=30 ba3g=0 valid=1 sub=30 si23=0 qfull=0 qsub=0 count=1 n=40/2/21"
  06151e1e006812a000000000000000000000
  $ ./lab decode rr 06159796d78119058a39022914731233fffe
  MEASUREMENT REPORT ba=1 dtx=0 full=23 ba3g=1 valid=1 sub=22 si23=1 qfull=5 qsub=3 count=6 n=1/3/8 n=11/2/35 n=36/1/5 n=8/20/28 n=49/4/25 n=63/31/62
  $ ./lab encode rr "MEASUREMENT REPORT ba=1 dtx=0 full=23 ba3g=1 valid=1 sub=22 si23=1 qfull=5 qsub=3 count=6 n=1/3/8 n=11/2/35 n=36/1/5 n=8/20/28 n=49/4/25 n=63/31/62"
  06159796d78119058a39022914731233fffe
  $ ./lab decode rr 06159796d74119058a390229147312320000
  MEASUREMENT REPORT ba=1 dtx=0 full=23 ba3g=1 valid=1 sub=22 si23=1 qfull=5 qsub=3 count=5 n=1/3/8 n=11/2/35 n=36/1/5 n=8/20/28 n=49/4/25
  $ ./lab encode rr "MEASUREMENT REPORT ba=1 dtx=0 full=23 ba3g=1 valid=1 sub=22 si23=1 qfull=5 qsub=3 count=5 n=1/3/8 n=11/2/35 n=36/1/5 n=8/20/28 n=49/4/25"
  06159796d74119058a390229147312320000
  $ ./lab decode rr 06151e1e01c0000000000000000000000000
  MEASUREMENT REPORT ba=0 dtx=0 full=30 ba3g=0 valid=1 sub=30 si23=0 qfull=0 qsub=0 count=7
  $ ./lab encode rr "MEASUREMENT REPORT ba=0 dtx=0 full=30 ba3g=0 valid=1 sub=30 si23=0 qfull=0 qsub=0 count=7"
  06151e1e01c0000000000000000000000000
  $ ./lab decode rr 062b183e0ba36b2a05
  HANDOVER COMMAND arfcn=62 ncc=3 bcc=0 tn=3 tsc=5 carrier=875 reference=42 atc=0 power=5
  $ ./lab encode rr "HANDOVER COMMAND arfcn=62 ncc=3 bcc=0 tn=3 tsc=5 carrier=875 reference=42 atc=0 power=5"
  062b183e0ba36b2a05
  $ ./lab decode rr 062b093c0ba36b2a05
  HANDOVER COMMAND arfcn=60 ncc=1 bcc=1 tn=3 tsc=5 carrier=875 reference=42 atc=0 power=5
  $ ./lab encode rr "HANDOVER COMMAND arfcn=60 ncc=1 bcc=1 tn=3 tsc=5 carrier=875 reference=42 atc=0 power=5"
  062b093c0ba36b2a05
  $ ./lab decode rr 062bffff0ba36b2a05
  HANDOVER COMMAND arfcn=1023 ncc=7 bcc=7 tn=3 tsc=5 carrier=875 reference=42 atc=0 power=5
  $ ./lab encode rr "HANDOVER COMMAND arfcn=1023 ncc=7 bcc=7 tn=3 tsc=5 carrier=875 reference=42 atc=0 power=5"
  062bffff0ba36b2a05
  $ ./lab decode rr 062b40000ba36b2a05
  HANDOVER COMMAND arfcn=256 ncc=0 bcc=0 tn=3 tsc=5 carrier=875 reference=42 atc=0 power=5
  $ ./lab encode rr "HANDOVER COMMAND arfcn=256 ncc=0 bcc=0 tn=3 tsc=5 carrier=875 reference=42 atc=0 power=5"
  062b40000ba36b2a05
  $ ./lab decode rr 062b07000ba36b2a05
  HANDOVER COMMAND arfcn=0 ncc=0 bcc=7 tn=3 tsc=5 carrier=875 reference=42 atc=0 power=5
  $ ./lab encode rr "HANDOVER COMMAND arfcn=0 ncc=0 bcc=7 tn=3 tsc=5 carrier=875 reference=42 atc=0 power=5"
  062b07000ba36b2a05
  $ ./lab decode rr 062bd56709003e2a05
  HANDOVER COMMAND arfcn=871 ncc=2 bcc=5 tn=1 tsc=0 carrier=62 reference=42 atc=0 power=5
  $ ./lab encode rr "HANDOVER COMMAND arfcn=871 ncc=2 bcc=5 tn=1 tsc=0 carrier=62 reference=42 atc=0 power=5"
  062bd56709003e2a05
  $ ./lab decode rr 062bd5670fe3ff2a05
  HANDOVER COMMAND arfcn=871 ncc=2 bcc=5 tn=7 tsc=7 carrier=1023 reference=42 atc=0 power=5
  $ ./lab encode rr "HANDOVER COMMAND arfcn=871 ncc=2 bcc=5 tn=7 tsc=7 carrier=1023 reference=42 atc=0 power=5"
  062bd5670fe3ff2a05
  $ ./lab decode rr 062bd5670822002a05
  HANDOVER COMMAND arfcn=871 ncc=2 bcc=5 tn=0 tsc=1 carrier=512 reference=42 atc=0 power=5
  $ ./lab encode rr "HANDOVER COMMAND arfcn=871 ncc=2 bcc=5 tn=0 tsc=1 carrier=512 reference=42 atc=0 power=5"
  062bd5670822002a05
  $ ./lab decode rr 062bd5670ba36b2a80
  HANDOVER COMMAND arfcn=871 ncc=2 bcc=5 tn=3 tsc=5 carrier=875 reference=42 atc=1 power=0
  $ ./lab encode rr "HANDOVER COMMAND arfcn=871 ncc=2 bcc=5 tn=3 tsc=5 carrier=875 reference=42 atc=1 power=0"
  062bd5670ba36b2a80
  $ ./lab decode rr 062bd5670ba36b2a9f
  HANDOVER COMMAND arfcn=871 ncc=2 bcc=5 tn=3 tsc=5 carrier=875 reference=42 atc=1 power=31
  $ ./lab encode rr "HANDOVER COMMAND arfcn=871 ncc=2 bcc=5 tn=3 tsc=5 carrier=875 reference=42 atc=1 power=31"
  062bd5670ba36b2a9f
  $ ./lab decode rr 06280a
  HANDOVER FAILURE cause=10
  $ ./lab encode rr "HANDOVER FAILURE cause=10"
  06280a
  $ ./lab decode rr 06159145b8891d9978700000000000000000
  MEASUREMENT REPORT ba=1 dtx=0 full=17 ba3g=0 valid=0 sub=5 si23=1 qfull=3 qsub=4 count=2 n=9/3/44 n=50/30/7
  $ ./lab encode rr "MEASUREMENT REPORT ba=1 dtx=0 full=17 ba3g=0 valid=0 sub=5 si23=1 qfull=3 qsub=4 count=2 n=9/3/44 n=50/30/7"
  06159145b8891d9978700000000000000000
  $ ./lab decode rr 0615ffffffbfffffffffffffffffffffffff
  MEASUREMENT REPORT ba=1 dtx=1 full=63 ba3g=1 valid=0 sub=63 si23=1 qfull=7 qsub=7 count=6 n=63/31/63 n=63/31/63 n=63/31/63 n=63/31/63 n=63/31/63 n=63/31/63
  $ ./lab encode rr "MEASUREMENT REPORT ba=1 dtx=1 full=63 ba3g=1 valid=0 sub=63 si23=1 qfull=7 qsub=7 count=6 n=63/31/63 n=63/31/63 n=63/31/63 n=63/31/63 n=63/31/63 n=63/31/63"
  0615ffffffbfffffffffffffffffffffffff

Other octets that say a message: spare bits, elements that it has no use for, another order, elements that come again.

  $ ./lab decode rr 06159796d74119058a39022914731233fffe
  MEASUREMENT REPORT ba=1 dtx=0 full=23 ba3g=1 valid=1 sub=22 si23=1 qfull=5 qsub=3 count=5 n=1/3/8 n=11/2/35 n=36/1/5 n=8/20/28 n=49/4/25
  $ ./lab decode rr 06151e1e01e812a000000000000000000000
  MEASUREMENT REPORT ba=0 dtx=0 full=30 ba3g=0 valid=1 sub=30 si23=0 qfull=0 qsub=0 count=7
  $ ./lab decode rr 062bd5670baf6b2a657c
  HANDOVER COMMAND arfcn=871 ncc=2 bcc=5 tn=3 tsc=5 carrier=875 reference=42 atc=0 power=5

Fields in another order, digits in capitals, zeros before numbers.

  $ ./lab encode rr "MEASUREMENT REPORT n=9/3/44 count=2 qsub=4 n=50/30/7 qfull=3 si23=1 sub=5 valid=0 ba3g=0 full=17 dtx=0 ba=1"
  06159145b8891d9978700000000000000000

Octets that are no message, and the first thing that is wrong with them.

  $ ./lab decode rr "" 2>/dev/null
  fault rr 1
  [2]
  $ ./lab decode rr 05 2>/dev/null
  fault rr 1
  [2]
  $ ./lab decode rr 162c00 2>/dev/null
  fault rr 1
  [2]
  $ ./lab decode rr 06 2>/dev/null
  fault rr 3
  [2]
  $ ./lab decode rr 06ff 2>/dev/null
  fault rr 2 255
  [2]
  $ ./lab decode rr 0600 2>/dev/null
  fault rr 2 0
  [2]
  $ ./lab decode rr 062900 2>/dev/null
  fault rr 2 41
  [2]
  $ ./lab decode rr 062c 2>/dev/null
  fault rr 3
  [2]
  $ ./lab decode rr 062bd56713b36b2a 2>/dev/null
  fault rr 3
  [2]
  $ ./lab decode rr 06151e1e006812a0000000000000000000 2>/dev/null
  fault rr 3
  [2]
  $ ./lab decode rr 062bd5670bb36b2a05 2>/dev/null
  fault rr 4 3
  [2]
  $ ./lab decode rr 062bd56713b36b2a05 2>/dev/null
  fault rr 4 3
  [2]
  $ ./lab decode rr 062bd56703a36b2a05 2>/dev/null
  fault rr 4 2
  [2]
  $ ./lab decode rr 062bd56723a36b2a05 2>/dev/null
  fault rr 4 2
  [2]
  $ ./lab decode rr 062bd56723b36b2a05 2>/dev/null
  fault rr 4 2
  [2]
  $ ./lab decode rr 062bd56743a36b2a05 2>/dev/null
  fault rr 4 2
  [2]
  $ ./lab decode rr 062bd5671bb36b2a05 2>/dev/null
  fault rr 4 3
  [2]

Channel types (10.5.2.5): of the full rate, and the two of the half rate, with the first and the last timeslot.

  $ command() { echo "HANDOVER COMMAND arfcn=871 ncc=2 bcc=5 tn=$1 tsc=5 carrier=875 reference=42 atc=0 power=5"; }
  $ for octets in 08 0b 0f 10 13 17 18 1f; do ./lab decode rr "062bd567${octets}a36b2a05"; done >read
  $ for tn in 0 3 7 0/0 3/0 7/0 0/1 7/1; do command "$tn"; done | cmp - read
  $ while read -r text; do ./lab encode rr "$text"; done <read
  062bd56708a36b2a05
  062bd5670ba36b2a05
  062bd5670fa36b2a05
  062bd56710a36b2a05
  062bd56713a36b2a05
  062bd56717a36b2a05
  062bd56718a36b2a05
  062bd5671fa36b2a05
