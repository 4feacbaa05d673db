Lines of octets, each with its own link or all of one. How many were messages, and how many were refused, is said on
standard error.

  $ printf '' | ./lab decode --from - 2>errors
  $ cat errors
  -: messages 0, refused 0
  $ printf '082e010b\n' | ./lab decode abis --from - 2>errors
  1 RF CHANNEL RELEASE tn=3
  $ cat errors
  -: messages 1, refused 0
  $ printf 'abis 08 2e 01 0b # released\r\n\n# a note alone\nrr\t06:2c:00#\n \t\na 000121' | ./lab decode --from - 2>errors
  1 RF CHANNEL RELEASE tn=3 # released
  4 HANDOVER COMPLETE cause=0 #
  6 CLEAR COMPLETE
  $ cat errors
  -: messages 3, refused 0
  $ printf '# note\n062C00\n' | ./lab decode rr --from - 2>errors
  2 HANDOVER COMPLETE cause=0
  $ cat errors
  -: messages 1, refused 0
  $ printf 'rr 06ff\nrr 062c0\nRR 062c00\n abis 082e010b\nabis\na 0003160405 # cut\nrr 062c00\n' | ./lab decode --from - 2>errors
  1 fault rr 2 255
  2 hex
  3 link
  4 link
  5 fault abis 1
  6 fault a 6 3 # cut
  7 HANDOVER COMPLETE cause=0
  [2]
  $ cat errors
  -: messages 1, refused 6
  $ printf 'rr \377\376\n\377 06\nrr 062c00 # caf\303\251\n' | ./lab decode --from - 2>errors
  1 hex
  2 link
  3 HANDOVER COMPLETE cause=0 # caf\xc3\xa9 (esc)
  [2]
  $ cat errors
  -: messages 1, refused 2

A note can't steer a terminal: what would is shown by its escape, but for a tab, and an octet that is no UTF-8 by its number.

  $ printf 'rr 062c00 # a\033[2Jb\tc\rd\302\205 \342\200\256 \377\303\nrr 062c00 #\351t\351\nrr 06 # \033]0;x\007\r\n' | ./lab decode --from - 2>/dev/null
  1 HANDOVER COMPLETE cause=0 # a\\u{1b}[2Jb\tc\\rd\\u{85} \\u{202e} \\xff\\xc3 (esc)
  2 HANDOVER COMPLETE cause=0 #\xe9t\xe9
  3 fault rr 3 # \u{1b}]0;x\u{7}
  [2]

Where a link is asked for, no line begins with its own.

  $ printf 'rr 062c00\n' | ./lab decode rr --from - 2>errors
  1 hex
  [2]
  $ cat errors
  -: messages 0, refused 1

All that is said of messages: elements that they have no use for, and the message inside (TS 48.058 clause 8, TS 48.008
clause 3.2.1, TS 44.018 clause 9.1).

  $ printf '03 01 01 0b 02 00 0b 00 09 06 2b d5 67 0b a3 6b 2a 05 # command\n03 01 01 0b 02 00 0b 00 02 05 08' | ./lab decode abis --from - --all 2>/dev/null
  1 DATA REQUEST tn=3 link=0 layer3=062bd5670ba36b2a05 | HANDOVER COMMAND arfcn=871 ncc=2 bcc=5 tn=3 tsc=5 carrier=875 reference=42 atc=0 power=5 # command
  2 DATA REQUEST tn=3 link=0 layer3=0508 | fault rr 1
  $ printf 'abis 08 21 01 0b 03 02 04 05 06 04 00 01 08 01 09 2a 18 03\nabis 03 02 01 0b 02 00 0b 00 04 06 2c 00 77 01 0c' | ./lab decode --from - --all 2>/dev/null
  1 CHANNEL ACTIVATION tn=3 activation=2 mode=00010801 reference=42 unused=04/05 unused=18/03
  2 DATA INDICATION tn=3 link=0 layer3=062c0077 unused=01/0c | HANDOVER COMPLETE cause=0 rest=77
  $ printf '08 28 01 0b 1b 00 19 03 00 1e 00 04 00 0b 00 12 06 15 1e 1e 00 68 12 a0 00 00 00 00 00 00 00 00 00 00\n08 28 01 0b 1b 00 19 03 00 1e 00 04 00' | ./lab decode abis --from - --all 2>/dev/null
  1 MEASUREMENT RESULT tn=3 number=0 uplink=001e00 power=0 layer3=06151e1e006812a000000000000000000000 | MEASUREMENT REPORT ba=0 dtx=0 full=30 ba3g=0 valid=1 sub=30 si23=0 qfull=0 qsub=0 count=1 n=40/2/21
  2 MEASUREMENT RESULT tn=3 number=0 uplink=001e00 power=0 layer3=-
  $ printf '03 01 01 18 02 00 0b 00 09 06 2b d5 67 13 a3 6b 2a 05 # half rate\n03 01 01 18 02 00 0b 00 09 06 2b d5 67 23 a3 6b 2a 05' | ./lab decode abis --from - --all 2>/dev/null
  1 DATA REQUEST tn=0/1 link=0 layer3=062bd56713a36b2a05 | HANDOVER COMMAND arfcn=871 ncc=2 bcc=5 tn=3/0 tsc=5 carrier=875 reference=42 atc=0 power=5 # half rate
  2 DATA REQUEST tn=0/1 link=0 layer3=062bd56723a36b2a05 | fault rr 4 2
  $ printf 'a 00 08 20 07 02 06 03 04 01 09\nrr 06 0d 00 01\nrr 06' | ./lab decode --from - --all 2>/dev/null
  1 CLEAR COMMAND cause=9 unused=07/0603
  2 CHANNEL RELEASE cause=0 rest=01
  3 fault rr 3
  [2]

On Abis (TS 48.058 clauses 8.4 and 9.3).

  $ printf '082e010b' | ./lab decode abis --from - --all 2>/dev/null
  1 RF CHANNEL RELEASE tn=3
  $ printf '0821010b0302060400010801092a' | ./lab decode abis --from - --all 2>/dev/null
  1 CHANNEL ACTIVATION tn=3 activation=2 mode=00010801 reference=42
  $ printf '0821010b03020405060400010801092a0d071803' | ./lab decode abis --from - --all 2>/dev/null
  1 CHANNEL ACTIVATION tn=3 activation=2 mode=00010801 reference=42 unused=04/05 unused=0d/07 unused=18/03
  $ printf '082e010b010c' | ./lab decode abis --from - --all 2>/dev/null
  1 RF CHANNEL RELEASE tn=3 unused=01/0c
  $ printf '082e3000010b3102abcd' | ./lab decode abis --from - --all 2>/dev/null
  1 RF CHANNEL RELEASE tn=3 unused=30/ unused=31/abcd
  $ printf '082e010b0b0002060d' | ./lab decode abis --from - --all 2>/dev/null
  1 RF CHANNEL RELEASE tn=3 unused=0b/060d
  $ printf '0823010b1a022001' | ./lab decode abis --from - --all 2>/dev/null
  1 CHANNEL ACTIVATION NACK tn=3 cause=32

On A (TS 48.008 clauses 3.2.1 and 3.2.2).

  $ printf '000121' | ./lab decode a --from - --all 2>/dev/null
  1 CLEAR COMPLETE
  $ printf '000420040120' | ./lab decode a --from - --all 2>/dev/null
  1 CLEAR COMMAND cause=32
  $ printf '000b200702060304010904010a' | ./lab decode a --from - --all 2>/dev/null
  1 CLEAR COMMAND cause=9 unused=07/0603 unused=04/0a
  $ printf '0004211b1500' | ./lab decode a --from - --all 2>/dev/null
  1 CLEAR COMPLETE unused=1b/ unused=15/00
  $ printf '0020100b030108010a01011d33050501001700660505010017006505050100170064' | ./lab decode a --from - --all 2>/dev/null
  1 HANDOVER REQUEST channel=010801 encryption=01 classmark=33 serving=23/102 target=23/101 unused=05/0100170064

Cells by their identity alone are used like others: in a list, which may be so long that no message could have it with
location areas, and as serving and target cell. A response request is used once; of two classmarks classmark 1 is.

  $ printf '000a1104010c1b1a03020066' | ./lab decode a --from - --all 2>/dev/null
  1 HANDOVER REQUIRED cause=12 response=1 cells=-/102
  $ printf '000b1104010c1b1b1a03020066' | ./lab decode a --from - --all 2>/dev/null
  1 HANDOVER REQUIRED cause=12 response=1 cells=-/102 unused=1b/
  $ printf "00871104010c1a8102$(printf '0066%.0s' $(seq 64))" | ./lab decode a --from - --all 2>/dev/null | cut -d ' ' -f 1-5,7-
  1 HANDOVER REQUIRED cause=12 response=0
  $ printf '00091704010c0503020066' | ./lab decode a --from - --all 2>/dev/null
  1 HANDOVER PERFORMED cause=12 cell=-/102
  $ printf '0014100b0201080a01011d3305030200660503020065' | ./lab decode a --from - --all 2>/dev/null
  1 HANDOVER REQUEST channel=0108 encryption=01 classmark=33 serving=-/102 target=-/101
  $ printf '0019100b0201080a01011d33120333198105030200660503020065' | ./lab decode a --from - --all 2>/dev/null
  1 HANDOVER REQUEST channel=0108 encryption=01 classmark=33 serving=-/102 target=-/101 unused=12/331981

Behind the mandatory part of a radio resource message (TS 44.018 clause 9.1).

  $ printf '062c00' | ./lab decode rr --from - --all 2>/dev/null
  1 HANDOVER COMPLETE cause=0
  $ printf '062c00770a' | ./lab decode rr --from - --all 2>/dev/null
  1 HANDOVER COMPLETE cause=0 rest=770a
  $ printf '062bd5670ba36b2a05' | ./lab decode rr --from - --all 2>/dev/null
  1 HANDOVER COMMAND arfcn=871 ncc=2 bcc=5 tn=3 tsc=5 carrier=875 reference=42 atc=0 power=5
  $ printf '062bd5670ba36b2a05d0' | ./lab decode rr --from - --all 2>/dev/null
  1 HANDOVER COMMAND arfcn=871 ncc=2 bcc=5 tn=3 tsc=5 carrier=875 reference=42 atc=0 power=5 rest=d0
  $ printf '06151e1e006812a0000000000000000000002b' | ./lab decode rr --from - --all 2>/dev/null
  1 MEASUREMENT REPORT ba=0 dtx=0 full=30 ba3g=0 valid=1 sub=30 si23=0 qfull=0 qsub=0 count=1 n=40/2/21 rest=2b

The longest line has 65,536 octets, and no message fits in it. Of one above that, and of one much above it, nothing is read
but where it ends.

  $ lines() { head -c "$1" /dev/zero | tr '\0' '8'; printf '\n062c00\n'; }
  $ lines 65536 | ./lab decode rr --from - 2>/dev/null
  1 fault rr 1
  2 HANDOVER COMPLETE cause=0
  [2]
  $ lines 65537 | ./lab decode rr --from - 2>/dev/null
  1 long
  2 HANDOVER COMPLETE cause=0
  [2]
  $ lines 1048576 | ./lab decode rr --from - 2>/dev/null
  1 long
  2 HANDOVER COMPLETE cause=0
  [2]

Lines of a file, and of one that isn't there.

  $ printf 'rr 062c00\nabis 082e010b\n' >messages.txt
  $ ./lab decode --from messages.txt 2>errors
  1 HANDOVER COMPLETE cause=0
  2 RF CHANNEL RELEASE tn=3
  $ cat errors
  messages.txt: messages 2, refused 0
  $ ./lab decode --from 'no such file' 2>errors
  file no such file
  [2]
  $ cat errors
  no such file: no such file
