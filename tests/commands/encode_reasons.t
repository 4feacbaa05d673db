Messages in words that say none, and why: the first thing that is wrong with each.

  $ ./lab encode rr "" 2>&1 >/dev/null
  "" is no message of the link rr: write a name and then fields as KEY=VALUE; bsc_lab help encode lists both
  [2]
  $ ./lab encode rr "CLEAR COMPLETE" 2>&1 >/dev/null
  "CLEAR COMPLETE" is no message of the link rr: write a name and then fields as KEY=VALUE; bsc_lab help encode lists both
  [2]
  $ ./lab encode a "clear complete" 2>&1 >/dev/null
  "clear complete" is no message of the link a: write a name and then fields as KEY=VALUE; bsc_lab help encode lists both
  [2]
  $ ./lab encode a "cause=0" 2>&1 >/dev/null
  "" is no message of the link a: write a name and then fields as KEY=VALUE; bsc_lab help encode lists both
  [2]
  $ ./lab encode a "CLEAR  COMMAND cause=0" 2>&1 >/dev/null
  "CLEAR  COMMAND" is no message of the link a: write a name and then fields as KEY=VALUE; bsc_lab help encode lists both
  [2]
  $ ./lab encode abis "RF CHANNEL RELEASE ACK2 tn=3" 2>&1 >/dev/null
  "RF CHANNEL RELEASE ACK2" is no message of the link abis: write a name and then fields as KEY=VALUE; bsc_lab help encode lists both
  [2]
  $ ./lab encode a "CLEAR COMPLETE cause=0" 2>&1 >/dev/null
  "cause=0" is no field of the message: bsc_lab help encode lists the fields
  [2]
  $ ./lab encode rr "HANDOVER COMPLETE cause=0 tn=3" 2>&1 >/dev/null
  "tn=3" is no field of the message: bsc_lab help encode lists the fields
  [2]
  $ ./lab encode rr "HANDOVER COMPLETE cause=0 now" 2>&1 >/dev/null
  "now" is no field of the message: bsc_lab help encode lists the fields
  [2]
  $ ./lab encode rr "HANDOVER COMPLETE cause=0 " 2>&1 >/dev/null
  "" is no field of the message: bsc_lab help encode lists the fields
  [2]
  $ ./lab encode rr "HANDOVER COMPLETE Cause=0" 2>&1 >/dev/null
  "Cause=0" is no field of the message: bsc_lab help encode lists the fields
  [2]
  $ ./lab encode rr "HANDOVER COMPLETE n=0" 2>&1 >/dev/null
  "n=0" is no field of the message: bsc_lab help encode lists the fields
  [2]
  $ ./lab encode rr "HANDOVER COMPLETE cause=0 cause=0" 2>&1 >/dev/null
  cause is given twice
  [2]
  $ ./lab encode rr "HANDOVER COMPLETE" 2>&1 >/dev/null
  cause is missing: bsc_lab help encode lists the fields
  [2]
  $ ./lab encode abis "MEASUREMENT RESULT number=5 uplink= power=255 layer3=-" 2>&1 >/dev/null
  tn is missing: bsc_lab help encode lists the fields
  [2]
  $ ./lab encode rr "HANDOVER COMPLETE cause=" 2>&1 >/dev/null
  cause is 0 to 255, found ""
  [2]
  $ ./lab encode rr "HANDOVER COMPLETE cause=256" 2>&1 >/dev/null
  cause is 0 to 255, found "256"
  [2]
  $ ./lab encode rr "HANDOVER COMPLETE cause=+1" 2>&1 >/dev/null
  cause is 0 to 255, found "+1"
  [2]
  $ ./lab encode rr "HANDOVER COMPLETE cause==1" 2>&1 >/dev/null
  cause is 0 to 255, found "=1"
  [2]
  $ ./lab encode abis "RF CHANNEL RELEASE tn=8" 2>&1 >/dev/null
  tn is 0 to 7, with /0 or /1 at the end for half rate, found "8"
  [2]
  $ ./lab encode abis "RF CHANNEL RELEASE tn=3/2" 2>&1 >/dev/null
  tn is 0 to 7, with /0 or /1 at the end for half rate, found "3/2"
  [2]
  $ ./lab encode abis "RF CHANNEL RELEASE tn=8/0" 2>&1 >/dev/null
  tn is 0 to 7, with /0 or /1 at the end for half rate, found "8/0"
  [2]
  $ ./lab encode abis "RF CHANNEL RELEASE tn=3/" 2>&1 >/dev/null
  tn is 0 to 7, with /0 or /1 at the end for half rate, found "3/"
  [2]
  $ ./lab encode abis "RF CHANNEL RELEASE tn=3/0/1" 2>&1 >/dev/null
  tn is 0 to 7, with /0 or /1 at the end for half rate, found "3/0/1"
  [2]
  $ ./lab encode rr "HANDOVER COMMAND arfcn=871 ncc=2 bcc=5 tn=3/00 tsc=5 carrier=875 reference=42 atc=0 power=5" 2>&1 >/dev/null
  tn is 0 to 7, with /0 or /1 at the end for half rate, found "3/00"
  [2]
  $ ./lab encode abis "CHANNEL ACTIVATION ACK tn=3 frame=65536" 2>&1 >/dev/null
  frame is 0 to 65535, found "65536"
  [2]
  $ ./lab encode abis "HANDOVER DETECTION tn=3 delay=--" 2>&1 >/dev/null
  delay is 0 to 255, or -, found "--"
  [2]
  $ ./lab encode abis "DATA REQUEST tn=3 link=0 layer3=062" 2>&1 >/dev/null
  layer3 is one octet or more in hexadecimal, found "062"
  [2]
  $ ./lab encode abis "MEASUREMENT RESULT tn=3 number=5 uplink= power=255 layer3=x" 2>&1 >/dev/null
  layer3 is one octet or more in hexadecimal, or -, found "x"
  [2]
  $ ./lab encode a "HANDOVER REQUIRED cause=12 response=yes cells=23/102" 2>&1 >/dev/null
  response is 0 or 1, found "yes"
  [2]
  $ ./lab encode a "HANDOVER REQUIRED cause=12 response=1 cells=23/102," 2>&1 >/dev/null
  cells is a list of cells with their location areas, as in 23/102,23/103, found "23/102,"
  [2]
  $ ./lab encode a "HANDOVER PERFORMED cause=12 cell=65536/1" 2>&1 >/dev/null
  cell is a cell with its location area, as in 23/102, found "65536/1"
  [2]
  $ ./lab encode rr "HANDOVER COMMAND arfcn=1024 ncc=2 bcc=5 tn=3 tsc=5 carrier=875 reference=42 atc=0 power=5" 2>&1 >/dev/null
  arfcn is 0 to 1023, found "1024"
  [2]
  $ ./lab encode rr "MEASUREMENT REPORT ba=0 dtx=0 full=30 ba3g=0 valid=1 sub=30 si23=0 qfull=0 qsub=0 count=1 n=64/2/21" 2>&1 >/dev/null
  n is a level 0 to 63, a position 0 to 31 and a code 0 to 63, as in 40/2/21, found "64/2/21"
  [2]
  $ ./lab encode rr "MEASUREMENT REPORT ba=0 dtx=0 full=30 ba3g=0 valid=1 sub=30 si23=0 qfull=0 qsub=0 count=2 n=40/2/21" 2>&1 >/dev/null
  count is 2, but n is given 1 times (none with count 7)
  [2]
  $ ./lab encode rr "MEASUREMENT REPORT ba=0 dtx=0 full=30 ba3g=0 valid=1 sub=30 si23=0 qfull=0 qsub=0 count=7 n=40/2/21" 2>&1 >/dev/null
  count is 7, but n is given 1 times (none with count 7)
  [2]
  $ ./lab encode abis "DATA REQUEST tn=3 link=0 layer3=" 2>&1 >/dev/null
  layer3 is one octet or more in hexadecimal, found ""
  [2]
  $ ./lab encode a "HANDOVER PERFORMED cause=12 cell=-/102" 2>&1 >/dev/null
  cell is a cell with its location area, as in 23/102, found "-/102"
  [2]
  $ ./lab encode a "CLEAR COMPLETE =0" 2>&1 >/dev/null
  "=0" is no field of the message: bsc_lab help encode lists the fields
  [2]
  $ ./lab encode a "HANDOVER REQUEST channel=01 encryption=01 classmark=33 serving=23/102 target=23/101" 2>&1 >/dev/null
  channel is 2 octets or more in hexadecimal, found "01"
  [2]
  $ ./lab encode a "HANDOVER REQUIRED cause=12 response=1 cells=23/102,-/103" 2>&1 >/dev/null
  cells is a list of cells with their location areas, as in 23/102,23/103, found "23/102,-/103"
  [2]
  $ ./lab encode a "HANDOVER REQUEST channel=0108 encryption=01 classmark=3 serving=23/102 target=23/101" 2>&1 >/dev/null
  classmark is octets in hexadecimal, found "3"
  [2]
  $ ./lab encode a "CLEAR COMMANDS cause=256 now" 2>&1 >/dev/null
  "CLEAR COMMANDS" is no message of the link a: write a name and then fields as KEY=VALUE; bsc_lab help encode lists both
  [2]
  $ ./lab encode abis "CHANNEL ACTIVATION tn=8 tn=8 now then" 2>&1 >/dev/null
  "now" is no field of the message: bsc_lab help encode lists the fields
  [2]
  $ ./lab encode abis "CHANNEL ACTIVATION reference=x activation=2 tn=3" 2>&1 >/dev/null
  mode is missing: bsc_lab help encode lists the fields
  [2]
  $ ./lab encode abis "MEASUREMENT RESULT power=256 layer3= uplink=x number=0 tn=0" 2>&1 >/dev/null
  uplink is octets in hexadecimal, found "x"
  [2]
  $ ./lab encode a "HANDOVER REQUEST serving=1 target=2 channel=010 encryption=0" 2>&1 >/dev/null
  channel is 2 octets or more in hexadecimal, found "010"
  [2]
  $ ./lab encode a "HANDOVER FAILURE rr=256 cause=1 cause=1" 2>&1 >/dev/null
  cause is given twice
  [2]
  $ ./lab encode rr "MEASUREMENT REPORT n=0/32/0 n=64/0/0 ba=0 dtx=0 full=30 ba3g=0 valid=1 sub=30 si23=0 qfull=0 qsub=0 count=1" 2>&1 >/dev/null
  n is a level 0 to 63, a position 0 to 31 and a code 0 to 63, as in 40/2/21, found "0/32/0"
  [2]

Texts of fifteen thousand parts.

  $ many() { printf '%s' "$1"; for _ in $(seq 15000); do printf '%s' "$2"; done; }
  $ ./lab encode a "$(many 'CLEAR COMMAND cause=9' ' cause=9')" 2>&1 >/dev/null
  cause is given twice
  [2]
  $ ./lab encode a "$(many 'HANDOVER FAILURE rr=1' ' rr=1')" 2>&1 >/dev/null
  cause is missing: bsc_lab help encode lists the fields
  [2]
  $ ./lab encode a "$(many 'HANDOVER REQUIRED cause=12 response=1 cells=23/102' ',23/102')" 2>&1 >/dev/null
  the message, or a list of octets in it, is too long to be written
  [2]
  $ ./lab encode a "$(many 'HANDOVER REQUIRED cause=12 response=1 cells=' '23/102,')" 2>&1 >/dev/null
  cells is a list of cells with their location areas, as in 23/102,23/103, found "23/102,23/102,23/102,23/102,23/102,23/102,23/102,23/102,23/1"..
  [2]
  $ ./lab encode a "$(many 'CLEAR COMMAND' S)" 2>&1 >/dev/null
  "CLEAR COMMANDSSSSSSSSSSSSSSSSSSSSSSSSSSSSSSSSSSSSSSSSSSSSSSS".. is no message of the link a: write a name and then fields as KEY=VALUE; bsc_lab help encode lists both
  [2]

Of a word sixty characters are shown, with escapes.

  $ front='HANDOVER REQUIRED cause=12 cells=23/102 response='
  $ ./lab encode a "$(printf '%s2\t' "$front")" 2>&1 >/dev/null
  response is 0 or 1, found "2\t"
  [2]
  $ word=$(for _ in 1 2 3 4 5 6; do printf '\303\244234567\342\202\25490'; done)
  $ ./lab encode a "$front$word" 2>&1 >/dev/null
  response is 0 or 1, found "\xc3\xa4234567\xe2\x82\xac90\xc3\xa4234567\xe2\x82\xac90\xc3\xa4234567\xe2\x82\xac90\xc3\xa4234567\xe2\x82\xac90\xc3\xa4234567\xe2\x82\xac90\xc3\xa4234567\xe2\x82\xac90" (esc)
  [2]
  $ ./lab encode a "$(printf '%s\t%s' "$front" "$word")" 2>&1 >/dev/null
  response is 0 or 1, found "\\t\xc3\xa4234567\xe2\x82\xac90\xc3\xa4234567\xe2\x82\xac90\xc3\xa4234567\xe2\x82\xac90\xc3\xa4234567\xe2\x82\xac90\xc3\xa4234567\xe2\x82\xac90\xc3\xa4234567\xe2\x82\xac9".. (esc)
  [2]
