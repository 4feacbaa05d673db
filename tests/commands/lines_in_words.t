Lines that say what they mean: messages in words, reports by cells, answers that name no channel.

A message in words gives what its octets give. Lines `in` have the octets.

  $ sed 's/^abis 0 0 0822010b081234$/abis 0 0 CHANNEL ACTIVATION ACK tn=3 frame=4660/; s/^abis 0 0 0833010b$/abis 0 0 RF CHANNEL RELEASE ACK tn=3/' examples/one_call.txt >one_call.txt
  $ grep -c '^abis 0 0 [A-Z]' one_call.txt
  2
  $ ./lab run examples/two_cells.toml examples/one_call.txt >came
  $ ./lab run examples/two_cells.toml one_call.txt | cmp - came
  $ ./lab live examples/two_cells.toml <one_call.txt | cmp - came
  $ printf 'a 40000 HANDOVER REQUEST channel=0108 encryption=01 classmark=33 serving=23/102 target=23/100\n' >request.txt
  $ ./lab run examples/two_cells.toml request.txt | head -n 1
  in a 40000 0018100b0201080a01011d330505010017006605050100170064

What can't be read is a line that can't be read, before anything runs, and it is said why, as encode says it.

  $ refused() { printf 'open 1 0 0 3\n%s\n' "$1" >bad.txt; ./lab run examples/two_cells.toml bad.txt 2>&1; }
  $ refused 'abis 0 0 CHANNEL ACTIVATION ACK tn=3 frame=65536'
  bad.txt:2: frame is 0 to 65535, found "65536"
  line 2
  [2]
  $ refused 'abis 0 0 CHANNEL ACTIVATION ACK frame=0'
  bad.txt:2: tn is missing
  line 2
  [2]
  $ refused 'abis 0 0 CLEAR COMMAND cause=9'
  bad.txt:2: HEX is one octet or more, each in two hexadecimal digits, or a message in words, found CLEAR COMMAND
  line 2
  [2]
  $ refused 'a 1 CLEAR  COMMAND cause=9'
  bad.txt:2: HEX is one octet or more, each in two hexadecimal digits, or a message in words, found CLEAR  COMMAND
  line 2
  [2]
  $ refused 'abis 0 0 CHANNEL ACTIVATON ACK tn=3 frame=0'
  bad.txt:2: HEX is one octet or more, each in two hexadecimal digits, or a message in words, found CHANNEL ACTIVATON ACK
  line 2
  [2]
  $ refused 'abis 0 0 CHANNEL ACTIVATION ACK  tn=3 frame=0' | head -n 1 | sed 's/.*, found/found/'
  found CHANNEL ACTIVATION ACK  (it ends with a blank)
  $ refused 'abis 0 0 CHANNEL tn=3'
  bad.txt:2: HEX is one octet or more, each in two hexadecimal digits, or a message in words, found CHANNEL
  line 2
  [2]
  $ refused 'abis 0 0 TN=3'
  bad.txt:2: HEX is one octet or more, each in two hexadecimal digits, or a message in words, found TN=3
  line 2
  [2]
  $ refused 'abis 0 0 channel activation ack tn=3 frame=0'
  bad.txt:2: HEX is one octet or more, each in two hexadecimal digits, or a message in words, with its name in capitals, found channel
  line 2
  [2]
  $ refused 'a 1 deadbee'
  bad.txt:2: HEX is one octet or more, each in two hexadecimal digits, found deadbee
  line 2
  [2]
  $ refused 'report 1 full=64'
  bad.txt:2: full is 0 to 63, found 64
  line 2
  [2]
  $ refused 'report 1 full=30 qsub=8' | head -n 1
  bad.txt:2: qsub is 0 to 7, found 8
  $ refused 'report 1 full=30 times=' | head -n 1
  bad.txt:2: times is 1 to 255, found nothing
  $ refused 'report 1 full=30 n=1:64' | head -n 1
  bad.txt:2: n is one to six times CELL:LEVEL (0 to 255 and 0 to 63), with a comma between any two, or -, found 1:64
  $ refused 'report 1 full=30 n=- full=30' | head -n 1
  bad.txt:2: full is given twice
  $ refused 'report 1 full=30 dtx dtx' | head -n 1
  bad.txt:2: dtx is given twice
  $ refused 'report 1 full=30 level=3' | head -n 1
  bad.txt:2: FIELD is .*, each once, found level=3 (re)
  $ refused 'report 1 n=-'
  bad.txt:2: full is missing, as in full=30
  line 2
  [2]
  $ refused 'mobile 1 return'
  bad.txt:2: mobile CALL HABIT needs a line sim before it
  line 2
  [2]

A message that is too long for its link, by one octet; one less is read.

  $ octets() { head -c "$1" /dev/zero | od -An -v -tx1 | tr -d ' \n'; }
  $ refused "abis 0 0 DATA INDICATION tn=3 link=0 layer3=$(octets 1016)"
  bad.txt:2: the message, or a list of octets in it, is too long to be written
  line 2
  [2]
  $ refused "abis 0 0 MEASUREMENT RESULT tn=3 number=0 uplink=$(octets 255) power=0 layer3=$(octets 757)" | head -n 1
  bad.txt:2: the message, or a list of octets in it, is too long to be written
  $ refused "a 1 HANDOVER COMMAND layer3=$(octets 251)" | head -n 1
  bad.txt:2: the message, or a list of octets in it, is too long to be written
  $ for message in "abis 0 0 DATA INDICATION tn=3 link=0 layer3=$(octets 1015)" "abis 0 0 MEASUREMENT RESULT tn=3 number=0 uplink=$(octets 255) power=0 layer3=$(octets 756)" "a 1 HANDOVER COMMAND layer3=$(octets 250)"; do
  >   refused "$message" | grep -c '^in a'
  > done
  1
  1
  1

A report's octets, in words: neighbours by position and code, found by the site.

  $ printf 'open 1 0 0 3\nanswer 1 ack\nreport 1 full=30 n=1:40,64:20 qfull=1 dtx\n' >report.txt
  $ ./lab run examples/two_cells.toml report.txt --words | sed -n 's/^in abis 0 0 0828[0-9a-f]* # //p'
  call 1; MEASUREMENT RESULT tn=3 number=0 uplink=1e1e09 power=0 layer3=.*; MEASUREMENT REPORT ba=0 dtx=1 full=30 ba3g=0 valid=1 sub=30 si23=0 qfull=1 qsub=1 count=2 n=40/2/21 n=20/0/24 (re)

What asks the book in vain comes to nothing, and that is told: there is no such call, no such neighbour, no release that is
awaited. A test of it isn't met.

  $ cat >vain.txt <<'END'
  > report 1 full=30 n=-
  > answer 1 ack
  > report all full=30 n=-
  > open 1 0 0 3
  > answer 1 released
  > report 1 full=30 n=0:40
  > report 1 full=30 n=9:40
  > #> ..
  > END
  $ ./lab run examples/two_cells.toml vain.txt 2>/dev/null
  in open 1 0 0 3
  event open 1 0/0/3 -> done
  out abis 0 0 0821010b0300060400010801
  end channels=1 calls=1 references=0 timers=0
  $ ./lab run examples/two_cells.toml vain.txt 2>&1 >/dev/null
  vain.txt:1: this line has no effect: there is no call 1
  vain.txt:2: this line has no effect: there is no call 1
  vain.txt:3: this line has no effect: no call is in a cell with these neighbours
  vain.txt:5: this line has no effect: no channel of call 1 awaits its release
  vain.txt:6: this line has no effect: cell 0 isn't in the neighbour list of cell 0
  vain.txt:7: this line has no effect: cell 9 isn't in the neighbour list of cell 0
  $ ./lab test examples/two_cells.toml vain.txt 2>/dev/null
  1..1
  not ok 1 - vain.txt
  # line 1 has no effect
  # line 2 has no effect
  # line 3 has no effect
  # line 5 has no effect
  # line 6 has no effect
  # line 7 has no effect
  [1]
  $ ./lab live examples/two_cells.toml <vain.txt 2>&1 >/dev/null | head -n 2
  standard input:1: this line has no effect: there is no call 1
  standard input:2: this line has no effect: there is no call 1

A release that is awaited is that of the call which had the channel last.

  $ printf 'open 1 0 0 3\nanswer 1 ack\nclear 1\nanswer 1 released\nopen 2 0 0 3\nclear 2\nanswer 1 released\nanswer 2 released\n' >last.txt
  $ ./lab run examples/two_cells.toml last.txt 2>errors | tail -n 3
  in abis 0 0 0833010b
  event released 0/0/3 -> done
  end channels=0 calls=0 references=0 timers=0
  $ cat errors
  last.txt:7: this line has no effect: no channel of call 1 awaits its release

Of each input it is known which line gave it.

  $ printf 'sim\n\nopen 1 0 0 3\nreport 1 full=30 n=1:40 times=2\nclear 1\n' >lines.txt
  $ ./lab run examples/two_cells.toml lines.txt --lines | sed -n 's/^in \([a-z]*\) .* @/\1 @/p' | head -n 6
  open @3
  abis @
  abis @4
  abis @4
  abis @
  abis @

Two controllers: a call comes from another one; its station answers about its target.

  $ cat >two.txt <<'END'
  > open 1 0 0 3
  > answer 1 ack
  > 2: a 40000 HANDOVER REQUEST channel=0108 encryption=01 classmark=33 serving=23/100 target=23/102
  > 2: answer 40000 ack
  > 2: answer 40000 failure
  > 2: answer 40000 detect
  > 2: answer 40000 complete
  > END
  $ ./lab run examples/two_cells.toml two.txt --peer examples/one_cell.toml 2>errors | grep '^2: in abis'
  2: in abis 0 0 08220109080000
  2: in abis 0 0 082701091100
  2: in abis 0 0 0302010902000b0003062c00
  $ cat errors
  two.txt:5: this line has no effect: call 40000 is on no channel
