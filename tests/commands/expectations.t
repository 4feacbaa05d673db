What the comments of a script expect beside whole lines of the trace.

Messages in words, in part: the fields that aren't named may be any. The echo of the line may be left out.

  $ cat >script.txt <<'END'
  > open 1 0 0 3
  > #> event open 1 0/0/3 -> done
  > #> out abis 0 0 CHANNEL ACTIVATION tn=3
  > abis 0 0 0822010b081234
  > #> in abis 0 0 CHANNEL ACTIVATION ACK frame=4660 tn=3
  > #> ..
  > #> event look 1 -> record 0/0/3 on
  > END
  $ ./lab test examples/two_cells.toml script.txt
  1..1
  ok 1 - script.txt

A field with another value, another name, another place. What came is shown in words, too.

  $ sed 's/CHANNEL ACTIVATION tn=3/CHANNEL ACTIVATION tn=2/' script.txt >tn.txt
  $ sed 's/CHANNEL ACTIVATION tn=3/CHANNEL tn=3/' script.txt >name.txt
  $ sed 's/out abis 0 0/out abis 0 1/' script.txt >place.txt
  $ ./lab test examples/two_cells.toml tn.txt name.txt place.txt 2>/dev/null
  1..3
  not ok 1 - tn.txt
  # line 3
  # expected: out abis 0 0 CHANNEL ACTIVATION tn=2
  # came: out abis 0 0 CHANNEL ACTIVATION tn=3 activation=0 mode=00010801 reference=-
  not ok 2 - name.txt
  # line 3
  # expected: out abis 0 0 CHANNEL tn=3
  # came: "CHANNEL" is no message of the link
  not ok 3 - place.txt
  # line 3
  # expected: out abis 0 1 CHANNEL ACTIVATION tn=3
  # came: the site has no such cell or carrier
  [1]

The message inside another stands behind a semicolon, as in the words of a run; so does the name of a cause. Each may be
left out.

  $ cat >inside.txt <<'END'
  > sim
  > open 1 0 0 3
  > handover 1 1
  > #> ..
  > #> out abis 0 0 DATA REQUEST tn=3; HANDOVER COMMAND tn=3 carrier=875
  > #> ..
  > #> in abis 1 1 DATA INDICATION; HANDOVER COMPLETE cause=0
  > #> ..
  > #> out a 1 HANDOVER PERFORMED cell=23/101
  > #> ..
  > END
  $ ./lab test examples/two_cells.toml inside.txt
  1..1
  ok 1 - inside.txt
  $ sed 's/carrier=875/carrier=871/' inside.txt >carrier.txt
  $ ./lab test examples/two_cells.toml carrier.txt >said
  [1]
  $ sed -n 2,4p said
  not ok 1 - carrier.txt
  # line 5
  # expected: out abis 0 0 DATA REQUEST tn=3; HANDOVER COMMAND tn=3 carrier=871

A field stands in a message once, so an expectation that has it twice isn't met; of a report `n` may stand as often as there.

  $ printf 'open 1 0 0 3\n#> event open 1 0/0/3 -> done\n#> out abis 0 0 CHANNEL ACTIVATION tn=3 tn=3\n' >twice.txt
  $ ./lab test examples/two_cells.toml twice.txt 2>/dev/null
  1..1
  not ok 1 - twice.txt
  # line 3
  # expected: out abis 0 0 CHANNEL ACTIVATION tn=3 tn=3
  # came: tn is given twice
  [1]
  $ report='MEASUREMENT REPORT ba=0 dtx=0 full=30 ba3g=0 valid=1 sub=30 si23=0 qfull=0 qsub=0 count=2 n=20/1/21 n=20/1/21'
  $ octets=$(./lab encode rr "$report")
  $ printf "open 1 0 0 3\nabis 0 0 MEASUREMENT RESULT tn=3 number=0 uplink=- power=0 layer3=$octets\n" | sed 's/uplink=-/uplink=/' >report.txt
  $ sed '$a #> in abis 0 0 MEASUREMENT RESULT; MEASUREMENT REPORT n=20/1/21 n=20/1/21\n#> ..' report.txt >two.txt
  $ sed '$a #> in abis 0 0 MEASUREMENT RESULT; MEASUREMENT REPORT n=20/1/21 n=20/1/21 n=20/1/21\n#> ..' report.txt >three.txt
  $ ./lab test examples/two_cells.toml two.txt three.txt | grep ok
  ok 1 - two.txt
  not ok 2 - three.txt

Other lines have no words: of them all has to be said.

  $ printf 'open 1 0 0 3\n#> ..\n#> end channels=1\n' >script.txt
  $ ./lab test examples/two_cells.toml script.txt 2>/dev/null
  1..1
  not ok 1 - script.txt
  # line 3
  # expected: end channels=1
  # came: no line of a trace is like this
  [1]

No line begins so.

  $ cat >script.txt <<'END'
  > open 1 0 0 3
  > #! out a 1
  > #! out abis 0 0 RF CHANNEL RELEASE
  > clear 1
  > #! out a 1
  > #! out abis 0 0 RF CHANNEL RELEASE
  > #! event look
  > END
  $ ./lab test examples/two_cells.toml script.txt
  1..1
  not ok 1 - script.txt
  # line 6
  # expected no line that begins with: out abis 0 0 RF CHANNEL RELEASE
  # came: out abis 0 0 RF CHANNEL RELEASE tn=3
  # line 7
  # expected no line that begins with: event look
  # came: event look 1 -> record 0/0/3 pending
  [1]
  $ sed '6,7d' script.txt >met.txt
  $ ./lab test examples/two_cells.toml met.txt
  1..1
  ok 1 - met.txt

Nor is one so in words, as `#>` takes them: with other fields between, in another order, with the message inside.

  $ cat >script.txt <<'END'
  > sim
  > open 1 0 0 3
  > #! out abis 0 0 CHANNEL ACTIVATION mode=00010801 tn=3
  > #! out abis 0 0 CHANNEL ACTIVATION tn=2
  > #! out abis 0 0 CHANNEL ACTIVATION reference=0
  > handover 1 1
  > #! out abis 0 0 DATA REQUEST; HANDOVER COMMAND carrier=875
  > #! out abis 0 0 DATA REQUEST; HANDOVER COMMAND carrier=871
  > #! in abis 1 1 DATA INDICATION; HANDOVER FAILURE
  > END
  $ ./lab test examples/two_cells.toml script.txt
  1..1
  not ok 1 - script.txt
  # line 3
  # expected no line that begins with: out abis 0 0 CHANNEL ACTIVATION mode=00010801 tn=3
  # came: out abis 0 0 CHANNEL ACTIVATION tn=3 activation=0 mode=00010801 reference=-
  # line 7
  # expected no line that begins with: out abis 0 0 DATA REQUEST; HANDOVER COMMAND carrier=875
  # came: out abis 0 0 DATA REQUEST tn=3 link=0 layer3=062bd5670ba36b0005; HANDOVER COMMAND arfcn=871 ncc=2 bcc=5 tn=3 tsc=5 carrier=875 reference=0 atc=0 power=5
  [1]

It is of all that comes up to the next line: what simulators answer, and at the end of the script the trace's end.

  $ printf 'sim\nopen 1 0 0 3\n#! event confirm\nclear 1\n#! end channels=0\n#! in abis 0 0 RF CHANNEL RELEASE ACK\n' >script.txt
  $ ./lab test examples/two_cells.toml script.txt
  1..1
  not ok 1 - script.txt
  # line 3
  # expected no line that begins with: event confirm
  # came: event confirm 0/0/3 -> owned 1
  # line 5
  # expected no line that begins with: end channels=0
  # came: end channels=0 calls=0 references=0 timers=0
  # line 6
  # expected no line that begins with: in abis 0 0 RF CHANNEL RELEASE ACK
  # came: in abis 0 0 RF CHANNEL RELEASE ACK tn=3
  [1]

A text that no line can begin with, nor be in words, would never be missed: it isn't met, and standard error says so, too.

  $ cat >script.txt <<'END'
  > #! out abis
  > open 1 0 0 3
  > #! out abs
  > #! state call 1
  > #! 1: out
  > #! in report 1
  > #! event opens
  > #! event open 1 -> refused
  > #! event open 1 0/0/3 -> refuse 5
  > #! event open 01
  > #! end calls=0
  > #! ..
  > #! out abis 0 CHANNEL ACTIVATION
  > #! out abis 0 0 CHANEL ACTIVATION
  > #! out abis 0 0 CHANNEL reference=-
  > #! out a 1 CHANNEL ACTIVATION
  > #! out abis 0 0 CHANNEL ACTIVATION timeslot=3
  > #! out abis 0 0 CHANNEL ACTIVATION ref
  > #! out abis 0 0 CHANNEL ACTIVATION tn=3 tn=3
  > #! out abis 0 0 DATA REQUEST; HANDOVER COMAND
  > #! out abis 0 0 DATA REQUEST; HANDOVER COMM
  > #! out abis 0 0 DATA REQUEST; HANDOVER COMMAND carier=875
  > #! out abis 0 0 DATA REQUEST;HANDOVER COMMAND
  > #! out abis 0 0 0821010B
  > END
  $ ./lab test examples/two_cells.toml script.txt 2>errors >said
  [1]
  $ head -n 7 said
  1..1
  not ok 1 - script.txt
  # line 1
  # expected no line that begins with: out abis
  # came: no script line comes before it
  # line 3
  # expected no line that begins with: out abs
  $ grep -c '^# expected no line that begins with: ' said
  23
  $ cat errors
  script.txt:1: is always met: no script line comes before it
  script.txt:3: is always met: no line of a trace begins like this
  script.txt:4: is always met: no line of a trace begins like this
  script.txt:5: is always met: there is only one controller: its lines have no mark
  script.txt:6: is always met: no line of a trace begins like this
  script.txt:7: is always met: no line of a trace begins like this
  script.txt:8: is always met: no line of a trace begins like this
  script.txt:9: is always met: no line of a trace begins like this
  script.txt:10: is always met: no line of a trace begins like this
  script.txt:11: is always met: no line of a trace begins like this
  script.txt:12: is always met: no line of a trace begins like this
  script.txt:13: is always met: no line of a trace begins like this
  script.txt:14: is always met: "CHANEL ACTIVATION" is no message of the link
  script.txt:15: is always met: "CHANNEL" is no message of the link
  script.txt:16: is always met: "CHANNEL ACTIVATION" is no message of the link
  script.txt:17: is always met: "timeslot=3" is no field of the message
  script.txt:18: is always met: "CHANNEL ACTIVATION ref" is no message of the link
  script.txt:19: is always met: tn is given twice
  script.txt:20: is always met: "HANDOVER COMAND" is no message of the link
  script.txt:21: is always met: "HANDOVER COMM" is no message of the link
  script.txt:22: is always met: "carier=875" is no field of the message
  script.txt:23: is always met: a blank has to follow ;
  script.txt:24: is always met: a trace writes octets in small letters

So is a message that controllers don't send. (`in` may have any: a line may give it.)

  $ cat >script.txt <<'END'
  > open 1 0 0 3
  > #! out abis 0 0 CHANNEL ACTIVATION NACK
  > #! out a 1 CLEAR COMMAND
  > #! out a 1 CLEAR CO
  > #! out abis 1 1 CHANNEL ACTI
  > #! out abis 1 1 MEASUREMENT RESULT tn=3
  > #! out abis 1 1 CHANNEL REQUIRED
  > #! in abis 0 0 CHANNEL ACTIVATION NACK
  > #! out abis 1 1 CHANNEL ACTIVATION t
  > #! out a 1 HANDOVER FAILURE cau
  > END
  $ ./lab test examples/two_cells.toml script.txt 2>&1 >/dev/null
  script.txt:2: is always met: a controller never sends "CHANNEL ACTIVATION NACK"
  script.txt:3: is always met: a controller never sends "CLEAR COMMAND"
  script.txt:4: is always met: "CLEAR CO" is no message of the link
  script.txt:5: is always met: "CHANNEL ACTI" is no message of the link
  script.txt:6: is always met: a controller never sends "MEASUREMENT RESULT"
  script.txt:7: is always met: a controller never sends "CHANNEL REQUIRED"
  script.txt:9: is always met: "CHANNEL ACTIVATION t" is no message of the link
  script.txt:10: is always met: "HANDOVER FAILURE cau" is no message of the link
  [1]

So is a value that no message is printed with. A text ends at a word's end: of octets it may have the first ones.

  $ cat >script.txt <<'END'
  > open 1 0 0 3
  > #! out abis 1 1 CHANNEL ACTIVATION tn=03
  > #! out abis 1 1 CHANNEL ACTIVATION reference=256
  > #! out abis 1 1 CHANNEL ACTIVATION tn=3/2 activation=2
  > #! out abis 1 1 CHANNEL ACTIVATION mode=0A
  > #! out abis 1 1 DATA REQUEST tn=3 layer3=06280; HANDOVER COMMAND
  > #! out abis 1 1 DATA REQUEST; HANDOVER COMMAND atc=2
  > #! out a 1 HANDOVER PERFORMED cell=23
  > #! out a 1 HANDOVER REQUIRED cells=23/102;23/103
  > #! in abis 0 0 MEASUREMENT RESULT; MEASUREMENT REPORT n=40/2
  > #! in abis 0 0 CHANNEL ACTIVATION ACK frame=
  > #! out abis 1 1 CHANNEL ACTIVATION tn=3/
  > #! out abis 1 1 CHANNEL ACTIVATION tn=
  > #! out abis 1 1 CHANNEL ACTIVATION reference=-
  > #! out abis 1 1 DATA REQUEST tn=3 link=0 layer3=06280
  > #! out a 1 HANDOVER PERFORMED cause=12 cell=23
  > #! out a 1 HANDOVER PERFORMED cell=-/5
  > #! out a 1 HANDOVER REQUIRED cells=
  > #! in abis 0 0 MEASUREMENT RESULT; MEASUREMENT REPORT n=40/2/21
  > #! in a 1 HANDOVER REQUEST classmark=
  > END
  $ ./lab test examples/two_cells.toml script.txt 2>&1 >/dev/null
  script.txt:2: is always met: tn is 0 to 7, with /0 or /1 at the end for half rate, found "03"
  script.txt:3: is always met: reference is 0 to 255, or -, found "256"
  script.txt:4: is always met: tn is 0 to 7, with /0 or /1 at the end for half rate, found "3/2"
  script.txt:5: is always met: a trace writes octets in small letters
  script.txt:6: is always met: layer3 is one octet or more in hexadecimal, found "06280"
  script.txt:7: is always met: atc is 0 or 1, found "2"
  script.txt:8: is always met: cell is a cell with its location area, as in 23/102, found "23"
  script.txt:9: is always met: a blank has to follow ;
  script.txt:10: is always met: n is a level 0 to 63, a position 0 to 31 and a code 0 to 63, as in 40/2/21, found "40/2"
  script.txt:11: is always met: frame is 0 to 65535, found ""
  script.txt:12: is always met: tn is 0 to 7, with /0 or /1 at the end for half rate, found "3/"
  script.txt:13: is always met: tn is 0 to 7, with /0 or /1 at the end for half rate, found ""
  script.txt:15: is always met: layer3 is one octet or more in hexadecimal, found "06280"
  script.txt:16: is always met: cell is a cell with its location area, as in 23/102, found "23"
  [1]

What the switching centre gives a controller for a mobile it sends on, so that may be any message. A script without lines has an
end.

  $ printf 'open 1 0 0 3\nanswer 1 ack\nhandover 1 64\na 1 HANDOVER COMMAND layer3=062c00\n' >passed_on.txt
  $ printf '#! out abis 0 0 DATA REQUEST; HANDOVER COMPLETE\n' >>passed_on.txt
  $ ./lab test examples/two_cells.toml passed_on.txt | tail -n 1
  # came: out abis 0 0 DATA REQUEST tn=3 link=0 layer3=062c00; HANDOVER COMPLETE cause=0; normal event
  $ ./lab test examples/two_cells.toml passed_on.txt 2>&1 >/dev/null
  [1]
  $ printf '#! end channels=1\n' >no_lines.txt
  $ ./lab test examples/two_cells.toml no_lines.txt
  1..1
  ok 1 - no_lines.txt

So is what doesn't stand behind such a message, and what comes of a line of which nothing ever comes.

  $ cat >script.txt <<'END'
  > sim
  > open 1 0 0 3
  > #! in abis 0 0 CHANNEL ACTIVATION ACK; normal event
  > #! in abis 0 0 HANDOVER DETECTION; HANDOVER COMPLETE
  > #! in a 1 HANDOVER DETECT; ignored: no row
  > #! in abis 0 0 CHANNEL REQUIRED; HANDOVER COMPLETE
  > #! in abis 0 0 CHANNEL REQUIRED tn=3
  > #! in abis 0 0 HANDOVER DETECTION;
  > #! in abis 0 0 CHANNEL ACTIVATION ACK tn=3; tn=3
  > #! in abis 0 0 CHANNEL REQUIRED; ignored: no row
  > #! in abis 0 0 CHANNEL ACTIVATION NACK; radio resource not available
  > #! in abis 0 0 DATA INDICATION; HANDOVER FAILURE; protocol error unspecified
  > #! out a 1 HANDOVER FAILURE; radio interface message failure; protocol error unspecified
  > #! out abis 1 1 CHANNEL ACTIVATION 
  > hold 1 1 3
  > #! out abis 1 1 CHANNEL ACTIVATION
  > handover 1 1
  > #! out abis 1 1 RF CHANNEL RELEASE
  > mobile 1 return
  > #! end channels=0
  > END
  $ ./lab test examples/two_cells.toml script.txt 2>&1 >/dev/null
  script.txt:19: this line has no effect: it is never used on 0/0/3
  script.txt:3: is always met: no such part ever follows this message
  script.txt:4: is always met: no such part ever follows this message
  script.txt:5: is always met: only --words says what is ignored
  script.txt:6: is always met: no such part ever follows this message
  script.txt:7: is always met: "tn=3" is no field of the message
  script.txt:8: is always met: something has to follow ;
  script.txt:9: is always met: "tn=3" is no message of the link
  script.txt:16: is always met: the line before it never gives anything
  [1]

What else isn't met stands among these, in the order of the lines; a script that can't be read is refused all the same.

  $ printf 'open 1 0 0 3\n#! out a 1\n#! out abis\n#! ot a\n' >script.txt
  $ ./lab test examples/two_cells.toml script.txt 2>/dev/null
  1..1
  not ok 1 - script.txt
  # line 3
  # expected no line that begins with: out abis
  # came: out abis 0 0 CHANNEL ACTIVATION tn=3 activation=0 mode=00010801 reference=-
  # line 4
  # expected no line that begins with: ot a
  # came: no line of a trace begins like this
  [1]
  $ sed '1i sim 2' script.txt >unread.txt
  $ ./lab test examples/two_cells.toml unread.txt 2>errors | sed -n 3p
  # line 1 can't be read
  $ tail -n 1 errors
  unread.txt:1: nothing may follow sim, found 2

A line can begin so: the text ends behind a word or between octets, or a message may be in part.

  $ cat >script.txt <<'END'
  > seize 1 0 full
  > #! in open
  > #! event take
  > #! event take 1 internal 1/0/3
  > #! event take 1 internal 1/*/* -> done
  > #! event open 1 0/0/3 -> refused
  > #! event confirm 0/0/3 -> owned
  > #! event undo 1 asked -> record 0/0/3 on outgoing required
  > #! none
  > #! fault abis 3 26
  > #! end channels=0
  > #! out abis 1 0 CHANNEL
  > #! out abis * * CHANNEL ACTIVATION tn=*/*
  > #! out abis 0 0 CHANNEL ACTIVATION tn=7
  > #! out abis 0 0 CHANNEL ACTIVATION reference=7 tn=3
  > #! out abis 0 0 0820
  > #! out a 1 HANDOVER REQUIRED; better cell
  > #! in a 1 CLEAR COMMAND cause=9; call control
  > #! in abis 0 0 ERROR INDICATION; ignored: no row
  > #! in abis 0 0 MEASUREMENT RESULT; MEASUREMENT REPORT n=20/1/21 n=20/1/21
  > END
  $ ./lab test examples/two_cells.toml script.txt
  1..1
  ok 1 - script.txt

A text that ends within a word begins no line.

  $ cat >script.txt <<'END'
  > open 1 0 0 3
  > #! in ope
  > #! event t
  > #! event take 1 internal 1/
  > #! event confirm 0/0/3 -> own
  > #! out abis 0 0 CHANNEL ACTIVATION tn=7 act
  > #! out abis 0 0 082
  > #! out abis 9 9 0821
  > #! out abis 9 9 CHANNEL ACTIVATION tn=3
  > END
  $ ./lab test examples/two_cells.toml script.txt 2>&1 >/dev/null
  script.txt:2: is always met: no line of a trace begins like this
  script.txt:3: is always met: no line of a trace begins like this
  script.txt:4: is always met: no line of a trace begins like this
  script.txt:5: is always met: no line of a trace begins like this
  script.txt:6: is always met: "act" is no field of the message
  script.txt:7: is always met: an octet has two digits
  script.txt:8: is always met: the site has no such cell or carrier
  script.txt:9: is always met: the site has no such cell or carrier
  [1]

So it means whole words: link A isn't Abis, call 1 isn't call 12, timeslot 2 isn't 2/0. Octets may be the first ones.

  $ cat >whole.txt <<'END'
  > seize 12 0 half
  > #! out a
  > #! event open 1
  > #! in seize 1
  > #! out abis 0 0 CHANNEL ACTIVATION tn=3
  > #! out abis 0 0 CHANNEL ACTIVATION activation=0 mode=0002 tn=3/0
  > #= channels 0/0/3/0
  > END
  $ ./lab test examples/half_rate.toml whole.txt
  1..1
  ok 1 - whole.txt
  $ cat >octets.txt <<'END'
  > open 1 0 0 3
  > #! out abis 0 0 0821
  > #! out abis 0 0 CHANNEL ACTIVATION tn=3 activation=0 mode=0001
  > #! out abis 0 0 CHANNEL ACTIVATION tn=3 activation=0 mode=0002
  > #! out abis 0 0 0822
  > END
  $ ./lab test examples/two_cells.toml octets.txt
  1..1
  not ok 1 - octets.txt
  # line 2
  # expected no line that begins with: out abis 0 0 0821
  # came: out abis 0 0 0821010b0300060400010801
  # line 3
  # expected no line that begins with: out abis 0 0 CHANNEL ACTIVATION tn=3 activation=0 mode=0001
  # came: out abis 0 0 CHANNEL ACTIVATION tn=3 activation=0 mode=00010801 reference=-
  [1]

A line that is expected and that nothing can be is told before the run, too.

  $ cat >script.txt <<'END'
  > #> event open 1 0/0/3 -> done
  > open 1 0 0 3
  > #> ..
  > #> out abis 0 0 CHANEL ACTIVATION tn=3
  > #> out abis 0 0 CHANNEL ACTIVATION timeslot=3
  > #> out abis 0 0 CHANNEL ACTIVATION tn=9
  > #> out a 1 CHANNEL ACTIVATION
  > #> out abis 0 0 MEASUREMENT RESULT tn=3
  > #> out abis 4 0 CHANNEL ACTIVATION
  > #> out abis 0 0 CHANNEL
  > #> out abis 0 0 082
  > #> event open 1 0/0/3
  > #> event open 1 0/0/3 -> owned 1
  > #> 1: event open 1 0/0/3 -> done
  > #> end channels=1 calls=1 references=0 timers=0
  > clear 1
  > #> event clear 1 -> done
  > #> ..
  > END
  $ ./lab test examples/two_cells.toml script.txt 2>&1 >/dev/null
  script.txt:1: can't be met: no script line comes before it
  script.txt:4: can't be met: "CHANEL ACTIVATION" is no message of the link
  script.txt:5: can't be met: "timeslot=3" is no field of the message
  script.txt:6: can't be met: tn is 0 to 7, with /0 or /1 at the end for half rate, found "9"
  script.txt:7: can't be met: "CHANNEL ACTIVATION" is no message of the link
  script.txt:8: can't be met: a controller never sends "MEASUREMENT RESULT"
  script.txt:9: can't be met: the site has no such cell or carrier
  script.txt:10: can't be met: "CHANNEL" is no message of the link
  script.txt:11: can't be met: an octet has two digits
  script.txt:12: can't be met: no line of a trace is like this
  script.txt:13: can't be met: no line of a trace is like this
  script.txt:14: can't be met: there is only one controller: its lines have no mark
  script.txt:15: can't be met: the trace's end comes only after the last line
  [1]
  $ ./lab test examples/two_cells.toml script.txt 2>/dev/null | sed -n 3,8p
  # line 1
  # expected: event open 1 0/0/3 -> done
  # came: no script line comes before it
  # line 4
  # expected: out abis 0 0 CHANEL ACTIVATION tn=3
  # came: "CHANEL ACTIVATION" is no message of the link

The lines of octets that are no message may come, with an argument or without one.

  $ printf 'abis 0 0 ff\n#> fault abis 1\nabis 0 0 0821\n#> ..\n#! fault abis 1\n' >fault.txt
  $ ./lab test examples/two_cells.toml fault.txt
  1..1
  ok 1 - fault.txt

Behind any lines the one is shown that is nearest to what is expected: of the same link and message, else of the same link, else
of the same kind; what differs first, and how many came.

  $ cat >near.txt <<'END'
  > sim
  > open 1 0 0 3
  > handover 1 1
  > #> ..
  > #> out abis 1 1 CHANNEL ACTIVATION tn=4
  > #> ..
  > END
  $ ./lab test examples/two_cells.toml near.txt
  1..1
  not ok 1 - near.txt
  # line 5
  # expected: out abis 1 1 CHANNEL ACTIVATION tn=4
  # came: out abis 1 1 CHANNEL ACTIVATION tn=3 activation=2 mode=00010801 reference=0
  # nearest of the 23 that came: tn=3, not tn=4
  [1]
  $ sed 's/CHANNEL ACTIVATION tn=4/RF CHANNEL RELEASE tn=4/' near.txt >message.txt
  $ ./lab test examples/two_cells.toml message.txt | sed -n 4,6p
  # expected: out abis 1 1 RF CHANNEL RELEASE tn=4
  # came: out abis 0 0 RF CHANNEL RELEASE tn=3
  # nearest of the 23 that came: 0, not 1
  $ sed 's/out abis.*/out a 1 HANDOVER FAILURE/' near.txt >link.txt
  $ ./lab test examples/two_cells.toml link.txt | sed -n 6p
  # nearest of the 23 that came: PERFORMED, not FAILURE
  $ sed 's/out abis.*/fault rr 2 3/' near.txt >kind.txt
  $ ./lab test examples/two_cells.toml kind.txt | sed -n 4,5p
  # expected: fault rr 2 3
  # came no line of its kind, and 23 others

A star stands for any word, for any part of a channel, for the value of a field, and behind `->` for any reply.

  $ cat >star.txt <<'END'
  > sim
  > open 1 0 0 3
  > #> event open 1 0/*/* -> done
  > #> out abis * * CHANNEL ACTIVATION reference=* tn=*
  > #> ..
  > #> event look 1 -> *
  > handover 1 1
  > #> ..
  > #> event take 1 internal 1/*/* -> *
  > #> ..
  > #> out abis 1 * CHANNEL ACTIVATION tn=*
  > #> ..
  > #= call 1 1/*/*
  > #= channels 1/*/*
  > #= cell 1 1
  > #= cell 0 0
  > #= timers T3103 0
  > #= call 2 -
  > END
  $ ./lab test examples/two_cells.toml star.txt
  1..1
  ok 1 - star.txt
  $ cat >stars.txt <<'END'
  > sim
  > seize 1 0 half
  > #> event open 1 0/*/* -> done
  > #> ..
  > seize 2 0 half
  > #> ..
  > #> out abis 1 * CHANNEL ACTIVATION tn=*
  > #> ..
  > #= call 1 -
  > #= call 3 *
  > #= cell 0 1
  > #= cell 7 0
  > #= timers T3103 1
  > #= timers T9 0
  > END
  $ ./lab test examples/half_rate.toml stars.txt
  1..1
  not ok 1 - stars.txt
  # line 3
  # expected: event open 1 0/*/* -> done
  # came: event open 1 0/0/3/0 -> done
  # line 7
  # expected: out abis 1 * CHANNEL ACTIVATION tn=*
  # came: out abis 0 0 CHANNEL ACTIVATION tn=3/1 activation=0 mode=00010901 reference=-
  # nearest of the 7 that came: 0, not 1
  # line 9
  # expected: call 1 -
  # came: call 1 0/0/3/0
  # line 10
  # expected: call 3 *
  # came: no call 3
  # line 11
  # expected: cell 0 1
  # came: cell 0 2
  # line 12
  # expected: cell 7 0
  # came: no cell 7
  # line 13
  # expected: timers T3103 1
  # came: timers T3103 0
  # line 14
  # expected: timers T9 0
  # came: no such expectation
  [1]

An event gets its own replies alone; the trace's end comes behind the last line, and there are no simulators without `sim`.

  $ cat >script.txt <<'END'
  > open 1 0 0 3
  > #! event open 1 0/0/3 -> refused 1
  > #! event open 1 0/0/3 -> owned 1
  > #! event undo 1 asked -> done
  > #! event undo 1 t7 -> record 0/0/3 on internal
  > #! event look 1 -> record 0/0/3 on internal taken
  > #! event look 1 -> record - - outgoing
  > #! event confirm 0/0/3 -> done
  > #! event released 0/0/3 -> owned
  > #! event reserve 1 0 -> refused 7
  > #! end channels=1
  > #! sim limit
  > clear 1
  > #! end channels=2
  > END
  $ ./lab test examples/two_cells.toml script.txt 2>&1 >/dev/null
  script.txt:2: is always met: no line of a trace begins like this
  script.txt:3: is always met: no line of a trace begins like this
  script.txt:4: is always met: no line of a trace begins like this
  script.txt:5: is always met: no line of a trace begins like this
  script.txt:6: is always met: no line of a trace begins like this
  script.txt:7: is always met: no line of a trace begins like this
  script.txt:8: is always met: no line of a trace begins like this
  script.txt:9: is always met: no line of a trace begins like this
  script.txt:10: is always met: no line of a trace begins like this
  script.txt:11: is always met: the trace's end comes only after the last line
  script.txt:12: is always met: no line sim comes before it
  [1]
  $ printf 'sim\nopen 1 0 0 3\n#! sim limit\n#! sim\nclear 1\n#! end channels=1\n' >script.txt
  $ ./lab test examples/two_cells.toml script.txt
  1..1
  ok 1 - script.txt

What the books hold behind a line: timeslots, channels, a call, how many calls and references.

  $ cat >script.txt <<'END'
  > open 1 0 0 3
  > #= trx 0/0 - - - ! - - - -
  > abis 0 0 0822010b081234
  > #= trx 0/0 * - - F - - * -
  > #= channels 0/0/3
  > #= call 1 0/0/3
  > #= calls 1
  > #= references 0
  > handover 1 1
  > #= trx 1/1 - - - ! - - - -
  > #= channels 1/1/3 0/0/3
  > #= call 1 0/0/3 internal sent 1/1/3 0
  > #= references 1
  > undo 1
  > #= call 1 0/0/3
  > #= channels 0/0/3 1/1/3
  > abis 1 1 0833010b
  > #= channels 0/0/3
  > clear 1
  > #= calls 0
  > abis 0 0 0833010b
  > #= channels
  > END
  $ ./lab test examples/two_cells.toml script.txt
  1..1
  ok 1 - script.txt

A TRX that the site lacks has no timeslots; a number is written as it is in the trace. What asks for nothing isn't met,
whatever stars stand there; nor are channels that stand twice.

  $ cat >none.txt <<'END'
  > open 1 0 0 3
  > open 2 0 0 2
  > #= trx 9/9 - - - - - - - -
  > #= trx 0/1 * * * * * * * *
  > #= trx 00/0 - - - - - - - -
  > #= * * *
  > #= no such expectation
  > #= 1: calls 2
  > #= 2: calls 0
  > #= channels 0/0/2 0/0/2 0/0/3
  > #= channels 0/0/2 0/0/2
  > #= trx 1/1 - - - - - - - -
  > END
  $ ./lab test examples/two_cells.toml none.txt
  1..1
  not ok 1 - none.txt
  # line 3
  # expected: trx 9/9 - - - - - - - -
  # came: no trx 9/9
  # line 4
  # expected: trx 0/1 * * * * * * * *
  # came: no trx 0/1
  # line 5
  # expected: trx 00/0 - - - - - - - -
  # came: no trx 00/0
  # line 6
  # expected: * * *
  # came: no such expectation
  # line 7
  # expected: no such expectation
  # came: no such expectation
  # line 8
  # expected: 1: calls 2
  # came: there is only one controller: its lines have no mark
  # line 9
  # expected: 2: calls 0
  # came: there is only one controller: its lines have no mark
  # line 10
  # expected: channels 0/0/2 0/0/2 0/0/3
  # came: channels 0/0/2 0/0/3
  # line 11
  # expected: channels 0/0/2 0/0/2
  # came: channels 0/0/2 0/0/3
  [1]

All that differs is shown, each once.

  $ cat >differs.txt <<'END'
  > open 1 0 0 3
  > #= trx 0/0 - - - F - - - -
  > #= channels 0/0/2
  > #= call 1 0/0/2
  > #= call 2 0/0/3
  > #= calls 2
  > #= trx 0/0 - - - ! - - -
  > #= channel 0/0/3
  > clear 1
  > #> event clear 1 -> done
  > #> ..
  > #= references 1
  > open 2 0 0 2
  > #= calls 1
  > END
  $ ./lab test examples/two_cells.toml differs.txt
  1..1
  not ok 1 - differs.txt
  # line 2
  # expected: trx 0/0 - - - F - - - -
  # came: trx 0/0 - - - ! - - - -
  # line 3
  # expected: channels 0/0/2
  # came: channels 0/0/3
  # line 4
  # expected: call 1 0/0/2
  # came: call 1 0/0/3
  # line 5
  # expected: call 2 0/0/3
  # came: no call 2
  # line 6
  # expected: calls 2
  # came: calls 1
  # line 7
  # expected: trx 0/0 - - - ! - - -
  # came: trx 0/0 - - - ! - - - -
  # line 8
  # expected: channel 0/0/3
  # came: no such expectation
  # line 10
  # expected: event clear 1 -> done
  # came: event look 1 -> record 0/0/3 pending
  # line 12
  # expected: references 1
  # came: references 0
  [1]

Halves of timeslots.

  $ cat >halves.txt <<'END'
  > sim
  > seize 1 0 half
  > #= trx 0/0 - - - H- - - - -
  > seize 2 0 half
  > #= trx 0/0 - - - HH - - - -
  > #= channels 0/0/3/0 0/0/3/1
  > clear 1
  > #= trx 0/0 - - - -H - - - -
  > hold 0 0 3/1
  > clear 2
  > #= trx 0/0 - - - ! - - - -
  > END
  $ ./lab test examples/half_rate.toml halves.txt
  1..1
  ok 1 - halves.txt

Two controllers: a mark stands in front, as in the trace.

  $ cat >two.txt <<'END'
  > sim
  > open 1 0 0 3
  > #> 1: event open 1 0/0/3 -> done
  > #> 1: out abis 0 0 CHANNEL ACTIVATION tn=3
  > #> ..
  > #! 2:
  > #= 2: channels
  > handover 1 64
  > #= 1: calls 0
  > #= 2: call 40000 0/0/1
  > #= 2: channels 0/0/1
  > END
  $ ./lab test examples/two_cells.toml two.txt --peer examples/one_cell.toml
  1..1
  ok 1 - two.txt
  $ sed 's/2: channels$/1: channels/' two.txt >one.txt
  $ ./lab test examples/two_cells.toml one.txt --peer examples/one_cell.toml
  1..1
  not ok 1 - one.txt
  # line 7
  # expected: 1: channels
  # came: 1: channels 0/0/3
  [1]

Without a mark `#=` says nothing of two controllers, and isn't met; `#!` is of any of them.

  $ cat >unmarked.txt <<'END'
  > open 1 0 0 3
  > #! out abis 0 0 CHANNEL ACTIVATION
  > #! out abis 0 0 CHANNEL ACTIVATION reference=-
  > #! 2: out abis
  > #= calls 1
  > #= * * * * * * * *
  > #= 2: trx 0/1 - - - - - - - -
  > #= 2: trx 0/0 - - - - - - - -
  > END
  $ ./lab test examples/two_cells.toml unmarked.txt --peer examples/one_cell.toml
  1..1
  not ok 1 - unmarked.txt
  # line 2
  # expected no line that begins with: out abis 0 0 CHANNEL ACTIVATION
  # came: 1: out abis 0 0 CHANNEL ACTIVATION tn=3 activation=0 mode=00010801 reference=-
  # line 3
  # expected no line that begins with: out abis 0 0 CHANNEL ACTIVATION reference=-
  # came: 1: out abis 0 0 CHANNEL ACTIVATION tn=3 activation=0 mode=00010801 reference=-
  # line 5
  # expected: calls 1
  # came: with two controllers it has to begin with 1: or 2:
  # line 6
  # expected: * * * * * * * *
  # came: no such expectation
  # line 7
  # expected: 2: trx 0/1 - - - - - - - -
  # came: 2: no trx 0/1
  [1]

  $ printf 'sim\n#> ..\nopen 1 0 0 3\n#! 1: sim limit\n#! 2: out abs\n#! sim limit\n#! 2: o\n#! 2:\n' >script.txt
  $ ./lab test examples/two_cells.toml script.txt --peer examples/one_cell.toml 2>&1 >/dev/null
  script.txt:4: is always met: no line of a trace begins like this
  script.txt:5: is always met: no line of a trace begins like this
  script.txt:7: is always met: no line of a trace begins like this
  [1]

A script that expects nothing isn't met, nor is one whose comments have slipped: that is told on standard error, too.

  $ printf 'open 1 0 0 3\nclear 1\n' >script.txt
  $ ./lab test examples/two_cells.toml script.txt
  1..1
  not ok 1 - script.txt
  # nothing is expected
  [1]
  $ printf 'open 1 0 0 3\n# > in open 1 0 0 3\n#=calls 1\n#!out\n#\t>..\n# note: a > b\n#====\n# = note\n#=====\n# ===== A call.\n' >script.txt
  $ ./lab test examples/two_cells.toml script.txt 2>errors
  1..1
  not ok 1 - script.txt
  # nothing is expected
  # line 2 looks like an expectation, but isn't one
  # line 3 looks like an expectation, but isn't one
  # line 4 looks like an expectation, but isn't one
  # line 5 looks like an expectation, but isn't one
  # line 7 looks like an expectation, but isn't one
  # line 8 looks like an expectation, but isn't one
  [1]
  $ cat errors
  script.txt:2: this looks like an expectation, but isn't one: write "#> ", "#! " or "#= "
  script.txt:3: this looks like an expectation, but isn't one: write "#> ", "#! " or "#= "
  script.txt:4: this looks like an expectation, but isn't one: write "#> ", "#! " or "#= "
  script.txt:5: this looks like an expectation, but isn't one: write "#> ", "#! " or "#= "
  script.txt:7: this looks like an expectation, but isn't one: write "#> ", "#! " or "#= "
  script.txt:8: this looks like an expectation, but isn't one: write "#> ", "#! " or "#= "
  $ printf 'open 1 0 0 3\n#= 1: calls 1\n#=1: calls 7\n#!2: out\n#=\tcalls 7\n#!\tout\n' >script.txt
  $ ./lab test examples/two_cells.toml script.txt --peer examples/one_cell.toml 2>errors
  1..1
  not ok 1 - script.txt
  # line 3 looks like an expectation, but isn't one
  # line 4 looks like an expectation, but isn't one
  # line 5 looks like an expectation, but isn't one
  # line 6 looks like an expectation, but isn't one
  [1]
  $ cat errors
  script.txt:3: this looks like an expectation, but isn't one: write "#> ", "#! " or "#= "
  script.txt:4: this looks like an expectation, but isn't one: write "#> ", "#! " or "#= "
  script.txt:5: this looks like an expectation, but isn't one: write "#> ", "#! " or "#= "
  script.txt:6: this looks like an expectation, but isn't one: write "#> ", "#! " or "#= "
  $ printf 'open 1 0 0 3\n#>..\n#!\n#=\n##= calls 1\n# ! out\n#\t>..\n' >script.txt
  $ ./lab test examples/two_cells.toml script.txt 2>/dev/null
  1..1
  not ok 1 - script.txt
  # line 3 looks like an expectation, but isn't one
  # line 4 looks like an expectation, but isn't one
  # line 5 looks like an expectation, but isn't one
  # line 6 looks like an expectation, but isn't one
  # line 7 looks like an expectation, but isn't one
  [1]
  $ printf 'open 1 0 0 3\n#>event open 1 0/0/3 -> done\n#>..\n#=========\n' >script.txt
  $ ./lab test examples/two_cells.toml script.txt
  1..1
  ok 1 - script.txt

So is what looks as if it named a site.

  $ printf '#%% Site town.toml\n#%%site town.toml\n#%%  peer p.toml\n#%% site\n#%% town.toml\n#%%%%%%%%\n#%% %%\nopen 1 0 0 3\n#= calls 1\n' >script.txt
  $ ./lab test examples/two_cells.toml script.txt 2>errors
  1..1
  not ok 1 - script.txt
  # line 2 looks like an expectation, but isn't one
  # line 3 looks like an expectation, but isn't one
  # line 4 looks like an expectation, but isn't one
  [1]
  $ cat errors
  script.txt:1: this looks like the name of a site, but isn't one: write "#% site PATH", "#% peer PATH" or "#% cells N full"
  script.txt:2: this looks like the name of a site, but isn't one: write "#% site PATH", "#% peer PATH" or "#% cells N full"
  script.txt:3: this looks like the name of a site, but isn't one: write "#% site PATH", "#% peer PATH" or "#% cells N full"
  script.txt:4: this looks like the name of a site, but isn't one: write "#% site PATH", "#% peer PATH" or "#% cells N full"
  script.txt:5: this looks like the name of a site, but isn't one: write "#% site PATH", "#% peer PATH" or "#% cells N full"

A carriage return that ends no line is told.

  $ printf '# note\ropen 1 0 0 3\nopen 1 0 0 3\r\n#> ..\r\n' >script.txt
  $ ./lab test examples/two_cells.toml script.txt 2>/dev/null
  1..1
  ok 1 - script.txt
  $ ./lab test examples/two_cells.toml script.txt 2>&1 >/dev/null
  script.txt:1: a carriage return without a line feed doesn't end the line
  $ ./lab run examples/two_cells.toml script.txt 2>&1 >/dev/null
  script.txt:1: a carriage return without a line feed doesn't end the line
  $ ./lab record examples/two_cells.toml script.txt 2>&1 >/dev/null
  script.txt:1: a carriage return without a line feed doesn't end the line

A script may name its own site, and its peer's, from its own folder on.

  $ mkdir town
  $ cp examples/half_rate.toml town/town.toml
  $ cp examples/one_cell.toml town/peer.toml
  $ printf '#%% site town.toml\nseize 1 0 half\n#= channels 0/0/3/0\n' >town/half.txt
  $ printf '#%% peer peer.toml\nopen 1 0 0 3\n#= 1: calls 1\n#= 2: calls 0\n' >town/two.txt
  $ printf 'open 1 0 0 3\n#= calls 1\n' >script.txt
  $ ./lab test examples/two_cells.toml town/half.txt script.txt
  1..2
  ok 1 - town/half.txt
  ok 2 - script.txt
  $ cp examples/two_cells.toml town/own.toml
  $ sed 's/^#% peer/#% site own.toml\n&/' town/two.txt >town/both.txt
  $ ./lab test examples/half_rate.toml town/both.txt
  1..1
  ok 1 - town/both.txt
  $ ./lab test examples/two_cells.toml town/two.txt
  1..1
  ok 1 - town/two.txt
  $ printf '#%% site none.toml\nopen 1 0 0 3\n#= calls 1\n' >town/none.txt
  $ ./lab test examples/two_cells.toml town/none.txt script.txt 2>errors
  1..2
  not ok 1 - town/none.txt
  # the site can't be read
  ok 2 - script.txt
  [2]
  $ cat errors
  town/none.toml: no such file
  $ printf '#%% site town.toml\n# Twice.\n#%% site town.toml\nopen 1 0 0 3\n#= calls 1\n' >town/twice.txt
  $ printf '#%% peer peer.toml\n#%% peer own.toml\n#= 1: calls 0\n' >town/peers.txt
  $ ./lab test examples/two_cells.toml town/twice.txt town/peers.txt script.txt 2>errors
  1..3
  not ok 1 - town/twice.txt
  # line 3 can't be read
  not ok 2 - town/peers.txt
  # line 2 can't be read
  ok 3 - script.txt
  [2]
  $ cat errors
  town/twice.txt:3: line 1 names one already: a script names at most one site and one peer
  town/peers.txt:2: line 1 names one already: a script names at most one site and one peer
  $ printf '#%% site town.toml\n2: open 1 0 0 3\n#= 1: calls 0\n' >town/lone.txt
  $ ./lab test examples/two_cells.toml town/lone.txt --peer examples/one_cell.toml 2>errors
  1..1
  not ok 1 - town/lone.txt
  # line 2 can't be read
  [2]
  $ cat errors
  town/lone.txt:2: 2: is for a second controller, but the script names none (#% peer PATH)
  $ ./lab test examples/two_cells.toml town/twice.txt --undo-everywhere 2>/dev/null
  not ok 1 - town/twice.txt
  # line 3 can't be read
  1..1
  # same 0, held 0, not settled 0, differ 0
  [2]
  $ ./lab test examples/two_cells.toml town/half.txt --undo-everywhere 2>/dev/null
  1..0
  # same 0, held 0, not settled 0, differ 0

Attempts are taken back over the site that the script names, too: here calls at half rate move.

  $ printf '#%% site town.toml\nsim\nseize 1 0 half\nhandover 1 1\n' >town/moves.txt
  $ ./lab test examples/two_cells.toml town/moves.txt --undo-everywhere
  ok 1 - town/moves.txt: undo 1 after input 3: same
  ok 2 - town/moves.txt: undo 1 after input 4: same
  ok 3 - town/moves.txt: undo 1 after input 5: same
  1..3
  # same 3, held 0, not settled 0, differ 0

run and record go by the sites that they are given, and say where a script names another one.

  $ ./lab run examples/two_cells.toml town/half.txt 2>&1 >/dev/null
  town/half.txt:1: names the site town/town.toml, but is run over examples/two_cells.toml
  town/half.txt:2: this line has no effect: the site has no half-rate channel in cell 0
  $ ./lab record town/peer.toml town/both.txt --peer examples/two_cells.toml 2>&1 >/dev/null
  town/both.txt:1: names the site town/own.toml, but is run over town/peer.toml
  town/both.txt:2: names the peer town/peer.toml, but its peer is examples/two_cells.toml
  town/both.txt:3: this line has no effect: the site has no channel 0/0/3
  $ ./lab record examples/two_cells.toml town/two.txt 2>&1 >/dev/null
  town/two.txt:1: names the peer town/peer.toml, but is run without a peer
  $ ./lab run examples/two_cells.toml town/none.txt --audit 2>&1 >/dev/null
  town/none.txt:1: names the site town/none.toml, but is run over examples/two_cells.toml
  $ ln -s town.toml town/link.toml
  $ ./lab run town/link.toml town/half.txt 2>&1 >/dev/null
  $ ./lab run town/./own.toml town/both.txt --peer town/peer.toml 2>&1 >/dev/null

Records in words, and with what the books hold. An echo with nothing behind it, or with another input, stays.

  $ printf 'open 1 0 0 3\nabis 0 0 0822010b081234\n# A look.\n#! out a 1\n#= old\n' >script.txt
  $ ./lab record examples/two_cells.toml script.txt --words --states
  open 1 0 0 3
  #> event open 1 0/0/3 -> done
  #> out abis 0 0 CHANNEL ACTIVATION tn=3 activation=0 mode=00010801 reference=-
  #= channels 0/0/3
  #= call 1 0/0/3
  abis 0 0 0822010b081234
  #> event confirm 0/0/3 -> owned 1
  #> event look 1 -> record 0/0/3 on
  #> end channels=1 calls=1 references=0 timers=0
  #= channels 0/0/3
  #= call 1 0/0/3
  # A look.
  #! out a 1
  $ ./lab record examples/two_cells.toml script.txt --words --states >recorded.txt
  $ ./lab test examples/two_cells.toml recorded.txt
  1..1
  ok 1 - recorded.txt
  $ ./lab record examples/two_cells.toml recorded.txt --words --states | cmp - recorded.txt
  $ ./lab record examples/two_cells.toml script.txt --words | tail -n 4
  #> end channels=1 calls=1 references=0 timers=0
  # A look.
  #! out a 1
  #= old
  $ printf 'sim\nopen 1 0 0 3\nhandover 1 200\nundo 1\n' >script.txt
  $ ./lab record examples/two_cells.toml script.txt --words >recorded.txt
  script.txt:3: this line has no effect: the site has no cell 200
  $ grep '^#> in ' recorded.txt
  #> in abis 0 0 CHANNEL ACTIVATION ACK tn=3 frame=0
  #> in handover 1 200
  $ ./lab test examples/two_cells.toml recorded.txt
  1..1
  ok 1 - recorded.txt

A blank that ends a line that is expected can't be seen: it is said.

  $ printf 'open 1 0 0 3\n#> event open 1 0/0/3 -> done \n#> ..\n#= calls 1 \n' >blank.txt
  $ ./lab test examples/two_cells.toml blank.txt 2>/dev/null
  1..1
  not ok 1 - blank.txt
  # line 2
  # expected: event open 1 0/0/3 -> done  (it ends with a blank)
  # came: no line of a trace is like this
  # line 4
  # expected: calls 1  (it ends with a blank)
  # came: calls 1
  [1]
