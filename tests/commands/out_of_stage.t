A message that no row goes on with at the stage that its call is in: the book is asked, nothing changes, nothing is sent.
Another of the same name is expected, and so is a report of the serving channel.

  $ cat >script.txt <<'END'
  > abis 0 0 0833010b
  > open 1 0 0 3
  > abis 0 0 0822010b080000
  > abis 0 0 0822010b080000
  > abis 0 0 0302010b02000b0003062c00
  > a 1 000c131709062bd5670ba36b2a05
  > END
  $ ./lab run examples/two_cells.toml script.txt --words | grep '^in a'
  in abis 0 0 0833010b # no call; RF CHANNEL RELEASE ACK tn=3; ignored: this stage doesn't expect it
  in abis 0 0 0822010b080000 # call 1; CHANNEL ACTIVATION ACK tn=3 frame=0
  in abis 0 0 0822010b080000 # call 1; CHANNEL ACTIVATION ACK tn=3 frame=0; ignored: this stage doesn't expect it
  in abis 0 0 0302010b02000b0003062c00 # call 1; DATA INDICATION tn=3 link=0 layer3=062c00; HANDOVER COMPLETE cause=0; normal event; ignored: this stage doesn't expect it
  in a 1 000c131709062bd5670ba36b2a05 # call 1; HANDOVER COMMAND layer3=062bd5670ba36b2a05; HANDOVER COMMAND arfcn=871 ncc=2 bcc=5 tn=3 tsc=5 carrier=875 reference=42 atc=0 power=5; ignored: this stage doesn't expect it
A message about a channel that the site lacks: another timeslot, another TRX, a half where there are none, another cell.

  $ cat >script.txt <<'END'
  > abis 0 0 CHANNEL ACTIVATION ACK tn=5 frame=0
  > abis 0 1 CHANNEL ACTIVATION NACK tn=3 cause=32
  > abis 0 0 HANDOVER DETECTION tn=3/0 delay=0
  > abis 9 0 RF CHANNEL RELEASE ACK tn=3
  > abis 0 0 RF CHANNEL RELEASE ACK tn=3
  > END
  $ ./lab run examples/two_cells.toml script.txt --words 2>/dev/null | grep '^in a' | sed 's/.*; //'
  ignored: no such channel
  ignored: no such channel
  ignored: no such channel
  ignored: no such channel
  ignored: this stage doesn't expect it

An operator's line or a timer of which nothing comes: the book's reply says why.

  $ cat >script.txt <<'END'
  > undo 1
  > open 1 0 0 3
  > open 2 0 0 3
  > handover 1 1
  > expire 1 T7
  > handover 1 200
  > seize 3 1 half
  > clear 1
  > END
  $ ./lab run examples/two_cells.toml script.txt --words 2>/dev/null | grep '^in'
  in undo 1 # call 1; ignored: nothing changes
  in open 1 0 0 3 # call 1
  in open 2 0 0 3 # call 2; ignored: nothing changes
  in handover 1 1 # call 1; ignored: nothing changes
  in expire 1 T7 # call 1; ignored: nothing changes
  in handover 1 200 # call 1; ignored: no such cell
  in seize 3 1 half # call 3
  in clear 1 # call 1
  $ report=$(./lab encode abis 'MEASUREMENT RESULT tn=3 number=0 uplink=001e00 power=0 layer3=06151e1e006812a000000000000000000000')
  $ printf "open 1 0 0 3\nabis 0 0 $report\nabis 0 0 0822010b080000\nabis 0 0 $report\n" >report.txt
  $ ./lab run examples/two_cells.toml report.txt --words | grep "^in abis 0 0 $report" | grep -c ignored
  1

Where none is free that says enough, but of a call that isn't there.

  $ printf 'open 1 1 1 3\nopen 2 0 0 3\nabis 0 0 0822010b080000\nhandover 2 1\nhandover 9 1\n' >full.txt
  $ ./lab run examples/two_cells.toml full.txt --words 2>/dev/null | sed -n '/^in handover/,$p'
  in handover 2 1 # call 2
  event look 2 -> record 0/0/3 on # call 2
  none free 1 # call 2
  in handover 9 1 # call 9; ignored: nothing changes
  event look 9 -> refused 1 # call 9; NoCall: there is no such call
  none free 1 # call 9
  end channels=2 calls=2 references=0 timers=0 # this is left
