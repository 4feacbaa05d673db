A capture's octets: its header, and each message in its packet (the second and the length; the internet header; the
header of TCP; the frame). CHANNEL ACTIVATION while input 1 is handled, its acknowledgement, input 2, and HANDOVER
REQUIRED while input 3 is handled.

  $ printf 'open 1 0 0 3\nabis 0 0 0822010b080000\nhandover 1 64\n' >script.txt
  $ ./lab run examples/two_cells.toml script.txt --pcap run.pcap >printed
  $ od -An -v -tx1 -w4096 run.pcap | tr -d ' '
  a1b2c3d40002000400000000000000000000ffff00000065000000010000000000000037000000374500003700004000400626c00a0000010a0100000bbb0bbb00000001000000015018ffff521e0000000c000821010b0300060400010801000000020000000000000032000000324500003200004000400626c50a0100000a0000010bbb0bbb00000001000000105018ffff572200000007000822010b0800000000000300000000000000450000004545000045000040004006264e0a0000010a6400011388138800000001000000015018ffff6c940000001afd09000305070242fe0242fe0e000c1104010c1b1a050100170066

Addresses tell the link. Each packet has the protocol of TCP, the header's checksum (taken out here), and the addresses of
who sends and who receives, here a station or the centre, and the controller.

  $ cat >script.txt <<'END'
  > abis 0 0 08
  > abis 63 3 08
  > 2: abis 255 255 08
  > a 0 00
  > a 65535 00
  > 2: a 40000 00
  > 2: a 1234 00
  > END
  $ ./lab run examples/two_cells.toml script.txt --peer examples/one_cell.toml --pcap run.pcap >printed
  script.txt:2: this line has no effect: the site has no cell 63
  script.txt:3: this line has no effect: the second controller's site has no cell 255
  $ od -An -v -tx1 -w4096 run.pcap | tr -d ' \n' | grep -o '4006....0a......0a......' | sed 's/^4006....//'
  0a0100000a000001
  0a013f030a000001
  0a02ffff0a000002
  0a6400000a000001
  0a6a37230a000001
  0acc00000a000002
  0ac80c220a000002

A run that is refused changes no file: a line of the script can't be read; a file is named twice, also under another
path or by a link; a device may be named twice, since it has nothing to lose.

  $ cp examples/two_cells.toml kept.toml
  $ printf 'open 1\n' >kept.txt
  $ printf 'an old capture' >kept.pcap
  $ printf 'an old chart' >kept.svg
  $ ln -s kept.toml kept.link
  $ mkdir old && cp kept.toml kept.txt kept.pcap kept.svg old
  $ ./lab run kept.toml kept.txt --words --state --pcap kept.pcap --chart kept.svg 2>errors
  line 1
  [2]
  $ cat errors
  kept.txt:1: CELL is missing in open CALL CELL TRX TN
  $ ./lab run kept.toml kept.txt --words --state --pcap ./kept.toml --chart kept.svg 2>errors
  file ./kept.toml
  [2]
  $ cat errors
  ./kept.toml: named twice
  $ ./lab run kept.toml kept.txt --words --state --pcap kept.pcap --chart ./kept.txt 2>errors
  file ./kept.txt
  [2]
  $ cat errors
  ./kept.txt: named twice
  $ ./lab run kept.toml kept.txt --words --state --pcap kept.link --chart kept.svg 2>errors
  file kept.link
  [2]
  $ cat errors
  kept.link: named twice
  $ ./lab run kept.toml kept.txt --words --state --pcap kept.pcap --chart .//kept.pcap 2>errors
  file .//kept.pcap
  [2]
  $ cat errors
  .//kept.pcap: named twice
  $ ./lab run kept.toml kept.txt --words --state --pcap /dev/null --chart /dev/null 2>errors
  line 1
  [2]
  $ cat errors
  kept.txt:1: CELL is missing in open CALL CELL TRX TN

The peer's site is none, either.

  $ ./lab run /dev/null kept.txt --peer kept.toml --pcap kept.pcap --chart ./kept.toml 2>errors
  file ./kept.toml
  [2]
  $ cat errors
  ./kept.toml: named twice
  $ for file in old/*; do cmp $file ${file#old/}; done

No file is emptied when it is opened, whether the other can be opened or not. The capture comes first.

  $ printf 'as it was, and that is longer than a capture without packets' >opened.pcap
  $ cp opened.pcap opened.svg; cp opened.pcap opened.old
  $ ./lab run examples/two_cells.toml kept.txt --pcap opened.pcap --chart opened.svg 2>errors
  line 1
  [2]
  $ cat errors
  kept.txt:1: CELL is missing in open CALL CELL TRX TN
  $ cmp opened.old opened.pcap; cmp opened.old opened.svg
  $ ./lab run examples/two_cells.toml kept.txt --pcap /dev/full --chart opened.svg 2>errors
  line 1
  [2]
  $ cat errors
  kept.txt:1: CELL is missing in open CALL CELL TRX TN
  $ cmp opened.old opened.pcap; cmp opened.old opened.svg
  $ ./lab run examples/two_cells.toml kept.txt --pcap opened.pcap --chart /dev/null 2>errors
  line 1
  [2]
  $ cat errors
  kept.txt:1: CELL is missing in open CALL CELL TRX TN
  $ cmp opened.old opened.pcap; cmp opened.old opened.svg
  $ ./lab run examples/two_cells.toml kept.txt --pcap opened.pcap --chart 'no folder/a.svg' 2>errors
  file no folder/a.svg
  [2]
  $ cat errors
  no folder/a.svg: its folder doesn't exist, or takes no new file
  $ cmp opened.old opened.pcap; cmp opened.old opened.svg
  $ ./lab run examples/two_cells.toml kept.txt --pcap opened.pcap --chart / 2>errors
  file /
  [2]
  $ cat errors
  /: is a folder
  $ cmp opened.old opened.pcap; cmp opened.old opened.svg
  $ ./lab run examples/two_cells.toml kept.txt --pcap 'no folder/a.pcap' --chart opened.svg 2>errors
  file no folder/a.pcap
  [2]
  $ cat errors
  no folder/a.pcap: its folder doesn't exist, or takes no new file
  $ cmp opened.old opened.pcap; cmp opened.old opened.svg
  $ ./lab run examples/two_cells.toml kept.txt --pcap / --chart 'no folder/a.svg' 2>errors
  file /
  [2]
  $ cat errors
  /: is a folder
  $ cmp opened.old opened.pcap; cmp opened.old opened.svg
  $ ./lab run examples/two_cells.toml kept.txt --pcap opened.pcap --chart ./opened.pcap 2>errors
  file ./opened.pcap
  [2]
  $ cat errors
  ./opened.pcap: named twice
  $ cmp opened.old opened.pcap; cmp opened.old opened.svg
  $ ./lab run examples/two_cells.toml kept.txt --pcap /dev/null --chart /dev/null 2>errors
  line 1
  [2]
  $ cat errors
  kept.txt:1: CELL is missing in open CALL CELL TRX TN
  $ cmp opened.old opened.pcap; cmp opened.old opened.svg

Both are emptied when they are written: a capture without packets has 24 octets, and nothing is left of a longer text
behind a chart.

  $ for number in $(seq 100); do cat opened.old; done >opened.svg
  $ ./lab run examples/two_cells.toml /dev/null --pcap opened.pcap --chart opened.svg
  end channels=0 calls=0 references=0 timers=0
  $ wc -c <opened.pcap
  24
  $ head -c 5 opened.svg
  <svg  (no-eol)
  $ tail -c 7 opened.svg
  </svg>

A capture that was made stays empty where the chart can't be made.

  $ ./lab run examples/two_cells.toml kept.txt --pcap new.pcap --chart / 2>errors
  file /
  [2]
  $ cat errors
  /: is a folder
  $ wc -c <new.pcap
  0

A file that is to be made is known under two paths, and stays, empty.

  $ ./lab run examples/two_cells.toml kept.txt --pcap "$(printf 'opened\033')" --chart "$(printf './opened\033')" 2>errors
  file ./opened\u{1b}
  [2]
  $ cat errors
  ./opened\u{1b}: named twice

Files that can't be made; files that are named twice, which is said before anything is read; and a site that is refused.

  $ ./lab run /dev/null /dev/null --pcap 'no folder/a.pcap' 2>errors
  file no folder/a.pcap
  [2]
  $ cat errors
  no folder/a.pcap: its folder doesn't exist, or takes no new file
  $ ./lab run /dev/null /dev/null --chart 'no folder/a.svg' 2>errors
  file no folder/a.svg
  [2]
  $ cat errors
  no folder/a.svg: its folder doesn't exist, or takes no new file
  $ ./lab run /dev/null /dev/null --pcap "$(printf 'no\033/a')" 2>errors
  file no\u{1b}/a
  [2]
  $ cat errors
  no\u{1b}/a: its folder doesn't exist, or takes no new file
  $ ./lab run a b --pcap c --chart c 2>errors
  file c
  [2]
  $ cat errors
  c: named twice
  $ ./lab run a b --chart b 2>errors
  file b
  [2]
  $ cat errors
  b: named twice
  $ ./lab run a b --peer c --pcap c 2>errors
  file c
  [2]
  $ cat errors
  c: named twice
  $ ./lab run /dev/null /dev/null --words 2>errors
  site 2 handover
  [2]
  $ cat errors
  /dev/null: handover is missing: it has to be a table

A device that has no room for an octet is named, and the status is 2. The trace is printed to its end, and the other
file written all the same.

  $ cat >script.txt <<'END'
  > open 1 0 0 3
  > abis 0 0 0822010b081234
  > clear 1
  > abis 0 0 0833010b
  > END
  $ ./lab run examples/two_cells.toml script.txt --pcap /dev/full --chart run.svg 2>errors
  in open 1 0 0 3
  event open 1 0/0/3 -> done
  out abis 0 0 0821010b0300060400010801
  in abis 0 0 0822010b081234
  event confirm 0/0/3 -> owned 1
  event look 1 -> record 0/0/3 on
  in clear 1
  event look 1 -> record 0/0/3 on
  event clear 1 -> done
  out abis 0 0 082e010b
  in abis 0 0 0833010b
  event released 0/0/3 -> done
  end channels=0 calls=0 references=0 timers=0
  [2]
  $ cat errors
  /dev/full: no space left* (glob)
  $ grep -o marker-end run.svg | wc -l
  4
  $ tail -n 1 run.svg
  </svg>
  $ ./lab run examples/two_cells.toml script.txt --pcap run.pcap --chart /dev/full 2>errors
  in open 1 0 0 3
  event open 1 0/0/3 -> done
  out abis 0 0 0821010b0300060400010801
  in abis 0 0 0822010b081234
  event confirm 0/0/3 -> owned 1
  event look 1 -> record 0/0/3 on
  in clear 1
  event look 1 -> record 0/0/3 on
  event clear 1 -> done
  out abis 0 0 082e010b
  in abis 0 0 0833010b
  event released 0/0/3 -> done
  end channels=0 calls=0 references=0 timers=0
  [2]
  $ cat errors
  /dev/full: no space left* (glob)
  $ wc -c <run.pcap
  287

So is it where the audit differs, which is printed as well.

  $ cat >held.txt <<'END'
  > open 1 0 0 3
  > abis 0 0 0822010b081234
  > handover 1 1
  > open 2 1 1 3
  > undo 1
  > abis 1 1 0833010b
  > END
  $ ./lab run examples/two_cells.toml held.txt --audit --chart /dev/full >printed
  /dev/full: no space left* (glob)
  [2]
  $ tail -n 5 printed
  end channels=1 calls=1 references=0 timers=0
  attempts 1
  held 14
  choices -
  differs: line 14: refused 6 1/1/3; without: done

So is one behind a chart of over 8 KiB.

  $ for number in $(seq 300); do printf 'handover 1 99\n#- idle\n'; done >script.txt
  $ ./lab run examples/two_cells.toml script.txt --pcap run.pcap --chart /dev/full >printed
  /dev/full: no space left* (glob)
  [2]
  $ sort printed | uniq -c | tr -s ' '
   1 end channels=0 calls=0 references=0 timers=0
   300 in handover 1 99

A standard stream that is closed isn't replaced by a file that is opened. A trace of over 8 KiB is printed in parts, while
the files are open. They have what came up to there, as where it can't be written for another reason.

  $ ./lab run examples/two_cells.toml script.txt --pcap full.pcap --chart full.svg >/dev/full
  standard output: no space left
  [2]
  $ ./lab run examples/two_cells.toml script.txt --pcap closed.pcap --chart closed.svg >&- 2>errors
  [2]
  $ cut -d ' ' -f -2 errors
  standard output:
  $ cmp full.pcap closed.pcap; cmp full.svg closed.svg
  $ ./lab run examples/two_cells.toml script.txt --pcap closed.pcap --chart closed.svg 2>&- | cmp - printed
  $ wc -c <closed.pcap
  24
  $ tail -n 1 closed.svg
  </svg>
  $ ./lab run examples/two_cells.toml script.txt --pcap closed.pcap --chart closed.svg <&- >&- 2>&-
  [2]
  $ cmp full.pcap closed.pcap; cmp full.svg closed.svg

What has to be said where standard error is closed isn't written to a capture, either: 65,493 octets fit no packet.

  $ python3 -c "print('abis 0 0 ' + 65493 * '00')" >script.txt
  $ ./lab run examples/two_cells.toml script.txt --pcap closed.pcap >/dev/null
  closed.pcap: 1 message is too long for a packet, and left out
  $ ./lab run examples/two_cells.toml script.txt --pcap closed.pcap >/dev/null 2>&-
  [2]
  $ wc -c <closed.pcap
  24
