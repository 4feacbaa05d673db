A controller is given the lines of standard input as they come, and prints what comes of each.

  $ ./lab live examples/two_cells.toml <examples/one_call.txt >came
  $ ./lab run examples/two_cells.toml examples/one_call.txt | cmp - came
  $ for script in arrives reported returns undone; do
  >   ./lab live examples/two_cells.toml <examples/handover_$script.txt | cmp - examples/handover_$script.trace
  > done
  $ ./lab live examples/two_cells.toml <examples/station_stutters.txt | cmp - examples/station_stutters.trace
  $ ./lab live examples/two_cells.toml </dev/null
  end channels=0 calls=0 references=0 timers=0

Lines come in pieces of one octet to eight.

  $ in_pieces() {
  >   python3 -c 'import sys, time
  > text, size = open("examples/one_call.txt", "rb").read(), int(sys.argv[1])
  > for at in range(0, len(text), size):
  >     sys.stdout.buffer.write(text[at : at + size])
  >     sys.stdout.buffer.flush()
  >     time.sleep(0.001)' "$1"
  > }
  $ for size in 1 2 3 4 5 6 7 8; do in_pieces $size | ./lab live examples/two_cells.toml | cmp - came; done

It does so before the next line comes, and whatever the pieces are in which lines come.

  $ mkfifo lines
  $ ./lab live examples/two_cells.toml >came <lines &
  $ exec 3>lines
  $ printf 'open 1 0 0 3\nope' >&3
  $ until grep -q '^out' came; do sleep 0.1; done; cat came
  in open 1 0 0 3
  event open 1 0/0/3 -> done
  out abis 0 0 0821010b0300060400010801
  $ printf 'n 2 0 0 2\nclear 9' >&3
  $ until grep -q '^out abis 0 0 0821010a' came; do sleep 0.1; done; tail -n +4 came
  in open 2 0 0 2
  event open 2 0/0/2 -> done
  out abis 0 0 0821010a0300060400010801
  $ exec 3>&-; wait; tail -n +7 came
  in clear 9
  event look 9 -> refused 1
  end channels=2 calls=2 references=0 timers=0

Lines may end with a carriage return, the last one with nothing. Comments and blank lines give nothing, but count.

  $ printf '# a call\r\n\r\nopen 1 0 0 3\r\nclear 1 2\r\nclear 1' | ./lab live examples/two_cells.toml 2>errors
  in open 1 0 0 3
  event open 1 0/0/3 -> done
  out abis 0 0 0821010b0300060400010801
  line 4
  in clear 1
  event look 1 -> record 0/0/3 pending
  event clear 1 -> done
  out abis 0 0 082e010b
  end channels=1 calls=0 references=0 timers=0
  $ cat errors
  standard input:4: nothing may follow clear CALL, found 2

A line that can't be read changes nothing, and the next is read: one of the second controller, one that needs sim where that
wasn't said, one that isn't UTF-8, one that is too long. One octet less is read.

  $ python3 - >unread.txt <<'END'
  > import sys
  > long = b'#' * 65536
  > lines = [b'2: open 1 0 0 3', b'mobile 0 0 3 vanish', b'open 1 0 0 8', b'op\xc3\x28en', long + b'#', long, b'\xef\xbb\xbfsim', b'sim ']
  > sys.stdout.buffer.write(b'\n'.join(lines))
  > END
  $ ./lab live examples/two_cells.toml <unread.txt 2>errors
  line 1
  line 2
  line 3
  line 4
  line 5
  line 7
  line 8
  end channels=0 calls=0 references=0 timers=0
  $ cat errors
  standard input:1: 2: is for a second controller, but live runs only one
  standard input:2: mobile CELL TRX TN HABIT needs a line sim before it
  standard input:3: TN is 0 to 7, with /0 or /1 at the end for half rate, found 8
  standard input:4: isn't UTF-8 (octet 3)
  standard input:5: the line has over 65,536 octets
  standard input:7: the line begins with a byte order mark
  standard input:8: nothing may follow sim, found a blank

What may stand in a line is named, the line summary too.

  $ printf 'Summary\nsummary extra\n' | ./lab live examples/two_cells.toml 2>&1 >/dev/null | sed 's/ open, .* with #/ .. with #/'
  standard input:1: a line begins with .. with #, or is summary, found Summary
  standard input:2: nothing may follow summary

Behind sim the lines that need it are read, and the others are as before.

  $ printf 'sim\nhold 0 0 3\nopen 1 0 0 3\nmobile 0 0 9 vanish\n2: sim\nsim\nlet 0 0 3\n# nothing\n' >lines.txt
  $ ./lab live examples/two_cells.toml <lines.txt 2>errors
  in open 1 0 0 3
  event open 1 0/0/3 -> done
  out abis 0 0 0821010b0300060400010801
  line 4
  line 5
  in abis 0 0 0822010b080000
  event confirm 0/0/3 -> owned 1
  event look 1 -> record 0/0/3 on
  end channels=1 calls=1 references=0 timers=0
  $ cat errors
  standard input:4: TN is 0 to 7, with /0 or /1 at the end for half rate, found 9
  standard input:5: 2: is for a second controller, but live runs only one

Octets that are no message are a fault, as in a run.

  $ echo 'abis 0 0 04' | ./lab live examples/two_cells.toml
  in abis 0 0 04
  fault abis 1
  end channels=0 calls=0 references=0 timers=0

The site is read first, and refused as by run; of standard input nothing is read then.

  $ echo 'open 1 0 0 3' | (./lab live 'no such file' 2>errors; cat)
  file no such file
  open 1 0 0 3
  $ cat errors
  no such file: no such file
  $ ./lab live /dev/null 2>errors </dev/null
  site 2 handover
  [2]
  $ cat errors
  /dev/null: handover is missing: it has to be a table

A read that fails and a write that does are told apart.

  $ ./lab live examples/two_cells.toml 2>errors </
  [2]
  $ cat errors
  standard input: is a folder
  $ ./lab live examples/two_cells.toml <examples/one_call.txt 2>errors >/dev/full
  [2]
  $ cat errors
  standard output: no space left

Words and states stand with the lines, as in a run; the capture is the run's, too.

  $ ./lab live examples/two_cells.toml --words --state <examples/handover_returns.txt >came
  $ ./lab run examples/two_cells.toml examples/handover_returns.txt --words --state | cmp - came
  $ ./lab live examples/two_cells.toml --pcap live.pcap <examples/handover_returns.txt | cmp - examples/handover_returns.trace
  $ ./lab run examples/two_cells.toml examples/handover_returns.txt --pcap run.pcap >/dev/null
  $ cmp live.pcap run.pcap
  $ printf 'frob\nopen 1 0 0 3\n' | ./lab live examples/two_cells.toml --words 2>/dev/null
  line 1
  in open 1 0 0 3 # call 1
  event open 1 0/0/3 -> done # call 1
  out abis 0 0 0821010b0300060400010801 # call 1; CHANNEL ACTIVATION tn=3 activation=0 mode=00010801 reference=-
  end channels=1 calls=1 references=0 timers=0 # this is left

The capture grows line by line.

  $ ./lab live examples/two_cells.toml --pcap grown.pcap >came <lines &
  $ exec 3>lines
  $ printf 'open 1 0 0 3\n' >&3
  $ until [ "$(cat grown.pcap 2>/dev/null | wc -c)" -gt 24 ]; do sleep 0.1; done; wc -c <grown.pcap
  95
  $ exec 3>&-; wait

A capture that can't be opened or written, or that is the site, is named.

  $ ./lab live examples/two_cells.toml --pcap / </dev/null 2>errors
  file /
  [2]
  $ cat errors
  /: is a folder
  $ cp examples/two_cells.toml site.toml
  $ ./lab live site.toml --pcap ./site.toml </dev/null 2>errors
  file ./site.toml
  [2]
  $ cat errors
  ./site.toml: named twice
  $ cmp site.toml examples/two_cells.toml
  $ ./lab live examples/two_cells.toml --pcap /dev/full </dev/null 2>errors
  end channels=0 calls=0 references=0 timers=0
  [2]
  $ cat errors
  /dev/full: no space left; the capture ends, and the controller goes on
  $ ./lab live 2>&1 >/dev/null
  error: the following required arguments were not provided:* (glob)
  [2]
  $ ./lab live examples/two_cells.toml --chart x.svg 2>&1 >/dev/null
  *--chart* (glob)
  [2]

A standard stream that is closed isn't replaced by the capture, which has packets of those lines alone whose trace could be
written: of comments its header.

  $ ./lab live examples/two_cells.toml --pcap closed.pcap <examples/one_call.txt >&- 2>errors
  [2]
  $ cut -d ' ' -f -2 errors
  standard output:
  $ wc -c <closed.pcap
  24
  $ echo 'open 1 0 0 3' | ./lab live examples/two_cells.toml --pcap closed.pcap >&- 2>errors
  [2]
  $ wc -c <closed.pcap
  0
  $ ./lab live examples/two_cells.toml --pcap closed.pcap <examples/handover_returns.txt 2>&- | cmp - examples/handover_returns.trace
  $ cmp closed.pcap run.pcap
  $ printf 'open 1 0 0 3\nfrob\n' | ./lab live examples/two_cells.toml --pcap closed.pcap 2>&-
  in open 1 0 0 3
  event open 1 0/0/3 -> done
  out abis 0 0 0821010b0300060400010801
  line 2
  [2]
  $ wc -c <closed.pcap
  95
  $ ./lab live examples/two_cells.toml --pcap closed.pcap <&- 2>errors
  [2]
  $ cut -d ' ' -f -2 errors
  standard input:
  $ ./lab live examples/two_cells.toml --pcap closed.pcap <&- >&- 2>&-
  [2]
  $ wc -c <closed.pcap
  0

A capture that can't be written any more ends alone: lines are taken to their end.

  $ ./lab live examples/two_cells.toml --pcap /dev/full <examples/handover_returns.txt 2>errors >came
  [2]
  $ cmp came examples/handover_returns.trace
  $ cat errors
  /dev/full: no space left; the capture ends, and the controller goes on

There is no second controller, so none is named by what may begin a line.

  $ echo frob | ./lab live examples/two_cells.toml 2>&1 >/dev/null
  standard input:1: a line begins with [a-z, ]+, or with #, or is summary, found frob (re)
