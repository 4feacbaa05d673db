Words that are no command line are refused in one line on standard error: it names the word that is wrong, or what is
missing, and says what is allowed. Nothing stands on standard output.

  $ ./lab 2>&1 >>printed
  *subcommand*run, live, test, record, rewind, audit, summary, storm, check, cells, decode, encode, explain* (glob)
  [2]
  $ ./lab run 2>&1 >>printed
  *not provided: <SITE>*bsc_lab run * (glob)
  [2]
  $ ./lab run a.toml 2>&1 >>printed
  *not provided: <SCRIPT>*bsc_lab run * (glob)
  [2]
  $ ./lab run a.toml b.txt c.txt 2>&1 >>printed
  *'c.txt'*--peer, --words, --state, --decisions, --pcap, --chart* (glob)
  [2]
  $ ./lab runn a.toml b.txt 2>&1 >>printed
  *'runn'*run, live, test, record, rewind, audit, summary, storm, check, cells, decode, encode, explain* (glob)
  [2]
  $ ./lab --verbose 2>&1 >>printed
  *'--verbose'*run, live, test, record, rewind, audit, summary, storm, check, cells, decode, encode, explain* (glob)
  [2]
  $ ./lab run a b --quiet 2>&1 >>printed
  *'--quiet'*--peer, --words, --state, --decisions, --pcap, --chart* (glob)
  [2]
  $ ./lab run a.toml b.txt --peer 2>&1 >>printed
  *'--peer <SITE>'* (glob)
  [2]
  $ ./lab run a.toml b.txt --peer c.toml --peer d.toml 2>&1 >>printed
  *'--peer <SITE>'*bsc_lab run * (glob)
  [2]
  $ ./lab rewind a b 1 --peer c.toml 2>&1 >>printed
  *'--peer <SITE>'* (glob)
  [2]
  $ ./lab run a b --pcap 2>&1 >>printed
  *'--pcap <FILE>'* (glob)
  [2]
  $ ./lab rewind a b 1 --words 2>&1 >>printed
  *'--words'*bsc_lab rewind <SITE> <TRACE> <LINE>* (glob)
  [2]
  $ ./lab check 2>&1 >>printed
  *not provided: <SITE>*bsc_lab check <SITE>* (glob)
  [2]
  $ ./lab check a.toml b.toml 2>&1 >>printed
  *'b.toml'*bsc_lab check * <SITE>* (glob)
  [2]
  $ ./lab explain 2>&1 >>printed
  *subcommand*refused, cause, fault* (glob)
  [2]
  $ ./lab explain it 2>&1 >>printed
  *'it'*refused, cause, fault* (glob)
  [2]
  $ ./lab explain refused 2>&1 >>printed
  *not provided: <N>*bsc_lab explain refused <N>* (glob)
  [2]
  $ ./lab explain refused 256 2>&1 >>printed
  *'256'*0..=255* (glob)
  [2]
  $ ./lab explain cause A 33 2>&1 >>printed
  *'A'*rr, a, abis* (glob)
  [2]
  $ ./lab explain fault abis 5 1 2 2>&1 >>printed
  *'2'*bsc_lab explain fault <LINK> <N> [ARGUMENT]* (glob)
  [2]
  $ ./lab encode 2>&1 >>printed
  *not provided: <LINK> <TEXT>*bsc_lab encode <LINK> <TEXT>* (glob)
  [2]
  $ ./lab encode rr 2>&1 >>printed
  *not provided: <TEXT>*bsc_lab encode <LINK> <TEXT>* (glob)
  [2]
  $ ./lab encode b 'CLEAR COMPLETE' 2>&1 >>printed
  *'b'*rr, a, abis* (glob)
  [2]
  $ ./lab encode a CLEAR COMPLETE 2>&1 >>printed
  *'COMPLETE'*bsc_lab encode <LINK> <TEXT>* (glob)
  [2]
  $ ./lab decode 2>&1 >>printed
  *not provided: <LINK> <HEX>*bsc_lab decode * (glob)
  [2]
  $ ./lab decode rr 2>&1 >>printed
  *not provided: <HEX>*bsc_lab decode * (glob)
  [2]
  $ ./lab decode A 00 2>&1 >>printed
  *'A'*rr, a, abis* (glob)
  [2]
  $ ./lab decode RR 062c00 2>&1 >>printed
  *'RR'*rr, a, abis* (glob)
  [2]
  $ ./lab decode '' 062c00 2>&1 >>printed
  *'[LINK]'*rr, a, abis* (glob)
  [2]
  $ ./lab decode rr 06 2c00 2>&1 >>printed
  *'2c00'*bsc_lab decode * (glob)
  [2]
  $ ./lab decode rr -0 2>&1 >>printed
  *'-0'*bsc_lab decode * (glob)
  [2]
  $ ./lab decode --from 2>&1 >>printed
  *'--from <FILE>'* (glob)
  [2]
  $ ./lab decode rr 06 --from - 2>&1 >>printed
  *--from <FILE>*bsc_lab decode * (glob)
  [2]
  $ ./lab decode x --from - 2>&1 >>printed
  *'x'*rr, a, abis* (glob)
  [2]
  $ ./lab decode rr 06 --all 2>&1 >>printed
  *--all*bsc_lab decode * (glob)
  [2]
  $ ./lab decode rr --all 2>&1 >>printed
  *not provided: --from <FILE>*bsc_lab decode * (glob)
  [2]
  $ ./lab decode --from a --from b 2>&1 >>printed
  *'--from <FILE>'*bsc_lab decode * (glob)
  [2]
  $ ./lab test a.toml 2>&1 >>printed
  *not provided: *bsc_lab test * (glob)
  [2]
  $ ./lab record a.toml b.txt c.txt 2>&1 >>printed
  *'c.txt'*bsc_lab record * (glob)
  [2]

A rewind, and words with ends of lines, blanks and control characters, none of which is in the line.

  $ ./lab rewind 2>&1 >>printed
  *not provided: <SITE> <TRACE> <LINE>*bsc_lab rewind <SITE> <TRACE> <LINE>* (glob)
  [2]
  $ ./lab audit a 2>&1 >>printed
  *not provided: <TRACE>*bsc_lab audit <SITE> <TRACE>* (glob)
  [2]
  $ ./lab audit a b 1 2>&1 >>printed
  *'1'*bsc_lab audit * <SITE> <TRACE>* (glob)
  [2]
  $ ./lab rewind a b 2>&1 >>printed
  *not provided: <LINE>*bsc_lab rewind <SITE> <TRACE> <LINE>* (glob)
  [2]
  $ ./lab rewind a b 0 2>&1 >>printed
  *'0'*1..18446744073709551615* (glob)
  [2]
  $ ./lab rewind a b -1 2>&1 >>printed
  *'-1'*bsc_lab rewind * <SITE> <TRACE> * (glob)
  [2]
  $ ./lab rewind a b two 2>&1 >>printed
  *'two'*LINE* (glob)
  [2]
  $ ./lab rewind a b 1 2 2>&1 >>printed
  *'2'*bsc_lab rewind * <SITE> <TRACE> * (glob)
  [2]
  $ ./lab rewind a b 18446744073709551616 2>&1 >>printed
  *'18446744073709551616'*LINE* (glob)
  [2]
  $ ./lab "$(printf 'ru\n\nn')" 2>errors
  [2]
  $ cat errors
  *'ru\\n\\nn'*run, live, test, record, rewind, audit, summary, storm, check, cells, decode, encode, explain* (glob)
  $ grep -c '[[:cntrl:]]' errors
  0
  [1]
  $ ./lab decode "$(printf 'r\n  tip: r\033')" 00 2>errors
  [2]
  $ cat errors
  *'r\\n  tip: r\\u{1b}'*rr, a, abis* (glob)
  $ grep -c '[[:cntrl:]]' errors
  0
  [1]
  $ ./lab check a.toml "$(printf '\n\nUsage: \r')" 2>errors
  [2]
  $ cat errors
  *'\\n\\nUsage: \\r'*bsc_lab check * <SITE>* (glob)
  $ grep -c '[[:cntrl:]]' errors
  0
  [1]
  $ ./lab "$(printf '\033[31m')" 2>errors
  [2]
  $ cat errors
  *'\\u{1b}[31m'* (glob)
  $ grep -c '[[:cntrl:]]' errors
  0
  [1]
  $ cat printed

The version.

  $ ./lab --version
  bsc_lab 0.1
  $ ./lab -V
  bsc_lab 0.1

Options may stand anywhere, with a blank or = before what they name.

  $ ./lab run examples/two_cells.toml examples/handover_between.txt --peer examples/one_cell.toml >two
  $ ./lab run --peer examples/one_cell.toml examples/two_cells.toml examples/handover_between.txt | cmp two -
  $ ./lab run examples/two_cells.toml --peer=examples/one_cell.toml examples/handover_between.txt | cmp two -
  $ ./lab run --pcap a.pcap examples/two_cells.toml examples/handover_between.txt --peer examples/one_cell.toml | cmp two -
  $ ./lab run examples/two_cells.toml examples/handover_between.txt --peer examples/one_cell.toml --words --state >shown
  $ ./lab run examples/two_cells.toml --chart=b.svg examples/handover_between.txt --peer examples/one_cell.toml --pcap b.pcap --words --state | cmp shown -
  $ cmp a.pcap b.pcap
  $ cmp examples/handover_between.svg b.svg
  $ ./lab run examples/two_cells.toml --audit examples/handover_undone.txt | tail -n 4
  attempts 1
  held -
  choices -
  same
  $ printf 'open 1 0 0 3\n' | ./lab live --pcap c.pcap examples/two_cells.toml --state --words
  in open 1 0 0 3 # call 1
  event open 1 0/0/3 -> done # call 1
  out abis 0 0 0821010b0300060400010801 # call 1; CHANNEL ACTIVATION tn=3 activation=0 mode=00010801 reference=-
  state channel 0/0/3 pending call 1
  state call 1 record 0/0/3 pending
  end channels=1 calls=1 references=0 timers=0 # this is left
  state channel 0/0/3 pending call 1
  state call 1 record 0/0/3 pending
  $ wc -c <c.pcap
  95
  $ here=tests/two_controllers
  $ ./lab test $here/site.toml $here/calls/moves.txt $here/calls/mobile_stays.txt --peer $here/peer.toml
  1..2
  ok 1 - tests/two_controllers/calls/moves.txt
  ok 2 - tests/two_controllers/calls/mobile_stays.txt
  $ ./lab test --peer=$here/peer.toml $here/site.toml $here/calls/moves.txt $here/calls/mobile_stays.txt $here/calls/moves.txt
  1..3
  ok 1 - tests/two_controllers/calls/moves.txt
  ok 2 - tests/two_controllers/calls/mobile_stays.txt
  ok 3 - tests/two_controllers/calls/moves.txt
  $ ./lab record --peer=$here/peer.toml $here/site.toml $here/calls/moves.txt | cmp $here/calls/moves.txt -
  $ ./lab test examples/half_rate.toml --undo-everywhere examples/half_rate.txt | tail -n 1
  # same 8, held 0, not settled 0, differ 0
  $ printf '0004211b1500\n' >a.txt
  $ ./lab decode --all --from a.txt a 2>/dev/null
  1 CLEAR COMPLETE unused=1b/ unused=15/00
  $ ./lab decode a --from=a.txt 2>/dev/null
  1 CLEAR COMPLETE
  $ printf 'a 0004211b1500\n' | ./lab decode --from - --all 2>/dev/null
  1 CLEAR COMPLETE unused=1b/ unused=15/00

What is read later is handed on as it stands, be it hexadecimal or not; behind -- also what begins with one.

  $ ./lab decode rr 0g 2>/dev/null
  hex
  [2]
  $ ./lab decode rr - 2>/dev/null
  hex
  [2]
  $ ./lab decode rr -- -0 2>/dev/null
  hex
  [2]
  $ ./lab decode abis '' 2>/dev/null
  fault abis 1
  [2]
