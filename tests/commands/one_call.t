A run seen in part: which line of the script gave an input, and the lines about one call alone.

Behind each input stands the line of the script that gave it, which a person counted there; behind a simulator's nothing but @.
Comments, blank lines and what is asked of simulators count as lines, and give no input.

  $ ./lab run examples/two_cells.toml examples/handover_returns.txt --lines >printed
  $ grep '^in' printed
  in open 1 0 0 3 @8
  in abis 0 0 0822010b080000 @
  in handover 1 1 @21
  in abis 1 1 0822010b080000 @
  in abis 0 0 0302010b02000b0003062801 @
  in abis 1 1 0833010b @

All else stays as it is, and words stand behind that.

  $ sed 's/ @[0-9]*$//' printed | cmp - examples/handover_returns.trace
  $ ./lab run examples/two_cells.toml examples/handover_returns.txt --lines --words | grep '^in [oh]'
  in open 1 0 0 3 @8 # call 1
  in handover 1 1 @21 # call 1
  $ ./lab summary printed >counted
  $ ./lab summary examples/handover_returns.trace | cmp - counted
  $ ./lab run examples/two_cells.toml examples/handover_returns.txt --lines --audit | tail -n 4
  attempts 1
  held -
  choices -
  same

Of two controllers each line of the script is one, of whichever it is; a carriage return may end it.

  $ printf 'sim\r\n\r\n# which\r\nopen 1 0 0 3\r\n2: open 1 0 0 1\r\nclear 1\r\n' >two.txt
  $ ./lab run examples/two_cells.toml two.txt --peer examples/one_cell.toml --lines | grep ': in [oc]'
  1: in open 1 0 0 3 @4
  2: in open 1 0 0 1 @5
  1: in clear 1 @6

Of two calls only one is shown, with what its station answers, and the end of the trace.

  $ printf 'sim\nopen 1 0 0 3\nopen 2 0 0 2\nclear 1\nclear 2\n' >two_calls.txt
  $ ./lab run examples/two_cells.toml two_calls.txt --call 2 --lines
  in open 2 0 0 2 @3
  event open 2 0/0/2 -> done
  out abis 0 0 0821010a0300060400010801
  in abis 0 0 0822010a080000 @
  event confirm 0/0/2 -> owned 2
  event look 2 -> record 0/0/2 on
  in clear 2 @5
  event look 2 -> record 0/0/2 on
  event clear 2 -> done
  out abis 0 0 082e010a
  in abis 0 0 0833010a @
  event released 0/0/2 -> done
  end channels=0 calls=0 references=0 timers=0

They are those whose words name it. What has no call, as octets that name no channel, is shown of none.

  $ printf 'abis 0 0 08\nhandover 1 9\n' >>two_calls.txt
  $ ./lab run examples/two_cells.toml two_calls.txt --words | grep -w -e 'call 1' -e '^end' >named
  two_calls.txt:7: this line has no effect: the site has no cell 9
  $ ./lab run examples/two_cells.toml two_calls.txt --words --call 1 2>/dev/null | cmp - named
  $ grep -c . named
  14

Where no line is of the call, that is told; of two controllers where none of either is.

  $ ./lab run examples/two_cells.toml two_calls.txt --call 3 2>errors
  end channels=0 calls=0 references=0 timers=0
  $ cat errors
  no line is about call 3
  two_calls.txt:7: this line has no effect: the site has no cell 9
  $ ./lab run examples/two_cells.toml two_calls.txt --call 3 --words --chart run.svg 2>&1 >/dev/null
  no line is about call 3
  two_calls.txt:7: this line has no effect: the site has no cell 9
  $ printf 'open 1 0 0 3\n2: open 2 0 0 1\n' >each.txt
  $ for call in 1 2 3; do ./lab run examples/two_cells.toml each.txt --peer examples/one_cell.toml --call $call 2>&1 >/dev/null; done
  no line is about call 3
  $ ./lab run examples/two_cells.toml two.txt --call 9 2>&1 >/dev/null
  two.txt:5: 2: is for a second controller, but there is none (--peer SITE)
  [2]

Of two controllers the lines of either's call of that number are shown.

  $ printf 'open 1 0 0 3\n2: open 1 0 0 1\nopen 2 0 0 2\n' >either.txt
  $ ./lab run examples/two_cells.toml either.txt --peer examples/one_cell.toml --call 1
  1: in open 1 0 0 3
  1: event open 1 0/0/3 -> done
  1: out abis 0 0 0821010b0300060400010801
  2: in open 1 0 0 1
  2: event open 1 0/0/1 -> done
  2: out abis 0 0 082101090300060400010801
  1: end channels=2 calls=2 references=0 timers=0
  2: end channels=1 calls=1 references=0 timers=0

On a chart, whose title names the call, inputs keep their numbers; counts and captures have all.

  $ ./lab run examples/two_cells.toml two_calls.txt --call 2 --chart run.svg --pcap run.pcap --summary >printed 2>/dev/null
  $ sed -n 's/^<text x="12" .*>\(.*\)<.text>$/\1/p' run.svg
  two_calls.txt over examples/two_cells.toml, call 2
  3 open 2 0 0 2
  4
  7 clear 2
  8
  $ grep 'calls opened$' printed
  summary all            2 calls opened
  summary cell 0         2 calls opened
  $ ./lab run examples/two_cells.toml two_calls.txt --pcap whole.pcap >/dev/null 2>&1
  $ cmp run.pcap whole.pcap

What a book holds is of all calls, and an audit names lines of the whole trace, so neither goes with one call.

  $ ./lab run examples/two_cells.toml two_calls.txt --call 1 --state
  *--call*--state* (glob)
  [2]
  $ ./lab run examples/two_cells.toml two_calls.txt --call 1 --audit
  *--call*--audit* (glob)
  [2]
  $ ./lab run examples/two_cells.toml two_calls.txt --call 65536
  *65536* (glob)
  [2]
