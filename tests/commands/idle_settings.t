Lines for simulated stations and mobiles that come to nothing: the site lacks the channel, or the same comes of each line
without them. `run` says so on standard error at its end; a test isn't met.

  $ cat >idle.txt <<'END'
  > sim
  > refuse 0 0 5
  > open 1 0 0 3
  > refuse 0 0 3
  > hold 1 1 3
  > mobile 0 0 3 return
  > double 0 0 2
  > cut 0 0 2 1
  > a 1 000420040109
  > let 9 9 7
  > let 0 0 3
  > #> ..
  > END
  $ ./lab run examples/two_cells.toml idle.txt 2>&1 >/dev/null
  idle.txt:2: the site has no channel 0/0/5
  idle.txt:4: this line has no effect: it is never used on 0/0/3
  idle.txt:5: this line has no effect: it is never used on 1/1/3
  idle.txt:6: this line has no effect: it is never used on 0/0/3
  idle.txt:7: this line has no effect: it is never used on 0/0/2
  idle.txt:8: this line has no effect: it is never used on 0/0/2
  idle.txt:10: the site has no channel 9/9/7
  $ ./lab test examples/two_cells.toml idle.txt 2>/dev/null
  1..1
  not ok 1 - idle.txt
  # line 2 has no effect
  # line 4 has no effect
  # line 5 has no effect
  # line 6 has no effect
  # line 7 has no effect
  # line 8 has no effect
  # line 10 has no effect
  [1]

test says the same on standard error.

  $ ./lab run examples/two_cells.toml idle.txt 2>said >/dev/null
  $ ./lab test examples/two_cells.toml idle.txt 2>&1 >/dev/null | cmp - said

What else isn't met stands behind them.

  $ printf 'sim\nrefuse 0 0 5\nopen 1 0 0 3\n#= calls 2\n' >both.txt
  $ ./lab test examples/two_cells.toml both.txt 2>/dev/null
  1..1
  not ok 1 - both.txt
  # line 2 has no effect
  # line 4
  # expected: calls 2
  # came: calls 1
  [1]

All of these are used; what is cut may not say any more which channel it is about. Where nothing is let go nothing is said.

  $ cat >used.txt <<'END'
  > sim
  > open 1 0 0 3
  > mobile 0 0 3 return
  > hold 1 1 3
  > double 1 1 3
  > handover 1 1
  > let 1 1 3
  > refuse 1 1 3
  > handover 1 1
  > cut 0 0 3 1
  > clear 1
  > let 0 0 3
  > #> ..
  > END
  $ ./lab run examples/two_cells.toml used.txt 2>&1 >/dev/null
  $ ./lab test examples/two_cells.toml used.txt
  1..1
  ok 1 - used.txt

These aren't: one in whose place another comes, which isn't used either, as the activation is refused; one that is said again; one
of an answer that isn't cut; one about another channel.

  $ cat >again.txt <<'END'
  > sim
  > open 1 0 0 3
  > mobile 0 0 3 return
  > mobile 0 0 3 arrive
  > refuse 1 1 3
  > refuse 1 1 3
  > cut 1 1 3 200
  > cut 0 0 2 7
  > mobile 1 return
  > handover 1 1
  > #> ..
  > END
  $ ./lab run examples/two_cells.toml again.txt 2>&1 >/dev/null
  again.txt:3: this line has no effect: it is never used on 0/0/3
  again.txt:5: this line has no effect: before it is used, another line replaces it on 1/1/3
  again.txt:7: this line has no effect: it is never used on 1/1/3
  again.txt:8: this line has no effect: it is never used on 0/0/2
  again.txt:9: this line has no effect: it is never used on 0/0/3
  $ ./lab test examples/two_cells.toml again.txt 2>/dev/null | head -n 3
  1..1
  not ok 1 - again.txt
  # line 3 has no effect

What is let go counts, too: the acknowledgement that was kept back comes twice.

  $ printf 'sim\nhold 0 0 3\nopen 1 0 0 3\ndouble 0 0 3\nlet 0 0 3\n#> ..\n' >twice.txt
  $ ./lab run examples/two_cells.toml twice.txt 2>&1 | grep -v '^event'
  in open 1 0 0 3
  out abis 0 0 0821010b0300060400010801
  in abis 0 0 0822010b080000
  in abis 0 0 0822010b080000
  end channels=1 calls=1 references=0 timers=0

A cut that leaves more octets than an answer has changes nothing, and is used up by it. Of two cuts the last counts, and
to be doubled twice is to be doubled once.

  $ cat >longer.txt <<'END'
  > sim
  > cut 0 0 3 1
  > cut 0 0 3 255
  > open 1 0 0 3
  > double 0 0 3
  > double 0 0 3
  > clear 1
  > END
  $ ./lab run examples/two_cells.toml longer.txt 2>said
  in open 1 0 0 3
  event open 1 0/0/3 -> done
  out abis 0 0 0821010b0300060400010801
  in abis 0 0 0822010b080000
  event confirm 0/0/3 -> owned 1
  event look 1 -> record 0/0/3 on
  in clear 1
  event look 1 -> record 0/0/3 on
  event clear 1 -> done
  out abis 0 0 082e010b
  in abis 0 0 0833010b
  event released 0/0/3 -> done
  in abis 0 0 0833010b
  event released 0/0/3 -> refused 8 0/0/3
  end channels=0 calls=0 references=0 timers=0
  $ cat said
  longer.txt:2: this line has no effect: before it is used, another line replaces it on 0/0/3
  longer.txt:3: this line has no effect: it is never used on 0/0/3
  longer.txt:5: this line has no effect: before it is used, another line replaces it on 0/0/3

A line that names a call is about the channel that the call has then. What is kept of a mobile that comes is about a
HANDOVER COMMAND to the channel, behind the line.

  $ cat >calls.txt <<'END'
  > sim
  > mobile 1 return
  > open 1 0 0 3
  > hold 0 0 3 complete
  > mobile 1 return
  > handover 1 1
  > mobile 1 arrive
  > hold 1 1 3 detection
  > hold 1 1 3 complete
  > open 2 1 1 3
  > #> ..
  > END
  $ ./lab run examples/two_cells.toml calls.txt 2>&1 >/dev/null
  calls.txt:2: this line has no effect: there is no call 1
  calls.txt:4: this line has no effect: it is never used on 0/0/3
  calls.txt:8: this line has no effect: it is never used on 1/1/3
  calls.txt:9: this line has no effect: it is never used on 1/1/3
  $ ./lab test examples/two_cells.toml calls.txt 2>/dev/null
  1..1
  not ok 1 - calls.txt
  # line 2 has no effect
  # line 4 has no effect
  # line 8 has no effect
  # line 9 has no effect
  [1]
  $ cat >came.txt <<'END'
  > sim
  > open 1 0 0 3
  > hold 1 1 3 detection
  > hold 1 1 3 complete
  > handover 1 1
  > let 1 1 3
  > mobile 1 return
  > handover 1 0
  > #> ..
  > END
  $ ./lab run examples/two_cells.toml came.txt 2>&1 >/dev/null
  $ ./lab test examples/two_cells.toml came.txt
  1..1
  ok 1 - came.txt

Each hold keeps back one answer, up to the next `let`: a second one of the same activation is never used, nor is one of an
activation that is refused.

  $ cat >held.txt <<'END'
  > sim
  > hold 0 0 3
  > hold 0 0 3
  > open 1 0 0 3
  > let 0 0 3
  > hold 1 1 3 complete
  > hold 1 1 3 complete
  > handover 1 1
  > let 1 1 3
  > hold 0 0 2
  > refuse 0 0 2
  > handover 1 0
  > let 0 0 2
  > hold 0 0 2
  > handover 1 0
  > #> ..
  > END
  $ ./lab run examples/two_cells.toml held.txt 2>&1 >/dev/null
  held.txt:3: this line has no effect: it is never used on 0/0/3
  held.txt:7: this line has no effect: it is never used on 1/1/3
  held.txt:10: this line has no effect: it is never used on 0/0/2

One that waits for a later activation is used by that.

  $ printf 'sim\nhold 0 0 3\nrefuse 0 0 3\nopen 1 0 0 3\nclear 1\nopen 1 0 0 3\n' >later.txt
  $ ./lab run examples/two_cells.toml later.txt 2>&1 >/dev/null
  later.txt:5: this line has no effect: there is no call 1

A cut is used up by the next answer, also by one that isn't longer: nothing comes of it then.

  $ printf 'sim\ncut 0 0 3 200\nopen 1 0 0 3\ncut 0 0 3 7\nclear 1\nopen 1 0 0 3\ncut 0 0 3 1\nclear 1\n' >shorter.txt
  $ ./lab run examples/two_cells.toml shorter.txt 2>&1 >/dev/null
  shorter.txt:2: this line has no effect: it is never used on 0/0/3
  shorter.txt:4: this line has no effect: it is never used on 0/0/3

An answer that is cut and comes twice uses both.

  $ printf 'sim\ndouble 0 0 3\ncut 0 0 3 1\nopen 1 0 0 3\n' >both_ways.txt
  $ ./lab run examples/two_cells.toml both_ways.txt 2>&1 | grep -c '^in abis 0 0 08$'
  2
  $ ./lab run examples/two_cells.toml both_ways.txt 2>&1 >/dev/null

A setting is said again before it is used, also where something else comes between. Nothing is said of what sets back.

  $ printf 'sim\nrefuse 1 1 3\nopen 1 0 0 3\nmobile 1 vanish\nopen 2 0 0 2\nmobile 1 arrive\nrefuse 1 1 3\n' >between.txt
  $ printf 'handover 1 1\nhandover 1 1\nmobile 1 return\n' >>between.txt
  $ ./lab run examples/two_cells.toml between.txt 2>&1 >/dev/null
  between.txt:2: this line has no effect: before it is used, another line replaces it on 1/1/3
  between.txt:4: this line has no effect: before it is used, another line replaces it on 0/0/3
  between.txt:10: this line has no effect: it is never used on 1/1/3

  $ printf 'sim\nrefuse 0 0 3\nrefuse 0 0 3\nrefuse 0 0 3\nopen 1 0 0 3\n' >thrice.txt
  $ ./lab run examples/two_cells.toml thrice.txt 2>&1 >/dev/null
  thrice.txt:2: this line has no effect: before it is used, another line replaces it on 0/0/3
  thrice.txt:3: this line has no effect: before it is used, another line replaces it on 0/0/3

A channel is looked for at the controller whose mark the line has. A mobile may come there from the other one.

  $ printf 'sim\n2: hold 0 0 3\n2: open 1 0 0 1\n#> ..\n' >two.txt
  $ ./lab run examples/two_cells.toml two.txt --peer examples/one_cell.toml 2>&1 >/dev/null
  two.txt:2: the second controller's site has no channel 0/0/3
  $ printf 'sim\n2: hold 0 0 1 detection\nopen 1 0 0 3\nhandover 1 64\n#> ..\n' >comes.txt
  $ ./lab run examples/two_cells.toml comes.txt --peer examples/one_cell.toml 2>&1 >/dev/null

What a station would do with a mobile that it hasn't comes to nothing: it knows nothing of what came before `sim`, or of a channel
that it refused. So does what is kept back of a mobile that goes elsewhere, or is heard of no more.

  $ printf 'open 1 0 0 3\nanswer 1 ack\nsim\nmobile 1 return\nhold 1 1 3 complete\nhandover 1 1\n#> ..\n' >before.txt
  $ ./lab run examples/two_cells.toml before.txt 2>&1 >/dev/null
  before.txt:4: this line has no effect: it is never used on 0/0/3
  before.txt:5: this line has no effect: it is never used on 1/1/3
  $ printf 'sim\nopen 1 0 0 3\nmobile 1 vanish\nhold 1 1 3 complete\nhandover 1 1\nexpire 1 T3103\n#> ..\n' >gone.txt
  $ ./lab run examples/two_cells.toml gone.txt 2>&1 >/dev/null
  gone.txt:4: this line has no effect: it is never used on 1/1/3
  $ printf 'sim\nopen 1 0 0 3\nmobile 1 return\nhandover 1 1\nmobile 1 arrive\nhandover 1 1\n#> ..\n' >back.txt
  $ ./lab test examples/two_cells.toml back.txt
  1..1
  ok 1 - back.txt

What is let go at once was kept back all the same: it comes of another line.

  $ printf 'sim\nhold 0 0 3\nopen 1 0 0 3\nlet 0 0 3\n#> ..\n' >let.txt
  $ ./lab test examples/two_cells.toml let.txt
  1..1
  ok 1 - let.txt

Where more than 100,000 lines would be played to find out, nothing is looked at.

  $ { echo sim; for n in $(seq 320); do printf 'refuse 0 0 3\n'; done; } >many.txt
  $ ./lab run examples/two_cells.toml many.txt 2>&1 >/dev/null
  many.txt: settings without effect aren't looked for: over 100,000 lines would have to be played
