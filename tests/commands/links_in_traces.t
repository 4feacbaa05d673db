The trace of a controller with its links has lines that run doesn't print: links that come and go, timers, what it was given in
another's place (for), what it said and isn't sent so (said), what goes on to the bridge (pass), what isn't expected (count).

A station doesn't answer the activation of a target. The controller is given its refusal in its place.

  $ cat >links.trace <<'END'
  > up 0 0
  > up 1 1
  > in open 1 0 0 3
  > event open 1 0/0/3 -> done
  > out abis 0 0 0821010b0300060400010801
  > start activation 0 0 3
  > in abis 0 0 0822010b081234
  > event confirm 0/0/3 -> owned 1
  > event look 1 -> record 0/0/3 on
  > stop activation 0 0 3
  > in handover 1 1
  > event look 1 -> record 0/0/3 on
  > event take 1 internal 1/1/3 -> done
  > event reserve 1 0 -> done
  > event activate 1 -> done
  > out abis 1 1 0821010b03020604000108010900
  > start activation 1 1 3
  > in abis 0 0 0302010b02000b0003050401
  > pass abis 0 0 0302010b02000b0003050401
  > expired activation 1 1 3
  > out abis 1 1 082e010b
  > for abis 1 1 0823010b1a0120
  > event refuse 1/1/3 -> owned 1
  > event look 1 -> record 0/0/3 on internal refused 1/1/3 0
  > event undo 1 asked -> record 0/0/3 on internal refused 1/1/3 0
  > in abis 1 1 0822010b081234
  > count unexpected
  > in abis 1 1 0833010b
  > down 0 0
  > for abis 0 0 0824010b1a0120
  > event owner 0/0/3 -> owned 1
  > event look 1 -> record 0/0/3 on
  > said a 1 000422040101
  > end channels=1 calls=1 references=0 timers=0
  > END

The lines are passed over by audit and by rewind. Two events stay behind the attempt, four before it.

  $ ./lab audit examples/two_cells.toml links.trace
  attempts 1
  held -
  choices -
  same
  $ ./lab rewind examples/two_cells.toml links.trace 13
  others 6
  settled yes
  held -
  choices -
  same
  $ ./lab rewind examples/two_cells.toml links.trace --all
  line 13 call 1 internal refused others 4-12,31-32 settled yes held - choices - same

Counted is what came and what was sent. A message that is said in another's place didn't come, but an attempt is undone for what
it says.

  $ ./lab summary links.trace | grep -v ' 0 '
  summary all            1 calls opened
  summary all            1 internal attempts
  summary all            1 undone: activation refused
  summary all         50.0 % of activations confirmed: 1 of 2
  summary all            2 out CHANNEL ACTIVATION
  summary all            2 in CHANNEL ACTIVATION ACK
  summary all            1 in DATA INDICATION
  summary all            1 out RF CHANNEL RELEASE
  summary all            1 in RF CHANNEL RELEASE ACK
  summary cell 1         1 out CHANNEL ACTIVATION
  summary cell 1         1 in CHANNEL ACTIVATION ACK
  summary cell 1         1 out RF CHANNEL RELEASE
  summary cell 1         1 in RF CHANNEL RELEASE ACK

What is said in another's place is an input, which needs its end behind it; and it has to be one.

  $ printf 'for abis 0 0 0824010b1a0120\nevent owner 0/0/3 -> refused 8 0/0/3\n' >cut.trace
  $ ./lab summary cut.trace 2>/dev/null
  no end
  [2]
  $ printf 'for abis 0 0 082\n' >odd.trace
  $ ./lab summary odd.trace --cut 2>&1
  odd.trace:1: run prints no such line
  line 1
  [2]
  $ printf 'for clear 1\nevent look 1 -> record 0/0/3 on internal sent 1/1/3 0\nevent undo 1 asked -> record 0/0/3 on internal sent 1/1/3 0\n' >cleared.trace
  $ ./lab summary cleared.trace --cut | grep -v ' 0 '
  summary all            1 undone: call cleared
