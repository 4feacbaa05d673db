A trace with one event, in which no attempt opens.

  $ printf 'event look 1 -> refused 1\n' >look.trace
  $ ./lab audit examples/two_cells.toml look.trace 2>&1 >/dev/null
  $ ./lab rewind examples/two_cells.toml look.trace 1 2>errors
  no attempt
  [2]
  $ cat errors
  look.trace: line 1 doesn't open an attempt that is undone later

A script in which no attempt opens has none that could be taken back.

  $ printf 'open 1 0 0 3\nclear 1\n' >moved.txt
  $ ./lab test examples/two_cells.toml moved.txt --undo-everywhere 2>errors
  1..0
  # same 0, held 0, not settled 0, differ 0
  $ cat errors
  no attempt was open, so none was undone

An undo of a call that has no attempt is refused for that alone; words say it.

  $ printf 'open 1 0 0 3\nundo 1\n' >undone.txt
  $ ./lab run examples/two_cells.toml undone.txt --words | grep 'refused 3'
  event undo 1 asked -> refused 3 # call 1; WrongPhase: no attempt of the call is open
