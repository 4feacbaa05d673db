Ten thousand answers to one line are handled, and the rest is dropped. A call begins and ends while both acknowledgements
are held; its release is acknowledged by hand. After so many such calls all that was held is let go.

  $ held() { echo sim; for _ in $(seq "$1"); do printf 'hold 0 0 3\nhold 0 0 3\nopen 1 0 0 3\nclear 1\nabis 0 0 0833010b\n'; done; echo let 0 0 3; }

Five thousand activations and five thousand releases are handled.

  $ held 5000 >held.txt
  $ ./lab run tests/two_cells/site.toml held.txt >trace
  held.txt: settings without effect aren't looked for: over 100,000 lines would have to be played
  $ grep -c '^in abis 0 0 0822010b080000$' trace
  5000
  $ grep -c '^sim limit$' trace
  0
  [1]
  $ tail -n 1 trace
  end channels=0 calls=0 references=0 timers=0

Where there is one call more, that is said. The rest doesn't come with the next line, either.

  $ (held 5001; echo clear 9) >held.txt
  $ ./lab run tests/two_cells/site.toml held.txt >trace
  held.txt:25008: this line has no effect: there is no call 9
  held.txt: settings without effect aren't looked for: over 100,000 lines would have to be played
  $ grep -c '^in abis 0 0 0822010b080000$' trace
  5000
  $ sed -n '/^sim limit$/,$p' trace
  sim limit
  in clear 9
  event look 9 -> refused 1
  end channels=0 calls=0 references=0 timers=0

The line has no mark of a controller.

  $ ./lab run tests/two_controllers/site.toml held.txt --peer tests/two_controllers/peer.toml >trace
  held.txt:25008: this line has no effect: there is no call 9
  held.txt: settings without effect aren't looked for: over 100,000 lines would have to be played
  $ grep -c '^1: in abis 0 0 0822010b080000$' trace
  5000
  $ grep -c '^sim limit$' trace
  1

Where an attempt is taken back, as `--undo-everywhere` does, the rest doesn't come with the next line, either. Of the target
one acknowledgement of each activation is held, and at last that of its release. Where this is the ten thousandth answer it is
handled, and the attempt is settled. Where it is one more it never comes.

  $ taken_back() { echo sim; for _ in $(seq "$1"); do printf 'hold 1 1 3\nopen 1 1 1 3\nclear 1\n'; done; printf 'open 2 0 0 3\nhold 1 1 3\nhold 1 1 3\nhandover 2 1\nundo 2\nlet 1 1 3\nclear 9\n'; }
  $ taken_back 9998 >handled.txt
  $ taken_back 9999 >dropped.txt
  $ ./lab test tests/two_cells/site.toml handled.txt dropped.txt --undo-everywhere
  ok 1 - handled.txt: undo 2 after input 29997: same
  ok 2 - dropped.txt: undo 2 after input 30000: not settled, the book differs
  1..2
  # same 1, held 0, not settled 1, differ 0
