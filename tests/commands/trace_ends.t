A run that ends early isn't taken for a whole one: a trace has the line `end` behind its last input, one of two controllers has
both.

  $ ./lab run examples/two_cells.toml examples/handover_undone.txt >whole.trace
  $ ./lab audit examples/two_cells.toml whole.trace | tail -n 1
  same
  $ sed '$d' whole.trace >cut.trace
  $ ./lab audit examples/two_cells.toml cut.trace 2>errors
  no end
  [2]
  $ cat errors
  cut.trace: no line end follows the last input: the trace is cut off, or its run isn't over (--cut reads it anyway)
  $ ./lab rewind examples/two_cells.toml cut.trace 9 2>/dev/null
  no end
  [2]
  $ ./lab rewind examples/two_cells.toml cut.trace --all 2>/dev/null
  no end
  [2]
  $ ./lab summary cut.trace 2>/dev/null
  no end
  [2]
  $ ./lab summary cut.trace --json 2>/dev/null
  no end
  [2]

It is told before a line is read, and behind files that can't be.

  $ sed 's/event open 1/event open x/' cut.trace >odd.trace
  $ ./lab audit examples/two_cells.toml odd.trace 2>/dev/null
  no end
  [2]
  $ ./lab audit nothing.toml cut.trace 2>/dev/null
  file nothing.toml
  [2]

Where it is meant it is read, as far as it has whole lines.

  $ ./lab audit examples/two_cells.toml cut.trace --cut
  attempts 1
  held -
  choices -
  same
  $ ./lab rewind examples/two_cells.toml cut.trace 9 --cut | tail -n 1
  same
  $ ./lab rewind examples/two_cells.toml cut.trace --all --cut
  line 9 call 1 internal sent others 2-8 settled yes held - choices - same
  $ ./lab summary cut.trace --cut | head -n 1
  summary all            1 calls opened
  $ printf 'event undo 1 asked -> rec' >>cut.trace
  $ ./lab audit examples/two_cells.toml cut.trace --cut | head -n 1
  attempts 1
  $ ./lab audit examples/two_cells.toml whole.trace --cut | tail -n 1
  same

An end that isn't whole is none; words, a carriage return, or what run prints behind it, may stand there. One before the last
input is none either.

  $ head -c -2 whole.trace >cut.trace
  $ ./lab audit examples/two_cells.toml cut.trace 2>/dev/null
  no end
  [2]
  $ sed 's/timers=/timer=/' whole.trace >cut.trace
  $ ./lab audit examples/two_cells.toml cut.trace 2>/dev/null
  no end
  [2]
  $ sed 's/$/\r/' whole.trace >returns.trace
  $ ./lab audit examples/two_cells.toml returns.trace | tail -n 1
  same
  $ ./lab run examples/two_cells.toml examples/handover_undone.txt --words --summary --audit >words.trace
  $ ./lab summary words.trace | head -n 1
  summary all            1 calls opened
  $ { cat whole.trace; sed '$d' whole.trace; } >twice.trace
  $ ./lab audit examples/two_cells.toml twice.trace 2>/dev/null
  no end
  [2]

Of two controllers both have one.

  $ ./lab run examples/two_cells.toml examples/handover_between.txt --peer examples/one_cell.toml >two.trace
  $ ./lab summary two.trace | head -n 1
  1: summary all            1 calls opened
  $ for mark in 1 2; do sed "/^$mark: end/d" two.trace >cut.trace; ./lab summary cut.trace 2>/dev/null; done
  no end
  no end
  [2]
  $ sed '/: end/d' two.trace >cut.trace
  $ ./lab rewind examples/two_cells.toml cut.trace --all --peer examples/one_cell.toml 2>/dev/null
  no end
  [2]
  $ ./lab rewind examples/two_cells.toml cut.trace --all --peer examples/one_cell.toml --cut

A live controller ends its trace once standard input has ended. What came before that is a trace that isn't over.

  $ printf 'open 1 0 0 3\nclear 1\n' | ./lab live examples/two_cells.toml >live.trace
  $ ./lab audit examples/two_cells.toml live.trace | tail -n 1
  same
  $ sed '$d' live.trace >cut.trace
  $ ./lab audit examples/two_cells.toml cut.trace 2>/dev/null
  no end
  [2]

A list of events, without an input, has no end. A journal's file has none, and is known by its head.

  $ printf 'event look 1 -> refused 1\n' >look.trace
  $ ./lab audit examples/two_cells.toml look.trace | tail -n 1
  same
  $ printf 'open 1 0 0 3\n' | ./lab live examples/two_cells.toml --journal kept >/dev/null
  $ ./lab audit examples/two_cells.toml kept/*.journal | tail -n 1
  same
  $ ./lab summary kept/*.journal --cut | head -n 1
  summary all            1 calls opened

What has no line of a trace is none: a script, a site, nothing.

  $ for text in examples/handover_undone.txt examples/two_cells.toml /dev/null; do
  >   ./lab audit examples/two_cells.toml $text
  >   ./lab rewind examples/two_cells.toml $text 1
  >   ./lab rewind examples/two_cells.toml $text --all --cut
  >   ./lab summary $text
  > done 2>errors
  no trace
  no trace
  no trace
  no trace
  no trace
  no trace
  no trace
  no trace
  no trace
  no trace
  no trace
  no trace
  [2]
  $ uniq errors
  examples/handover_undone.txt: this isn't a trace, as run prints it
  examples/two_cells.toml: this isn't a trace, as run prints it
  /dev/null: this isn't a trace, as run prints it
