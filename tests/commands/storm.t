Many calls at once, handled by workers on threads. Each call is opened, tries to move to the next cell, and is hung up. What
comes of it doesn't depend on how many workers there are, nor on which of them gets on first.

Eight cells with three TRX and 23 traffic channels each:

  $ ./lab storm examples/eight_cells.toml --workers 4 --calls 64
  calls 64
  attempts 64
  completed 32
  undone 32
  channels in use 0
  audit same
  $ ./lab storm examples/eight_cells.toml --workers 1 --calls 64 >one
  $ ./lab storm examples/eight_cells.toml --workers 2 --calls 64 | cmp one -
  $ ./lab storm examples/eight_cells.toml --workers 16 --calls 64 | cmp one -

Nor on the schedule: sixteen workers on one processor, and on all, again and again.

  $ one_processor=$(taskset -cp $$ | sed 's/.*: //; s/[,-].*//')
  $ storm() { "$@" ./lab storm examples/eight_cells.toml --workers 16 --calls 64 | cmp one -; }
  $ for _ in 1 2 3; do storm taskset -c "$one_processor"; storm nice; done
  $ ./lab storm --calls 88 examples/eight_cells.toml --workers=3
  calls 88
  attempts 88
  completed 44
  undone 44
  channels in use 0
  audit same
  $ ./lab storm examples/eight_cells.toml --workers 4 --calls 5
  calls 5
  attempts 5
  completed 3
  undone 2
  channels in use 0
  audit same

Two cells with two traffic channels each:

  $ ./lab storm tests/storm_sites/two_cells.toml --workers 1 --calls 1
  calls 1
  attempts 1
  completed 1
  undone 0
  channels in use 0
  audit same
  $ ./lab storm tests/storm_sites/two_cells.toml --workers 2 --calls 2
  calls 2
  attempts 2
  completed 1
  undone 1
  channels in use 0
  audit same

The same where a timeslot of each cell carries halves, too: a half counts as no channel.

  $ sed 's/tch = \[2, 3\]/tch = [2, 3], half = [3]/' tests/storm_sites/two_cells.toml >halves.toml
  $ grep -c half halves.toml
  2
  $ ./lab storm halves.toml --workers 2 --calls 2
  calls 2
  attempts 2
  completed 1
  undone 1
  channels in use 0
  audit same
  $ ./lab storm halves.toml --workers 1 --calls 3 2>errors
  site too small
  [2]
  $ cat errors
  halves.toml: cell 0 has 2 full rate channels, and needs 4

The widest site, 64 cells with four TRX each: of its 31 traffic channels a cell needs 30 for the 15 calls that begin there.

  $ printf '[handover]\nwindow = 2\nmargin = 3\nminimum = 10\n' >wide.toml
  $ for n in $(seq 0 63); do printf '[[cell]]\nlac = 1\nci = %d\nbcch = %d\nncc = 0\nbcc = 0\npower = 5\nba = []\ntrx = [{ arfcn = %d, tch = [1, 2, 3, 4, 5, 6, 7] }' $n $((4 * n)) $((4 * n)); for m in 1 2 3; do printf ', { arfcn = %d, tch = [0, 1, 2, 3, 4, 5, 6, 7] }' $((4 * n + m)); done; printf ']\n'; done >>wide.toml
  $ ./lab storm wide.toml --workers 16 --calls 960
  calls 960
  attempts 960
  completed 480
  undone 480
  channels in use 0
  audit same
  $ ./lab storm wide.toml --workers 16 --calls 961 2>errors
  site too small
  [2]
  $ cat errors
  wide.toml: cell 0 has 31 full rate channels, and needs 32

A site is too small where it has one cell, or where a cell has fewer than twice as many traffic channels as calls begin in
one; here a call that begins in cell 0 needs a channel of cell 1, and one of cell 1 a channel of cell 0.

  $ ./lab storm tests/storm_sites/one_cell.toml --workers 1 --calls 1 2>errors
  site too small
  [2]
  $ cat errors
  tests/storm_sites/one_cell.toml: a storm needs two cells
  $ ./lab storm examples/two_cells.toml --workers 1 --calls 1 2>errors
  site too small
  [2]
  $ cat errors
  examples/two_cells.toml: cell 1 has 1 full rate channels, and needs 2
  $ ./lab storm tests/storm_sites/two_cells.toml --workers 1 --calls 3 2>errors
  site too small
  [2]
  $ cat errors
  tests/storm_sites/two_cells.toml: cell 0 has 2 full rate channels, and needs 4
  $ ./lab storm examples/eight_cells.toml --workers 16 --calls 89 2>errors
  site too small
  [2]
  $ cat errors
  examples/eight_cells.toml: cell 0 has 23 full rate channels, and needs 24
  $ ./lab storm examples/eight_cells.toml --workers 16 --calls 1024 2>/dev/null
  site too small
  [2]

Files and sites are refused as by run.

  $ ./lab storm 'no site' --workers 1 --calls 1 2>errors
  file no site
  [2]
  $ cat errors
  no site: no such file
  $ ./lab storm / --workers 1 --calls 1 2>/dev/null
  file /
  [2]
  $ ./lab storm /dev/null --workers 1 --calls 1 2>errors
  site 2 handover
  [2]
  $ cat errors
  /dev/null: handover is missing: it has to be a table
  $ sed -z 's/tch = \[2, 3\]/tch = []/' tests/storm_sites/two_cells.toml >refused.toml
  $ ./lab storm refused.toml --workers 1 --calls 1 2>/dev/null
  site 5 0
  [2]

Words that ask for none: there are 1 to 16 workers, and 1 to 1,024 calls.

  $ ./lab storm examples/eight_cells.toml --workers 17 --calls 64 2>&1 >>printed
  *'17'*1..=16*N is a number from 1 to 16* (glob)
  [2]
  $ ./lab storm examples/eight_cells.toml --workers 0 --calls 64 2>&1 >>printed
  *'0'*1..=16*N is a number from 1 to 16* (glob)
  [2]
  $ ./lab storm examples/eight_cells.toml --workers 4 --calls 0 2>&1 >>printed
  *'0'*1..=1024*M is a number from 1 to 1024* (glob)
  [2]
  $ ./lab storm examples/eight_cells.toml --workers 4 --calls 1025 2>&1 >>printed
  *'1025'*1..=1024*M is a number from 1 to 1024* (glob)
  [2]
  $ ./lab storm examples/eight_cells.toml --workers -1 --calls 64 2>&1 >>printed
  *'-1'* (glob)
  [2]
  $ ./lab storm examples/eight_cells.toml --workers four --calls 64 2>&1 >>printed
  *'four'*'--workers <N>'*N is a number from 1 to 16* (glob)
  [2]
  $ ./lab storm examples/eight_cells.toml --calls 64 2>&1 >>printed
  *not provided: --workers <N>*bsc_lab storm --workers <N> --calls <M> <SITE>* (glob)
  [2]
  $ ./lab storm examples/eight_cells.toml --workers 4 2>&1 >>printed
  *not provided: --calls <M>*bsc_lab storm --workers <N> --calls <M> <SITE>* (glob)
  [2]
  $ ./lab storm --workers 4 --calls 64 2>&1 >>printed
  *not provided: <SITE>*bsc_lab storm --workers <N> --calls <M> <SITE>* (glob)
  [2]
  $ ./lab storm examples/eight_cells.toml examples/one_call.txt --workers 4 --calls 64 2>&1 >>printed
  *'examples/one_call.txt'*bsc_lab storm --workers <N> --calls <M> <SITE>* (glob)
  [2]
  $ cat printed

A worker needs a thread. The system refuses one where the user has as many processes and threads as the limit says. Root may
have any number, so root becomes somebody else, who may open the same files.

  $ setpriv_if_root() { if [ "$(id -u)" = 0 ]; then setpriv --reuid=54321 --inh-caps=+dac_override --ambient-caps=+dac_override "$@"; else "$@"; fi; }

There is no thread for the first worker, and none for the last of four, where the first three have ended:

  $ setpriv_if_root prlimit --nproc=1 ./lab storm examples/eight_cells.toml --workers 4 --calls 8 2>errors
  office
  [2]
  $ cat errors
  the office of the workers failed: no thread can be started
  $ setpriv_if_root prlimit --nproc=4 ./lab storm examples/eight_cells.toml --workers 4 --calls 8 2>errors
  office
  [2]
  $ cat errors
  the office of the workers failed: no thread can be started

Standard output that can't be written:

  $ ./lab storm examples/eight_cells.toml --workers 4 --calls 64 2>&1 >/dev/full
  standard output: no space left
  [2]
