Of the handovers of this script 53 come to their end, and 35 are taken back; nothing is left.

  $ ./lab run tests/four_cells/site.toml tests/four_cells/calls/two_hundred_lines.txt >trace
  $ grep -c '^event complete ' trace
  53
  $ grep -c '^event undo ' trace
  35
  $ tail -n 1 trace
  end channels=0 calls=0 references=0 timers=0
