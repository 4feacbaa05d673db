Messages of each link that are cut, changed and made longer, and what is read of them; scripts with a line that is said twice,
too late, or by another cell's station, and scripts of random lines. What is expected of them is worked out by the programs
that run them.

  $ tests/programs/broken_messages ./lab
  2006 broken messages, 0 read otherwise than expected
  $ tests/programs/changed_scripts ./lab
  330 changed scripts met, 0 not
  $ tests/programs/changed_scripts ./lab --random 1 4
  4 changed scripts met, 0 not
