What the lines of a script give, with numbers at their limits and in other forms than those that are printed: each input,
that of the second controller behind `2:`, and what is asked of the book for it. Comments and blank lines give nothing.

  $ printf '# a comment\r\n \t\nopen 0001 255 254 07\r\n' >script.txt
  $ cat >>script.txt <<'END'
  > handover 2 255
  > undo 65535
  > clear 0
  > expire 1 T3103
  > expire 1 T7
  > 2: expire 2 T8
  > abis 255 1 0822010B08AbCd
  > 2: a 7 0000
  > open 3 0 1 07/0
  > open 4 0 1 0/1
  > seize 5 06 full
  > 2: seize 6 0 half
  > abis 255 1 CHANNEL ACTIVATION NACK cause=32 tn=3/1
  > 2: a 7 CLEAR COMMAND cause=9
  > END
  $ ./lab run examples/two_cells.toml script.txt --peer examples/one_cell.toml 2>errors
  1: in open 1 255 254 7
  1: event open 1 255/254/7 -> refused 4
  1: in handover 2 255
  1: in undo 65535
  1: event undo 65535 asked -> refused 1
  1: in clear 0
  1: event look 0 -> refused 1
  1: in expire 1 T3103
  1: event undo 1 t3103 -> refused 1
  1: in expire 1 T7
  1: event undo 1 t7 -> refused 1
  2: in expire 2 T8
  2: event undo 2 t8 -> refused 1
  1: in abis 255 1 0822010b08abcd
  1: event confirm 255/1/3 -> refused 8 255/1/3
  2: in a 7 0000
  2: fault a 2
  1: in open 3 0 1 7/0
  1: event open 3 0/1/7/0 -> refused 4
  1: in open 4 0 1 0/1
  1: event open 4 0/1/0/1 -> refused 4
  1: in seize 5 6 full
  1: none free 6
  2: in seize 6 0 half
  2: none free 0
  1: in abis 255 1 0823011b1a0120
  1: event refuse 255/1/3/1 -> refused 8 255/1/3/1
  2: in a 7 000420040109
  2: event look 7 -> refused 1
  2: out a 7 000121
  1: end channels=0 calls=0 references=0 timers=0
  2: end channels=0 calls=0 references=0 timers=0

Where nothing could come of one, standard error says why.

  $ cat errors
  script.txt:3: this line has no effect: the site has no channel 255/254/7
  script.txt:4: this line has no effect: the site has no cell 255
  script.txt:5: this line has no effect: there is no call 65535
  script.txt:6: this line has no effect: there is no call 0
  script.txt:7: this line has no effect: there is no call 1
  script.txt:8: this line has no effect: there is no call 1
  script.txt:9: this line has no effect: there is no call 2
  script.txt:10: this line has no effect: the site has no cell 255
  script.txt:12: this line has no effect: the site has no channel 0/1/7/0
  script.txt:13: this line has no effect: the site has no channel 0/1/0/1
  script.txt:14: this line has no effect: the site has no cell 6
  script.txt:15: this line has no effect: the second controller's site has no half-rate channel in cell 0
  script.txt:16: this line has no effect: the site has no cell 255

Lines for the simulators give no input but what comes of them; which channel each is about is said, where the site has none.

  $ cat >script.txt <<'END'
  > sim
  > refuse 255 254 7
  > 2: hold 255 254 7/1
  > let 255 254 7
  > mobile 255 254 7 arrive
  > 2: mobile 255 254 7 return
  > mobile 255 254 7 vanish
  > double 255 254 7
  > cut 255 254 7/0 255
  > 2: cut 255 254 7/1 001
  > hold 255 254 7 complete
  > 2: hangup 9
  > report 7 full=30 n=1:40,64:63
  > 2: answer 65535 released
  > 2: mobile 8 vanish
  > restart 255
  > restart 0 254
  > 2: restart 0 1
  > 2: restart 0
  > END
  $ ./lab run examples/two_cells.toml script.txt --peer examples/one_cell.toml 2>errors
  2: in a 9 000420040109
  2: event look 9 -> refused 1
  2: out a 9 000121
  1: end channels=0 calls=0 references=0 timers=0
  2: end channels=0 calls=0 references=0 timers=0
  $ cat errors
  script.txt:2: the site has no channel 255/254/7
  script.txt:3: the second controller's site has no channel 255/254/7/1
  script.txt:4: the site has no channel 255/254/7
  script.txt:5: the site has no channel 255/254/7
  script.txt:6: the second controller's site has no channel 255/254/7
  script.txt:7: the site has no channel 255/254/7
  script.txt:8: the site has no channel 255/254/7
  script.txt:9: the site has no channel 255/254/7/0
  script.txt:10: the second controller's site has no channel 255/254/7/1
  script.txt:11: the site has no channel 255/254/7
  script.txt:13: this line has no effect: there is no call 7
  script.txt:14: this line has no effect: no channel of call 65535 awaits its release
  script.txt:15: this line has no effect: there is no call 8
  script.txt:16: the site has no cell 255
  script.txt:17: the site has no TRX 254 in cell 0
  script.txt:18: the second controller's site has no TRX 1 in cell 0
