A call begins on some free channel of a cell: the words of the line, and those that can't be read.

  $ printf 'seize 007 0 full\nseize 2 1 half\nseize 8 0 half\n' >seized.txt
  $ ./lab run tests/half_rate/site.toml seized.txt
  seized.txt:3: this line has no effect: the site has no half-rate channel in cell 0
  in seize 7 0 full
  event open 7 0/0/2 -> done
  out abis 0 0 0821010a0300060400010801
  in seize 2 1 half
  event open 2 1/1/3/0 -> done
  out abis 1 1 082101130300060400010901
  in seize 8 0 half
  none free 0
  end channels=2 calls=2 references=0 timers=0

What a run printed can be played again.

  $ ./lab run tests/half_rate/site.toml seized.txt 2>/dev/null | sed -n 's/^in //p' >again.txt
  $ ./lab run tests/half_rate/site.toml again.txt >again.trace
  again.txt:3: this line has no effect: the site has no half-rate channel in cell 0
  $ ./lab run tests/half_rate/site.toml seized.txt 2>/dev/null | cmp - again.trace
  $ printf 'seize 7 0 full\nclear 7\n' | ./lab live tests/half_rate/site.toml
  in seize 7 0 full
  event open 7 0/0/2 -> done
  out abis 0 0 0821010a0300060400010801
  in clear 7
  event look 7 -> record 0/0/2 pending
  event clear 7 -> done
  out abis 0 0 082e010a
  end channels=1 calls=0 references=0 timers=0

  $ unread() { printf '%s\n' "$1" >unread.txt; ./lab run examples/two_cells.toml unread.txt 2>&1 >/dev/null; }
  $ unread 'seize 1 0'
  unread.txt:1: RATE is missing in seize CALL CELL RATE
  [2]
  $ unread 'seize 1 0 quarter'
  unread.txt:1: RATE is full or half, found quarter
  [2]
  $ unread 'seize 1 0 Full'
  unread.txt:1: RATE is full or half, found Full
  [2]
  $ unread 'seize  1 0 full'
  unread.txt:1: CALL is 0 to 65535, found two blanks, or one at the end
  [2]
  $ unread 'seize 65536 0 full'
  unread.txt:1: CALL is 0 to 65535, found 65536
  [2]
  $ unread 'seize 1 256 full'
  unread.txt:1: CELL is 0 to 255, found 256
  [2]
  $ unread 'seize 1 0 full 3'
  unread.txt:1: nothing may follow seize CALL CELL RATE, found 3
  [2]
  $ unread '2: seize 1 0 full'
  unread.txt:1: 2: is for a second controller, but there is none (--peer SITE)
  [2]
