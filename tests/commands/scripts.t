A script is run over a site.

  $ cat >script.txt <<'END'
  > open 1 0 0 3
  > abis 0 0 0822010b081234
  > clear 1
  > abis 0 0 0833010b
  > END
  $ ./lab run examples/two_cells.toml script.txt
  in open 1 0 0 3
  event open 1 0/0/3 -> done
  out abis 0 0 0821010b0300060400010801
  in abis 0 0 0822010b081234
  event confirm 0/0/3 -> owned 1
  event look 1 -> record 0/0/3 on
  in clear 1
  event look 1 -> record 0/0/3 on
  event clear 1 -> done
  out abis 0 0 082e010b
  in abis 0 0 0833010b
  event released 0/0/3 -> done
  end channels=0 calls=0 references=0 timers=0

A line that can't be read is named, and it is said what is wrong first in it, by each command that reads a script.
Nothing runs before all lines are read. The first script's name has a tab, which is escaped.

  $ printf 'open 1 0 0 8\n' >"$(printf 'unread\t.txt')"
  $ ./lab run examples/two_cells.toml "$(printf 'unread\t.txt')" 2>errors
  line 1
  [2]
  $ cat errors
  unread\t.txt:1: TN is 0 to 7, with /0 or /1 at the end for half rate, found 8
  $ ./lab record examples/two_cells.toml "$(printf 'unread\t.txt')" 2>errors
  line 1
  [2]
  $ cat errors
  unread\t.txt:1: TN is 0 to 7, with /0 or /1 at the end for half rate, found 8
  $ ./lab test examples/two_cells.toml "$(printf 'unread\t.txt')" 2>errors
  1..1
  not ok 1 - unread\t.txt
  # line 1 can't be read
  [2]
  $ cat errors
  unread\t.txt:1: TN is 0 to 7, with /0 or /1 at the end for half rate, found 8
  $ printf '# a call\n\nopen 1 0 0 3\r\nopen 70000 0 0 4\r\n' >unread.txt
  $ ./lab run examples/two_cells.toml unread.txt 2>errors
  line 4
  [2]
  $ cat errors
  unread.txt:4: CALL is 0 to 65535, found 70000
  $ ./lab record examples/two_cells.toml unread.txt 2>errors
  line 4
  [2]
  $ cat errors
  unread.txt:4: CALL is 0 to 65535, found 70000
  $ ./lab test examples/two_cells.toml unread.txt 2>errors
  1..1
  not ok 1 - unread.txt
  # line 4 can't be read
  [2]
  $ cat errors
  unread.txt:4: CALL is 0 to 65535, found 70000
  $ printf 'sim\nabis 0 0 082\n' >unread.txt
  $ ./lab run examples/two_cells.toml unread.txt 2>errors
  line 2
  [2]
  $ cat errors
  unread.txt:2: HEX is one octet or more, each in two hexadecimal digits, found 082
  $ ./lab record examples/two_cells.toml unread.txt 2>errors
  line 2
  [2]
  $ cat errors
  unread.txt:2: HEX is one octet or more, each in two hexadecimal digits, found 082
  $ ./lab test examples/two_cells.toml unread.txt 2>errors
  1..1
  not ok 1 - unread.txt
  # line 2 can't be read
  [2]
  $ cat errors
  unread.txt:2: HEX is one octet or more, each in two hexadecimal digits, found 082
  $ printf 'handover 1\n' >unread.txt
  $ ./lab run examples/two_cells.toml unread.txt 2>errors
  line 1
  [2]
  $ cat errors
  unread.txt:1: CELL is missing in handover CALL CELL
  $ ./lab record examples/two_cells.toml unread.txt 2>errors
  line 1
  [2]
  $ cat errors
  unread.txt:1: CELL is missing in handover CALL CELL
  $ ./lab test examples/two_cells.toml unread.txt 2>errors
  1..1
  not ok 1 - unread.txt
  # line 1 can't be read
  [2]
  $ cat errors
  unread.txt:1: CELL is missing in handover CALL CELL
  $ printf '2: undo 1\n' >unread.txt
  $ ./lab run examples/two_cells.toml unread.txt 2>errors
  line 1
  [2]
  $ cat errors
  unread.txt:1: 2: is for a second controller, but there is none (--peer SITE)
  $ ./lab record examples/two_cells.toml unread.txt 2>errors
  line 1
  [2]
  $ cat errors
  unread.txt:1: 2: is for a second controller, but there is none (--peer SITE)
  $ ./lab test examples/two_cells.toml unread.txt 2>errors
  1..1
  not ok 1 - unread.txt
  # line 1 can't be read
  [2]
  $ cat errors
  unread.txt:1: 2: is for a second controller, but there is none (--peer SITE)
  $ printf 'mobile 1 arrive\n' >unread.txt
  $ ./lab run examples/two_cells.toml unread.txt 2>errors
  line 1
  [2]
  $ cat errors
  unread.txt:1: mobile CALL HABIT needs a line sim before it
  $ ./lab record examples/two_cells.toml unread.txt 2>errors
  line 1
  [2]
  $ cat errors
  unread.txt:1: mobile CALL HABIT needs a line sim before it
  $ ./lab test examples/two_cells.toml unread.txt 2>errors
  1..1
  not ok 1 - unread.txt
  # line 1 can't be read
  [2]
  $ cat errors
  unread.txt:1: mobile CALL HABIT needs a line sim before it
  $ printf 'mobile 0 0 3 arrive\n' >unread.txt
  $ ./lab run examples/two_cells.toml unread.txt 2>errors
  line 1
  [2]
  $ cat errors
  unread.txt:1: mobile CELL TRX TN HABIT needs a line sim before it
  $ ./lab record examples/two_cells.toml unread.txt 2>errors
  line 1
  [2]
  $ cat errors
  unread.txt:1: mobile CELL TRX TN HABIT needs a line sim before it
  $ ./lab test examples/two_cells.toml unread.txt 2>errors
  1..1
  not ok 1 - unread.txt
  # line 1 can't be read
  [2]
  $ cat errors
  unread.txt:1: mobile CELL TRX TN HABIT needs a line sim before it
  $ printf 'undo \033[2J\n' >unread.txt
  $ ./lab run examples/two_cells.toml unread.txt 2>errors
  line 1
  [2]
  $ cat errors
  unread.txt:1: CALL is 0 to 65535, found \u{1b}[2J
  $ ./lab record examples/two_cells.toml unread.txt 2>errors
  line 1
  [2]
  $ cat errors
  unread.txt:1: CALL is 0 to 65535, found \u{1b}[2J
  $ ./lab test examples/two_cells.toml unread.txt 2>errors
  1..1
  not ok 1 - unread.txt
  # line 1 can't be read
  [2]
  $ cat errors
  unread.txt:1: CALL is 0 to 65535, found \u{1b}[2J
  $ printf 'clear 1\nundo\n' >script.txt
  $ ./lab run examples/two_cells.toml script.txt 2>errors
  line 2
  [2]
  $ cat errors
  script.txt:2: CALL is missing in undo CALL
  $ printf 'expire 1 T9' >script.txt
  $ ./lab run examples/two_cells.toml script.txt 2>/dev/null
  line 1
  [2]
  $ printf 'hold 0 0 3\nsim\n' >script.txt
  $ ./lab run examples/two_cells.toml script.txt 2>/dev/null
  line 1
  [2]
  $ printf 'open 1 0 0 3\nhangup 1\nsim\n' >script.txt
  $ ./lab run examples/two_cells.toml script.txt 2>/dev/null
  line 2
  [2]
  $ printf 'sim\nopen 1 0 0 3\n2: undo 1\n' >script.txt
  $ ./lab run examples/two_cells.toml script.txt 2>/dev/null
  line 3
  [2]
  $ cat >script.txt <<'END'
  > open 1 0 0 3
  > 
  > # a comment
  > undo x
  > undo y
  > END
  $ ./lab run examples/two_cells.toml script.txt 2>/dev/null
  line 4
  [2]
