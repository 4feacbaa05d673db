What would be met by mistake isn't: a lost blank in a mark, a text that ends within a word; and reasons stand in the order of lines.

Each of these comments looks like an expectation, and isn't one. So the script isn't met, though another expectation is.

  $ number=0
  $ while IFS= read -r comment; do
  >   number=$((number + 1))
  >   printf 'open 1 0 0 3\n#= calls 1\n%b\n' "$comment" >"$number.txt"
  > done <<'END'
  > #!out
  > #=calls 9
  > #=\\tcalls 9
  > # = calls 9
  > # ! out
  > #==..
  > ##=..
  > # % site x
  > END
  $ ./lab test examples/two_cells.toml ?.txt 2>/dev/null
  1..8
  not ok 1 - 1.txt
  # line 3 looks like an expectation, but isn't one
  not ok 2 - 2.txt
  # line 3 looks like an expectation, but isn't one
  not ok 3 - 3.txt
  # line 3 looks like an expectation, but isn't one
  not ok 4 - 4.txt
  # line 3 looks like an expectation, but isn't one
  not ok 5 - 5.txt
  # line 3 looks like an expectation, but isn't one
  not ok 6 - 6.txt
  # line 3 looks like an expectation, but isn't one
  not ok 7 - 7.txt
  # line 3 looks like an expectation, but isn't one
  not ok 8 - 8.txt
  # line 3 looks like an expectation, but isn't one
  [1]

So do these: other blanks than a blank, `#- idle` in another form, and a comment behind a character that ends no line.

  $ number=0
  $ while IFS= read -r comment; do
  >   number=$((number + 1))
  >   printf 'open 1 0 0 3\n#= calls 1\n%b\n' "$comment" >"blank$number.txt"
  > done <<'END'
  > #\0302\0240> ..
  > #\0343\0200\0200! out
  > #\0342\0200\0213= calls 9
  > #\01= calls 9
  > #-idle
  > # - Idle
  > #- idle\0302\0240
  > # a note\r#= calls 9
  > # a note\0342\0200\0250#= calls 9
  > END
  $ ./lab test examples/two_cells.toml blank?.txt 2>/dev/null
  1..9
  not ok 1 - blank1.txt
  # line 3 looks like an expectation, but isn't one
  not ok 2 - blank2.txt
  # line 3 looks like an expectation, but isn't one
  not ok 3 - blank3.txt
  # line 3 looks like an expectation, but isn't one
  not ok 4 - blank4.txt
  # line 3 looks like an expectation, but isn't one
  not ok 5 - blank5.txt
  # line 3 looks like an expectation, but isn't one
  not ok 6 - blank6.txt
  # line 3 looks like an expectation, but isn't one
  not ok 7 - blank7.txt
  # line 3 looks like an expectation, but isn't one
  not ok 8 - blank8.txt
  # line 3 looks like an expectation, but isn't one
  not ok 9 - blank9.txt
  # line 3 looks like an expectation, but isn't one
  [1]
  $ printf 'open 1 0 0 3\n#= calls 1\n# - idle stations\n# a note\r# b\n' >notes.txt
  $ ./lab test examples/two_cells.toml notes.txt 2>/dev/null
  1..1
  ok 1 - notes.txt

Five equal signs, or more, are a ruler.

  $ printf 'open 1 0 0 3\n#=====\n# ======= A ruler.\n#= calls 1\n' >ruler.txt
  $ ./lab test examples/two_cells.toml ruler.txt
  1..1
  ok 1 - ruler.txt

Cause 3 isn't cause 32, which a station gives that refuses an activation. A reply is any, timers are counted, and a cell's channels.

  $ cat >counts.txt <<'END'
  > sim
  > refuse 1 1 3
  > open 1 0 0 3
  > handover 1 1
  > #! in abis 1 1 CHANNEL ACTIVATION NACK cause=3
  > #= cell 0 1
  > mobile 1 vanish
  > handover 1 1
  > #= timers T3103 1
  > #= timers T7 0
  > #= cell 1 1
  > undo 1
  > #> event undo 1 asked -> *
  > #> ..
  > open 2 0 0 2
  > handover 2 64
  > #= timers T8 0
  > #= cell 0 2
  > END
  $ ./lab test examples/two_cells.toml counts.txt
  1..1
  ok 1 - counts.txt
  $ sed 's/cause=3$/cause=32/; s/T3103 1/T3103 2/' counts.txt >wrong.txt
  $ ./lab test examples/two_cells.toml wrong.txt
  1..1
  not ok 1 - wrong.txt
  # line 5
  # expected no line that begins with: in abis 1 1 CHANNEL ACTIVATION NACK cause=32
  # came: in abis 1 1 CHANNEL ACTIVATION NACK tn=3 cause=32; equipment failure
  # line 9
  # expected: timers T3103 2
  # came: timers T3103 1
  [1]

A cause may be in hexadecimal, as in lines of a script. It is shown as it is printed.

  $ sed 's/cause=3$/cause=0x03/' counts.txt >three.txt
  $ sed 's/cause=3$/cause=0x20/' counts.txt >refused.txt
  $ ./lab test examples/two_cells.toml three.txt refused.txt
  1..2
  ok 1 - three.txt
  not ok 2 - refused.txt
  # line 5
  # expected no line that begins with: in abis 1 1 CHANNEL ACTIVATION NACK cause=32
  # came: in abis 1 1 CHANNEL ACTIVATION NACK tn=3 cause=32; equipment failure
  [1]
  $ cat >hexadecimal.txt <<'END'
  > sim
  > refuse 1 1 3
  > open 1 0 0 3
  > handover 1 1
  > #> ..
  > #> in abis 1 1 CHANNEL ACTIVATION NACK cause=0x20; equipment failure
  > #> ..
  > END
  $ ./lab test examples/two_cells.toml hexadecimal.txt
  1..1
  ok 1 - hexadecimal.txt

So it may beside a name.

  $ cat >beside.txt <<'END'
  > sim
  > refuse 1 1 3
  > open 1 0 0 3
  > handover 1 1
  > #> ..
  > #> in abis 1 1 CHANNEL ACTIVATION NACK tn=$timeslot cause=0x20; equipment failure
  > #> ..
  > open 2 1 1 $timeslot
  > #> event open 2 1/1/3 -> *
  > #> ..
  > END
  $ ./lab test examples/two_cells.toml beside.txt
  1..1
  ok 1 - beside.txt

A line that names what the site lacks may be why something else doesn't come. So it is told where what comes differs.

  $ printf 'open 1 1 2 3\n#> ..\nopen 2 0 0 3\n#= calls 2\n' >lacks.txt
  $ ./lab test examples/two_cells.toml lacks.txt 2>/dev/null
  1..1
  not ok 1 - lacks.txt
  # line 1 has no effect
  # line 4
  # expected: calls 2
  # came: calls 1
  [1]

A line that has no effect because an expectation before it isn't met stands behind that.

  $ cat >order.txt <<'END'
  > open 1 0 0 5
  > #> event open 1 0/0/5 -> done
  > #> ..
  > answer 1 ack
  > #> event confirm 0/0/5 -> owned 1
  > #> ..
  > report 1 full=10 n=1:40
  > #> ..
  > END
  $ ./lab test examples/two_cells.toml order.txt 2>/dev/null
  1..1
  not ok 1 - order.txt
  # line 2
  # expected: event open 1 0/0/5 -> done
  # came: event open 1 0/0/5 -> refused 4
  # line 4 has no effect
  # line 5
  # expected: event confirm 0/0/5 -> owned 1
  # came nothing more
  # line 7 has no effect
  [1]

A chart of 16 cells has lanes for those two alone that do something.

  $ printf '#%% cells 16 full\nsim\nseize 1 3 full\nhandover 1 12\n' >many.txt
  $ ./lab run many.txt --chart many.svg >printed
  $ grep -o 'text-anchor="middle">\(station [0-9]*\|mobile\)<' many.svg | sort | uniq -c | sed 's/.*>\(.*\)</\1/'
  mobile
  station 12
  station 3
