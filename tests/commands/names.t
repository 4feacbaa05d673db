Names for what comes: a name stands for the word, the value of a field, or the part of a channel in its place where it is expected
first. Behind that it may stand in expectations and in the script's lines.

  $ cat >named.txt <<'END'
  > sim
  > hold 1 1 3
  > open 1 0 0 3
  > handover 1 1
  > #> ..
  > #> event take 1 internal $target -> done
  > #> event reserve 1 $reference -> done
  > #> event activate 1 -> done
  > #> out abis $cell $trx CHANNEL ACTIVATION tn=$tn reference=$reference
  > #= call 1 0/0/3 internal sent $target $reference
  > let $target
  > #> in abis $cell $trx CHANNEL ACTIVATION ACK tn=$tn
  > #> event confirm $cell/$trx/$tn -> owned 1
  > #> ..
  > clear 1
  > #! event clear 2
  > abis $cell $trx RF CHANNEL RELEASE ACK tn=$tn
  > #> in abis 1 1 RF CHANNEL RELEASE ACK tn=3
  > #> event released $target -> refused 8 1/1/3
  > END
  $ ./lab test examples/two_cells.toml named.txt
  1..1
  ok 1 - named.txt

A channel stands in a line as its cell, TRX and timeslot; half of a timeslot, too.

  $ cat >half.txt <<'END'
  > seize 1 1 half
  > #> event open 1 $channel -> done
  > #> ..
  > open 2 $channel
  > #> event open 2 1/1/3/0 -> refused 6 1/1/3/0
  > END
  $ ./lab test tests/half_rate/site.toml half.txt
  1..1
  ok 1 - half.txt

run and record play the same lines. A record has values in the place of names.

  $ ./lab run tests/half_rate/site.toml half.txt | grep open
  event open 1 1/1/3/0 -> done
  in open 2 1 1 3/0
  event open 2 1/1/3/0 -> refused 6 1/1/3/0
  $ ./lab record tests/half_rate/site.toml half.txt --words
  seize 1 1 half
  #> event open 1 1/1/3/0 -> done
  #> out abis 1 1 CHANNEL ACTIVATION tn=3/0 activation=0 mode=00010901 reference=-
  open 2 1 1 3/0
  #> event open 2 1/1/3/0 -> refused 6 1/1/3/0
  #> end channels=1 calls=1 references=0 timers=0

What a name stands for is the same everywhere.

  $ printf 'sim\nopen 1 0 0 3\nhandover 1 1\n#> ..\n#> event take 1 internal $a/$b/$b -> done\n#> ..\n' >twice.txt
  $ ./lab test examples/two_cells.toml twice.txt 2>/dev/null | head -n 5
  1..1
  not ok 1 - twice.txt
  # line 5
  # expected: event take 1 internal 1/1/1 -> done
  # came: event take 1 internal 1/1/3 -> done
  $ printf 'open 1 0 0 3\n#> event open 1 $c -> done\n#> ..\nopen 2 0 0 2\n#> event open 2 $c -> done\n#> ..\n' >again.txt
  $ ./lab test examples/two_cells.toml again.txt 2>/dev/null
  1..1
  not ok 1 - again.txt
  # line 5
  # expected: event open 2 0/0/3 -> done
  # came: event open 2 0/0/2 -> done
  [1]

What the books hold names, too.

  $ cat >held.txt <<'END'
  > open 1 0 0 2
  > #= call 1 $channel
  > #= channels $channel
  > clear 1
  > #> event look 1 -> record $channel pending
  > #> event clear 1 -> done
  > #> out abis 0 0 RF CHANNEL RELEASE tn=2
  > END
  $ ./lab test examples/two_cells.toml held.txt
  1..1
  ok 1 - held.txt

A call that comes to a second controller has a number that the switching centre gives.

  $ cat >between.txt <<'END'
  > sim
  > open 1 0 0 3
  > handover 1 64
  > #> ..
  > #> 2: event take $call incoming $target -> done
  > #> ..
  > 2: clear $call
  > #> 2: in clear 40000
  > #> 2: event look $call -> record $target on
  > #> ..
  > END
  $ ./lab test examples/two_cells.toml between.txt --peer examples/one_cell.toml
  1..1
  ok 1 - between.txt

A line whose name stands for nothing can't be read: no comment before it has the name, or none of them is met. Then the lines before
it are tested.

  $ printf 'open 1 0 0 3\n#> ..\nclear $call\n#> ..\n' >unknown.txt
  $ ./lab test examples/two_cells.toml unknown.txt 2>errors
  1..1
  not ok 1 - unknown.txt
  # line 3 can't be read
  [2]
  $ cat errors
  unknown.txt:3: $call stands for nothing: no comment before the line expects it
  $ ./lab run examples/two_cells.toml unknown.txt 2>&1
  unknown.txt:3: $call stands for nothing: no comment before the line expects it
  line 3
  [2]
  $ printf 'open 1 0 0 3\n#> event open 2 $channel -> done\n#> ..\nclear 1\nopen 2 $channel\n#> ..\n' >unmet.txt
  $ ./lab test examples/two_cells.toml unmet.txt 2>errors
  1..1
  not ok 1 - unmet.txt
  # line 2
  # expected: event open 2 * -> done
  # came: event open 1 0/0/3 -> done
  # line 5 can't be read
  [1]
  $ cat errors
  unmet.txt:5: $channel stands for nothing: line 2 isn't met

A misspelt name in a line is told with the nearest that there is.

  $ printf 'open 1 0 0 3\n#> event open 1 $channel -> done\n#> ..\nopen 2 $chanel\n#> event open 2 $channel -> *\n' >input.txt
  $ ./lab test examples/two_cells.toml input.txt
  input.txt:4: $chanel stands for nothing: no comment before the line expects it; the nearest name is $channel
  1..1
  not ok 1 - input.txt
  # line 4 can't be read
  [2]

Behind `#!` a name has to stand for something: a comment before it expects it.

  $ printf 'open 1 0 0 3\n#! event open 1 $channel\n' >none.txt
  $ ./lab test examples/two_cells.toml none.txt 2>/dev/null
  1..1
  not ok 1 - none.txt
  # line 2
  # expected no line that begins with: event open 1 $channel
  # came: $channel stands for nothing: no comment before the line expects it
  [1]
  $ cat >absent.txt <<'END'
  > open 1 0 0 3
  > #> event open 1 $channel -> done
  > #> ..
  > clear 1
  > #! event confirm $chanel
  > #! event released $channel
  > END
  $ ./lab test examples/two_cells.toml absent.txt 2>errors
  1..1
  not ok 1 - absent.txt
  # line 5
  # expected no line that begins with: event confirm $chanel
  # came: $chanel stands for nothing: no comment before the line expects it; the nearest name is $channel
  [1]
  $ cat errors
  absent.txt:5: $chanel stands for nothing: no comment before the line expects it; the nearest name is $channel

What is expected with a name that stands nowhere else is met by anything. If that is nearly another name, it is misspelt. Else it is
said on standard error alone.

  $ cat >misspelt.txt <<'END'
  > sim
  > open 1 0 0 3
  > handover 1 1
  > #> ..
  > #> event take 1 internal $target -> done
  > #> ..
  > #> event confirm $tagret -> owned 1
  > #> ..
  > #= call 1 $target
  > END
  $ ./lab test examples/two_cells.toml misspelt.txt 2>errors
  1..1
  not ok 1 - misspelt.txt
  # line 7
  # expected: event confirm $tagret -> owned 1
  # came: $tagret stands nowhere else; the nearest name is $target
  [1]
  $ cat errors
  misspelt.txt:7: $tagret stands nowhere else; the nearest name is $target
  $ sed 's/tagret/target/; s/call 1 $target/call 1 $targt/' misspelt.txt >held.txt
  $ ./lab test examples/two_cells.toml held.txt 2>/dev/null
  1..1
  not ok 1 - held.txt
  # line 9
  # expected: call 1 $targt
  # came: $targt stands nowhere else; the nearest name is $target
  [1]
  $ sed 's/internal $target/internal $targex/; s/tagret/target/' misspelt.txt >defined.txt
  $ ./lab test examples/two_cells.toml defined.txt 2>/dev/null
  1..1
  not ok 1 - defined.txt
  # line 5
  # expected: event take 1 internal $targex -> done
  # came: $targex stands nowhere else; the nearest name is $target
  [1]
  $ printf 'open 1 0 0 3\n#> event open 1 $channel -> done\n#> ..\n' >lone.txt
  $ ./lab test examples/two_cells.toml lone.txt
  lone.txt:2: $channel stands nowhere else: * says the same
  1..1
  ok 1 - lone.txt

Names that differ in a number alone are two, and so are short ones.

  $ cat >numbers.txt <<'END'
  > open 1 0 0 3
  > #> event open 1 $channel1 -> done
  > #> ..
  > open 2 0 0 2
  > #> event open 2 $channel2 -> done
  > #> out abis $a $b CHANNEL ACTIVATION tn=2
  > END
  $ ./lab test examples/two_cells.toml numbers.txt 2>/dev/null
  1..1
  ok 1 - numbers.txt

Attempts are taken back in the same script.

  $ ./lab test examples/two_cells.toml named.txt --undo-everywhere | tail -n 1 | sed 's/[0-9][0-9]*/N/g'
  # same N, held N, not settled N, differ N
