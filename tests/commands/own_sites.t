A script that names its own site (`#% site`) is tested, run and recorded without another. What comes is what comes over that
site; a path begins at the script's folder.

  $ mkdir town
  $ cp examples/half_rate.toml town/town.toml
  $ cp examples/one_cell.toml town/peer.toml
  $ cp examples/two_cells.toml town/own.toml
  $ printf '#%% site town.toml\nseize 1 0 half\n#> event open 1 0/0/3/0 -> done\n#> ..\n' >town/half.txt
  $ printf '#%% site own.toml\n#%% peer peer.toml\nsim\n2: seize 1 0 full\n#= 2: calls 1\n' >town/both.txt
  $ printf 'open 1 0 0 3\n#> ..\n#= calls 1\n' >town/none.txt
  $ ./lab test town/half.txt town/both.txt
  1..2
  ok 1 - town/half.txt
  ok 2 - town/both.txt
  $ ./lab run town/half.txt | head -n 2
  in seize 1 0 half
  event open 1 0/0/3/0 -> done
  $ ./lab run town/both.txt | head -n 1
  2: in seize 1 0 full
  $ ./lab run town/both.txt --words --state | tail -n 1
  2: state call 1 record 0/0/1 on
  $ ./lab record town/half.txt --words
  #% site town.toml
  seize 1 0 half
  #> event open 1 0/0/3/0 -> done
  #> out abis 0 0 CHANNEL ACTIVATION tn=3/0 activation=0 mode=00010901 reference=-
  #> end channels=1 calls=1 references=0 timers=0
  $ ./lab test town/half.txt --undo-everywhere 2>/dev/null
  1..0
  # same 0, held 0, not settled 0, differ 0

One that names a site alone is run beside the peer that is given.

  $ printf '#%% site own.toml\nsim\nopen 1 0 0 3\nhandover 1 64\n' >town/leaves.txt
  $ ./lab run town/leaves.txt --peer town/peer.toml | tail -n 2
  1: end channels=0 calls=0 references=0 timers=0
  2: end channels=1 calls=1 references=0 timers=0

Where the first word is a site, scripts that name none are tested over it.

  $ ./lab test examples/two_cells.toml town/half.txt town/none.txt
  1..2
  ok 1 - town/half.txt
  ok 2 - town/none.txt

A script that names none is refused without one, and those behind it are tested all the same.

  $ ./lab test town/none.txt town/half.txt 2>errors
  1..2
  not ok 1 - town/none.txt
  # the site can't be read
  ok 2 - town/half.txt
  [2]
  $ cat errors
  town/none.txt: no site is given, and the script names none (#% site PATH)
  $ ./lab test town/none.txt --undo-everywhere 2>/dev/null
  not ok 1 - town/none.txt
  # the site can't be read
  1..1
  # same 0, held 0, not settled 0, differ 0
  [2]
  $ ./lab run town/none.txt
  town/none.txt: no site is given, and the script names none (#% site PATH)
  [2]
  $ ./lab record town/none.txt
  town/none.txt: no site is given, and the script names none (#% site PATH)
  [2]
  $ ./lab run nothing.txt
  nothing.txt: no such file
  file nothing.txt
  [2]
  $ printf '#%% site own.toml\n#%% site own.toml\n' >town/twice.txt
  $ ./lab run town/twice.txt
  town/twice.txt:2: line 1 names one already: a script names at most one site and one peer
  [2]
  $ printf '#%% site nothing.toml\n' >town/lost.txt
  $ ./lab run town/lost.txt
  town/nothing.toml: no such file
  file town/nothing.toml
  [2]

A site alone is no script. Of two words the first is a site, whatever its name.

  $ for word in run test record; do ./lab $word town/own.toml; done
  error: a script was not provided: <SCRIPT>; Usage: bsc_lab run [OPTIONS] [SITE] <SCRIPT>
  error: a script was not provided: <SCRIPT>; Usage: bsc_lab test [OPTIONS] [SITE] <SCRIPT>
  error: a script was not provided: <SCRIPT>; Usage: bsc_lab record [OPTIONS] [SITE] <SCRIPT>
  [2]
  $ cp town/own.toml own
  $ ./lab run own town/none.txt | tail -n 1
  end channels=1 calls=1 references=0 timers=0
  $ ./lab record own town/none.txt | grep '^#> end'
  #> end channels=1 calls=1 references=0 timers=0
