A site of cells alike, each a neighbour of all others: `cells` prints it as a site file has it.

  $ ./lab cells 2 full | tee two.toml
  # Cells alike, each a neighbour of all others.
  
  [handover]
  window = 1
  margin = 3
  minimum = 10
  
  [[cell]]
  lac = 1
  ci = 0
  bcch = 1
  ncc = 0
  bcc = 0
  power = 5
  ba = [2]
  trx = [{ arfcn = 1, tch = [1, 2, 3, 4, 5, 6, 7] }]
  
  [[cell]]
  lac = 1
  ci = 1
  bcch = 2
  ncc = 0
  bcc = 0
  power = 5
  ba = [1]
  trx = [{ arfcn = 2, tch = [1, 2, 3, 4, 5, 6, 7] }]
  $ ./lab check two.toml
  cell 0 lac=1 ci=0 bcch=1 bsic=0/0 power=5 channels 0/0/1 0/0/2 0/0/3 0/0/4 0/0/5 0/0/6 0/0/7 neighbours 1:0/0
  cell 1 lac=1 ci=1 bcch=2 bsic=0/0 power=5 channels 1/0/1 1/0/2 1/0/3 1/0/4 1/0/5 1/0/6 1/0/7 neighbours 0:0/0
  $ ./lab cells 1 half >one.toml
  $ ./lab check one.toml | sed 's/ 0.0.2 .*0.0.7/ .. 0\/0\/7/'
  cell 0 lac=1 ci=0 bcch=1 bsic=0/0 power=5 channels 0/0/1 0/0/1/0 0/0/1/1 .. 0/0/7/1 neighbours -
  warning: cell 0 has no neighbours

However many cells there are, each has all others as its neighbours, and nothing is to be warned of. From cell 32 on the carriers come
again, with the next colour code.

  $ for count in 2 3 32 33 50 64; do
  >   ./lab cells $count full >site.toml
  >   ./lab check site.toml >said
  >   echo "$count: $(grep -c '^cell' said) $(grep -c '^warning' said) $(sed 's/.* neighbours //' said | awk '{print NF}' | uniq)"
  > done
  2: 2 0 1
  3: 3 0 2
  32: 32 0 31
  33: 33 0 32
  50: 50 0 49
  64: 64 0 63
  $ sed -n 's/^\(cell 32 .*\) channels.* neighbours \([^ ]* [^ ]*\) .* \([^ ]*\)$/\1 \2 \3/p' said
  cell 32 lac=1 ci=32 bcch=1 bsic=0/1 power=5 0:0/0 1:1/0 63:31/1

A script says by a line which of these it is run over, whatever site is given.

  $ cat >moves.txt <<'END'
  > #% cells 64 full
  > sim
  > seize 1 0 full
  > #> event open 1 0/0/1 -> done
  > #> ..
  > report 1 full=20 n=63:40
  > #= call 1 63/0/1
  > END
  $ ./lab test moves.txt
  1..1
  ok 1 - moves.txt
  $ ./lab test examples/two_cells.toml moves.txt
  1..1
  ok 1 - moves.txt
  $ ./lab test moves.txt --undo-everywhere | tail -n 1
  # same 3, held 0, not settled 0, differ 0
  $ ./lab run site.toml moves.txt >given.trace
  moves.txt:1: names the site of cells 64 full, but is run over site.toml
  $ ./lab run moves.txt | cmp - given.trace
  $ ./lab record moves.txt | grep '^#> end'
  #> end channels=1 calls=1 references=0 timers=0
  $ printf '#%% cells 2 half\nseize 1 0 half\n#> event open 1 0/0/1/0 -> done\n#> ..\n' >half.txt
  $ ./lab test half.txt
  1..1
  ok 1 - half.txt
  $ cp examples/one_cell.toml peer.toml
  $ printf '#%% cells 2 full\n#%% peer peer.toml\n2: seize 1 0 full\n#= 2: calls 1\n' >both.txt
  $ ./lab test both.txt
  1..1
  ok 1 - both.txt
  $ ./lab run both.txt | tail -n 1
  2: end channels=1 calls=1 references=0 timers=0

Where the line says no such site the script can't be read.

  $ for words in '0 full' '65 full' '256 full' '4' '4 FULL' 'full 4' '+4 full' '4 full '; do
  >   printf "#%% cells $words\nopen 1 0 0 1\n#> ..\n" >odd.txt
  >   ./lab test odd.txt 2>>errors | tail -n 1
  > done
  # line 1 can't be read
  # line 1 can't be read
  # line 1 can't be read
  # line 1 can't be read
  # line 1 can't be read
  # line 1 can't be read
  # line 1 can't be read
  # line 1 can't be read
  $ uniq errors
  odd.txt:1: behind "#% cells" stand a number from 1 to 64, and full or half
  $ ./lab run odd.txt
  odd.txt:1: behind "#% cells" stand a number from 1 to 64, and full or half
  [2]
  $ printf '#%% cells 2 full\n#%% site town.toml\nopen 1 0 0 1\n' >twice.txt
  $ ./lab run twice.txt
  twice.txt:2: line 1 names one already: a script names at most one site and one peer
  [2]

A line that looks like one isn't passed over.

  $ printf '#%%cells 2 full\nopen 1 0 0 3\n#= calls 1\n' >slip.txt
  $ ./lab test examples/two_cells.toml slip.txt 2>errors
  1..1
  not ok 1 - slip.txt
  # line 1 looks like an expectation, but isn't one
  [1]
  $ cat errors
  slip.txt:1: this looks like the name of a site, but isn't one: write "#% site PATH", "#% peer PATH" or "#% cells N full"

Other words of `cells` are refused.

  $ ./lab cells 65 full
  error: *'65'*'<N>'*; N is a number from 1 to 64* (glob)
  [2]
  $ ./lab cells 4 quarter
  error: *'quarter'*full, half* (glob)
  [2]
  $ ./lab cells 4 2>/dev/null
  [2]
