The cells of a site, and warnings of what is surely meant otherwise.

  $ sed 's/ *#.*//; /^$/d' examples/two_cells.toml >site.toml
  $ ./lab check site.toml
  cell 0 lac=23 ci=100 bcch=60 bsic=1/1 power=5 channels 0/0/2 0/0/3 neighbours 1:2/21 64:0/24
  cell 1 lac=23 ci=101 bcch=871 bsic=2/5 power=5 channels 1/1/3 neighbours 0:0/9
  outside 64 lac=23 ci=102 bcch=62 bsic=3/0
  warning: cell 0: ba: no other cell has the carrier 70

A site is refused as by run; here a text of the site stands in another's place.

  $ sed -z 's/ncc = 2\n//' site.toml >refused.toml
  $ ./lab check refused.toml 2>errors
  site 2 ncc
  [2]
  $ cat errors
  refused.toml: cell 1: ncc is missing: it has to be a colour code from 0 to 7
  $ sed -z 's/\[handover]/[handover/' site.toml >refused.toml
  $ ./lab check refused.toml 2>errors
  site 1
  [2]
  $ cat errors
  refused\.toml:[0-9]+:[0-9]+: .* (re)
  $ sed -z 's/ci = 101/ci = 100/' site.toml >refused.toml
  $ ./lab check refused.toml 2>errors
  site 4 identity
  [2]
  $ cat errors
  refused.toml: cell 0 and cell 1 have the same lac and ci, but no two cells may
  $ ./lab check / 2>errors
  file /
  [2]
  $ cat errors
  /: is a folder
  $ ./lab check /dev/null 2>errors
  site 2 handover
  [2]
  $ cat errors
  /dev/null: handover is missing: it has to be a table
  $ ./lab check 'no site' 2>errors
  file no site
  [2]
  $ cat errors
  no site: no such file

A site may have, too: limits, other ways to write the same, tables and keys that nobody knows, a byte order mark, and one
cell identity in another location area.

  $ while read -r change; do
  >   sed -z "$change" site.toml >changed.toml
  >   cmp -s site.toml changed.toml && echo "nothing is changed by $change"
  >   ./lab check changed.toml >printed || cat printed
  > done <<'END'
  > s/window = 2/window = 32/
  > s/window = 2/window = 0x2/
  > s/ba = \[62, 70, 871]/ba = []/
  > s/tch = \[3]/tch = [0, 1, 2, 3, 4, 5, 6, 7]/
  > s/\[\[outside]]/[[unknown]]/
  > s/\[handover]/other = 1\n[handover]\nother = []/
  > s/\[handover]/\xef\xbb\xbf[handover]/
  > s/lac = 23\nci = 102/lac = 24\nci = 100/
  > END

Carrier 0 is the last of a neighbour list, wherever it stands. Then there is an outside cell on it, before the other.

  $ sed -z 's/ba = \[62, 70, 871]/ba = [0, 871, 62]/' site.toml >other.toml
  $ ./lab check other.toml
  cell 0 lac=23 ci=100 bcch=60 bsic=1/1 power=5 channels 0/0/2 0/0/3 neighbours 1:1/21 64:0/24
  cell 1 lac=23 ci=101 bcch=871 bsic=2/5 power=5 channels 1/1/3 neighbours 0:0/9
  outside 64 lac=23 ci=102 bcch=62 bsic=3/0
  warning: cell 0: ba: no other cell has the carrier 0
  $ sed -i -z 's/\[\[outside]]/[[outside]]\nlac = 23\nci = 103\nbcch = 0\nncc = 0\nbcc = 7\n&/' other.toml
  $ ./lab check other.toml
  cell 0 lac=23 ci=100 bcch=60 bsic=1/1 power=5 channels 0/0/2 0/0/3 neighbours 1:1/21 64:2/7 65:0/24
  cell 1 lac=23 ci=101 bcch=871 bsic=2/5 power=5 channels 1/1/3 neighbours 0:0/9
  outside 64 lac=23 ci=103 bcch=0 bsic=0/7
  outside 65 lac=23 ci=102 bcch=62 bsic=3/0

At most 64 own and 64 outside cells.

  $ many() {
  >   sed -n '1,/^minimum/p' site.toml
  >   for n in $(seq "$1"); do printf '[[cell]]\nlac = 1\nci = %d\nbcch = %d\nncc = 0\nbcc = 0\npower = 0\nba = []\ntrx = [{ arfcn = %d, tch = [1, 2, 3, 4, 5, 6, 7] }]\n' "$n" "$n" "$n"; done
  >   for n in $(seq "$2"); do printf '[[outside]]\nlac = 2\nci = %d\nbcch = %d\nncc = 1\nbcc = 0\n' "$n" "$n"; done
  > }
  $ many 64 64 >other.toml
  $ ./lab check other.toml | sed 's/ .*//' | sort | uniq -c | sed 's/^ *//'
  64 cell
  64 outside
  64 warning:
  $ many 65 0 >other.toml
  $ ./lab check other.toml 2>errors
  site 3 cell
  [2]
  $ cat errors
  other.toml: cell: it has 65 entries, but has to be an array of 1 to 64 tables
  $ many 64 65 >other.toml
  $ ./lab check other.toml 2>errors
  site 3 outside
  [2]
  $ cat errors
  other.toml: outside: it has 65 entries, but has to be an array of 0 to 64 tables

Arrays that stand one in another, at most 80; and a file of 1 MiB.

  $ nested() { printf 'unused = '; printf '[%.0s' $(seq "$1"); printf ']%.0s' $(seq "$1"); echo; cat site.toml; }
  $ nested 80 >other.toml
  $ ./lab check other.toml | grep -c '^cell'
  2
  $ nested 81 >other.toml
  $ ./lab check other.toml 2>/dev/null
  site 1
  [2]
  $ nested 1000 >other.toml
  $ ./lab check other.toml 2>/dev/null
  site 1
  [2]
  $ { yes '# 456789012345678901234567890123456789012345678901234567890123' | head -n 16384; cat site.toml; } >other.toml
  $ ./lab check other.toml | grep -c '^cell'
  2

With a peer: an outside cell that the peer lacks, or that has another carrier or other colour codes there. Cells of the peer that
are outside cells there, too, aren't the peer's.

  $ ./lab check site.toml --peer examples/one_cell.toml | grep outside
  outside 64 lac=23 ci=102 bcch=62 bsic=3/0
  $ for change in 's/bcch = 62/bcch = 63/' 's/ncc = 3/ncc = 4/' 's/ci = 102/ci = 103/'; do
  >   sed "$change" site.toml >changed.toml
  >   ./lab check changed.toml --peer examples/one_cell.toml | grep 'warning: outside'
  > done
  warning: outside 64: bcch: 63, but the peer's cell 0 has 62
  warning: outside 64: bsic: 4/0, but the peer's cell 0 has 3/0
  warning: outside 64: no cell of the peer has lac=23 ci=103
  $ sed 's/arfcn = 62/arfcn = 63/; s/bcch = 62/bcch = 63/; s/bcc = 0/bcc = 7/' examples/one_cell.toml >peer.toml
  $ ./lab check site.toml --peer peer.toml | grep 'warning: outside'
  warning: outside 64: bcch: 62, but the peer's cell 0 has 63
  warning: outside 64: bsic: 3/0, but the peer's cell 0 has 3/7
  $ ./lab check site.toml --peer site.toml | grep 'warning: outside'
  warning: outside 64: no cell of the peer has lac=23 ci=102

Where the peer is refused nothing is printed of the site.

  $ ./lab check site.toml --peer nothing.toml 2>/dev/null
  file nothing.toml
  [2]
  $ ./lab check site.toml --peer refused.toml 2>errors
  site 4 identity
  [2]
  $ cat errors
  refused.toml: cell 0 and cell 1 have the same lac and ci, but no two cells may
