What is printed of a site: its cells, and what is surely meant otherwise. Channels stand out of their order.

  $ cat >site.toml <<END
  > [handover]
  > window = 1
  > margin = 0
  > minimum = 0
  > [[cell]]
  > lac = 1
  > ci = 0
  > bcch = 60
  > ncc = 1
  > bcc = 1
  > power = 5
  > ba = []
  > trx = [{ arfcn = 60, tch = [] }, { arfcn = 61, tch = [5, 3] }, { arfcn = 62, tch = [6, 2] }]
  > END
  $ ./lab check site.toml
  cell 0 lac=1 ci=0 bcch=60 bsic=1/1 power=5 channels 0/1/5 0/1/3 0/2/6 0/2/2 neighbours -
  warning: cell 0 has no neighbours

Cells that share a carrier, one on carrier 0, and lists with the cell's own carrier. Behind a neighbour stand its position in
the list, where carrier 0 is last, and its code, eight times ncc and bcc. Cell 2 has cell 1 as a neighbour, but not the
other way round.

  $ cat >site.toml <<END
  > [handover]
  > window = 3
  > margin = 2
  > minimum = 8
  > [[cell]]
  > lac = 1
  > ci = 0
  > bcch = 10
  > ncc = 1
  > bcc = 2
  > power = 5
  > ba = [0, 30, 20, 10]
  > trx = [{ arfcn = 10, tch = [1] }]
  > [[cell]]
  > lac = 1
  > ci = 1
  > bcch = 20
  > ncc = 0
  > bcc = 0
  > power = 5
  > ba = [10]
  > trx = [{ arfcn = 20, tch = [1] }]
  > [[cell]]
  > lac = 1
  > ci = 2
  > bcch = 20
  > ncc = 7
  > bcc = 7
  > power = 5
  > ba = [20, 10]
  > trx = [{ arfcn = 20, tch = [1] }]
  > [[outside]]
  > lac = 2
  > ci = 0
  > bcch = 0
  > ncc = 3
  > bcc = 4
  > [[outside]]
  > lac = 2
  > ci = 1
  > bcch = 30
  > ncc = 0
  > bcc = 1
  > [[outside]]
  > lac = 2
  > ci = 2
  > bcch = 40
  > ncc = 0
  > bcc = 1
  > END
  $ ./lab check site.toml
  cell 0 lac=1 ci=0 bcch=10 bsic=1/2 power=5 channels 0/0/1 neighbours 1:1/0 2:1/63 64:3/28 65:2/1
  cell 1 lac=1 ci=1 bcch=20 bsic=0/0 power=5 channels 1/0/1 neighbours 0:0/10
  cell 2 lac=1 ci=2 bcch=20 bsic=7/7 power=5 channels 2/0/1 neighbours 0:0/10 1:1/0
  outside 64 lac=2 ci=0 bcch=0 bsic=3/4
  outside 65 lac=2 ci=1 bcch=30 bsic=0/1
  outside 66 lac=2 ci=2 bcch=40 bsic=0/1
  warning: cell 0: ba: no other cell has the carrier 10
  warning: cell 1 is a neighbour of cell 2, but cell 2 isn't one of cell 1

A site in which a text stands in the place of another, and what is warned of then.

  $ cat >site.toml <<END
  > [handover]
  > window = 2
  > margin = 3
  > minimum = 10
  > [[cell]]
  > lac = 23
  > ci = 100
  > bcch = 60
  > ncc = 1
  > bcc = 1
  > power = 5
  > ba = [62, 70, 871]
  > trx = [{ arfcn = 60, tch = [2, 3] }]
  > [[cell]]
  > lac = 23
  > ci = 101
  > bcch = 871
  > ncc = 2
  > bcc = 5
  > power = 5
  > ba = [60]
  > trx = [{ arfcn = 871, tch = [] }, { arfcn = 875, tch = [3] }]
  > [[outside]]
  > lac = 23
  > ci = 102
  > bcch = 62
  > ncc = 3
  > bcc = 0
  > END
  $ sed -z 's/\[62, 70, 871\]/[62, 871]/' site.toml >other.toml
  $ ./lab check other.toml | grep '^warning'
  [1]
  $ sed -z 's/\[62, 70, 871\]/[60, 871]/' site.toml >other.toml
  $ ./lab check other.toml | grep '^warning'
  warning: cell 0: ba: no other cell has the carrier 60
  $ sed -z 's/\[62, 70, 871\]/[60]/' site.toml >other.toml
  $ ./lab check other.toml | grep '^warning'
  warning: cell 0: ba: no other cell has the carrier 60
  warning: cell 0 has no neighbours
  warning: cell 0 is a neighbour of cell 1, but cell 1 isn't one of cell 0
  $ sed -z 's/\[62, 70, 871\]/[0, 1023]/' site.toml >other.toml
  $ ./lab check other.toml | grep '^warning'
  warning: cell 0: ba: no other cell has the carrier 0
  warning: cell 0: ba: no other cell has the carrier 1023
  warning: cell 0 has no neighbours
  warning: cell 0 is a neighbour of cell 1, but cell 1 isn't one of cell 0
  $ sed -z 's/ba = \[60\]/ba = []/' site.toml >other.toml
  $ ./lab check other.toml | grep '^warning'
  warning: cell 0: ba: no other cell has the carrier 70
  warning: cell 1 is a neighbour of cell 0, but cell 0 isn't one of cell 1
  warning: cell 1 has no neighbours
  $ sed -z 's/\[handover\]\n/colour = 1\n[handover]\nwindows = 2\n/' site.toml >other.toml
  $ ./lab check other.toml | grep '^warning'
  warning: unknown key "colour" is ignored
  warning: handover: unknown key "windows" is ignored
  warning: cell 0: ba: no other cell has the carrier 70
  $ sed -z 's/power = 5\nba = \[60\]/power = 5\nPower = 6\nba = [60]/' site.toml >other.toml
  $ ./lab check other.toml | grep '^warning'
  warning: cell 1: unknown key "Power" is ignored
  warning: cell 0: ba: no other cell has the carrier 70
  $ sed -z 's/{ arfcn = 875, /{ arfcn = 875, tsc = 5, /' site.toml >other.toml
  $ ./lab check other.toml | grep '^warning'
  warning: cell 1, trx 1: unknown key "tsc" is ignored
  warning: cell 0: ba: no other cell has the carrier 70
  $ sed -z 's/bcc = 0\n/bcc = 0\npower = 5\n"a\\nb" = 1\n/' site.toml >other.toml
  $ ./lab check other.toml | grep '^warning'
  warning: outside 0 (cell 64): unknown key "a\nb" is ignored
  warning: outside 0 (cell 64): unknown key "power" is ignored
  warning: cell 0: ba: no other cell has the carrier 70
