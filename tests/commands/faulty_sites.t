Each site in which a text stands in another's place is refused as standard output says, and one line on standard error
names the same key, kind or cell.

  $ sed 's/ *#.*//; /^$/d' examples/two_cells.toml >site.toml

What isn't TOML, and what is wrong with the keys of a handover.

  $ sed -z 's/window = 2/window = /' site.toml >faulty.toml
  $ ./lab run faulty.toml /dev/null 2>errors
  site 1
  [2]
  $ cat errors
  faulty\.toml:[0-9]+:[0-9]+: .* (re)
  $ sed -z 's/window = 2/window = 2\nwindow = 2/' site.toml >faulty.toml
  $ ./lab run faulty.toml /dev/null 2>errors
  site 1
  [2]
  $ cat errors
  faulty\.toml:[0-9]+:[0-9]+: .* (re)
  $ sed -z 's/window = 2/window = 9223372036854775808/' site.toml >faulty.toml
  $ ./lab run faulty.toml /dev/null 2>errors
  site 1
  [2]
  $ cat errors
  faulty\.toml:[0-9]+:[0-9]+: .* (re)
  $ sed -z 's/\[handover]/[handover/' site.toml >faulty.toml
  $ ./lab run faulty.toml /dev/null 2>errors
  site 1
  [2]
  $ cat errors
  faulty\.toml:[0-9]+:[0-9]+: .* (re)
  $ sed -z 's/\[handover]/handover = 1\n[other]/' site.toml >faulty.toml
  $ ./lab run faulty.toml /dev/null 2>errors
  site 3 handover
  [2]
  $ cat errors
  faulty.toml:* handover: * (glob)
  $ sed -z 's/window = 2/window = 0/' site.toml >faulty.toml
  $ ./lab run faulty.toml /dev/null 2>errors
  site 3 window
  [2]
  $ cat errors
  faulty.toml:* window: * (glob)
  $ sed -z 's/window = 2/window = -1/' site.toml >faulty.toml
  $ ./lab run faulty.toml /dev/null 2>errors
  site 3 window
  [2]
  $ cat errors
  faulty.toml:* window: * (glob)
  $ sed -z 's/window = 2/window = true/' site.toml >faulty.toml
  $ ./lab run faulty.toml /dev/null 2>errors
  site 3 window
  [2]
  $ cat errors
  faulty.toml:* window: * (glob)
  $ sed -z 's/window = 2/window = "2"/' site.toml >faulty.toml
  $ ./lab run faulty.toml /dev/null 2>errors
  site 3 window
  [2]
  $ cat errors
  faulty.toml:* window: * (glob)
  $ sed -z 's/margin = 3\n//' site.toml >faulty.toml
  $ ./lab run faulty.toml /dev/null 2>errors
  site 2 margin
  [2]
  $ cat errors
  faulty.toml:* margin is missing: it has to be * (glob)
  $ sed -z 's/minimum = 10\n//' site.toml >faulty.toml
  $ ./lab run faulty.toml /dev/null 2>errors
  site 2 minimum
  [2]
  $ cat errors
  faulty.toml:* minimum is missing: it has to be * (glob)
  $ sed -z 's/minimum = 10/minimum = 64/' site.toml >faulty.toml
  $ ./lab run faulty.toml /dev/null 2>errors
  site 3 minimum
  [2]
  $ cat errors
  faulty.toml:* minimum: * (glob)
  $ sed -z 's/minimum = 10/minimum = 1979-05-27/' site.toml >faulty.toml
  $ ./lab run faulty.toml /dev/null 2>errors
  site 3 minimum
  [2]
  $ cat errors
  faulty.toml:* minimum: * (glob)

What is wrong with the keys of a cell, its BA list among them.

  $ sed -z 's/lac = 23\n//' site.toml >faulty.toml
  $ ./lab run faulty.toml /dev/null 2>errors
  site 2 lac
  [2]
  $ cat errors
  faulty.toml:* lac is missing: it has to be * (glob)
  $ sed -z 's/lac = 23/lac = 65536/' site.toml >faulty.toml
  $ ./lab run faulty.toml /dev/null 2>errors
  site 3 lac
  [2]
  $ cat errors
  faulty.toml:* lac: * (glob)
  $ sed -z 's/ci = 100\n//' site.toml >faulty.toml
  $ ./lab run faulty.toml /dev/null 2>errors
  site 2 ci
  [2]
  $ cat errors
  faulty.toml:* ci is missing: it has to be * (glob)
  $ sed -z 's/ci = 100/ci = 65536/' site.toml >faulty.toml
  $ ./lab run faulty.toml /dev/null 2>errors
  site 3 ci
  [2]
  $ cat errors
  faulty.toml:* ci: * (glob)
  $ sed -z 's/bcch = 60\n//' site.toml >faulty.toml
  $ ./lab run faulty.toml /dev/null 2>errors
  site 2 bcch
  [2]
  $ cat errors
  faulty.toml:* bcch is missing: it has to be * (glob)
  $ sed -z 's/bcch = 60/bcch = 1024/' site.toml >faulty.toml
  $ ./lab run faulty.toml /dev/null 2>errors
  site 3 bcch
  [2]
  $ cat errors
  faulty.toml:* bcch: * (glob)
  $ sed -z 's/ncc = 1\n//' site.toml >faulty.toml
  $ ./lab run faulty.toml /dev/null 2>errors
  site 2 ncc
  [2]
  $ cat errors
  faulty.toml:* ncc is missing: it has to be * (glob)
  $ sed -z 's/ncc = 1/ncc = 8/' site.toml >faulty.toml
  $ ./lab run faulty.toml /dev/null 2>errors
  site 3 ncc
  [2]
  $ cat errors
  faulty.toml:* ncc: * (glob)
  $ sed -z 's/bcc = 1\n//' site.toml >faulty.toml
  $ ./lab run faulty.toml /dev/null 2>errors
  site 2 bcc
  [2]
  $ cat errors
  faulty.toml:* bcc is missing: it has to be * (glob)
  $ sed -z 's/bcc = 1/bcc = 8/' site.toml >faulty.toml
  $ ./lab run faulty.toml /dev/null 2>errors
  site 3 bcc
  [2]
  $ cat errors
  faulty.toml:* bcc: * (glob)
  $ sed -z 's/power = 5/power = 32/' site.toml >faulty.toml
  $ ./lab run faulty.toml /dev/null 2>errors
  site 3 power
  [2]
  $ cat errors
  faulty.toml:* power: * (glob)
  $ sed -z 's/ba = \[62, 70, 871]\n//' site.toml >faulty.toml
  $ ./lab run faulty.toml /dev/null 2>errors
  site 2 ba
  [2]
  $ cat errors
  faulty.toml:* ba is missing: it has to be * (glob)
  $ sed -z 's/ba = \[62, 70, 871]/ba = 3/' site.toml >faulty.toml
  $ ./lab run faulty.toml /dev/null 2>errors
  site 3 ba
  [2]
  $ cat errors
  faulty.toml:* ba: * (glob)
  $ sed -z 's/ba = \[62, 70, 871]/ba = ["x"]/' site.toml >faulty.toml
  $ ./lab run faulty.toml /dev/null 2>errors
  site 3 ba
  [2]
  $ cat errors
  faulty.toml:* ba: * (glob)
  $ sed -z 's/ba = \[62, 70, 871]/ba = [1024]/' site.toml >faulty.toml
  $ ./lab run faulty.toml /dev/null 2>errors
  site 3 ba
  [2]
  $ cat errors
  faulty.toml:* ba: * (glob)
  $ sed -z 's/ba = \[62, 70, 871]/ba = [0, 0, 0, 0, 0, 0, 0, 0, 0, 0, 0, 0, 0, 0, 0, 0, 0, 0, 0, 0, 0, 0, 0, 0, 0, 0, 0, 0, 0, 0, 0, 0, 0]/' site.toml >faulty.toml
  $ ./lab run faulty.toml /dev/null 2>errors
  site 3 ba
  [2]
  $ cat errors
  faulty.toml:* ba: * (glob)

What is wrong with a TRX.

  $ sed -z 's/trx = \[{ arfcn = 60, tch = \[2, 3] }]/trx = 1/' site.toml >faulty.toml
  $ ./lab run faulty.toml /dev/null 2>errors
  site 3 trx
  [2]
  $ cat errors
  faulty.toml:* trx: * (glob)
  $ sed -z 's/trx = \[{ arfcn = 60, tch = \[2, 3] }]/trx = []/' site.toml >faulty.toml
  $ ./lab run faulty.toml /dev/null 2>errors
  site 3 trx
  [2]
  $ cat errors
  faulty.toml:* trx: * (glob)
  $ sed -z 's/\[{ arfcn = 60, tch = \[2, 3] }]/{ arfcn = 60, tch = [2, 3] }/' site.toml >faulty.toml
  $ ./lab run faulty.toml /dev/null 2>errors
  site 3 trx
  [2]
  $ cat errors
  faulty.toml:* trx: * (glob)
  $ sed -z 's/\[{ arfcn = 60, tch = \[2, 3] }]/[{ arfcn = 61, tch = [8] }, 3]/' site.toml >faulty.toml
  $ ./lab run faulty.toml /dev/null 2>errors
  site 3 trx
  [2]
  $ cat errors
  faulty.toml:* trx: * (glob)
  $ sed -z 's/{ arfcn = 60, tch = \[2, 3] }/{}, {}, {}, {}, {}/' site.toml >faulty.toml
  $ ./lab run faulty.toml /dev/null 2>errors
  site 3 trx
  [2]
  $ cat errors
  faulty.toml:* trx: * (glob)
  $ sed -z 's/arfcn = 60, //' site.toml >faulty.toml
  $ ./lab run faulty.toml /dev/null 2>errors
  site 2 arfcn
  [2]
  $ cat errors
  faulty.toml:* arfcn is missing: it has to be * (glob)
  $ sed -z 's/arfcn = 60, /arfcn = 61, /' site.toml >faulty.toml
  $ ./lab run faulty.toml /dev/null 2>errors
  site 3 arfcn
  [2]
  $ cat errors
  faulty.toml:* arfcn: * (glob)
  $ sed -z 's/arfcn = 875/arfcn = 1024/' site.toml >faulty.toml
  $ ./lab run faulty.toml /dev/null 2>errors
  site 3 arfcn
  [2]
  $ cat errors
  faulty.toml:* arfcn: * (glob)
  $ sed -z 's/arfcn = 875, //' site.toml >faulty.toml
  $ ./lab run faulty.toml /dev/null 2>errors
  site 2 arfcn
  [2]
  $ cat errors
  faulty.toml:* arfcn is missing: it has to be * (glob)
  $ sed -z 's/tch = \[2, 3]/tch = "x"/' site.toml >faulty.toml
  $ ./lab run faulty.toml /dev/null 2>errors
  site 3 tch
  [2]
  $ cat errors
  faulty.toml:* tch: * (glob)
  $ sed -z 's/tch = \[2, 3]/tch = ["x"]/' site.toml >faulty.toml
  $ ./lab run faulty.toml /dev/null 2>errors
  site 3 tch
  [2]
  $ cat errors
  faulty.toml:* tch: * (glob)
  $ sed -z 's/tch = \[2, 3]/tch = [2, 8]/' site.toml >faulty.toml
  $ ./lab run faulty.toml /dev/null 2>errors
  site 3 tch
  [2]
  $ cat errors
  faulty.toml:* tch: * (glob)
  $ sed -z 's/tch = \[2, 3]/tch = [-1]/' site.toml >faulty.toml
  $ ./lab run faulty.toml /dev/null 2>errors
  site 3 tch
  [2]
  $ cat errors
  faulty.toml:* tch: * (glob)
  $ sed -z 's/tch = \[2, 3]/tch = [1, 2, 3, 4, 5, 6, 7, 7, 7, 8]/' site.toml >faulty.toml
  $ ./lab run faulty.toml /dev/null 2>errors
  site 3 tch
  [2]
  $ cat errors
  faulty.toml:* tch: * (glob)
  $ sed -z 's/tch = \[3]/tch = [8]/' site.toml >faulty.toml
  $ ./lab run faulty.toml /dev/null 2>errors
  site 3 tch
  [2]
  $ cat errors
  faulty.toml:* tch: * (glob)

What is wrong with the cells of others, and what stands twice.

  $ sed -z 's/\[\[outside]]\nlac = 23\n/[[outside]]\n/' site.toml >faulty.toml
  $ ./lab run faulty.toml /dev/null 2>errors
  site 2 lac
  [2]
  $ cat errors
  faulty.toml:* lac is missing: it has to be * (glob)
  $ sed -z 's/ci = 102/ci = -1/' site.toml >faulty.toml
  $ ./lab run faulty.toml /dev/null 2>errors
  site 3 ci
  [2]
  $ cat errors
  faulty.toml:* ci: * (glob)
  $ sed -z 's/bcch = 62/bcch = 1024/' site.toml >faulty.toml
  $ ./lab run faulty.toml /dev/null 2>errors
  site 3 bcch
  [2]
  $ cat errors
  faulty.toml:* bcch: * (glob)
  $ sed -z 's/ncc = 3\n//' site.toml >faulty.toml
  $ ./lab run faulty.toml /dev/null 2>errors
  site 2 ncc
  [2]
  $ cat errors
  faulty.toml:* ncc is missing: it has to be * (glob)
  $ sed -z 's/bcc = 0/bcc = 8/' site.toml >faulty.toml
  $ ./lab run faulty.toml /dev/null 2>errors
  site 3 bcc
  [2]
  $ cat errors
  faulty.toml:* bcc: * (glob)
  $ sed -z 's/ci = 101/ci = 100/' site.toml >faulty.toml
  $ ./lab run faulty.toml /dev/null 2>errors
  site 4 identity
  [2]
  $ cat errors
  faulty.toml: * have the same lac and ci* (glob)
  $ sed -z 's/ci = 102/ci = 100/' site.toml >faulty.toml
  $ ./lab run faulty.toml /dev/null 2>errors
  site 4 identity
  [2]
  $ cat errors
  faulty.toml: * have the same lac and ci* (glob)
  $ sed -z 's/tch = \[2, 3]/tch = [1, 2, 3, 4, 5, 6, 7, 7, 1]/' site.toml >faulty.toml
  $ ./lab run faulty.toml /dev/null 2>errors
  site 4 slot
  [2]
  $ cat errors
  faulty.toml: *: tch: * (glob)
  $ sed -z 's/tch = \[2, 3]/tch = [1, 2, 3, 4, 5, 6, 7, 2]/' site.toml >faulty.toml
  $ ./lab run faulty.toml /dev/null 2>errors
  site 4 slot
  [2]
  $ cat errors
  faulty.toml: *: tch: * (glob)

Cells that can't carry a call; the first of several checks that fail; numbers past each limit.

  $ sed -z 's/tch = \[2, 3]/tch = []/' site.toml >faulty.toml
  $ ./lab run faulty.toml /dev/null 2>errors
  site 5 0
  [2]
  $ cat errors
  faulty.toml:* cell 0: no trx has a timeslot in tch* (glob)
  $ sed -z 's/window = 2\nmargin = 3\nminimum = 10/minimum = 64/' site.toml >faulty.toml
  $ ./lab run faulty.toml /dev/null 2>errors
  site 2 window
  [2]
  $ cat errors
  faulty.toml:* window is missing: it has to be * (glob)
  $ sed -z 's/margin = 3\nminimum = 10/margin = 64/' site.toml >faulty.toml
  $ ./lab run faulty.toml /dev/null 2>errors
  site 3 margin
  [2]
  $ cat errors
  faulty.toml:* margin: * (glob)
  $ sed -z 's/lac = 23\nci = 100/ci = 65536/' site.toml >faulty.toml
  $ ./lab run faulty.toml /dev/null 2>errors
  site 2 lac
  [2]
  $ cat errors
  faulty.toml:* lac is missing: it has to be * (glob)
  $ sed -z 's/arfcn = 60, tch = \[2, 3]/arfcn = 61, tch = [8]/' site.toml >faulty.toml
  $ ./lab run faulty.toml /dev/null 2>errors
  site 3 arfcn
  [2]
  $ cat errors
  faulty.toml:* arfcn: * (glob)
  $ sed -z 's/arfcn = 875, tch = \[3] }]/arfcn = 871, tch = [3, 3] }]\n[[outside]]/' site.toml >faulty.toml
  $ ./lab run faulty.toml /dev/null 2>errors
  site 2 lac
  [2]
  $ cat errors
  faulty.toml:* lac is missing: it has to be * (glob)
  $ sed -z 's/tch = \[3] }]\n\[\[outside]]\nlac = 23\nci = 102\nbcch = 62\nncc = 3\nbcc = 0/tch = [3, 3] }]\n[[outside]]\nlac = 23\nci = 101\nbcch = 871\nncc = 2\nbcc = 5/' site.toml >faulty.toml
  $ ./lab run faulty.toml /dev/null 2>errors
  site 4 identity
  [2]
  $ cat errors
  faulty.toml: * have the same lac and ci* (glob)
  $ sed -z 's/tch = \[3] }]\n\[\[outside]]\nlac = 23\nci = 102\nbcch = 62\nncc = 3\nbcc = 0/tch = [3, 3] }]\n[[outside]]\nlac = 23\nci = 102\nbcch = 871\nncc = 2\nbcc = 5/' site.toml >faulty.toml
  $ ./lab run faulty.toml /dev/null 2>errors
  site 4 colour
  [2]
  $ cat errors
  faulty.toml: * have the same bcch, ncc and bcc* (glob)
  $ sed -z 's/ba = \[60]\ntrx = \[{ arfcn = 871, tch = \[] }, { arfcn = 875, tch = \[3] }]/ba = [60, 60]\ntrx = [{ arfcn = 871, tch = [3, 3] }, { arfcn = 871, tch = [3] }]/' site.toml >faulty.toml
  $ ./lab run faulty.toml /dev/null 2>errors
  site 4 carrier
  [2]
  $ cat errors
  faulty.toml: *: two trx have arfcn * (glob)
  $ sed -z 's/ba = \[60]\ntrx = \[{ arfcn = 871, tch = \[] }, { arfcn = 875, tch = \[3] }]/ba = [60, 60]\ntrx = [{ arfcn = 871, tch = [3, 3] }, { arfcn = 875, tch = [3] }]/' site.toml >faulty.toml
  $ ./lab run faulty.toml /dev/null 2>errors
  site 4 slot
  [2]
  $ cat errors
  faulty.toml: *: tch: * (glob)
  $ sed -z 's/ba = \[60]\ntrx = \[{ arfcn = 871, tch = \[] }, { arfcn = 875, tch = \[3] }]/ba = [60, 60]\ntrx = [{ arfcn = 871, tch = [] }]/' site.toml >faulty.toml
  $ ./lab run faulty.toml /dev/null 2>errors
  site 4 neighbour
  [2]
  $ cat errors
  faulty.toml: *: ba: * (glob)
  $ sed -z 's/ci = 100\nbcch = 60/bcch = 1024/' site.toml >faulty.toml
  $ ./lab run faulty.toml /dev/null 2>errors
  site 2 ci
  [2]
  $ cat errors
  faulty.toml:* ci is missing: it has to be * (glob)
  $ sed -z 's/bcch = 60\nncc = 1/ncc = 8/' site.toml >faulty.toml
  $ ./lab run faulty.toml /dev/null 2>errors
  site 2 bcch
  [2]
  $ cat errors
  faulty.toml:* bcch is missing: it has to be * (glob)
  $ sed -z 's/ncc = 1\nbcc = 1/bcc = 8/' site.toml >faulty.toml
  $ ./lab run faulty.toml /dev/null 2>errors
  site 2 ncc
  [2]
  $ cat errors
  faulty.toml:* ncc is missing: it has to be * (glob)
  $ sed -z 's/bcc = 1\npower = 5/power = 32/' site.toml >faulty.toml
  $ ./lab run faulty.toml /dev/null 2>errors
  site 2 bcc
  [2]
  $ cat errors
  faulty.toml:* bcc is missing: it has to be * (glob)
  $ sed -z 's/power = 5\nba = \[62, 70, 871]/ba = 3/' site.toml >faulty.toml
  $ ./lab run faulty.toml /dev/null 2>errors
  site 2 power
  [2]
  $ cat errors
  faulty.toml:* power is missing: it has to be * (glob)
  $ sed -z 's/ba = \[62, 70, 871]\ntrx = \[{ arfcn = 60, tch = \[2, 3] }]/trx = 1/' site.toml >faulty.toml
  $ ./lab run faulty.toml /dev/null 2>errors
  site 2 ba
  [2]
  $ cat errors
  faulty.toml:* ba is missing: it has to be * (glob)
  $ sed -z 's/tch = \[2, 3] }]\n\[\[cell]]\nlac = 23/tch = [8] }]\n[[cell]]/' site.toml >faulty.toml
  $ ./lab run faulty.toml /dev/null 2>errors
  site 3 tch
  [2]
  $ cat errors
  faulty.toml:* tch: * (glob)
  $ sed -z 's/tch = \[] }, { arfcn = 875, /tch = [8] }, { /' site.toml >faulty.toml
  $ ./lab run faulty.toml /dev/null 2>errors
  site 3 tch
  [2]
  $ cat errors
  faulty.toml:* tch: * (glob)
  $ sed -z 's/tch = \[3] }]\n\[\[outside]]\nlac = 23/tch = [8] }]\n[[outside]]/' site.toml >faulty.toml
  $ ./lab run faulty.toml /dev/null 2>errors
  site 3 tch
  [2]
  $ cat errors
  faulty.toml:* tch: * (glob)
  $ sed -z 's/tch = \[2, 3] }]\n\[\[cell]]\nlac = 23\nci = 101\nbcch = 871\nncc = 2\nbcc = 5\npower = 5\nba = \[60]\ntrx = \[{ arfcn = 871, tch = \[] }, { arfcn = 875/tch = [3, 3] }]\n[[cell]]\nlac = 23\nci = 101\nbcch = 871\nncc = 2\nbcc = 5\npower = 5\nba = [60]\ntrx = [{ arfcn = 871, tch = [] }, { arfcn = 871/' site.toml >faulty.toml
  $ ./lab run faulty.toml /dev/null 2>errors
  site 4 carrier
  [2]
  $ cat errors
  faulty.toml: *: two trx have arfcn * (glob)
  $ sed -z 's/ba = \[62, 70, 871]\ntrx = \[{ arfcn = 60, tch = \[2, 3] }]\n\[\[cell]]\nlac = 23\nci = 101\nbcch = 871\nncc = 2\nbcc = 5\npower = 5\nba = \[60]\ntrx = \[{ arfcn = 871, tch = \[] }, { arfcn = 875, tch = \[3] }]/ba = [62, 62]\ntrx = [{ arfcn = 60, tch = [2, 3] }]\n[[cell]]\nlac = 23\nci = 101\nbcch = 871\nncc = 2\nbcc = 5\npower = 5\nba = [60]\ntrx = [{ arfcn = 871, tch = [] }, { arfcn = 875, tch = [3, 3] }]/' site.toml >faulty.toml
  $ ./lab run faulty.toml /dev/null 2>errors
  site 4 slot
  [2]
  $ cat errors
  faulty.toml: *: tch: * (glob)
  $ sed -z 's/ncc = 3\nbcc = 0\n/ncc = 3\nbcc = 0\n[[outside]]\nlac = 23\nci = 102\nbcch = 63\nncc = 3\nbcc = 0\n/' site.toml >faulty.toml
  $ ./lab run faulty.toml /dev/null 2>errors
  site 4 identity
  [2]
  $ cat errors
  faulty.toml: * have the same lac and ci* (glob)
  $ sed -z 's/ncc = 3\nbcc = 0\n/ncc = 3\nbcc = 0\n[[outside]]\nlac = 23\nci = 103\nbcch = 62\nncc = 3\nbcc = 0\n/' site.toml >faulty.toml
  $ ./lab run faulty.toml /dev/null 2>errors
  site 4 colour
  [2]
  $ cat errors
  faulty.toml: * have the same bcch, ncc and bcc* (glob)
  $ sed -z 's/margin = 3/margin = -1/' site.toml >faulty.toml
  $ ./lab run faulty.toml /dev/null 2>errors
  site 3 margin
  [2]
  $ cat errors
  faulty.toml:* margin: * (glob)
  $ sed -z 's/minimum = 10/minimum = -1/' site.toml >faulty.toml
  $ ./lab run faulty.toml /dev/null 2>errors
  site 3 minimum
  [2]
  $ cat errors
  faulty.toml:* minimum: * (glob)
  $ sed -z 's/lac = 23/lac = -1/' site.toml >faulty.toml
  $ ./lab run faulty.toml /dev/null 2>errors
  site 3 lac
  [2]
  $ cat errors
  faulty.toml:* lac: * (glob)
  $ sed -z 's/bcch = 60/bcch = -1/' site.toml >faulty.toml
  $ ./lab run faulty.toml /dev/null 2>errors
  site 3 bcch
  [2]
  $ cat errors
  faulty.toml:* bcch: * (glob)
  $ sed -z 's/ncc = 1/ncc = -1/' site.toml >faulty.toml
  $ ./lab run faulty.toml /dev/null 2>errors
  site 3 ncc
  [2]
  $ cat errors
  faulty.toml:* ncc: * (glob)
  $ sed -z 's/bcc = 1/bcc = -1/' site.toml >faulty.toml
  $ ./lab run faulty.toml /dev/null 2>errors
  site 3 bcc
  [2]
  $ cat errors
  faulty.toml:* bcc: * (glob)
  $ sed -z 's/power = 5/power = -1/' site.toml >faulty.toml
  $ ./lab run faulty.toml /dev/null 2>errors
  site 3 power
  [2]
  $ cat errors
  faulty.toml:* power: * (glob)
  $ sed -z 's/arfcn = 875/arfcn = -1/' site.toml >faulty.toml
  $ ./lab run faulty.toml /dev/null 2>errors
  site 3 arfcn
  [2]
  $ cat errors
  faulty.toml:* arfcn: * (glob)
  $ sed -z 's/ba = \[62, 70, 871]/ba = [-1]/' site.toml >faulty.toml
  $ ./lab run faulty.toml /dev/null 2>errors
  site 3 ba
  [2]
  $ cat errors
  faulty.toml:* ba: * (glob)
  $ sed -z 's/ba = \[62, 70, 871]/ba = [62.0]/' site.toml >faulty.toml
  $ ./lab run faulty.toml /dev/null 2>errors
  site 3 ba
  [2]
  $ cat errors
  faulty.toml:* ba: * (glob)
  $ sed -z 's/tch = \[2, 3]/tch = [true]/' site.toml >faulty.toml
  $ ./lab run faulty.toml /dev/null 2>errors
  site 3 tch
  [2]
  $ cat errors
  faulty.toml:* tch: * (glob)
  $ sed -z 's/tch = \[] }/tch = [0] }/' site.toml >faulty.toml
  $ ./lab run faulty.toml /dev/null 2>errors
  site 3 tch
  [2]
  $ cat errors
  faulty.toml:* tch: * (glob)
  $ sed -z 's/\[\[cell]]\nlac = 23\nci = 100\nbcch = 60\nncc = 1\nbcc = 1\npower = 5\nba = \[62, 70, 871]\ntrx = \[{ arfcn = 60, tch = \[2, 3] }]\n\[\[cell]]\nlac = 23\nci = 101\nbcch = 871\nncc = 2\nbcc = 5\npower = 5\nba = \[60]\ntrx = \[{ arfcn = 871, tch = \[] }, { arfcn = 875, tch = \[3] }]\n//' site.toml >faulty.toml
  $ ./lab run faulty.toml /dev/null 2>errors
  site 2 cell
  [2]
  $ cat errors
  faulty.toml:* cell is missing: it has to be * (glob)
  $ sed -z 's/tch = \[3]/tch = [0, 1, 2, 3, 4, 5, 6, 7, 0]/' site.toml >faulty.toml
  $ ./lab run faulty.toml /dev/null 2>errors
  site 4 slot
  [2]
  $ cat errors
  faulty.toml: *: tch: * (glob)
  $ sed -z 's/tch = \[3]/tch = [7, 6, 5, 4, 3, 2, 1, 0, 7]/' site.toml >faulty.toml
  $ ./lab run faulty.toml /dev/null 2>errors
  site 4 slot
  [2]
  $ cat errors
  faulty.toml: *: tch: * (glob)
  $ sed -z 's/tch = \[3]/tch = [0, 1, 2, 3, 4, 5, 6, 7, 0, 8]/' site.toml >faulty.toml
  $ ./lab run faulty.toml /dev/null 2>errors
  site 3 tch
  [2]
  $ cat errors
  faulty.toml:* tch: * (glob)
  $ sed -z 's/ci = 100/ci = -1/' site.toml >faulty.toml
  $ ./lab run faulty.toml /dev/null 2>errors
  site 3 ci
  [2]
  $ cat errors
  faulty.toml:* ci: * (glob)
  $ sed -z 's/tch = \[2, 3]/tch = [8]/' site.toml >faulty.toml
  $ ./lab run faulty.toml /dev/null 2>errors
  site 3 tch
  [2]
  $ cat errors
  faulty.toml:* tch: * (glob)
  $ sed -z 's/tch = \[3]/tch = [-1]/' site.toml >faulty.toml
  $ ./lab run faulty.toml /dev/null 2>errors
  site 3 tch
  [2]
  $ cat errors
  faulty.toml:* tch: * (glob)
  $ sed -z 's/window = 2/window = 65536/' site.toml >faulty.toml
  $ ./lab run faulty.toml /dev/null 2>errors
  site 3 window
  [2]
  $ cat errors
  faulty.toml:* window: * (glob)
  $ sed -z 's/window = 2/window = 4294967298/' site.toml >faulty.toml
  $ ./lab run faulty.toml /dev/null 2>errors
  site 3 window
  [2]
  $ cat errors
  faulty.toml:* window: * (glob)
  $ sed -z 's/ncc = 1/ncc = 257/' site.toml >faulty.toml
  $ ./lab run faulty.toml /dev/null 2>errors
  site 3 ncc
  [2]
  $ cat errors
  faulty.toml:* ncc: * (glob)

Timeslots that also carry halves: the last site has one of half behind nine of tch, of which some stand twice.

  $ sed -z 's/tch = \[2, 3]/tch = [2, 3], half = [3, 4]/' site.toml >faulty.toml
  $ ./lab run faulty.toml /dev/null 2>errors
  site 3 half
  [2]
  $ cat errors
  faulty.toml:* half: * (glob)
  $ sed -z 's/tch = \[2, 3]/tch = [2, 8], half = [4]/' site.toml >faulty.toml
  $ ./lab run faulty.toml /dev/null 2>errors
  site 3 tch
  [2]
  $ cat errors
  faulty.toml:* tch: * (glob)
  $ sed -z 's/tch = \[2, 3]/tch = [3, 3, 3, 3, 3, 3, 3, 3, 3, 2], half = [2]/' site.toml >faulty.toml
  $ ./lab run faulty.toml /dev/null 2>errors
  site 4 slot
  [2]
  $ cat errors
  faulty.toml: *: tch: * (glob)

