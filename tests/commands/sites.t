A site that is refused is explained in one line: where it is wrong, and what is allowed there. Here a text of the site
stands in another's place each time.

  $ sed 's/ *#.*//; /^$/d' examples/two_cells.toml >site.toml
  $ sed -z 's/\[handover]/[[handover]]/' site.toml >refused.toml
  $ ./lab run refused.toml /dev/null 2>errors
  site 3 handover
  [2]
  $ cat errors
  refused.toml: handover: a value of the kind array isn't a table
  $ sed -z 's/window = 2\n//' site.toml >refused.toml
  $ ./lab run refused.toml /dev/null 2>errors
  site 2 window
  [2]
  $ cat errors
  refused.toml: handover: window is missing: it has to be a number of reports from 1 to 32
  $ sed -z 's/window = 2/window = 33/' site.toml >refused.toml
  $ ./lab run refused.toml /dev/null 2>errors
  site 3 window
  [2]
  $ cat errors
  refused.toml: handover: window: 33 isn't a number of reports from 1 to 32
  $ sed -z 's/ncc = 2\n//' site.toml >refused.toml
  $ ./lab run refused.toml /dev/null 2>errors
  site 2 ncc
  [2]
  $ cat errors
  refused.toml: cell 1: ncc is missing: it has to be a colour code from 0 to 7
  $ sed -z 's/ncc = 2/ncc = "x"/' site.toml >refused.toml
  $ ./lab run refused.toml /dev/null 2>errors
  site 3 ncc
  [2]
  $ cat errors
  refused.toml: cell 1: ncc: a value of the kind string isn't a colour code from 0 to 7
  $ sed -z 's/lac = 23\nci = 102/lac = -1\nci = 102/' site.toml >refused.toml
  $ ./lab run refused.toml /dev/null 2>errors
  site 3 lac
  [2]
  $ cat errors
  refused.toml: outside 0 (cell 64): lac: -1 isn't a location area code from 0 to 65535
  $ sed -z 's/ba = \[62, 70, 871]/ba = [62, 1024]/' site.toml >refused.toml
  $ ./lab run refused.toml /dev/null 2>errors
  site 3 ba
  [2]
  $ cat errors
  refused.toml: cell 0: ba: 1024 isn't a carrier from 0 to 1023
  $ sed -z 's/\[{ arfcn = 60, tch = \[2, 3] }]/[]/' site.toml >refused.toml
  $ ./lab run refused.toml /dev/null 2>errors
  site 3 trx
  [2]
  $ cat errors
  refused.toml: cell 0: trx: it has 0 entries, but has to be an array of 1 to 4 tables
  $ sed -z 's/arfcn = 871/arfcn = 870/' site.toml >refused.toml
  $ ./lab run refused.toml /dev/null 2>errors
  site 3 arfcn
  [2]
  $ cat errors
  refused.toml: cell 1, trx 0: arfcn: 870 isn't the cell's BCCH carrier 871
  $ sed -z 's/tch = \[2, 3]/tch = [0]/' site.toml >refused.toml
  $ ./lab run refused.toml /dev/null 2>errors
  site 3 tch
  [2]
  $ cat errors
  refused.toml: cell 0, trx 0: tch: 0 isn't a timeslot from 1 to 7
  $ sed -z 's/tch = \[3]/tch = [3, 8]/' site.toml >refused.toml
  $ ./lab run refused.toml /dev/null 2>errors
  site 3 tch
  [2]
  $ cat errors
  refused.toml: cell 1, trx 1: tch: 8 isn't a timeslot from 0 to 7
  $ sed -z 's/ci = 102/ci = 101/' site.toml >refused.toml
  $ ./lab run refused.toml /dev/null 2>errors
  site 4 identity
  [2]
  $ cat errors
  refused.toml: cell 1 and outside 0 (cell 64) have the same lac and ci, but no two cells may
  $ sed -z 's/bcch = 62\nncc = 3\nbcc = 0/bcch = 60\nncc = 1\nbcc = 1/' site.toml >refused.toml
  $ ./lab run refused.toml /dev/null 2>errors
  site 4 colour
  [2]
  $ cat errors
  refused.toml: cell 0 and outside 0 (cell 64) have the same bcch, ncc and bcc, but no two cells may
  $ sed -z 's/arfcn = 875/arfcn = 871/' site.toml >refused.toml
  $ ./lab run refused.toml /dev/null 2>errors
  site 4 carrier
  [2]
  $ cat errors
  refused.toml: cell 1: two trx have arfcn 871, but each needs its own
  $ sed -z 's/tch = \[2, 3]/tch = [3, 3]/' site.toml >refused.toml
  $ ./lab run refused.toml /dev/null 2>errors
  site 4 slot
  [2]
  $ cat errors
  refused.toml: cell 0, trx 0: tch: 3 is listed twice
  $ sed -z 's/ba = \[60]/ba = [60, 60]/' site.toml >refused.toml
  $ ./lab run refused.toml /dev/null 2>errors
  site 4 neighbour
  [2]
  $ cat errors
  refused.toml: cell 1: ba: 60 is listed twice
  $ sed -z 's/tch = \[3]/tch = []/' site.toml >refused.toml
  $ ./lab run refused.toml /dev/null 2>errors
  site 5 1
  [2]
  $ cat errors
  refused.toml: cell 1: no trx has a timeslot in tch, but at least one is needed
  $ sed -z 's/\[handover]/[other]/' site.toml >refused.toml
  $ ./lab run refused.toml /dev/null 2>errors
  site 2 handover
  [2]
  $ cat errors
  refused.toml: handover is missing: it has to be a table
  $ sed -z 's/\[\[outside]]/[outside]/' site.toml >refused.toml
  $ ./lab run refused.toml /dev/null 2>errors
  site 3 outside
  [2]
  $ cat errors
  refused.toml: outside: a value of the kind table isn't an array of 0 to 64 tables
  $ sed -z 's/, tch = \[2, 3]//' site.toml >refused.toml
  $ ./lab run refused.toml /dev/null 2>errors
  site 2 tch
  [2]
  $ cat errors
  refused.toml: cell 0, trx 0: tch is missing: it has to be an array of timeslots from 1 to 7
  $ sed -z 's/, tch = \[3]//' site.toml >refused.toml
  $ ./lab run refused.toml /dev/null 2>errors
  site 2 tch
  [2]
  $ cat errors
  refused.toml: cell 1, trx 1: tch is missing: it has to be an array of timeslots from 0 to 7
  $ sed -z 's/tch = \[3]/tch = 3/' site.toml >refused.toml
  $ ./lab run refused.toml /dev/null 2>errors
  site 3 tch
  [2]
  $ cat errors
  refused.toml: cell 1, trx 1: tch: 3 isn't an array of timeslots from 0 to 7
  $ sed -z 's/ba = \[60]\n//' site.toml >refused.toml
  $ ./lab run refused.toml /dev/null 2>errors
  site 2 ba
  [2]
  $ cat errors
  refused.toml: cell 1: ba is missing: it has to be an array of at most 32 carriers from 0 to 1023
  $ sed -z 's/ba = \[60]/ba = 60/' site.toml >refused.toml
  $ ./lab run refused.toml /dev/null 2>errors
  site 3 ba
  [2]
  $ cat errors
  refused.toml: cell 1: ba: 60 isn't an array of at most 32 carriers from 0 to 1023
  $ sed -z 's/ba = \[60]/ba = [0, 0, 0, 0, 0, 0, 0, 0, 0, 0, 0, 0, 0, 0, 0, 0, 0, 0, 0, 0, 0, 0, 0, 0, 0, 0, 0, 0, 0, 0, 0, 0, 1024]/' site.toml >refused.toml
  $ ./lab run refused.toml /dev/null 2>errors
  site 3 ba
  [2]
  $ cat errors
  refused.toml: cell 1: ba: it has 33 entries, but has to be an array of at most 32 carriers from 0 to 1023
  $ sed -z 's/trx = \[{ arfcn = 60, tch = \[2, 3] }]/trx = [{ arfcn = 60, tch = [2, 3] }, 7]/' site.toml >refused.toml
  $ ./lab run refused.toml /dev/null 2>errors
  site 3 trx
  [2]
  $ cat errors
  refused.toml: cell 0: trx: entry 1: 7 isn't a table
  $ sed -z 's/trx = \[{ arfcn = 60, tch = \[2, 3] }]/trx = "none"/' site.toml >refused.toml
  $ ./lab run refused.toml /dev/null 2>errors
  site 3 trx
  [2]
  $ cat errors
  refused.toml: cell 0: trx: a value of the kind string isn't an array of 1 to 4 tables
  $ sed -z 's/trx = \[{ arfcn = 60, tch = \[2, 3] }]\n//' site.toml >refused.toml
  $ ./lab run refused.toml /dev/null 2>errors
  site 2 trx
  [2]
  $ cat errors
  refused.toml: cell 0: trx is missing: it has to be an array of 1 to 4 tables
  $ sed -z 's/margin = 3/margin = 64/' site.toml >refused.toml
  $ ./lab run refused.toml /dev/null 2>errors
  site 3 margin
  [2]
  $ cat errors
  refused.toml: handover: margin: 64 isn't a level from 0 to 63
  $ sed -z 's/power = 5\n//' site.toml >refused.toml
  $ ./lab run refused.toml /dev/null 2>errors
  site 2 power
  [2]
  $ cat errors
  refused.toml: cell 0: power is missing: it has to be a power level from 0 to 31
  $ sed -z 's/{ arfcn = 60, tch = \[2, 3] }/{ tch = [2, 3] }/' site.toml >refused.toml
  $ ./lab run refused.toml /dev/null 2>errors
  site 2 arfcn
  [2]
  $ cat errors
  refused.toml: cell 0, trx 0: arfcn is missing: it has to be the cell's BCCH carrier 60
  $ sed -z 's/window = 2/window = 2.0/' site.toml >refused.toml
  $ ./lab run refused.toml /dev/null 2>errors
  site 3 window
  [2]
  $ cat errors
  refused.toml: handover: window: a value of the kind float isn't a number of reports from 1 to 32
  $ sed -z 's/arfcn = 875/arfcn = 1024/' site.toml >refused.toml
  $ ./lab run refused.toml /dev/null 2>errors
  site 3 arfcn
  [2]
  $ cat errors
  refused.toml: cell 1, trx 1: arfcn: 1024 isn't a carrier from 0 to 1023

Of a text that is no TOML the line and the column are said; a byte order mark is passed over.

  $ printf 'a = 1\nb = [' >refused.toml
  $ ./lab run refused.toml /dev/null 2>errors
  site 1
  [2]
  $ cat errors
  refused.toml:2:6: invalid value, expected a string, number, boolean, date-time, array or inline table
  $ printf '\357\273\277b = [' >refused.toml
  $ ./lab run refused.toml /dev/null 2>errors
  site 1
  [2]
  $ cat errors
  refused.toml:1:6: invalid value, expected a string, number, boolean, date-time, array or inline table
  $ printf '\357\273\277a = 1\nb = [' >refused.toml
  $ ./lab run refused.toml /dev/null 2>errors
  site 1
  [2]
  $ cat errors
  refused.toml:2:6: invalid value, expected a string, number, boolean, date-time, array or inline table

The site is looked at before the script.

  $ printf 'no line\n' >script.txt
  $ printf '' >refused.toml
  $ ./lab run refused.toml script.txt 2>/dev/null
  site 2 handover
  [2]
  $ printf '  # nothing\n' >refused.toml
  $ ./lab run refused.toml script.txt 2>/dev/null
  site 2 handover
  [2]
  $ printf '[' >refused.toml
  $ ./lab run refused.toml script.txt 2>/dev/null
  site 1
  [2]
  $ printf 'handover = 3' >refused.toml
  $ ./lab run refused.toml script.txt 2>/dev/null
  site 3 handover
  [2]
  $ cat >refused.toml <<'END'
  > [handover]
  > window = 2
  > margin = 3
  > minimum = 10
  > END
  $ ./lab run refused.toml script.txt 2>/dev/null
  site 2 cell
  [2]
  $ sed -i '1i cell = []' refused.toml
  $ ./lab run refused.toml script.txt 2>errors
  site 3 cell
  [2]
  $ cat errors
  refused.toml: cell: it has 0 entries, but has to be an array of 1 to 64 tables
  $ cat >refused.toml <<'END'
  > [handover]
  > window = 2
  > margin = 3
  > minimum = 10
  > [[cell]]
  > lac = 23
  > ci = 100
  > bcch = 60
  > ncc = 1
  > bcc = 1
  > power = 5
  > ba = []
  > trx = [{ arfcn = 60, tch = [2] }]
  > [[outside]]
  > lac = 23
  > ci = 100
  > bcch = 62
  > ncc = 3
  > bcc = 0
  > END
  $ ./lab run refused.toml script.txt 2>/dev/null
  site 4 identity
  [2]
  $ cat >refused.toml <<'END'
  > [handover]
  > window = 2
  > margin = 3
  > minimum = 10
  > [[cell]]
  > lac = 23
  > ci = 100
  > bcch = 60
  > ncc = 1
  > bcc = 1
  > power = 5
  > ba = []
  > trx = [{ arfcn = 60, tch = [] }]
  > END
  $ ./lab run refused.toml script.txt 2>/dev/null
  site 5 0
  [2]
