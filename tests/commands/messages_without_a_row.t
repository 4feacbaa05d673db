Messages on Abis of which a controller reads none (TS 48.058 clause 9.2) are told by their names: about a link layer, a
dedicated channel, the common channels, a transceiver. Their octets are no message that a row takes.

  $ cat >told.txt <<'END'
  > open 1 0 0 3
  > abis 0 0 0306010b0200
  > abis 0 0 0209010b0200
  > abis 0 0 082a010b
  > abis 0 0 0d1301881300
  > abis 0 0 111c1a0120
  > abis 0 0 0340010b
  > END
  $ ./lab run examples/two_cells.toml told.txt --words | grep '^in abis'
  in abis 0 0 0306010b0200 # call 1; ESTABLISH INDICATION; ignored: no row
  in abis 0 0 0209010b0200 # call 1; RELEASE INDICATION; ignored: no row
  in abis 0 0 082a010b # call 1; MODE MODIFY ACKNOWLEDGE; ignored: no row
  in abis 0 0 0d1301881300 # no call; CHANNEL REQUIRED; ignored: no row
  in abis 0 0 111c1a0120 # no call; ERROR REPORT; ignored: no row
  in abis 0 0 0340010b # call 1

A chart draws their names.

  $ ./lab run examples/two_cells.toml told.txt --chart told.svg >/dev/null
  $ sed -n 's/^<text.*>\(.*\)<.text>$/\1/p' told.svg | grep -e INDICATION -e MODIFY -e REQUIRED -e REPORT -e 'no message'
  0/0/3 ESTABLISH INDICATION, call 1
  0/0/3 RELEASE INDICATION, call 1
  0/0/3 MODE MODIFY ACKNOWLEDGE, call 1
  0/0 CHANNEL REQUIRED
  0/0 ERROR REPORT
  0/0/3 no message, call 1
