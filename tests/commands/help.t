What commands are for, and what their words are. No line has more than 100 columns.

  $ ./lab --help >help
  $ awk 'length > 100' help
  $ grep -qF -- 'Runs a script over a site' help
  $ grep -qF -- 'decode abis 082e010b' help
  $ grep -qF -- 'encode abis "RF CHANNEL RELEASE tn=3"' help
  $ grep -qF -- 'explain refused 6' help

  $ ./lab help >help
  $ awk 'length > 100' help
  $ grep -qF -- 'Runs a script over a site' help

  $ ./lab run --help >help
  $ awk 'length > 100' help
  $ grep -qF -- 'The site file' help
  $ grep -qF -- 'The site file of a second controller' help
  $ grep -qF -- --words help
  $ grep -qF -- --state help
  $ grep -qF -- --decisions help
  $ grep -qF -- '--pcap <FILE>' help
  $ grep -qF -- '--chart <FILE>' help
  $ grep -qF -- --audit help
  $ grep -qF -- --summary help
  $ grep -qF -- --json help
  $ grep -qF -- --lines help
  $ grep -qF -- '--call <N>' help

  $ ./lab help run >help
  $ awk 'length > 100' help
  $ grep -qF -- 'The script file' help
  $ grep -qF -- '--peer <SITE>' help
  $ grep -q '^  mobile CELL TRX TN HABIT ' help

It lists each line of a script, with its words. The program names them where they can't be read: the first word of all lines
behind one that is none, and the words of a line behind its first word alone. A line `sim` has no other word.

  $ echo frob | ./lab live examples/two_cells.toml 2>said >/dev/null
  $ sed 's/.*begins with \(.*\), or with.*/\1/; s/,//g; s/ or / /' said | tr ' ' '\n' >keywords
  $ ./lab live examples/two_cells.toml <keywords 2>said >/dev/null
  $ { echo sim; sed -n 's/.* is missing in //p' said; } >forms
  $ [ "$(wc -l <forms)" -ge 16 ] && [ "$(wc -l <forms)" -eq "$(wc -l <keywords)" ]
  $ while read -r form; do grep -q "^  $form " help || echo "$form is missing"; done <forms
  $ grep -qF -- 'Statuses: 0 ' help
  $ grep -qF -- 'As in: bsc_lab run ' help

  $ ./lab live --help >help
  $ awk 'length > 100' help
  $ grep -qF -- '--history <N>' help
  $ grep -qF -- '--journal <FOLDER>' help
  $ grep -qF -- '--journal-lost <WHAT>' help
  $ grep -qF -- 'possible values: end, go-on' help
  $ grep -qF -- 'Statuses: 0 ' help

  $ ./lab decode --help >help
  $ awk 'length > 100' help
  $ grep -qF -- 'decode abis 082e010b' help
  $ grep -qF -- 'rr is the radio path' help
  $ grep -qF -- 'a the switching centre' help
  $ grep -qF -- '--from <FILE>' help
  $ grep -qF -- 'in hexadecimal' help

  $ ./lab help decode >help
  $ awk 'length > 100' help
  $ grep -qF -- '- for standard input' help
  $ grep -qF -- 'and on abis the rr message inside' help
  $ grep -qF -- 'rr, a, abis' help
  $ grep -qF -- 'Statuses: 0 ' help
  $ grep -qF -- 'As in: bsc_lab decode ' help
  $ grep -qxF -- '  CHANNEL ACTIVATION NACK        tn cause' help
  $ grep -qF -- 'is fault and its numbers (bsc_lab explain fault explains them)' help
  $ grep -qF -- 'long (over 65,536 octets)' help
  $ grep -qF -- 'link (it doesn'\''t begin with a link)' help

  $ ./lab encode --help >help
  $ awk 'length > 100' help
  $ grep -qF -- 'encode a "CLEAR COMMAND cause=9"' help

  $ ./lab help encode >help
  $ awk 'length > 100' help
  $ grep -qF -- 'rr, a, abis' help
  $ grep -qF -- 'the fields in any order' help
  $ grep -qF -- 'Statuses: 0 ' help
  $ grep -qF -- 'As in: bsc_lab encode ' help
  $ grep -qF -- 'Fields are KEY=VALUE' help
  $ grep -qF -- '3/0 or 3/1 for a half-rate one' help

  $ ./lab check --help >help
  $ awk 'length > 100' help
  $ grep -qF -- 'The site file' help

  $ ./lab help check >help
  $ awk 'length > 100' help
  $ grep -qF -- 'neighbour carrier that no other cell has' help
  $ grep -qF -- 'Statuses: 0 ' help
  $ grep -qF -- 'As in: bsc_lab check ' help

  $ ./lab storm --help >help
  $ awk 'length > 100' help
  $ grep -qF -- '--workers <N>' help
  $ grep -qF -- '--calls <M>' help
  $ grep -qF -- 'each is a thread with an inbox' help

  $ ./lab help storm >help
  $ awk 'length > 100' help
  $ grep -qF -- 'Statuses: 0 ' help
  $ grep -qF -- 'As in: bsc_lab storm ' help

  $ ./lab rewind --help >help
  $ awk 'length > 100' help
  $ grep -qF -- 'The trace, as run prints it' help

  $ ./lab help rewind >help
  $ awk 'length > 100' help
  $ grep -qF -- 'counted from 1' help
  $ grep -qF -- 'Statuses: 0 ' help
  $ grep -qF -- 'As in: bsc_lab rewind ' help

  $ ./lab audit --help >help
  $ awk 'length > 100' help
  $ grep -qF -- 'The site file' help

  $ ./lab help audit >help
  $ awk 'length > 100' help
  $ grep -qF -- 'The trace, as run prints it from the empty book on' help
  $ grep -qF -- 'Statuses: 0 ' help
  $ grep -qF -- 'As in: bsc_lab audit ' help

  $ ./lab explain --help >help
  $ awk 'length > 100' help
  $ grep -qF -- 'explain cause a 33' help

  $ ./lab explain fault --help >help
  $ awk 'length > 100' help
  $ grep -qF -- 'abis the base station' help
  $ grep -qF -- 'As in: bsc_lab explain fault ' help

  $ ./lab help test >help
  $ awk 'length > 100' help
  $ grep -qF -- 'Statuses: 0 ' help
  $ grep -qF -- 'As in: bsc_lab test ' help
  $ grep -qF -- --undo-everywhere help
  $ grep -q '^  mobile CELL TRX TN HABIT ' help

  $ ./lab help record >help
  $ awk 'length > 100' help
  $ grep -qF -- 'Statuses: 0 ' help
  $ grep -qF -- 'As in: bsc_lab record ' help
  $ tr '\n' ' ' <help | grep -qF -- 'Redirect the output to another file than SCRIPT:'
  $ grep -q '^  mobile CELL TRX TN HABIT ' help

  $ ./lab help explain >help
  $ awk 'length > 100' help
  $ grep -qF -- 'Statuses: 0 ' help
  $ grep -qF -- 'As in: bsc_lab explain ' help

  $ ./lab explain refused --help >help
  $ awk 'length > 100' help
  $ grep -qF -- 'Statuses: 0 ' help

  $ ./lab explain cause --help >help
  $ awk 'length > 100' help
  $ grep -qF -- 'As in: bsc_lab explain cause ' help

  $ ./lab --version >help
  $ awk 'length > 100' help
  $ grep -qF -- 'bsc_lab 0.' help

  $ ./lab -V >help
  $ awk 'length > 100' help
  $ grep -qF -- 'bsc_lab 0.' help

  $ ./lab rewind --help >help
  $ awk 'length > 100' help
  $ grep -qF -- 'for lines of the trace with 2:' help
  $ grep -cF -- 'of the script' help
  0
  [1]

  $ ./lab test --help | tr '\n' ' ' >help
  $ grep -qF -- '#% peer PATH' help
  $ grep -qF -- "1 a script isn't met, expects nothing, or has a line without effect" help
