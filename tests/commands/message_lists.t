The messages and their fields, as the help of encode lists them, are those of the documents. PROGRAM has an example of each,
with its fields in their order, and CODECS the name of each. The program's own lists, a message a line:

  $ ./lab help encode >help
  $ list() { sed -n "/^Messages of $1 /,/^\$/p" help | sed '1d;/^$/d;s/^ *//;s/  */ /g;s/ (none)$//' | sort; }
  $ list abis >abis; list a >a; list rr >rr
  $ test -s abis && test -s a && test -s rr

PROGRAM:

  $ examples() { sed -n "/^#### $1\$/,/^#/p" docs/PROGRAM.md | grep -o '`[A-Z][A-Z ]*[A-Z]\( [a-z0-9]*=[^ `]*\)*`' | tr -d '`' | sed 's/=[^ ]*//g' | sort; }
  $ examples 'Messages on Abis' | diff abis -
  $ examples 'Messages on A' | diff a -
  $ examples 'Radio resource messages' | diff rr -

CODECS, whose tables have the names of the standards, and behind them those of the program where they differ:

  $ names() { sed 's/ [a-z].*//' "$1" | sort; }
  $ rows() { sed -n "/^## $1 (/,/^## /p" docs/CODECS.md | sed -n 's/^| .*in the program `\([^`]*\)`.*/\1/p;t;s/^| \([A-Z][A-Z ]*\) ([0-9.]*) .*/\1/p' | sort; }
  $ names abis >abis.names; rows 'Messages on Abis' | diff abis.names -
  $ names a >a.names; rows 'Messages on A' | diff a.names -
  $ names rr >rr.names; rows 'Radio resource messages' | diff rr.names -
