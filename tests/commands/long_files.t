A file of a journal has some 32 MiB, however long its lines are: so a resume reads no more, and audit reads each.

  $ long=$(head -c 65000 /dev/zero | tr '\0' 0)
  $ for n in $(seq 600); do echo "abis 0 0 $long"; done | ./lab live examples/two_cells.toml --journal dd >/dev/null
  $ ls dd | grep -c journal
  2
  $ find dd -size +40M
