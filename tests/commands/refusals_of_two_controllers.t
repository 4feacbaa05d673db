What is refused of two controllers has no mark: the site is looked at first, then the peer's, then the lines of the script.

  $ cp tests/two_controllers/*.toml .; printf '' >no.toml; printf '[' >broken.toml
  $ printf 'no line' >script.txt; ./lab run no.toml script.txt --peer broken.toml 2>/dev/null
  site 2 handover
  [2]
  $ printf 'no line' >script.txt; ./lab run site.toml script.txt --peer broken.toml 2>/dev/null
  site 1
  [2]
  $ printf 'no line' >script.txt; ./lab run site.toml script.txt --peer no.toml 2>/dev/null
  site 2 handover
  [2]
  $ printf 'no line' >script.txt; ./lab run site.toml script.txt --peer peer.toml 2>/dev/null
  line 1
  [2]
  $ printf '2: sim\n' >script.txt; ./lab run site.toml script.txt --peer peer.toml 2>/dev/null
  line 1
  [2]
  $ printf 'sim\n2: # a comment\n' >script.txt; ./lab run site.toml script.txt --peer peer.toml 2>/dev/null
  line 2
  [2]
  $ printf 'sim\n2: \n' >script.txt; ./lab run site.toml script.txt --peer peer.toml 2>/dev/null
  line 2
  [2]
  $ printf 'undo 1\n2: hold 0 0 1\nsim\n' >script.txt; ./lab run site.toml script.txt --peer peer.toml 2>/dev/null
  line 2
  [2]
