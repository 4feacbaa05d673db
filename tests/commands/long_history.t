A history begins anew behind the line with which it has as many entries as are asked for, 100,000 where no number is, and so does
the file of a journal. An opened channel is one entry, its confirmation two, and each report of a call that is steady two.

  $ report='abis 0 0 0828010b1b001903001e0004000b001206151e1e0000000000000000000000000000'
  $ (echo open 1 0 0 3; echo abis 0 0 0822010b081234; yes "$report" | head -100000) >day
  $ ./lab live examples/two_cells.toml --journal whole <day | tail -1
  end channels=1 calls=1 references=0 timers=0
  $ ls whole
  00000000000000000000.journal
  00000000000000050001.journal
  00000000000000100001.journal
  lock

With fewer it begins anew more often.

  $ head -82 day | ./lab live examples/two_cells.toml --journal short --history 100 | tail -1
  end channels=1 calls=1 references=0 timers=0
  $ ls short
  00000000000000000000.journal
  00000000000000000051.journal
  lock
