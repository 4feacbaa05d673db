The page 'The machine at one look' of docs/PROCEDURE.md: each input at each stage of a call, with what comes of it.

  $ tests/programs/stages ./lab
  312 cells met, 0 not
