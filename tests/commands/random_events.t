Random events, with what is left of them without the attempts that were undone: what the program says, and what a plain book
says that the test has of its own; of twelve lists of events, and of the traces of twelve scripts.

  $ tests/programs/random_events ./lab
  24 lists of random events met, 0 not

Ten thousand lists, with halves of timeslots among their channels, of which the replies alone are compared.

  $ tests/programs/random_events ./lab --replies 0 10000
  10000 lists of random events met, 0 not

At the largest site, of 64 cells with four TRX each, where every second timeslot carries halves, too: three lists of 2,000 events
of 256 calls, from 0 to 65280, with any of 256 numbers; behind each list events by which all is told that the book holds then.

  $ tests/programs/random_events ./lab --largest 0 3
  3 lists of random events met, 0 not
