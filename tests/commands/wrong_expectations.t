Scripts of which one expectation was made wrong: an octet, a field, a word, a number, a mark, the order. None of them is met, and
the first line that is named is the one that was changed.

  $ tests/programs/wrong_expectations ./lab
  477 wrong expectations told, 0 not
