All attempts that were undone and are settled are taken out of a trace together. In the first trace the release is
acknowledged; in the second it isn't yet, so nothing is taken out; in the third call 2 is refused the channel that the
attempt holds, in line 4, and would have got it.

  $ cat >undone.trace <<'END'
  > in open 1 0 0 3
  > event open 1 0/0/3 -> done
  > out abis 0 0 0821010b0300060400010801
  > event confirm 0/0/3 -> owned 1
  > event look 1 -> record 0/0/3 on
  > event take 1 internal 1/1/3 -> done
  > event reserve 1 0 -> done
  > event activate 1 -> done
  > event undo 1 asked -> record 0/0/3 on internal sent 1/1/3 0
  > event released 1/1/3 -> done
  > end channels=1 calls=1 references=0 timers=0
  > END
  $ cat >awaited.trace <<'END'
  > event open 1 0/0/3 -> done
  > event confirm 0/0/3 -> owned 1
  > event take 1 internal 1/1/3 -> done
  > event reserve 1 0 -> done
  > event activate 1 -> done
  > event undo 1 asked -> record 0/0/3 on internal sent 1/1/3 0
  > END
  $ cat >held.trace <<'END'
  > event open 1 0/0/3 -> done
  > event confirm 0/0/3 -> owned 1
  > event take 1 internal 1/1/3 -> done
  > event open 2 1/1/3 -> refused 6 1/1/3
  > event undo 1 asked -> record 0/0/3 on internal taken 1/1/3 -
  > END
  $ ./lab audit examples/two_cells.toml undone.trace
  attempts 1
  held -
  choices -
  same
  $ ./lab audit examples/two_cells.toml awaited.trace
  attempts 0
  held -
  choices -
  same
  $ ./lab audit examples/two_cells.toml held.trace
  attempts 1
  held 4
  choices -
  differs: line 4: refused 6 1/1/3; without: done
  [1]

Two calls come to one cell, and call 9 is refused the reference that call 8 has, in line 4. Both attempts are undone, and
nothing is left of the trace: what remains comes to the same, though a line is held.

  $ cat >both.trace <<'END'
  > event take 8 incoming 0/0/2 -> done
  > event take 9 incoming 0/0/3 -> done
  > event reserve 8 5 -> done
  > event reserve 9 5 -> refused 7 0 5
  > event undo 8 asked -> record - - incoming reserved 0/0/2 5
  > event undo 9 asked -> record - - incoming taken 0/0/3 -
  > END
  $ ./lab audit examples/two_cells.toml both.trace
  attempts 2
  held 4
  choices -
  same

Attempts that follow one another, and one that is open at the end.

  $ cat >three.trace <<'END'
  > event open 1 0/0/3 -> done
  > event confirm 0/0/3 -> owned 1
  > event take 1 internal 1/1/3 -> done
  > event undo 1 asked -> record 0/0/3 on internal taken 1/1/3 -
  > event require 1 -> done
  > event order 1 -> done
  > event undo 1 t8 -> record 0/0/3 on outgoing ordered - -
  > event take 1 internal 1/1/3 -> done
  > END
  $ ./lab audit examples/two_cells.toml three.trace
  attempts 2
  held -
  choices -
  same

A trace without an event, and one that isn't there.

  $ printf 'end channels=0 calls=0 references=0 timers=0\n' >run.trace
  $ ./lab audit examples/two_cells.toml run.trace
  attempts 0
  held -
  choices -
  same
  $ ./lab audit examples/two_cells.toml nothing.trace 2>errors
  file nothing.trace
  [2]
  $ cat errors
  nothing.trace: no such file
  $ ./lab audit nothing.toml nothing.trace 2>errors
  file nothing.toml
  [2]
  $ cat errors
  nothing.toml: no such file
  $ printf '' >empty.toml
  $ ./lab audit empty.toml nothing.trace 2>/dev/null
  file nothing.trace
  [2]
  $ ./lab audit empty.toml run.trace 2>/dev/null
  site 2 handover
  [2]

Lines that can't be read, and replies that aren't the book's.

  $ printf 'event look 1 -> done\nevent look 01 -> done' >run.trace
  $ ./lab audit examples/two_cells.toml run.trace 2>errors
  line 2
  [2]
  $ cat errors
  run.trace:2: this isn't an event with its reply, as in: event look 1 -> refused 1
  $ printf '\n1: event look 1 -> refused 1\n' >run.trace
  $ ./lab audit examples/two_cells.toml run.trace 2>errors
  line 2
  [2]
  $ cat errors
  run.trace:2: this is a trace of two controllers, but audit reads the trace of one
  $ ./lab rewind examples/two_cells.toml run.trace 1 2>errors
  line 2
  [2]
  $ cat errors
  run.trace:2: this is a trace of two controllers, but rewind reads the trace of one
  $ printf 'event look 1 -> refused 1\r\nevent look 1 -> done\r\n' >run.trace
  $ ./lab audit examples/two_cells.toml run.trace 2>errors
  line 2
  [2]
  $ cat errors
  run.trace:2: the book of this site replies "refused 1" here, but the trace says "done"
  $ printf 'event look 1 -> refused 1 # call 1; NoCall: there is no such call\n' >run.trace
  $ ./lab audit examples/two_cells.toml run.trace 2>errors
  line 1
  [2]
  $ cat errors
  run.trace:1: words follow this event: the trace was printed with --words

The traces of the book's tests. In those with attempts of several calls each of these is taken out.

  $ ./lab audit tests/book/site.toml tests/book/a_call_begins_meanwhile.trace
  attempts 1
  held -
  choices -
  same
  $ ./lab audit tests/book/site.toml tests/book/a_call_comes.trace
  attempts 1
  held -
  choices -
  same
  $ ./lab audit tests/book/site.toml tests/book/a_call_leaves.trace
  attempts 0
  held -
  choices -
  same
  $ ./lab audit tests/book/site.toml tests/book/a_call_leaves_and_is_taken_back.trace
  attempts 4
  held -
  choices -
  same
  $ ./lab audit tests/book/site.toml tests/book/a_call_moves.trace
  attempts 2
  held -
  choices -
  same
  $ ./lab audit tests/book/site.toml tests/book/a_reference_is_used_once.trace
  attempts 0
  held -
  choices -
  same
  $ ./lab audit tests/book/site.toml tests/book/a_refused_activation.trace
  attempts 1
  held -
  choices -
  same
  $ ./lab audit tests/book/site.toml tests/book/an_answer_after_the_undo.trace
  attempts 1
  held -
  choices -
  same
  $ ./lab audit tests/book/site.toml tests/book/an_open_attempt_refuses.trace
  attempts 1
  held 7
  choices -
  differs: line 7: refused 6 1/1/3; without: done
  [1]
  $ ./lab audit tests/book/site.toml tests/book/any_free_channel.trace
  attempts 0
  held -
  choices -
  same
  $ ./lab audit tests/book/site.toml tests/book/calls_begin_and_end.trace
  attempts 0
  held -
  choices -
  same
  $ ./lab audit tests/book/site.toml tests/book/each_stage_of_a_call_that_comes.trace
  attempts 9
  held 35
  choices -
  differs: line 35: refused 6 1/1/3; without: done
  [1]
  $ ./lab audit tests/book/site.toml tests/book/each_stage_of_a_call_that_leaves.trace
  attempts 4
  held -
  choices -
  same
  $ ./lab audit tests/book/site.toml tests/book/each_stage_of_a_call_that_moves.trace
  attempts 9
  held 37
  choices -
  differs: line 37: refused 6 1/1/3; without: done
  [1]
  $ ./lab audit tests/book/site.toml tests/book/not_undone_a_completed_one.trace
  attempts 0
  held -
  choices -
  same
  $ ./lab audit tests/book/site.toml tests/book/not_undone_an_open_one.trace
  attempts 0
  held -
  choices -
  same
  $ ./lab audit tests/book/site.toml tests/book/not_undone_no_events.trace
  attempts 0
  held -
  choices -
  same
  $ ./lab audit tests/book/site.toml tests/book/not_undone_what_opens_none.trace
  attempts 1
  held 5
  choices -
  differs: line 5: refused 6 1/1/3; without: done
  [1]
  $ ./lab audit tests/book/six_channels.toml tests/book/overlap_a_call_begins_between.trace
  attempts 2
  held -
  choices -
  same
  $ ./lab audit tests/book/six_channels.toml tests/book/overlap_a_call_ends_between.trace
  attempts 2
  held 14
  choices 16
  differs: line 14: refused 6 2/0/1; without: done
  [1]
  $ ./lab audit tests/book/six_channels.toml tests/book/overlap_a_channel_goes_on.trace
  attempts 1
  held 7
  choices 9
  differs: line 7: refused 6 1/0/1; without: done
  [1]
  $ ./lab audit tests/book/six_channels.toml tests/book/overlap_a_number_goes_on.trace
  attempts 1
  held 12
  choices 9
  differs: line 12: refused 6 1/0/1; without: done
  [1]
  $ ./lab audit tests/book/six_channels.toml tests/book/overlap_again_and_again.trace
  attempts 2
  held -
  choices -
  same
  $ ./lab audit tests/book/six_channels.toml tests/book/overlap_both_are_taken_back.trace
  attempts 2
  held 9
  choices -
  same
  $ ./lab audit tests/book/six_channels.toml tests/book/overlap_one_comes_as_others_move.trace
  attempts 2
  held -
  choices 16
  same
  $ ./lab audit tests/book/six_channels.toml tests/book/overlap_one_leaves_as_another_comes.trace
  attempts 0
  held -
  choices -
  same
  $ ./lab audit tests/book/six_channels.toml tests/book/overlap_one_runs_out_of_time.trace
  attempts 1
  held -
  choices 7
  same
  $ ./lab audit tests/book/six_channels.toml tests/book/overlap_three_are_taken_back.trace
  attempts 3
  held -
  choices -
  same
  $ ./lab audit tests/book/six_channels.toml tests/book/overlap_two_are_to_leave.trace
  attempts 2
  held -
  choices -
  same
  $ ./lab audit tests/book/six_channels.toml tests/book/overlap_two_change_places.trace
  attempts 0
  held -
  choices -
  same
  $ ./lab audit tests/book/site.toml tests/book/overtaken.trace
  attempts 0
  held -
  choices -
  same
  $ ./lab audit tests/book/site.toml tests/book/the_first_refusal.trace
  attempts 0
  held -
  choices -
  same
  $ ./lab audit tests/book/site.toml tests/book/undone_a_call_is_refused.trace
  attempts 1
  held 5
  choices -
  differs: line 5: refused 6 1/1/3; without: done
  [1]
  $ ./lab audit tests/book/site.toml tests/book/undone_a_call_is_refused_twice.trace
  attempts 1
  held 5
  choices -
  differs: line 5: refused 6 1/1/3; without: done
  [1]
  $ ./lab audit tests/book/site.toml tests/book/undone_a_call_is_to_leave.trace
  attempts 1
  held -
  choices -
  same
  $ ./lab audit tests/book/site.toml tests/book/undone_a_reference_is_free_again.trace
  attempts 1
  held -
  choices 3
  same
  $ ./lab audit tests/book/site.toml tests/book/undone_a_reference_is_refused.trace
  attempts 1
  held 5
  choices 3
  differs: line 5: refused 7 0 5; without: done
  [1]
  $ ./lab audit tests/book/site.toml tests/book/undone_a_refused_target.trace
  attempts 1
  held -
  choices -
  same
  $ ./lab audit tests/book/site.toml tests/book/undone_a_release_is_awaited.trace
  attempts 0
  held -
  choices -
  same
  $ ./lab audit tests/book/site.toml tests/book/undone_after_a_completed_one.trace
  attempts 1
  held -
  choices -
  same
  $ ./lab audit tests/book/site.toml tests/book/undone_after_one_that_left.trace
  attempts 1
  held -
  choices -
  same
  $ ./lab audit tests/book/site.toml tests/book/undone_another_channel_is_refused.trace
  attempts 1
  held -
  choices -
  same
  $ ./lab audit tests/book/site.toml tests/book/undone_late_words_of_the_target.trace
  attempts 1
  held -
  choices -
  same
  $ ./lab audit tests/book/site.toml tests/book/undone_no_release_is_awaited.trace
  attempts 1
  held -
  choices -
  same
  $ ./lab audit tests/book/site.toml tests/book/undone_the_call_goes_on.trace
  attempts 1
  held -
  choices -
  same
  $ ./lab audit tests/book/site.toml tests/book/undone_the_call_opens_in_the_list.trace
  attempts 1
  held -
  choices -
  same

Of a trace of over 50,000 events, too.

  $ (cat undone.trace; for _ in $(seq 50000); do echo 'event look 9 -> refused 1'; done) >long.trace
  $ ./lab audit examples/two_cells.toml long.trace
  attempts 1
  held -
  choices -
  same
