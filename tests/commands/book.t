What stays of a trace without an attempt that was undone in it. Where an event got another reply than the book's, `rewind`
answers that line, so each command shows the words of all replies of its trace, too.

A call begins and ends:

  $ ./lab rewind tests/book/site.toml tests/book/calls_begin_and_end.trace 1 2>/dev/null
  no attempt
  [2]

A reference of a cell is used once:

  $ ./lab rewind tests/book/site.toml tests/book/a_reference_is_used_once.trace 1 2>/dev/null
  no attempt
  [2]

An open attempt refuses:

  $ ./lab rewind tests/book/site.toml tests/book/an_open_attempt_refuses.trace 1 2>/dev/null
  no attempt
  [2]

No release is awaited after a refused activation:

  $ ./lab rewind tests/book/site.toml tests/book/a_refused_activation.trace 1 2>/dev/null
  no attempt
  [2]

An answer after the undo is unexpected:

  $ ./lab rewind tests/book/site.toml tests/book/an_answer_after_the_undo.trace 1 2>/dev/null
  no attempt
  [2]

Call 1 rests, and call 3 has begun on the channel of cell 1:

  $ ./lab rewind tests/book/site.toml tests/book/the_first_refusal.trace 1 2>/dev/null
  no attempt
  [2]

Any free channel is taken:

  $ ./lab rewind tests/book/site.toml tests/book/any_free_channel.trace 1 2>/dev/null
  no attempt
  [2]

A call moves to its target:

  $ ./lab rewind tests/book/site.toml tests/book/a_call_moves.trace 1 2>/dev/null
  no attempt
  [2]

A call of another controller comes or is forgotten:

  $ ./lab rewind tests/book/site.toml tests/book/a_call_comes.trace 1 2>/dev/null
  no attempt
  [2]

A call leaves for another controller:

  $ ./lab rewind tests/book/site.toml tests/book/a_call_leaves.trace 1 2>/dev/null
  no attempt
  [2]

A move to another controller is taken back:

  $ ./lab rewind tests/book/site.toml tests/book/a_call_leaves_and_is_taken_back.trace 1 2>/dev/null
  no attempt
  [2]

A call moves to its target, while another begins and comes too late for the channel:

  $ ./lab rewind tests/book/site.toml tests/book/overtaken.trace 1 2>/dev/null
  no attempt
  [2]

Taken:

  $ ./lab rewind tests/book/site.toml tests/book/each_stage_of_a_call_that_comes.trace 1 2>/dev/null
  no attempt
  [2]

Taken:

  $ ./lab rewind tests/book/site.toml tests/book/each_stage_of_a_call_that_moves.trace 1 2>/dev/null
  no attempt
  [2]

Required:

  $ ./lab rewind tests/book/site.toml tests/book/each_stage_of_a_call_that_leaves.trace 1 2>/dev/null
  no attempt
  [2]

A call begins between the steps of an attempt:

  $ ./lab rewind tests/book/site.toml tests/book/a_call_begins_meanwhile.trace 4
  others 3
  settled yes
  held -
  choices -
  same

A refused target awaits no release:

  $ ./lab rewind tests/book/site.toml tests/book/undone_a_refused_target.trace 4
  others 3
  settled yes
  held -
  choices -
  same

What a station says of the target while its release is awaited is left out:

  $ ./lab rewind tests/book/site.toml tests/book/undone_late_words_of_the_target.trace 4
  others 3
  settled yes
  held -
  choices -
  same

The release is awaited still:

  $ ./lab rewind tests/book/site.toml tests/book/undone_a_release_is_awaited.trace 5
  others 5
  settled no
  held 9
  choices -
  differs: line 9: refused 6 1/1/3; without: done
  [1]

A call is refused for the target:

  $ ./lab rewind tests/book/site.toml tests/book/undone_a_call_is_refused.trace 4
  others 3
  settled yes
  held 5
  choices -
  differs: line 5: refused 6 1/1/3; without: done
  [1]
  $ ./lab rewind tests/book/site.toml tests/book/undone_a_call_is_refused.trace 5 2>/dev/null
  no attempt
  [2]

A call is refused for the target, twice:

  $ ./lab rewind tests/book/site.toml tests/book/undone_a_call_is_refused_twice.trace 4
  others 4
  settled yes
  held 5
  choices -
  differs: line 5: refused 6 1/1/3; without: done
  [1]

A call begins while another is to leave:

  $ ./lab rewind tests/book/site.toml tests/book/undone_a_call_is_to_leave.trace 4
  others 3
  settled yes
  held -
  choices -
  same

A refusal for the channel of another call is not held:

  $ ./lab rewind tests/book/site.toml tests/book/undone_another_channel_is_refused.trace 4
  others 3
  settled yes
  held -
  choices -
  same

Steps of the call itself stay while the release is awaited:

  $ ./lab rewind tests/book/site.toml tests/book/undone_the_call_goes_on.trace 4
  others 4
  settled yes
  held -
  choices -
  same

What a station says of the target stays where no release is awaited:

  $ ./lab rewind tests/book/site.toml tests/book/undone_no_release_is_awaited.trace 4
  others 4
  settled yes
  held -
  choices -
  same

An attempt is taken back after another that was completed:

  $ ./lab rewind tests/book/site.toml tests/book/undone_after_a_completed_one.trace 10
  others 8
  settled yes
  held -
  choices -
  same
  $ ./lab rewind tests/book/site.toml tests/book/undone_after_a_completed_one.trace 4 2>/dev/null
  no attempt
  [2]

A call is to leave again, once it has left and begun anew:

  $ ./lab rewind tests/book/site.toml tests/book/undone_after_one_that_left.trace 10
  others 8
  settled yes
  held -
  choices -
  same
  $ ./lab rewind tests/book/site.toml tests/book/undone_after_one_that_left.trace 4 2>/dev/null
  no attempt
  [2]

A reference is refused for the one of an attempt that comes:

  $ ./lab rewind tests/book/site.toml tests/book/undone_a_reference_is_refused.trace 2
  others 2
  settled yes
  held 5
  choices 3
  differs: line 5: refused 7 0 5; without: done
  [1]

A reference is not held after the undo:

  $ ./lab rewind tests/book/site.toml tests/book/undone_a_reference_is_free_again.trace 2
  others 4
  settled yes
  held -
  choices 3
  same

An attempt is taken back by a timer, and its call opens in the list:

  $ ./lab rewind tests/book/site.toml tests/book/undone_the_call_opens_in_the_list.trace 4
  others 2
  settled yes
  held -
  choices -
  same

A handover that is completed:

  $ ./lab rewind tests/book/site.toml tests/book/not_undone_a_completed_one.trace 4 2>/dev/null
  no attempt
  [2]
  $ ./lab rewind tests/book/site.toml tests/book/not_undone_a_completed_one.trace 99 2>/dev/null
  no attempt
  [2]

A call, a refused Take and an Undo open none:

  $ ./lab rewind tests/book/site.toml tests/book/not_undone_what_opens_none.trace 5 2>/dev/null
  no attempt
  [2]
  $ ./lab rewind tests/book/site.toml tests/book/not_undone_what_opens_none.trace 6 2>/dev/null
  no attempt
  [2]
  $ ./lab rewind tests/book/site.toml tests/book/not_undone_what_opens_none.trace 7 2>/dev/null
  no attempt
  [2]

An attempt that is open:

  $ ./lab rewind tests/book/site.toml tests/book/not_undone_an_open_one.trace 4 2>/dev/null
  no attempt
  [2]

No events:

  $ ./lab rewind tests/book/site.toml tests/book/not_undone_no_events.trace 99 2>/dev/null
  no attempt
  [2]

Both channels of a cell are taken, and both attempts taken back:

  $ ./lab rewind tests/book/six_channels.toml tests/book/overlap_both_are_taken_back.trace 6
  others 10
  settled yes
  held 9
  choices 7
  differs: line 9: refused 7 1 0; without: done
  [1]
  $ ./lab rewind tests/book/six_channels.toml tests/book/overlap_both_are_taken_back.trace 7
  others 9
  settled yes
  held -
  choices -
  same

One attempt runs out of time, the other is complete:

  $ ./lab rewind tests/book/six_channels.toml tests/book/overlap_one_runs_out_of_time.trace 6
  others 14
  settled yes
  held -
  choices 7
  same

A channel goes from attempt to attempt:

  $ ./lab rewind tests/book/six_channels.toml tests/book/overlap_a_channel_goes_on.trace 6
  others 10
  settled yes
  held 7
  choices 9
  differs: line 7: refused 6 1/0/1; without: done
  [1]

A target awaits its release while its number goes to another attempt:

  $ ./lab rewind tests/book/six_channels.toml tests/book/overlap_a_number_goes_on.trace 6
  others 10
  settled yes
  held 12
  choices 9
  differs: line 12: refused 6 1/0/1; without: done
  [1]

Two calls change places:

  $ ./lab rewind tests/book/six_channels.toml tests/book/overlap_two_change_places.trace 1 2>/dev/null
  no attempt
  [2]

A call comes to the cell to which others move:

  $ ./lab rewind tests/book/six_channels.toml tests/book/overlap_one_comes_as_others_move.trace 6
  others 12
  settled yes
  held -
  choices 7 16
  same
  $ ./lab rewind tests/book/six_channels.toml tests/book/overlap_one_comes_as_others_move.trace 7
  others 14
  settled yes
  held -
  choices -
  same

A call leaves for another controller while another moves to its cell:

  $ ./lab rewind tests/book/six_channels.toml tests/book/overlap_one_leaves_as_another_comes.trace 1 2>/dev/null
  no attempt
  [2]

Two calls are to leave for another controller, and come back by their own timers:

  $ ./lab rewind tests/book/six_channels.toml tests/book/overlap_two_are_to_leave.trace 6
  others 12
  settled yes
  held -
  choices -
  same
  $ ./lab rewind tests/book/six_channels.toml tests/book/overlap_two_are_to_leave.trace 7
  others 11
  settled yes
  held -
  choices -
  same

Three attempts are taken back in the order of their opening:

  $ ./lab rewind tests/book/six_channels.toml tests/book/overlap_three_are_taken_back.trace 6
  others 19
  settled yes
  held -
  choices 7
  same
  $ ./lab rewind tests/book/six_channels.toml tests/book/overlap_three_are_taken_back.trace 7
  others 17
  settled yes
  held -
  choices -
  same
  $ ./lab rewind tests/book/six_channels.toml tests/book/overlap_three_are_taken_back.trace 8
  others 16
  settled yes
  held -
  choices -
  same

A call tries again and again while another's attempt is open:

  $ ./lab rewind tests/book/six_channels.toml tests/book/overlap_again_and_again.trace 8
  others 19
  settled yes
  held -
  choices -
  same
  $ ./lab rewind tests/book/six_channels.toml tests/book/overlap_again_and_again.trace 10
  others 18
  settled yes
  held -
  choices -
  same

A call ends between the steps of an attempt, and another comes to its channel:

  $ ./lab rewind tests/book/six_channels.toml tests/book/overlap_a_call_ends_between.trace 6
  others 12
  settled yes
  held -
  choices -
  same
  $ ./lab rewind tests/book/six_channels.toml tests/book/overlap_a_call_ends_between.trace 12
  others 14
  settled yes
  held 14
  choices 16
  differs: line 14: refused 6 2/0/1; without: done
  [1]

A call begins and moves while the station refuses another's target:

  $ ./lab rewind tests/book/six_channels.toml tests/book/overlap_a_call_begins_between.trace 8
  others 12
  settled yes
  held -
  choices 10
  same
  $ ./lab rewind tests/book/six_channels.toml tests/book/overlap_a_call_begins_between.trace 10
  others 15
  settled yes
  held -
  choices -
  same
