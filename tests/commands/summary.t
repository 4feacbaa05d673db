What a run or a trace came to, counted in all and for each cell: each number is counted by hand in the script or the trace.

A handover fails: the mobile comes back. What is 0 in all is printed, but of no cell, and of no message.

  $ ./lab run examples/two_cells.toml examples/handover_returns.txt --summary >printed
  $ head -n 25 printed | cmp - examples/handover_returns.trace
  $ tail -n +26 printed
  summary all            1 calls opened
  summary all            0 calls cleared
  summary all            1 internal attempts
  summary all            0 incoming attempts
  summary all            0 outgoing attempts
  summary all            0 completed
  summary all            0 undone: activation refused
  summary all            1 undone: mobile returned
  summary all            0 undone: timer
  summary all            0 undone: rejected by the centre
  summary all            0 undone: operator
  summary all            0 undone: call cleared
  summary all            0 undone: cause not told
  summary all            0 turned away (none free)
  summary all            0 faults
  summary all        100.0 % of activations confirmed: 2 of 2
  summary all          0.0 % of internal attempts completed: 0 of 1
  summary all            - % of incoming attempts completed: 0 of 0
  summary all            - % of outgoing attempts completed: 0 of 0
  summary all            2 out CHANNEL ACTIVATION
  summary all            2 in CHANNEL ACTIVATION ACK
  summary all            1 out DATA REQUEST: HANDOVER COMMAND
  summary all            1 in DATA INDICATION: HANDOVER FAILURE
  summary all            1 out RF CHANNEL RELEASE
  summary all            1 in RF CHANNEL RELEASE ACK
  summary cell 0         1 calls opened
  summary cell 0         1 internal attempts
  summary cell 0         1 undone: mobile returned
  summary cell 0     100.0 % of activations confirmed: 1 of 1
  summary cell 0       0.0 % of internal attempts completed: 0 of 1
  summary cell 0         1 out CHANNEL ACTIVATION
  summary cell 0         1 in CHANNEL ACTIVATION ACK
  summary cell 0         1 out DATA REQUEST: HANDOVER COMMAND
  summary cell 0         1 in DATA INDICATION: HANDOVER FAILURE
  summary cell 1     100.0 % of activations confirmed: 1 of 1
  summary cell 1         1 out CHANNEL ACTIVATION
  summary cell 1         1 in CHANNEL ACTIVATION ACK
  summary cell 1         1 out RF CHANNEL RELEASE
  summary cell 1         1 in RF CHANNEL RELEASE ACK
  summary from 0   to 1         1 attempts, 0 completed

The trace of a run tells the same, with words, states and audits in it too.

  $ grep '^summary' printed >counted
  $ ./lab summary examples/handover_returns.trace | cmp - counted
  $ ./lab run examples/two_cells.toml examples/handover_returns.txt --words --state --audit --summary >printed
  $ grep '^summary' printed | cmp - counted
  $ tail -n 4 printed
  attempts 1
  held -
  choices -
  same
  $ ./lab summary printed | cmp - counted

Each way in which an attempt ends, once, and each other figure that is told of a cell: a call in cell 0 tries cell 1 four times,
and another controller, which the centre rejects, since there is none; its mobile is lost, so the centre clears it. Call 2 is
cleared as it moves, call 3 arrives, call 4 finds no channel. Octets from cell 0 are cut, others on A are none. Of nine
activations, three for calls, one is refused and two are held. (Two thirds are 66.6 %, a sixth is 16.6 %: rounded down.)

  $ cat >each.txt <<'END'
  > sim
  > open 1 0 0 3
  > refuse 1 1 3
  > handover 1 1
  > mobile 0 0 3 return
  > handover 1 1
  > hold 1 1 3
  > handover 1 1
  > undo 1
  > handover 1 64
  > mobile 0 0 3 vanish
  > handover 1 1
  > expire 1 T3103
  > open 2 0 0 2
  > hold 1 1 3
  > handover 2 1
  > clear 2
  > open 3 0 0 2
  > handover 3 1
  > seize 4 1 full
  > abis 0 0 0822
  > a 9 00
  > END
  $ ./lab run examples/two_cells.toml each.txt --summary >printed
  $ grep '^summary' printed | grep -v ' in \| out '
  summary all            3 calls opened
  summary all            2 calls cleared
  summary all            6 internal attempts
  summary all            0 incoming attempts
  summary all            1 outgoing attempts
  summary all            1 completed
  summary all            1 undone: activation refused
  summary all            1 undone: mobile returned
  summary all            1 undone: timer
  summary all            1 undone: rejected by the centre
  summary all            1 undone: operator
  summary all            1 undone: call cleared
  summary all            0 undone: cause not told
  summary all            1 turned away (none free)
  summary all            2 faults
  summary all         66.6 % of activations confirmed: 6 of 9
  summary all         16.6 % of internal attempts completed: 1 of 6
  summary all            - % of incoming attempts completed: 0 of 0
  summary all          0.0 % of outgoing attempts completed: 0 of 1
  summary cell 0         3 calls opened
  summary cell 0         2 calls cleared
  summary cell 0         6 internal attempts
  summary cell 0         1 outgoing attempts
  summary cell 0         1 completed
  summary cell 0         1 undone: activation refused
  summary cell 0         1 undone: mobile returned
  summary cell 0         1 undone: timer
  summary cell 0         1 undone: rejected by the centre
  summary cell 0         1 undone: operator
  summary cell 0         1 undone: call cleared
  summary cell 0         1 faults
  summary cell 0     100.0 % of activations confirmed: 3 of 3
  summary cell 0      16.6 % of internal attempts completed: 1 of 6
  summary cell 0       0.0 % of outgoing attempts completed: 0 of 1
  summary cell 1         1 turned away (none free)
  summary cell 1      50.0 % of activations confirmed: 3 of 6
  summary from 0   to 1         6 attempts, 1 completed
  summary from 0   to -         1 attempts, 0 completed
  $ grep '^summary.*\( CLEAR\|REQUIRED\|no message\|NACK\)' printed
  summary all            1 in CHANNEL ACTIVATION NACK
  summary all            1 out HANDOVER REQUIRED
  summary all            1 in HANDOVER REQUIRED REJECT
  summary all            1 out CLEAR REQUEST
  summary all            1 in CLEAR COMMAND
  summary all            1 out CLEAR COMPLETE
  summary all            2 in no message
  summary cell 0         1 in no message
  summary cell 1         1 in CHANNEL ACTIVATION NACK

What was refused isn't counted: a channel that isn't free, a call that isn't there, an undo where no attempt is open.

  $ printf 'open 1 0 0 3\nopen 2 0 0 3\nclear 5\nundo 1\n' >refused.txt
  $ ./lab run examples/two_cells.toml refused.txt --summary | grep '^summary' | grep -v ' 0 [a-z]'
  refused.txt:3: this line has no effect: there is no call 5
  summary all            1 calls opened
  summary all            1 out CHANNEL ACTIVATION
  summary cell 0         1 calls opened
  summary cell 0         1 out CHANNEL ACTIVATION

A mobile has returned where it says HANDOVER FAILURE, and not by what else it says.

  $ for said in 062800 062c00; do
  >   echo "in abis 0 0 0302010b02000b0003$said"
  >   echo 'event undo 1 asked -> record 0/0/3 on internal commanded 1/1/3 0'
  > done >said.trace
  $ ./lab summary said.trace --cut | grep '^summary all.*\(undone\|DATA\)' | grep -v ' 0 '
  summary all            1 undone: mobile returned
  summary all            1 undone: cause not told
  summary all            1 in DATA INDICATION: HANDOVER FAILURE
  summary all            1 in DATA INDICATION: HANDOVER COMPLETE

The centre hangs up a call that is on the move: the attempt is undone, since its call is cleared.

  $ printf 'sim\nopen 1 0 0 3\nhold 1 1 3\nhandover 1 1\nhangup 1\n' >hung_up.txt
  $ ./lab run examples/two_cells.toml hung_up.txt --summary | grep '^summary all.*\(cleared\|undone\)' | grep -v ' 0 '
  summary all            1 calls cleared
  summary all            1 undone: call cleared

T7 and T8 are timers, too, and what another timer ends isn't counted.

  $ printf 'open 1 0 0 3\nabis 0 0 0822010b081234\nhandover 1 64\nexpire 1 T8\nexpire 1 T7\n' >timers.txt
  $ ./lab run examples/two_cells.toml timers.txt --summary | grep '^summary all.*\(attempts\|undone\)' | grep -v ' 0 '
  summary all            1 outgoing attempts
  summary all            1 undone: timer

An attempt counts where its call is served; one that comes, where it goes to. Of two controllers each is counted by itself.

  $ ./lab run examples/two_cells.toml examples/handover_between.txt --peer examples/one_cell.toml --summary >printed
  $ grep 'summary' printed | grep -v ' in \| out \| 0 '
  1: summary all            1 calls opened
  1: summary all            1 outgoing attempts
  1: summary all            1 completed
  1: summary all        100.0 % of activations confirmed: 1 of 1
  1: summary all        100.0 % of outgoing attempts completed: 1 of 1
  2: summary all            1 incoming attempts
  2: summary all            1 completed
  2: summary all        100.0 % of activations confirmed: 1 of 1
  2: summary all        100.0 % of incoming attempts completed: 1 of 1
  $ grep 'summary cell' printed
  1: summary cell 0         1 calls opened
  1: summary cell 0         1 outgoing attempts
  1: summary cell 0         1 completed
  1: summary cell 0     100.0 % of activations confirmed: 1 of 1
  1: summary cell 0     100.0 % of outgoing attempts completed: 1 of 1
  1: summary cell 0         1 out CHANNEL ACTIVATION
  1: summary cell 0         1 in CHANNEL ACTIVATION ACK
  1: summary cell 0         1 out DATA REQUEST: HANDOVER COMMAND
  1: summary cell 0         1 out RF CHANNEL RELEASE
  1: summary cell 0         1 in RF CHANNEL RELEASE ACK
  2: summary cell 0         1 incoming attempts
  2: summary cell 0         1 completed
  2: summary cell 0     100.0 % of activations confirmed: 1 of 1
  2: summary cell 0     100.0 % of incoming attempts completed: 1 of 1
  2: summary cell 0         1 out CHANNEL ACTIVATION
  2: summary cell 0         1 in CHANNEL ACTIVATION ACK
  2: summary cell 0         1 in HANDOVER DETECTION
  2: summary cell 0         1 in DATA INDICATION: HANDOVER COMPLETE
  $ grep 'summary from' printed
  1: summary from 0   to -         1 attempts, 1 completed
  2: summary from -   to 0         1 attempts, 1 completed
  $ grep summary printed >counted
  $ ./lab summary examples/handover_between.trace | cmp - counted

As JSON each of two controllers has its own numbers, too.

  $ ./lab summary examples/handover_between.trace --json >between.json
  $ python3 - <<'END'
  > import json
  > for it in json.load(open("between.json"))["controllers"]:
  >     print(it["all"]["calls"], it["all"]["attempts"], it["all"]["completed"], [cell["cell"] for cell in it["cells"]])
  > END
  {'opened': 1, 'cleared': 0} {'internal': 0, 'incoming': 0, 'outgoing': 1} 1 [0]
  {'opened': 0, 'cleared': 0} {'internal': 0, 'incoming': 1, 'outgoing': 0} 1 [0]

As JSON it is one object in one line, the same by keys.

  $ ./lab run examples/two_cells.toml examples/one_call.txt --summary --json | tail -n 1 >counted.json
  $ cat counted.json
  {"controllers":[{"all":{"calls":{"opened":1,"cleared":1},"attempts":{"internal":0,"incoming":0,"outgoing":0},"completed":0,"undone":{"activation_refused":0,"mobile_returned":0,"timer":0,"rejected_by_centre":0,"operator":0,"call_cleared":0,"not_told":0},"turned_away":0,"faults":0,"rates":{"activations":{"asked":1,"done":1,"percent":100.0},"internal":{"asked":0,"done":0,"percent":null},"incoming":{"asked":0,"done":0,"percent":null},"outgoing":{"asked":0,"done":0,"percent":null}},"received":{"CHANNEL ACTIVATION ACK":1,"RF CHANNEL RELEASE ACK":1},"sent":{"CHANNEL ACTIVATION":1,"RF CHANNEL RELEASE":1}},"cells":[{"cell":0,"calls":{"opened":1,"cleared":1},"attempts":{"internal":0,"incoming":0,"outgoing":0},"completed":0,"undone":{"activation_refused":0,"mobile_returned":0,"timer":0,"rejected_by_centre":0,"operator":0,"call_cleared":0,"not_told":0},"turned_away":0,"faults":0,"rates":{"activations":{"asked":1,"done":1,"percent":100.0},"internal":{"asked":0,"done":0,"percent":null},"incoming":{"asked":0,"done":0,"percent":null},"outgoing":{"asked":0,"done":0,"percent":null}},"received":{"CHANNEL ACTIVATION ACK":1,"RF CHANNEL RELEASE ACK":1},"sent":{"CHANNEL ACTIVATION":1,"RF CHANNEL RELEASE":1}}],"handovers":[]}]}
  $ ./lab run examples/two_cells.toml examples/one_call.txt >printed
  $ ./lab summary printed --json | cmp - counted.json
  $ ./lab run examples/two_cells.toml each.txt >printed
  $ ./lab summary printed --json >counted.json
  $ python3 - <<'END'
  > import json
  > controller, = json.load(open("counted.json"))["controllers"]
  > print(controller["all"]["attempts"], controller["all"]["undone"], controller["all"]["faults"])
  > print([(it["cell"], it["faults"], it["turned_away"]) for it in controller["cells"]])
  > for name, rate in controller["all"]["rates"].items():
  >     print(name, rate)
  > print([it["rates"]["activations"]["percent"] for it in controller["cells"]])
  > print(controller["handovers"])
  > END
  {'internal': 6, 'incoming': 0, 'outgoing': 1} {'activation_refused': 1, 'mobile_returned': 1, 'timer': 1, 'rejected_by_centre': 1, 'operator': 1, 'call_cleared': 1, 'not_told': 0} 2
  [(0, 1, 0), (1, 0, 1)]
  activations {'asked': 9, 'done': 6, 'percent': 66.6}
  internal {'asked': 6, 'done': 1, 'percent': 16.6}
  incoming {'asked': 0, 'done': 0, 'percent': None}
  outgoing {'asked': 1, 'done': 0, 'percent': 0.0}
  [100.0, 50.0]
  [{'from': 0, 'to': 1, 'attempts': 6, 'completed': 1}, {'from': 0, 'to': None, 'attempts': 1, 'completed': 0}]
  $ ./lab run examples/two_cells.toml examples/one_call.txt --json 2>&1
  *--summary* (glob)
  [2]

A controller that is given its lines as they come answers summary by what came so far. The line counts as one, and changes nothing.

  $ printf 'open 1 0 0 3\nsummary\r\nclear 9 9\nclear 1\nsummary' | ./lab live examples/two_cells.toml 2>errors >printed
  $ grep -n 'calls\|^in\|^line\|^end' printed
  1:in open 1 0 0 3
  4:summary all            1 calls opened
  5:summary all            0 calls cleared
  24:summary cell 0         1 calls opened
  27:line 3
  28:in clear 1
  32:summary all            1 calls opened
  33:summary all            1 calls cleared
  53:summary cell 0         1 calls opened
  54:summary cell 0         1 calls cleared
  58:end channels=1 calls=0 references=0 timers=0
  $ cat errors
  standard input:3: nothing may follow clear CALL, found 9
  $ printf 'summary all\nSummary\n summary\n' | ./lab live examples/two_cells.toml 2>/dev/null
  line 1
  line 2
  line 3
  end channels=0 calls=0 references=0 timers=0
  $ printf 'summary\n' >asked.txt
  $ ./lab run examples/two_cells.toml asked.txt 2>/dev/null
  line 1
  [2]

It is counted beside the history, which begins anew behind each line here.

  $ printf 'open 1 0 0 3\nclear 1\nsummary\n' | ./lab live examples/two_cells.toml --history 1 | grep '^summary all.*calls'
  summary all            1 calls opened
  summary all            1 calls cleared

Events without their input tell no cause, and none without a record its cell. Lines that aren't counted are passed over.

  $ cat >events.trace <<'END'
  > # a comment
  > event take 1 internal 1/1/3 -> done
  > event undo 1 asked -> record 0/0/3 on internal taken 1/1/3 -
  > event clear 1 -> done
  > none free 7
  > end channels=0 calls=0 references=0 timers=0
  > END
  $ ./lab summary events.trace | grep -v ' 0 [a-z]'
  summary all            1 calls cleared
  summary all            1 internal attempts
  summary all            1 undone: cause not told
  summary all            1 turned away (none free)
  summary cell 0         1 calls cleared
  summary cell 0         1 undone: cause not told
  summary cell 7         1 turned away (none free)

An undo by a timer tells its cause itself; another one has it from its input, here a timer's, too.

  $ cat >expired.trace <<'END'
  > event undo 1 t8 -> record 0/0/3 on outgoing ordered - -
  > in expire 2 T7
  > event undo 2 asked -> record 0/0/2 on outgoing required - -
  > END
  $ ./lab summary expired.trace --cut | grep -v ' 0 [a-z]'
  summary all            2 undone: timer
  summary cell 0         2 undone: timer

Of which kind an attempt was that is completed, and where it leads, is told by a record of the same input; a channel that is
activated for an attempt, by the opening. Without these an event is counted, but of no kind and no cell.

  $ cat >kinds.trace <<'END'
  > in handover 1 1
  > event look 1 -> record 0/0/3 on
  > event take 1 internal 1/1/3 -> done
  > event reserve 1 0 -> done
  > event activate 1 -> done
  > in abis 1 1 0822010b080000
  > event confirm 1/1/3 -> owned 1
  > in handover 2 2
  > event look 2 -> record 0/0/2 on
  > event take 2 internal 2/0/1 -> done
  > event reserve 2 0 -> done
  > event activate 2 -> done
  > in abis 1 1 0302010b02000b0003062c00
  > event owner 1/1/3 -> owned 1
  > event look 1 -> record 0/0/3 on internal detected 1/1/3 0
  > event complete 1 -> done
  > in abis 2 0 0302010902000b0003062c00
  > event complete 2 -> done
  > event activate 3 -> done
  > END
  $ ./lab summary kinds.trace --cut | grep 'completed\|activations'
  summary all            2 completed
  summary all         33.3 % of activations confirmed: 1 of 3
  summary all         50.0 % of internal attempts completed: 1 of 2
  summary all            - % of incoming attempts completed: 0 of 0
  summary all            - % of outgoing attempts completed: 0 of 0
  summary cell 0         1 completed
  summary cell 0      50.0 % of internal attempts completed: 1 of 2
  summary cell 1     100.0 % of activations confirmed: 1 of 1
  summary cell 2       0.0 % of activations confirmed: 0 of 1
  summary from 0   to 1         1 attempts, 1 completed
  summary from 0   to 2         1 attempts, 0 completed

The cell of a call's end is told by a record of the same input alone.

  $ cat >cleared.trace <<'END'
  > in clear 1
  > event look 1 -> record 1/1/3 on
  > event clear 1 -> done
  > in clear 2
  > event clear 2 -> done
  > END
  $ ./lab summary cleared.trace --cut | grep -v ' 0 [a-z]'
  summary all            2 calls cleared
  summary cell 1         1 calls cleared

A line that begins as one that is counted has to be one.

  $ for line in 'in open 1 0 0' 'in sim' 'event look 1' 'event look 1 -> perhaps' 'event leave 1 -> done' \
  >   'none free 256' 'out clear 1' 'out abis 0 0 0' 'fault x 1' '2: in look 1'; do
  >   printf 'in open 1 0 0 3\n%s\n' "$line" >bad.trace
  >   ./lab summary bad.trace --cut 2>errors; echo "$? $(cat errors)"
  > done
  line 2
  2 bad.trace:2: run prints no such line
  line 2
  2 bad.trace:2: run prints no such line
  line 2
  2 bad.trace:2: run prints no such line
  line 2
  2 bad.trace:2: run prints no such line
  line 2
  2 bad.trace:2: run prints no such line
  line 2
  2 bad.trace:2: run prints no such line
  line 2
  2 bad.trace:2: run prints no such line
  line 2
  2 bad.trace:2: run prints no such line
  line 2
  2 bad.trace:2: run prints no such line
  line 1
  2 bad.trace:1: in a trace of two controllers this line has to begin with 1: or 2:

Two traces in one file are none: of two controllers each line that is counted has a mark.

  $ ./lab run examples/two_cells.toml examples/one_call.txt >one.trace
  $ cat one.trace examples/handover_between.trace >mixed.trace
  $ ./lab summary mixed.trace 2>&1
  mixed.trace:1: in a trace of two controllers this line has to begin with 1: or 2:
  line 1
  [2]

A file that can't be read; one that is no trace.

  $ ./lab summary nothing.trace
  nothing.trace: * (glob)
  file nothing.trace
  [2]
  $ ./lab summary examples/two_cells.toml --json 2>&1
  examples/two_cells.toml: this isn't a trace, as run prints it
  no trace
  [2]
