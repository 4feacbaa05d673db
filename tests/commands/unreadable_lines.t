Lines of a script that can't be read, and why: what is wrong first in each. With a second controller, each line alone in a
script; behind '=>' stands what is said of it.

  $ say() {
  >   while IFS= read -r row; do
  >     printf '%b\n' "${row%% => *}" >script.txt
  >     printf 'line 1\n%s\n' "script.txt:1: ${row#* => }" >wanted
  >     ./lab run examples/two_cells.toml script.txt --peer examples/one_cell.toml >came 2>errors && echo "it is read: $row"
  >     cat came errors | diff wanted -
  >   done
  > }
  $ say <<'END'
  > open 1 0 0 8 => TN is 0 to 7, with /0 or /1 at the end for half rate, found 8
  > hold 0 0 3/2 => TN is 0 to 7, with /0 or /1 at the end for half rate, found 3/2
  > open 65536 256 0 3 => CALL is 0 to 65535, found 65536
  > open 1 +1 0 3 => CELL is 0 to 255, found +1
  > hold 0 256 3 => TRX is 0 to 255, found 256
  > abis 0 0 082 => HEX is one octet or more, each in two hexadecimal digits, found 082
  > a 1 0g => HEX is one octet or more, each in two hexadecimal digits, found 0g
  > expire 1 t7 => TIMER is T3103, T7 or T8, found t7
  > 2: mobile 0 0 3 stay => HABIT is arrive, return or vanish, found stay
  > double 0 0 8 => TN is 0 to 7, with /0 or /1 at the end for half rate, found 8
  > cut 0 0 3 0 => N is 1 to 255, found 0
  > 2: cut 0 0 3 256 => N is 1 to 255, found 256
  > cut 0 0 3 +1 => N is 1 to 255, found +1
  > open  1 0 0 3 => CALL is 0 to 65535, found two blanks, or one at the end
  > undo  => CALL is 0 to 65535, found two blanks, or one at the end
  > undo 1\t => CALL is 0 to 65535, found 1\t
  > undo => CALL is missing in undo CALL
  > open 1 0 0 => TN is missing in open CALL CELL TRX TN
  > mobile 0 => TRX is missing in mobile CELL TRX TN HABIT
  > double 0 0 => TN is missing in double CELL TRX TN
  > cut 0 0 3 => N is missing in cut CELL TRX TN N
  > clear 1 1 2 => nothing may follow clear CALL, found 1
  > double 0 0 3 2 => nothing may follow double CELL TRX TN, found 2
  > cut 0 0 3 4 5 => nothing may follow cut CELL TRX TN N, found 5
  > abis 0 0 08 33 => nothing may follow abis CELL TRX HEX, found 33
  > sim  => nothing may follow sim, found a blank
  > abis 0 0 CHANEL ACTIVATION ACK tn=3 frame=0 => HEX is one octet or more, each in two hexadecimal digits, or a message in words, found CHANEL ACTIVATION ACK
  > a 1 clear command cause=9 => HEX is one octet or more, each in two hexadecimal digits, or a message in words, with its name in capitals, found clear
  > abis 0 0 CHANNEL ACTIVATION ACK tn=8 frame=0 => tn is 0 to 7, with /0 or /1 at the end for half rate, found "8"
  > abis 0 0 CHANNEL ACTIVATION ACK tn=3 => frame is missing
  > 2: a 1 CLEAR COMMAND cause=9 rr=0 => "rr=0" is no field of the message
  > a 1 CHANNEL ACTIVATION ACK tn=3 frame=0 => HEX is one octet or more, each in two hexadecimal digits, or a message in words, found CHANNEL ACTIVATION ACK
  > report => CALL is missing in report CALL FIELD
  > report al full=30 n=- => CALL is 0 to 65535, or all, found al
  > report 1 => FIELD is missing in report CALL FIELD
  > report 1 n=- => full is missing, as in full=30
  > report 1 full=30 times=2 => n is missing, as in n=1:40, or n=- for none
  > answer 1 => ANSWER is missing in answer CALL ANSWER
  > answer 1 acknowledged => ANSWER is ack, nack, detect, complete, failure or released, found acknowledged
  > answer 1 ack 2 => nothing may follow answer CALL ANSWER, found 2
  > hold 0 0 3 ack => ANSWER is detection or complete, found ack
  > hold 0 0 3 complete 1 => nothing may follow hold CELL TRX TN ANSWER, found 1
  > mobile 1 stay => HABIT is arrive, return or vanish, found stay
  > mobile all return => CALL is 0 to 65535, found all
  > mobile 1 2 => TN is missing in mobile CELL TRX TN HABIT
  > restart => CELL is missing in restart CELL
  > restart 256 => CELL is 0 to 255, found 256
  > 2: restart 0 x => TRX is 0 to 255, found x
  > restart 0  => TRX is 0 to 255, found two blanks, or one at the end
  > restart 0 0 3 => nothing may follow restart CELL TRX, found 3
  > 2: # a comment => 2: is followed by open, seize, handover, undo, clear, expire, abis, a, report, answer, refuse, hold, let, mobile, double, cut, restart or hangup, found #
  > 2:  => 2: is followed by open, seize, handover, undo, clear, expire, abis, a, report, answer, refuse, hold, let, mobile, double, cut, restart or hangup, found two blanks, or one at the end
  > 2: sim 1 => sim is for both controllers, and is written without 2:
  > \0357\0273\0277sim => the line begins with a byte order mark
  > undo 0123456789012345678901234567890123456789012345678901234567890 => CALL is 0 to 65535, found 012345678901234567890123456789012345678901234567890123456789..
  > END

Lines that begin with no word of theirs.

  $ say <<'END'
  > opan 1 0 0 3 => a line begins with open, seize, handover, undo, clear, expire, abis, a, report, answer, sim, refuse, hold, let, mobile, double, cut, restart or hangup, with 2: and a blank, or with #, found opan
  >  open 1 0 0 3 => a line begins with open, seize, handover, undo, clear, expire, abis, a, report, answer, sim, refuse, hold, let, mobile, double, cut, restart or hangup, with 2: and a blank, or with #, found a blank
  > open\t1 0 0 3 => a line begins with open, seize, handover, undo, clear, expire, abis, a, report, answer, sim, refuse, hold, let, mobile, double, cut, restart or hangup, with 2: and a blank, or with #, found open\t1
  > 2:undo 1 => a line begins with open, seize, handover, undo, clear, expire, abis, a, report, answer, sim, refuse, hold, let, mobile, double, cut, restart or hangup, with 2: and a blank, or with #, found 2:undo
  > END

Fields of a report, where there is one controller; behind '=>' stands how what is said of them ends.

  $ while IFS= read -r row; do
  >   printf 'report 1 %s\n' "${row%% => *}" >script.txt
  >   ./lab run examples/two_cells.toml script.txt >came 2>errors && echo "it is read: $row"
  >   echo 'line 1' | cmp - came
  >   case $(cat errors) in script.txt:1:*" ${row#* => }") ;; *) echo "$row"; cat errors ;; esac
  > done <<'END'
  > full=64 n=- => full is 0 to 63, found 64
  > full=30 sub=64 n=- => sub is 0 to 63, found 64
  > full=30 n=-,1:40 => between any two, or -, found -,1:40
  > full=30 n=1:64 => between any two, or -, found 1:64
  > full=30 n=256:1 => between any two, or -, found 256:1
  > full=30 n=1 => between any two, or -, found 1
  > full=30 n= => between any two, or -, found nothing
  > full=30 n=1:1, => between any two, or -, found 1:1,
  > full=30 n=1:1,1:1,1:1,1:1,1:1,1:1,1:1 => between any two, or -, found 1:1,1:1,1:1,1:1,1:1,1:1,1:1
  > full=30 full=30 n=- => full is given twice
  > full=30 n=- n=- => n is given twice
  > full=30 dtx dtx n=- => dtx is given twice
  > full=30 dtx=1 n=- => each once, found dtx=1
  > full=30 qfull=8 n=- => qfull is 0 to 7, found 8
  > full=30 qsub=8 n=- => qsub is 0 to 7, found 8
  > full=30 ta=64 n=- => ta is 0 to 63, found 64
  > full=30 power=256 n=- => power is 0 to 255, found 256
  > full=30 times=0 n=- => times is 1 to 255, found 0
  > full=30 times=256 n=- => times is 1 to 255, found 256
  > full=30 level=3 n=- => each once, found level=3
  > full=30 FULL=30 n=- => each once, found FULL=30
  > full=30 n=-  => each once, found two blanks, or one at the end
  > END

Of a script the first such line is named, counted from 1. Lines for the second controller need one, and some lines need a
line `sim` before them.

  $ name() { printf "$1" >script.txt; shift; ./lab run examples/two_cells.toml script.txt "$@" 2>&1; }
  $ name 'open 1 0 0 3\r\nopen 2 0 0 8\r\n'
  script.txt:2: TN is 0 to 7, with /0 or /1 at the end for half rate, found 8
  line 2
  [2]
  $ name 'undo 1\nundu 1\n'
  script.txt:2: a line begins with open, seize, handover, undo, clear, expire, abis, a, report, answer, sim, refuse, hold, let, mobile, double, cut, restart or hangup, or with #, found undu
  line 2
  [2]
  $ name 'undo 1\n2: undo 1\n'
  script.txt:2: 2: is for a second controller, but there is none (--peer SITE)
  line 2
  [2]
  $ name 'hold 0 0 3\nsim\n'
  script.txt:1: hold CELL TRX TN needs a line sim before it
  line 1
  [2]
  $ name 'mobile 1 return\nsim\n'
  script.txt:1: mobile CALL HABIT needs a line sim before it
  line 1
  [2]
  $ name 'hold 0 0 3 detection\nsim\n'
  script.txt:1: hold CELL TRX TN ANSWER needs a line sim before it
  line 1
  [2]
  $ name 'restart 0\nsim\n'
  script.txt:1: restart CELL needs a line sim before it
  line 1
  [2]
  $ name '2: restart 0 1\n' --peer examples/one_cell.toml
  script.txt:1: restart CELL TRX needs a line sim before it
  line 1
  [2]
  $ name '2: hangup 1\n' --peer examples/one_cell.toml
  script.txt:1: hangup CALL needs a line sim before it
  line 1
  [2]

The same with two controllers, and what isn't there by the number alone.

  $ number() { name "$@" 2>/dev/null | grep '^line'; }
  $ number 'open 1 0 0 3\n\n# a comment\nundo x\nundo y\n' --peer examples/one_cell.toml
  line 4
  $ number 'open 1 0 0 3\n2: hold 0 0 3\nsim\n' --peer examples/one_cell.toml
  line 2
  $ number 'sim\nrefuse 0 0 3\nsim\nhangup\n' --peer examples/one_cell.toml
  line 4
  $ number 'open 1 0 0 3/1\nopen 2 0 0 3/2\n' --peer examples/one_cell.toml
  line 2
  $ number 'sim\nhold 0 0 3/\n' --peer examples/one_cell.toml
  line 2
  $ number 'open 1 0 0 /0' --peer examples/one_cell.toml
  line 1
  $ number 'open 1 0 0 8/0' --peer examples/one_cell.toml
  line 1
  $ number 'open 1 0 0 3/00' --peer examples/one_cell.toml
  line 1
  $ number 'sim\nmobile 0 0 3/0/1 return' --peer examples/one_cell.toml
  line 2
  $ number 'undo 1\n\n2: clear 1\r\n'
  line 3

Lines that can be read, once the simulators are attached.

  $ cat >script.txt <<'END'
  > 
  > # 2: open
  > open 0001 00 000 03
  > seize 2 255 full
  > handover 2 255
  > undo 0
  > clear 65535
  > expire 1 T3103
  > abis 0 0 0822010B08AbCd
  > a 1 00
  > abis 0 0 CHANNEL ACTIVATION NACK cause=32 tn=3/1
  > a 1 CLEAR COMMAND cause=9
  > report 1 full=63 n=-
  > report all times=255 n=0:63,1:0,2:0,3:0,64:0,255:0 dtx full=0 sub=0 qfull=7 qsub=7 ta=63 power=255
  > answer 1 released
  > sim
  > refuse 0 0 3
  > hold 0 0 3
  > hold 0 0 3/0 detection
  > hold 0 0 3 complete
  > mobile 65535 vanish
  > let 0 0 3
  > mobile 0 0 3 arrive
  > restart 0
  > restart 000 01
  > 2: restart 255
  > hangup 1
  > 2: open 1 0 0 3
  > 2: seize 1 0 half
  > 2: hangup 1
  > 2: report 1 full=0 n=-
  > 2: answer 1 ack
  > 2: mobile 1 arrive
  > END
  $ ./lab run examples/two_cells.toml script.txt --peer examples/one_cell.toml 2>/dev/null | tail -n 1
  2: end channels=0 calls=0 references=0 timers=0
