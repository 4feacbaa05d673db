A controller with a journal notes what came of each line before anything of it leaves. What it prints is the same.

  $ cat examples/handover_undone.trace | sed -n 's/^in //p' >lines
  $ ./lab live examples/two_cells.toml <lines >plain
  $ ./lab live examples/two_cells.toml --journal j <lines | cmp - plain
  $ ls j
  00000000000000000000.journal
  lock

A file is text: its first line, a head with the checksum of the site, and a record of each line, also of one that can't be read.

  $ printf 'open 1 0 0 3\nfrob\n\n' | ./lab live examples/two_cells.toml --journal k 2>errors
  in open 1 0 0 3
  event open 1 0/0/3 -> done
  out abis 0 0 0821010b0300060400010801
  line 2
  end channels=1 calls=1 references=0 timers=0
  $ cat errors
  standard input:2: * (glob)
  $ sed 's/^\(record [0-9]* [0-9]*\) .*/\1/; s/^site .*/site/' k/*.journal
  gofnild journal 1
  record 00000000000000000000 00000000000000000016
  site
  record 00000000000000000001 00000000000000000081
  in open 1 0 0 3
  event open 1 0/0/3 -> done
  out abis 0 0 0821010b0300060400010801
  record 00000000000000000002 00000000000000000007
  line 2
  record 00000000000000000003 00000000000000000000

The next controller goes on from there, and counts on. What was sent for the lines behind one that was heard is told once more.

  $ printf 'abis 0 0 0822010b081234\nfrob\n' | ./lab live examples/two_cells.toml --journal k --heard 0 2>errors
  1: out abis 0 0 0821010b0300060400010801
  in abis 0 0 0822010b081234
  event confirm 0/0/3 -> owned 1
  event look 1 -> record 0/0/3 on
  line 5
  end channels=1 calls=1 references=0 timers=0
  $ head -1 errors
  resumed after line 3: channels=1 calls=1
  $ ./lab live examples/two_cells.toml --journal k --heard 5 </dev/null
  resumed after line 5: channels=1 calls=1
  end channels=1 calls=1 references=0 timers=0
  $ ./lab live examples/two_cells.toml --journal k --heard 6 </dev/null
  k: no file has the line that --heard names
  [2]

It knows the calls of its book in words, and has all of it in states, also where the file begins with that book.

  $ printf 'open 1 0 0 3\nabis 0 0 0822010b081234\nopen 2 0 0 2\nclear 2\n' >four
  $ for entries in 100 1; do
  >   ./lab live examples/two_cells.toml --journal w$entries --history $entries <four >/dev/null
  >   echo abis 0 0 0833010b | ./lab live examples/two_cells.toml --journal w$entries --words --state >w$entries.trace 2>/dev/null
  > done
  $ cat w100.trace
  in abis 0 0 0833010b # call 1; RF CHANNEL RELEASE ACK tn=3; ignored: this stage doesn't expect it
  event released 0/0/3 -> refused 8 0/0/3 # call 1; Unexpected: no call has this channel, or it doesn't wait for this message of its station
  state channel 0/0/2 off
  state channel 0/0/3 on call 1
  state call 1 record 0/0/3 on
  end channels=2 calls=1 references=0 timers=0 # this is left
  state channel 0/0/2 off
  state channel 0/0/3 on call 1
  state call 1 record 0/0/3 on
  $ cmp w1.trace w100.trace

The line sim can't be read.

  $ echo sim | ./lab live examples/two_cells.toml --journal l 2>said
  line 1
  end channels=0 calls=0 references=0 timers=0
  $ cat said
  standard input:1: simulators can't be attached to a controller with a journal

A record that was cut at the end is dropped.

  $ cp -r k m; truncate -s -3 m/*.journal
  $ ./lab live examples/two_cells.toml --journal m </dev/null
  m/00000000000000000000.journal: the record after line 4 is cut off, and is dropped
  resumed after line 4: channels=1 calls=1
  end channels=1 calls=1 references=0 timers=0
  $ ./lab live examples/two_cells.toml --journal m </dev/null 2>&1 >/dev/null
  resumed after line 4: channels=1 calls=1

So it is where the file had grown and what was written hadn't come: zeros stand at the end, behind whole records or one that was
cut. What stands behind zeros makes them damage.

  $ cp -r k m0; truncate -s +9999 m0/*.journal
  $ cp -r k m3; truncate -s -3 m3/*.journal; truncate -s +4 m3/*.journal
  $ cp -r m0 mx; echo >>mx/00000000000000000000.journal
  $ ./lab audit examples/two_cells.toml m0/*.journal | tail -1
  same
  $ for folder in m0 m3 mx m0; do ./lab live examples/two_cells.toml --journal $folder </dev/null 2>&1 >/dev/null; done
  m0/00000000000000000000.journal: the record after line 5 is cut off, and is dropped
  resumed after line 5: channels=1 calls=1
  m3/00000000000000000000.journal: the record after line 4 is cut off, and is dropped
  resumed after line 4: channels=1 calls=1
  mx/00000000000000000000.journal: record 6 is damaged; truncate -s 621 cuts the file after octet 621, and leaves a whole journal without the records from 6 on; of these none is whole
  resumed after line 5: channels=1 calls=1

Refused are a damaged record, another site, another version, what is no journal, and a file under another name; and nothing is
changed.

  $ cp -r k n; sed -i 's/^in open 1 0 0 3/in open 1 0 0 2/' n/*.journal; cp -r n old
  $ ./lab live examples/two_cells.toml --journal n </dev/null
  n/00000000000000000000.journal: record 1 is damaged; truncate -s 101 cuts the file after octet 101, and leaves a whole journal without the records from 1 on; of these the last whole one is 5
  [2]
  $ diff -r n old
  $ ./lab live examples/one_cell.toml --journal k </dev/null
  k/00000000000000000000.journal: the journal belongs to another site
  [2]
  $ cp -r k o; sed -i '1s/1$/2/' o/*.journal
  $ ./lab live examples/two_cells.toml --journal o </dev/null
  o/00000000000000000000.journal: the file is a journal of an unknown version
  [2]
  $ cp -r k p; echo frob >p/00000000000000000000.journal
  $ ./lab live examples/two_cells.toml --journal p </dev/null
  p/00000000000000000000.journal: the file isn't a journal
  [2]

  $ mkdir u; cp k/00000000000000000000.journal u/00000000000000000007.journal
  $ ./lab live examples/two_cells.toml --journal u </dev/null
  u/00000000000000000007.journal: the number in the journal's head isn't that of the file's name
  [2]

A hole is refused, too: zeros, and a whole record behind them. It is said where the file can be cut. (The head ends behind octet
101, and each record has 67 octets and a body of 37.)

  $ for n in 1 2 3 4; do echo clear $n; done | ./lab live examples/two_cells.toml --journal hole >/dev/null
  $ cat >holed <<'END'
  > import sys
  > octets = open(sys.argv[1], "rb").read()
  > at, behind = (octets.index(b"record 0000000000000000000%d " % number) for number in (3, 4))
  > open(sys.argv[1], "wb").write(octets[:at] + bytes(behind - at) + octets[behind:])
  > END
  $ python3 holed hole/*.journal; cp -r hole hole.before
  $ ./lab live examples/two_cells.toml --journal hole </dev/null
  hole/00000000000000000000.journal: record 3 is damaged; truncate -s 309 cuts the file after octet 309, and leaves a whole journal without the records from 3 on; of these the last whole one is 4
  [2]
  $ diff -r hole hole.before
  $ truncate -s 309 hole/*.journal
  $ ./lab live examples/two_cells.toml --journal hole --heard 3 </dev/null
  hole: no file has the line that --heard names
  [2]
  $ ./lab live examples/two_cells.toml --journal hole --heard 2 </dev/null
  resumed after line 2: channels=0 calls=0
  end channels=0 calls=0 references=0 timers=0

Refused are a newest file that is empty, or can't be read, and a folder without a name.

  $ cp -r k v; touch v/00000000000000000009.journal; cp -r k w; mkdir w/00000000000000000009.journal
  $ ./lab live examples/two_cells.toml --journal v </dev/null
  v/00000000000000000009.journal: the file isn't a journal
  [2]
  $ ./lab live examples/two_cells.toml --journal w </dev/null
  w/00000000000000000009.journal: is a folder
  [2]
  $ ls /lock; ./lab live examples/two_cells.toml --journal '' </dev/null; ls /lock
  ls: cannot access '/lock': No such file or directory
  : no such file
  ls: cannot access '/lock': No such file or directory
  [2]

Nothing is told of a journal that can't be gone on with: before, its last file is written anew.

  $ cp -r k z; mkdir z/begun.tmp
  $ ./lab live examples/two_cells.toml --journal z --heard 0 </dev/null
  z: * (glob)
  [2]

Where no journal is, no line was heard.

  $ mkdir nothing; ./lab live examples/two_cells.toml --journal nothing --heard 1 </dev/null
  nothing: no file has the line that --heard names
  [2]
  $ ./lab live examples/two_cells.toml --journal nothing --heard 0 </dev/null
  end channels=0 calls=0 references=0 timers=0

Nobody waits for what is no file. Others may not read what is one.

  $ cp -r k v1; rm v1/lock; mkfifo v1/lock
  $ cp -r k v2; mkfifo v2/00000000000000000009.journal
  $ cp -r k v3; rm v3/lock; mkdir v3/lock
  $ for folder in v1 v2 v3; do timeout 60 ./lab live examples/two_cells.toml --journal $folder </dev/null; done
  v1/lock: isn't a file
  v2/00000000000000000009.journal: isn't a file
  v3/lock: is a folder
  [2]
  $ stat -c '%a %n' k/*
  600 k/00000000000000000000.journal
  600 k/lock

Nothing is written through a link that somebody else made.

  $ cp -r k x; echo mine >other; ln -s $PWD/other x/begun.tmp
  $ ./lab live examples/two_cells.toml --journal x </dev/null 2>&1 >/dev/null
  resumed after line 5: channels=1 calls=1
  $ cat other; find x -type l
  mine

Files that aren't the journal's are left alone.

  $ touch k/notes.txt
  $ ./lab live examples/two_cells.toml --journal k </dev/null 2>&1 >/dev/null
  k/notes.txt: not a file of the journal, so it is left alone
  resumed after line 5: channels=1 calls=1

A journal is one controller's.

  $ mkfifo in; ./lab live examples/two_cells.toml --journal k <in >/dev/null 2>said & exec 3>in
  $ until grep -q resumed said; do sleep 0.1; done
  $ ./lab live examples/two_cells.toml --journal k </dev/null
  k: another controller has this journal
  [2]
  $ rm k/lock; ./lab live examples/two_cells.toml --journal k </dev/null
  k: another controller has this journal
  [2]
  $ exec 3>&-; wait
  $ touch file; ./lab live examples/two_cells.toml --journal file/j </dev/null
  file/j: * (glob)
  [2]
  $ ./lab live examples/two_cells.toml --journal file </dev/null
  file: isn't a folder
  [2]

Its folder may lie in one that may not be read. That is told where a journal begins: so the folder's name can't be synced.

  $ unread() { if [ "$(id -u)" = 0 ]; then setpriv --bounding-set=-dac_override,-dac_read_search "$@"; else "$@"; fi; }
  $ mkdir -p above/v; chmod 300 above
  $ for word in v v new; do unread ./lab live examples/two_cells.toml --journal above/$word </dev/null 2>&1 >/dev/null; done
  above/v: its parent folder can't be synced: if power fails, this folder may be lost
  resumed after line 0: channels=0 calls=0
  above/new: its parent folder can't be synced: if power fails, this folder may be lost
  $ chmod 700 above

Counted is what the lines of a file tell, not its head, whose calls were opened before.

  $ printf 'open 1 0 0 3\nabis 0 0 0822010b081234\nclear 1\nopen 2 0 0 2\nclear 2\n' |
  >   ./lab live examples/two_cells.toml --history 2 --journal heads >whole
  $ for file in heads/*.journal; do ./lab summary $file | awk '/all.*calls opened/ { print $3 }'; done | paste -sd+
  1+0+1+0
  $ ./lab summary whole | awk '/all.*calls opened/ { print $3 }'
  2

It may be a link to one.

  $ cp -r k real; ln -s real linked
  $ ./lab live examples/two_cells.toml --journal linked </dev/null 2>&1 >/dev/null
  linked/notes.txt: not a file of the journal, so it is left alone
  resumed after line 5: channels=1 calls=1

With a short history files are begun, each with the events that lead to its book, and audit reads each as a trace.

  $ ./lab live examples/two_cells.toml --journal q --history 3 <lines | cmp - plain
  $ ls q
  00000000000000000000.journal
  00000000000000000002.journal
  00000000000000000003.journal
  lock
  $ sed -n 's/^event //p' q/00000000000000000003.journal
  open 1 0/0/3 -> done
  confirm 0/0/3 -> owned 1
  take 1 internal 1/1/3 -> done
  reserve 1 0 -> done
  activate 1 -> done
  undo 1 asked -> record 0/0/3 on internal sent 1/1/3 0
  released 1/1/3 -> done
  $ for file in q/*.journal; do ./lab audit examples/two_cells.toml $file | sed -n '1p;$p'; done
  attempts 0
  same
  attempts 0
  same
  attempts 1
  same
  $ ./lab live examples/two_cells.toml --journal q --heard 1 </dev/null 2>&1
  resumed after line 5: channels=1 calls=1
  3: out abis 1 1 0821010b03020604000108010900
  4: out abis 1 1 082e010b
  end channels=1 calls=1 references=0 timers=0
  $ ./lab live examples/two_cells.toml --journal r --history 3 --keep 1 <lines | cmp - plain
  $ ls r
  00000000000000000003.journal
  lock
  $ ./lab live examples/two_cells.toml --journal r --heard 1 </dev/null
  r: no file has the line that --heard names
  [2]
  $ ./lab live examples/two_cells.toml --history 3 <lines | cmp - plain

A file has no more lines than a history has entries, also where the lines ask nothing of the book, or one controller after the other
ends before its history is long.

  $ for n in 1 2 3 4 5; do printf 'frob\nclear 1\n' | ./lab live examples/two_cells.toml --journal aa --history 3 >/dev/null 2>&1; done
  $ ls aa
  00000000000000000000.journal
  00000000000000000003.journal
  00000000000000000006.journal
  00000000000000000009.journal
  lock
  $ yes | head -7 | ./lab live examples/two_cells.toml --journal bb --history 3 --keep 1 >/dev/null 2>&1
  $ ls bb
  00000000000000000006.journal
  lock

Where lines are missing between files that isn't passed over in silence.

  $ cp -r q y; rm y/00000000000000000002.journal
  $ ./lab live examples/two_cells.toml --journal y --heard 1 </dev/null 2>&1
  y/00000000000000000000.journal: it doesn't have each line before the next file exactly once
  [2]

So where a file before the last one lacks a line.

  $ cp -r q yy; cat >without <<'END'
  > import sys
  > text = open(sys.argv[1]).read()
  > at, behind = text.index("record 00000000000000000001 "), text.index("record 00000000000000000002 ")
  > open(sys.argv[1], "w").write(text[:at] + text[behind:])
  > END
  $ python3 without yy/00000000000000000000.journal
  $ ./lab live examples/two_cells.toml --journal yy --heard 0 </dev/null
  yy/00000000000000000000.journal: it doesn't have each line before the next file exactly once
  [2]

An old file that somebody removed hinders none.

  $ rm said; mkfifo in2; ./lab live examples/two_cells.toml --journal cc --history 1 --keep 2 <in2 >said & exec 3>in2
  $ for n in 1 2 3 4 5 6; do
  >   echo clear $n >&3; until grep -q "^in clear $n" said; do sleep 0.1; done
  >   if [ $n = 3 ]; then rm cc/00000000000000000002.journal; fi
  > done
  $ exec 3>&-; wait; ls cc
  00000000000000000005.journal
  00000000000000000006.journal
  lock

A journal's folder is known by more than its path: where it is moved its files go with it. None comes into another folder at that
path, and none is removed there.

  $ told() { until grep -qs -e "^in clear $1" -e 'controller ends' said why; do sleep 0.1; done; }
  $ tell() { for n in "$@"; do (trap '' PIPE; echo clear $n >&4); told $n; done; }
  $ rm -f said why; mkfifo in4; ./lab live examples/two_cells.toml --journal moved --history 1 --keep 1 <in4 >said 2>&1 & exec 4>in4
  $ tell 1; mv moved away; for n in 1 2; do echo clear 9; done | ./lab live examples/two_cells.toml --journal moved --history 1 >/dev/null
  $ touch moved/begun.tmp; cp -r moved another; tell 2 3 4; exec 4>&-; wait
  $ diff -r moved another; ls away
  00000000000000000004.journal
  lock
  $ ./lab live examples/two_cells.toml --journal away </dev/null 2>&1 >/dev/null
  resumed after line 4: channels=0 calls=0

Where there is no /proc the folder at the path is looked at: the journal is lost with the next file, if it isn't the one that was
locked, or isn't there.

  $ bare() { unshare --user --map-root-user --mount sh -c 'mount -t tmpfs none /proc && exec "$0" "$@"' "$@"; }
  $ bare ls /proc
  $ bare ./lab live examples/two_cells.toml --journal bare --history 3 --keep 2 <lines 2>why | cmp - plain
  $ ls bare
  00000000000000000002.journal
  00000000000000000003.journal
  lock
  $ rm -r moved away another; echo clear 9 | ./lab live examples/two_cells.toml --journal second >/dev/null; cp -r second another
  $ rm said why; mkfifo in5; bare ./lab live examples/two_cells.toml --journal moved --history 2 <in5 >said 2>why & exec 4>in5
  $ tell 1; mv moved away; mv second moved; tell 2; exec 4>&-; wait; diff -r moved another; cat said; tail -1 why
  in clear 1
  event look 1 -> refused 1
  in clear 2
  event look 2 -> refused 1
  moved: the folder at this path isn't the one that was locked; the controller ends
  $ rm said why; mkfifo in6; bare ./lab live examples/two_cells.toml --journal gone --history 2 --journal-lost go-on <in6 >said 2>why & exec 4>in6
  $ tell 1; mv gone gone.away; tell 2 3; exec 4>&-; wait; sed 1,4d said; tail -1 why; ls gone
  in clear 3
  event look 3 -> refused 1
  end channels=0 calls=0 references=0 timers=0
  gone: the folder at this path isn't the one that was locked; the journal ends, and the controller goes on
  ls: cannot access 'gone': No such file or directory
  [2]
  $ ./lab live examples/two_cells.toml --journal gone.away </dev/null 2>&1 >/dev/null
  resumed after line 2: channels=0 calls=0

A damaged file is none of a trace; a record at the end that was cut is passed over.

  $ ./lab audit examples/two_cells.toml n/*.journal
  n/00000000000000000000.journal: the record at octet 101 is damaged
  file n/00000000000000000000.journal
  [2]
  $ cp -r q t; truncate -s -3 t/00000000000000000003.journal
  $ ./lab audit examples/two_cells.toml t/00000000000000000003.journal
  attempts 0
  held -
  choices -
  same

A file that can't be written ends the controller before anything of the line leaves, or it goes on, as is asked for. 512 octets have room
for three lines here: the first line (18 octets), the head (67 and 16), and three records (67 and 37 each).

  $ for n in $(seq 40); do echo clear $n; done >forty; ./lab live examples/two_cells.toml <forty >whole; head -6 whole >three
  $ (sed 's/.* \(.*\)/in clear \1\nevent look \1 -> refused 1/' forty; echo end channels=0 calls=0 references=0 timers=0) | cmp - whole
  $ full() { (ulimit -f 1; trap '' XFSZ; ./lab live examples/two_cells.toml --journal s-$1 --journal-lost $2 2>&1; echo status $?) | cat >$1; }
  $ full go-on go-on <forty
  $ grep -v '^in \|^event ' go-on
  s-go-on: File too large (os error 27); the journal ends, and the controller goes on
  end channels=0 calls=0 references=0 timers=0
  status 2
  $ grep '^in \|^event \|^end ' go-on | cmp - whole
  $ mkfifo in3; full one end <in3 & exec 3>in3
  $ for n in $(seq 40); do
  >   if grep -q ^status one; then break; fi; echo clear $n >&3
  >   until grep -q "^event look $n \|^status" one; do sleep 0.1; done
  > done
  $ exec 3>&-; wait; cat one
  in clear 1
  event look 1 -> refused 1
  in clear 2
  event look 2 -> refused 1
  in clear 3
  event look 3 -> refused 1
  s-one: File too large (os error 27); the controller ends
  status 2
  $ ./lab live examples/two_cells.toml --journal s-one </dev/null 2>&1 >/dev/null | grep resumed
  resumed after line 3: channels=0 calls=0

Where all lines are there at once, several are noted at once, and some of them may not have left.

  $ full end end <forty
  $ grep -v '^in \|^event ' end
  s-end: File too large (os error 27); the controller ends
  status 2
  $ grep '^in \|^event ' end >left; head -n $(wc -l <left) three | cmp - left
  $ ./lab live examples/two_cells.toml --journal s-end </dev/null 2>&1 >/dev/null | grep resumed
  resumed after line 3: channels=0 calls=0

On a full disk the last file can't be written anew: it is gone on with as it was, without a record that was cut. There is room up to
its octet 4,096: for 33 lines more behind line 4, which ends with octet 614, each of 104 octets; and for 50 octets of one more.

  $ cat >small <<'END'
  > mount -t tmpfs -o size=64k none disk
  > head -3 four | ./lab live examples/two_cells.toml --journal disk/j >/dev/null
  > truncate -s -3 disk/j/*.journal
  > head -c 65536 /dev/zero >disk/rest 2>/dev/null
  > for entries in 100 1; do
  >   echo clear 9 | ./lab live examples/two_cells.toml --journal disk/j --history $entries --heard 0 2>&1
  >   ls disk/j
  > done
  > yes clear 9 | head -99 | ./lab live examples/two_cells.toml --journal disk/j 2>&1 | grep -v '^in \|^event '
  > ./lab live examples/two_cells.toml --journal disk/new </dev/null
  > rm disk/rest; ./lab live examples/two_cells.toml --journal disk/j </dev/null
  > END
  $ mkdir disk; unshare --user --map-root-user --mount sh small
  disk/j: no space left; the last file isn't rewritten; new records are appended to it
  disk/j/00000000000000000000.journal: the record after line 2 is cut off, and is dropped
  resumed after line 2: channels=1 calls=1
  1: out abis 0 0 0821010b0300060400010801
  in clear 9
  event look 9 -> refused 1
  end channels=1 calls=1 references=0 timers=0
  00000000000000000000.journal
  lock
  disk/j: no space left; the last file isn't rewritten; new records are appended to it
  resumed after line 3: channels=1 calls=1
  1: out abis 0 0 0821010b0300060400010801
  in clear 9
  event look 9 -> refused 1
  disk/j: no space left; no new file is begun; records are appended to the last one
  end channels=1 calls=1 references=0 timers=0
  00000000000000000000.journal
  lock
  disk/j: no space left; the last file isn't rewritten; new records are appended to it
  resumed after line 4: channels=1 calls=1
  disk/j: no space left; the controller ends
  disk/new: no space left
  disk/j/00000000000000000000.journal: the record after line 37 is cut off, and is dropped
  resumed after line 37: channels=1 calls=1
  end channels=1 calls=1 references=0 timers=0
