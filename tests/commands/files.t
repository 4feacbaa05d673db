A file that can't be read is named: it isn't there, is a folder, isn't UTF-8, has no end. The site's is read first, then
the script's, and both before the site is looked at.

  $ ./lab run 'no such file' /dev/null 2>errors
  file no such file
  [2]
  $ cat errors
  no such file: no such file
  $ ./lab run '' /dev/null 2>errors
  file 
  [2]
  $ cat errors
  : no such file
  $ ./lab run / /dev/null 2>errors
  file /
  [2]
  $ cat errors
  /: is a folder
  $ ./lab run /proc/self/exe /dev/null 2>errors
  file /proc/self/exe
  [2]
  $ cat errors
  /proc/self/exe: isn't UTF-8 (octet * (glob)
  $ ./lab run /dev/zero /dev/null 2>errors
  file /dev/zero
  [2]
  $ cat errors
  /dev/zero: larger than 64 MiB
  $ ./lab run 'no site' 'no script' 2>errors
  file no site
  [2]
  $ cat errors
  no site: no such file
  $ ./lab run /dev/null 'no such file' 2>errors
  file no such file
  [2]
  $ cat errors
  no such file: no such file
  $ ./lab run /dev/null / 2>errors
  file /
  [2]
  $ cat errors
  /: is a folder
  $ ./lab run /dev/null /proc/self/exe 2>errors
  file /proc/self/exe
  [2]
  $ cat errors
  /proc/self/exe: isn't UTF-8 (octet * (glob)
  $ ./lab run /dev/null /dev/null 2>errors
  site 2 handover
  [2]
  $ cat errors
  /dev/null: handover is missing: it has to be a table

The peer's site is read behind the site.

  $ ./lab run 'no site' 'no script' --peer 'no peer' 2>errors
  file no site
  [2]
  $ cat errors
  no site: no such file
  $ ./lab run /dev/null 'no script' --peer 'no peer' 2>errors
  file no peer
  [2]
  $ cat errors
  no peer: no such file
  $ ./lab run /dev/null 'no script' --peer / 2>errors
  file /
  [2]
  $ cat errors
  /: is a folder
  $ ./lab run /dev/null 'no script' --peer /dev/null 2>errors
  file no script
  [2]
  $ cat errors
  no script: no such file
  $ ./lab run /dev/null /dev/null --peer /dev/null 2>errors
  site 2 handover
  [2]
  $ cat errors
  /dev/null: handover is missing: it has to be a table
  $ ./lab run examples/two_cells.toml /dev/null --peer /dev/null 2>errors
  site 2 handover
  [2]
  $ cat errors
  /dev/null: handover is missing: it has to be a table
  $ ./lab run examples/two_cells.toml /dev/null --peer examples/two_cells.toml
  1: end channels=0 calls=0 references=0 timers=0
  2: end channels=0 calls=0 references=0 timers=0

A file may have 64 MiB.

  $ head -c 67108864 /dev/zero | tr '\0' '#' >long.txt
  $ ./lab run /dev/null long.txt 2>errors
  site 2 handover
  [2]
  $ cat errors
  long.txt: the last line has no line feed, and may be cut off
  /dev/null: handover is missing: it has to be a table
  $ head -c 67108865 /dev/zero | tr '\0' '#' >long.txt
  $ ./lab run /dev/null long.txt 2>errors
  file long.txt
  [2]
  $ cat errors
  long.txt: larger than 64 MiB
  $ rm long.txt

Where a file isn't UTF-8 its first octet that is no text is named.

  $ head -c 0 /dev/zero | tr '\0' '#' >odd.txt
  $ printf '\344\n' >>odd.txt
  $ ./lab run /dev/null odd.txt 2>errors
  file odd.txt
  [2]
  $ cat errors
  odd.txt: isn't UTF-8 (octet 1)
  $ head -c 998 /dev/zero | tr '\0' '#' >odd.txt
  $ printf '\344\n' >>odd.txt
  $ ./lab run /dev/null odd.txt 2>errors
  file odd.txt
  [2]
  $ cat errors
  odd.txt: isn't UTF-8 (octet 999)
  $ head -c 1044 /dev/zero | tr '\0' '#' >odd.txt
  $ printf '\344\n' >>odd.txt
  $ ./lab run /dev/null odd.txt 2>errors
  file odd.txt
  [2]
  $ cat errors
  odd.txt: isn't UTF-8 (octet 1,045)
  $ head -c 1000000 /dev/zero | tr '\0' '#' >odd.txt
  $ printf '\344\n' >>odd.txt
  $ ./lab run /dev/null odd.txt 2>errors
  file odd.txt
  [2]
  $ cat errors
  odd.txt: isn't UTF-8 (octet 1,000,001)

The same of other commands.

  $ ./lab run 'no site' 'no script' 2>errors
  file no site
  [2]
  $ cat errors
  no site: no such file
  $ ./lab run /dev/null /dev/null 2>errors
  site 2 handover
  [2]
  $ cat errors
  /dev/null: handover is missing: it has to be a table
  $ printf '' >empty.toml
  $ ./lab test empty.toml 'no script' 2>errors
  site 2 handover
  [2]
  $ cat errors
  empty.toml: handover is missing: it has to be a table
  $ ./lab record 'no site' 'no script' 2>errors
  file no site
  [2]
  $ cat errors
  no site: no such file

A path is printed as it is said: what would steer a terminal, or can't be seen, by escapes. So each `file` is one line.

  $ ./lab run "$(printf 'no\nline 1\033[2J')" /dev/null 2>errors
  file no\nline 1\u{1b}[2J
  [2]
  $ cat errors
  no\nline 1\u{1b}[2J: no such file
  $ ./lab decode --from "$(printf 'a\302\240b\t')" 2>errors
  file a\u{a0}b\t
  [2]
  $ cat errors
  a\u{a0}b\t: no such file
  $ ./lab run a b --pcap "$(printf 'c\r')" --chart "$(printf 'c\r')" 2>errors
  file c\r
  [2]
  $ cat errors
  c\r: named twice

On standard error what steers a terminal, or can't be seen, is shown by an escape; all else of a path as it stands.

  $ ./lab check 'a b\n "' 2>&1 >/dev/null
  a b\n ": no such file
  [2]
  $ ./lab check "$(printf 'a\nb\tc\rd\033[2J')" 2>&1 >/dev/null
  a\nb\tc\rd\u{1b}[2J: no such file
  [2]
  $ ./lab check "$(printf '\303\251\342\202\254\360\237\223\261')" 2>&1 >/dev/null
  \xc3\xa9\xe2\x82\xac\xf0\x9f\x93\xb1: no such file (esc)
  [2]
  $ cat >ranges.py <<'END'
  > import subprocess
  > import sys
  > def shown(number):
  >     done = subprocess.run(["./lab", "check", chr(number).encode()], capture_output=True)
  >     return done.stderr.decode()
  > for line in sys.stdin:
  >     first, last = (int(word, 16) for word in line.split())
  >     for number in (first, last):
  >         if shown(number) != f"\\u{{{number:x}}}: no such file\n":
  >             print(f"{number:x} is shown as it stands")
  >     for number in (first - 1, last + 1):
  >         if shown(number) != f"{chr(number)}: no such file\n":
  >             print(f"{number:x} isn't shown as it stands")
  > END

The first and the last of each range of characters that steer a terminal or can't be seen (controls, blanks, fillers, marks
of direction and of variation, tags), and those beside them, which stand as they are.

  $ python3 ranges.py <<'END'
  > 7f a0
  > ad ad
  > 34f 34f
  > 61c 61c
  > 115f 1160
  > 1680 1680
  > 17b4 17b5
  > 180b 180f
  > 2000 200f
  > 2028 202f
  > 205f 206f
  > 2800 2800
  > 3000 3000
  > 3164 3164
  > fe00 fe0f
  > feff feff
  > ffa0 ffa0
  > fff9 fffb
  > 1d173 1d17a
  > e0000 e007f
  > e0100 e01ef
  > END

A standard stream that is closed is no file, by its path either.

  $ ./lab audit examples/two_cells.toml /dev/stdin <&- 2>errors
  file /dev/stdin
  [2]
  $ ./lab run examples/two_cells.toml /dev/stdin <&- 2>errors
  file /dev/stdin
  [2]
  $ ./lab decode --from /dev/stdin <&- 2>errors
  file /dev/stdin
  [2]
  $ ./lab run examples/two_cells.toml examples/one_call.txt --pcap /dev/stdin <&- 2>errors
  file /dev/stdin
  [2]
  $ ./lab run examples/two_cells.toml examples/one_call.txt --chart /dev/stdout >&- 2>errors
  [2]
  $ ./lab run examples/two_cells.toml examples/one_call.txt --chart /dev/stderr 2>&-
  [2]
