Behind the tests a report of them in the form of JUnit: a script that is met, one that isn't, one that can't be read.

  $ printf 'open 1 0 0 3\n#> event open 1 0/0/3 -> "done" & <more>\n' >odd.txt
  $ ./lab test examples/two_cells.toml examples/one_call.txt examples/wrong.txt odd.txt nothing.txt --junit report.xml 2>/dev/null >tap
  [2]
  $ ./lab test examples/two_cells.toml examples/one_call.txt examples/wrong.txt odd.txt nothing.txt 2>/dev/null | diff - tap
  $ cat report.xml
  <?xml version="1.0" encoding="UTF-8"?>
  <testsuite name="bsc_lab" tests="4" failures="2" errors="1">
  <testcase classname="bsc_lab" name="examples/one_call.txt"/>
  <testcase classname="bsc_lab" name="examples/wrong.txt"><failure>line 12
  expected: event open 2 0/0/3 -&gt; done
  came: event open 2 0/0/3 -&gt; refused 6 0/0/3
  </failure></testcase>
  <testcase classname="bsc_lab" name="odd.txt"><failure>line 2
  expected: event open 1 0/0/3 -&gt; &quot;done&quot; &amp; &lt;more&gt;
  came: no line of a trace is like this
  </failure></testcase>
  <testcase classname="bsc_lab" name="nothing.txt"><error>the file can&apos;t be read
  </error></testcase>
  </testsuite>
  $ python3 -c 'import xml.dom.minidom as m; print(len(m.parse("report.xml").getElementsByTagName("testcase")))'
  4

What stood in its file before is gone. Where the sites are refused nothing is tested, and there is no report of it.

  $ ./lab test examples/two_cells.toml examples/one_call.txt --junit report.xml
  1..1
  ok 1 - examples/one_call.txt
  $ tail -n 2 report.xml
  <testcase classname="bsc_lab" name="examples/one_call.txt"/>
  </testsuite>
  $ ./lab test nothing.toml examples/one_call.txt --junit other.xml 2>/dev/null
  file nothing.toml
  [2]

Where it can't be written standard error says why, behind all tests.

  $ ./lab test examples/two_cells.toml examples/one_call.txt --junit no/report.xml 2>&1
  1..1
  ok 1 - examples/one_call.txt
  no/report.xml: no such file
  [2]

It is none of the files that are read.

  $ cp examples/one_call.txt mine.txt
  $ ./lab test examples/two_cells.toml mine.txt --junit ./mine.txt
  ./mine.txt: named twice
  file ./mine.txt
  [2]
  $ cmp mine.txt examples/one_call.txt
  $ ./lab test examples/two_cells.toml mine.txt --junit report.xml --undo-everywhere 2>&1
  *--junit <FILE>*--undo-everywhere* (glob)
  [2]
