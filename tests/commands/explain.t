What a number stands for.

  $ ./lab explain refused 6
  ChannelBusy: this channel isn't free
  $ ./lab explain cause a 33
  no radio resource available
  $ ./lab explain fault abis 5
  an element is cut
  $ ./lab explain fault abis 5 1
  an element is cut at offset 1

A number that has no words is refused in one line on standard error, and so is one that is none.

  $ ./lab explain refused 10 2>&1 >>printed
  *no refusal 10* (glob)
  [2]
  $ ./lab explain refused 256 2>&1 >>printed
  *N is a number from 1 to 9 (glob)
  [2]
  $ ./lab explain refused cause 2>&1 >>printed
  *string; N is a number from 1 to 9 (glob)
  [2]
  $ ./lab explain cause rr 256 2>&1 >>printed
  *N is a number from 0 to 255, or from 0x0 to 0xff (glob)
  [2]
  $ ./lab explain fault a x 2>&1 >>printed
  *N is a number from 1 to 6, on rr from 1 to 4 (glob)
  [2]
  $ ./lab explain fault a 3 x 2>&1 >>printed
  *string; ARGUMENT is a number (glob)
  [2]
  $ ./lab rewind a b 0 2>&1 >>printed
  *LINE is a number, 1 or more (glob)
  [2]
  $ ./lab run a b --call x 2>&1 >>printed
  *string; N is a number from 0 to 65535 (glob)
  [2]
  $ ./lab run a b --call 65536 2>&1 >>printed
  *N is a number from 0 to 65535 (glob)
  [2]
  $ ./lab live a --history x 2>&1 >>printed
  *string; N is a number, 1 or more (glob)
  [2]
  $ ./lab live a --journal b --keep 0 2>&1 >>printed
  *N is a number, 1 or more (glob)
  [2]
  $ ./lab live a --journal b --heard x 2>&1 >>printed
  *string; M is a number, 0 or more (glob)
  [2]
  $ ./lab explain fault rr 5 2>&1 >>printed
  *no fault rr 5* (glob)
  [2]
  $ ./lab explain fault abis 3 256 2>&1 >>printed
  error: the argument of fault abis 3 is an element identifier, 0 to 255, found 256
  [2]
  $ ./lab explain fault a 2 1 2>&1 >>printed
  *fault a 2 has no argument* (glob)
  [2]
  $ cat printed

Which arguments faults have (CODECS): on rr, on A, on Abis.

  $ argument() { ./lab explain fault "$@" 2>&1 >>printed; }
  $ argument rr 1 0
  *fault rr 1 has no argument* (glob)
  [2]
  $ argument rr 2 256
  error: the argument of fault rr 2 is a message type, 0 to 255, found 256
  [2]
  $ argument rr 3 0
  *fault rr 3 has no argument* (glob)
  [2]
  $ argument rr 4 0
  error: the argument of fault rr 4 is the number of the element's fault, 1 to 4, found 0
  [2]
  $ argument rr 4 5
  error: the argument of fault rr 4 is the number of the element's fault, 1 to 4, found 5
  [2]
  $ argument a 1 0
  *fault a 1 has no argument* (glob)
  [2]
  $ argument a 3 256
  error: the argument of fault a 3 is a message type, 0 to 255, found 256
  [2]
  $ argument a 4 256
  error: the argument of fault a 4 is an element identifier, 0 to 255, found 256
  [2]
  $ argument a 5 256
  error: the argument of fault a 5 is an element identifier, 0 to 255, found 256
  [2]
  $ argument a 6 2
  error: the argument of fault a 6 is an offset, 3 to 254, found 2
  [2]
  $ argument a 6 255
  error: the argument of fault a 6 is an offset, 3 to 254, found 255
  [2]
  $ argument abis 1 0
  *fault abis 1 has no argument* (glob)
  [2]
  $ argument abis 2 256
  error: the argument of fault abis 2 is a message type, 0 to 255, found 256
  [2]
  $ argument abis 4 256
  error: the argument of fault abis 4 is an element identifier, 0 to 255, found 256
  [2]
  $ argument abis 5 0
  error: the argument of fault abis 5 is an offset, 1 to 1023, found 0
  [2]
  $ argument abis 5 1024
  error: the argument of fault abis 5 is an offset, 1 to 1023, found 1024
  [2]
  $ argument abis 6 0
  *fault abis 6 has no argument* (glob)
  [2]
  $ cat printed

A cause is read in hexadecimal, too.

  $ ./lab explain cause abis 0x20
  equipment failure
  $ ./lab explain cause a 0x21
  no radio resource available
  $ ./lab explain cause rr 0xA
  frequency not implemented
  $ ./lab explain cause abis 0xff
  reserved
  $ hexadecimal() { ./lab explain cause abis "$1" 2>&1 >>printed; }
  $ hexadecimal 0x100
  *N is a number from 0 to 255, or from 0x0 to 0xff (glob)
  [2]
  $ hexadecimal 0x
  *N is a number from 0 to 255, or from 0x0 to 0xff (glob)
  [2]
  $ hexadecimal 0x+2
  *N is a number from 0 to 255, or from 0x0 to 0xff (glob)
  [2]
  $ hexadecimal 20h
  *N is a number from 0 to 255, or from 0x0 to 0xff (glob)
  [2]
  $ cat printed
