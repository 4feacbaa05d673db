The causes on A (TS 48.008 clause 3.2.2.5) that have a name.

  $ ./lab explain cause a 0
  radio interface message failure
  $ ./lab explain cause a 1
  radio interface failure
  $ ./lab explain cause a 2
  uplink quality
  $ ./lab explain cause a 3
  uplink strength
  $ ./lab explain cause a 4
  downlink quality
  $ ./lab explain cause a 5
  downlink strength
  $ ./lab explain cause a 6
  distance
  $ ./lab explain cause a 7
  O and M intervention
  $ ./lab explain cause a 8
  response to MSC invocation
  $ ./lab explain cause a 9
  call control
  $ ./lab explain cause a 10
  radio interface failure, reversion to old channel
  $ ./lab explain cause a 11
  handover successful
  $ ./lab explain cause a 12
  better cell
  $ ./lab explain cause a 13
  directed retry
  $ ./lab explain cause a 14
  joined group call channel
  $ ./lab explain cause a 15
  traffic
  $ ./lab explain cause a 16
  reduce load in serving cell
  $ ./lab explain cause a 17
  traffic load in target cell higher than in source cell
  $ ./lab explain cause a 18
  relocation triggered
  $ ./lab explain cause a 20
  requested option not authorised
  $ ./lab explain cause a 21
  alternative channel configuration requested
  $ ./lab explain cause a 22
  response to an INTERNAL HANDOVER ENQUIRY message
  $ ./lab explain cause a 23
  INTERNAL HANDOVER ENQUIRY reject
  $ ./lab explain cause a 24
  redundancy level not adequate
  $ ./lab explain cause a 32
  equipment failure
  $ ./lab explain cause a 33
  no radio resource available
  $ ./lab explain cause a 34
  requested terrestrial resource unavailable
  $ ./lab explain cause a 35
  CCCH overload
  $ ./lab explain cause a 36
  processor overload
  $ ./lab explain cause a 37
  BSS not equipped
  $ ./lab explain cause a 38
  MS not equipped
  $ ./lab explain cause a 39
  invalid cell
  $ ./lab explain cause a 40
  traffic load
  $ ./lab explain cause a 41
  preemption
  $ ./lab explain cause a 42
  DTM handover: SGSN failure
  $ ./lab explain cause a 43
  DTM handover: PS allocation failure
  $ ./lab explain cause a 48
  requested transcoding/rate adaption unavailable
  $ ./lab explain cause a 49
  circuit pool mismatch
  $ ./lab explain cause a 50
  switch circuit pool
  $ ./lab explain cause a 51
  requested speech version unavailable
  $ ./lab explain cause a 52
  LSA not allowed
  $ ./lab explain cause a 53
  requested codec type or codec configuration unavailable
  $ ./lab explain cause a 54
  requested A interface type unavailable
  $ ./lab explain cause a 55
  invalid CSG cell
  $ ./lab explain cause a 63
  requested redundancy level not available
  $ ./lab explain cause a 64
  ciphering algorithm not supported
  $ ./lab explain cause a 65
  GERAN Iu-mode failure
  $ ./lab explain cause a 66
  incoming relocation not supported due to PUESBINE feature
  $ ./lab explain cause a 67
  access restricted due to shared networks
  $ ./lab explain cause a 68
  requested codec type or codec configuration not supported
  $ ./lab explain cause a 69
  requested A interface type not supported
  $ ./lab explain cause a 70
  requested redundancy level not supported
  $ ./lab explain cause a 80
  terrestrial circuit already allocated
  $ ./lab explain cause a 81
  invalid message contents
  $ ./lab explain cause a 82
  information element or field missing
  $ ./lab explain cause a 83
  incorrect value
  $ ./lab explain cause a 84
  unknown message type
  $ ./lab explain cause a 85
  unknown information element
  $ ./lab explain cause a 86
  DTM handover: invalid PS indication
  $ ./lab explain cause a 87
  call identifier already allocated
  $ ./lab explain cause a 96
  protocol error between BSS and MSC
  $ ./lab explain cause a 97
  VGCS/VBS call non existent
  $ ./lab explain cause a 98
  DTM handover: timer expiry

Others are reserved.

  $ ./lab explain cause a 19
  reserved
  $ ./lab explain cause a 25
  reserved
  $ ./lab explain cause a 31
  reserved
  $ ./lab explain cause a 44
  reserved
  $ ./lab explain cause a 46
  reserved
  $ ./lab explain cause a 47
  reserved
  $ ./lab explain cause a 56
  reserved
  $ ./lab explain cause a 62
  reserved
  $ ./lab explain cause a 71
  reserved
  $ ./lab explain cause a 78
  reserved
  $ ./lab explain cause a 79
  reserved
  $ ./lab explain cause a 88
  reserved
  $ ./lab explain cause a 94
  reserved
  $ ./lab explain cause a 95
  reserved
  $ ./lab explain cause a 99
  reserved
  $ ./lab explain cause a 102
  reserved
  $ ./lab explain cause a 105
  reserved
  $ ./lab explain cause a 111
  reserved
  $ ./lab explain cause a 112
  reserved
  $ ./lab explain cause a 126
  reserved
  $ ./lab explain cause a 127
  reserved
  $ ./lab explain cause a 128
  reserved
  $ ./lab explain cause a 255
  reserved

Those of the radio path (TS 44.018 clause 10.5.2.31).

  $ ./lab explain cause rr 0
  normal event
  $ ./lab explain cause rr 1
  abnormal release, unspecified
  $ ./lab explain cause rr 2
  abnormal release, channel unacceptable
  $ ./lab explain cause rr 3
  abnormal release, timer expired
  $ ./lab explain cause rr 4
  abnormal release, no activity on the radio path
  $ ./lab explain cause rr 5
  preemptive release
  $ ./lab explain cause rr 6
  UTRAN configuration unknown
  $ ./lab explain cause rr 8
  handover impossible, timing advance out of range
  $ ./lab explain cause rr 9
  channel mode unacceptable
  $ ./lab explain cause rr 10
  frequency not implemented
  $ ./lab explain cause rr 11
  originator or talker leaving group call area
  $ ./lab explain cause rr 12
  lower layer failure
  $ ./lab explain cause rr 65
  call already cleared
  $ ./lab explain cause rr 95
  semantically incorrect message
  $ ./lab explain cause rr 96
  invalid mandatory information
  $ ./lab explain cause rr 97
  message type non-existent or not implemented
  $ ./lab explain cause rr 98
  message type not compatible with protocol state
  $ ./lab explain cause rr 100
  conditional IE error
  $ ./lab explain cause rr 101
  no cell allocation available
  $ ./lab explain cause rr 111
  protocol error unspecified

Others are reserved.

  $ ./lab explain cause rr 7
  reserved
  $ ./lab explain cause rr 13
  reserved
  $ ./lab explain cause rr 15
  reserved
  $ ./lab explain cause rr 16
  reserved
  $ ./lab explain cause rr 19
  reserved
  $ ./lab explain cause rr 25
  reserved
  $ ./lab explain cause rr 31
  reserved
  $ ./lab explain cause rr 38
  reserved
  $ ./lab explain cause rr 42
  reserved
  $ ./lab explain cause rr 44
  reserved
  $ ./lab explain cause rr 46
  reserved
  $ ./lab explain cause rr 47
  reserved
  $ ./lab explain cause rr 49
  reserved
  $ ./lab explain cause rr 56
  reserved
  $ ./lab explain cause rr 62
  reserved
  $ ./lab explain cause rr 64
  reserved
  $ ./lab explain cause rr 66
  reserved
  $ ./lab explain cause rr 71
  reserved
  $ ./lab explain cause rr 78
  reserved
  $ ./lab explain cause rr 79
  reserved
  $ ./lab explain cause rr 81
  reserved
  $ ./lab explain cause rr 88
  reserved
  $ ./lab explain cause rr 94
  reserved
  $ ./lab explain cause rr 99
  reserved
  $ ./lab explain cause rr 102
  reserved
  $ ./lab explain cause rr 105
  reserved
  $ ./lab explain cause rr 112
  reserved
  $ ./lab explain cause rr 126
  reserved
  $ ./lab explain cause rr 127
  reserved
  $ ./lab explain cause rr 128
  reserved
  $ ./lab explain cause rr 255
  reserved

The causes on Abis (TS 48.058 clause 9.3.26) that have a name.

  $ ./lab explain cause abis 0
  radio interface failure
  $ ./lab explain cause abis 1
  radio link failure
  $ ./lab explain cause abis 2
  handover access failure
  $ ./lab explain cause abis 3
  talker access failure
  $ ./lab explain cause abis 7
  O&M intervention
  $ ./lab explain cause abis 15
  normal event, unspecified
  $ ./lab explain cause abis 32
  equipment failure
  $ ./lab explain cause abis 33
  radio resource not available
  $ ./lab explain cause abis 34
  terrestrial channel failure
  $ ./lab explain cause abis 35
  CCCH overload
  $ ./lab explain cause abis 36
  ACCH overload
  $ ./lab explain cause abis 37
  processor overload
  $ ./lab explain cause abis 39
  BTS not equipped
  $ ./lab explain cause abis 40
  remote transcoder failure
  $ ./lab explain cause abis 41
  notification overflow
  $ ./lab explain cause abis 47
  resource not available, unspecified
  $ ./lab explain cause abis 48
  requested transcoding/rate adaption not available
  $ ./lab explain cause abis 63
  service or option not available, unspecified
  $ ./lab explain cause abis 64
  encryption algorithm not implemented
  $ ./lab explain cause abis 79
  service or option not implemented, unspecified
  $ ./lab explain cause abis 80
  radio channel already activated/allocated
  $ ./lab explain cause abis 95
  invalid message, unspecified
  $ ./lab explain cause abis 96
  message discriminator error
  $ ./lab explain cause abis 97
  message type error
  $ ./lab explain cause abis 98
  message sequence error
  $ ./lab explain cause abis 99
  general information element error
  $ ./lab explain cause abis 100
  mandatory information element error
  $ ./lab explain cause abis 101
  optional information element error
  $ ./lab explain cause abis 102
  information element non-existent
  $ ./lab explain cause abis 103
  information element length error
  $ ./lab explain cause abis 104
  invalid information element contents
  $ ./lab explain cause abis 111
  protocol error, unspecified
  $ ./lab explain cause abis 127
  interworking, unspecified

Others are reserved.

  $ ./lab explain cause abis 4
  reserved
  $ ./lab explain cause abis 6
  reserved
  $ ./lab explain cause abis 13
  reserved
  $ ./lab explain cause abis 16
  reserved
  $ ./lab explain cause abis 19
  reserved
  $ ./lab explain cause abis 25
  reserved
  $ ./lab explain cause abis 31
  reserved
  $ ./lab explain cause abis 38
  reserved
  $ ./lab explain cause abis 42
  reserved
  $ ./lab explain cause abis 44
  reserved
  $ ./lab explain cause abis 46
  reserved
  $ ./lab explain cause abis 49
  reserved
  $ ./lab explain cause abis 56
  reserved
  $ ./lab explain cause abis 62
  reserved
  $ ./lab explain cause abis 65
  reserved
  $ ./lab explain cause abis 66
  reserved
  $ ./lab explain cause abis 71
  reserved
  $ ./lab explain cause abis 78
  reserved
  $ ./lab explain cause abis 81
  reserved
  $ ./lab explain cause abis 88
  reserved
  $ ./lab explain cause abis 94
  reserved
  $ ./lab explain cause abis 105
  reserved
  $ ./lab explain cause abis 112
  reserved
  $ ./lab explain cause abis 126
  reserved
  $ ./lab explain cause abis 128
  reserved
  $ ./lab explain cause abis 255
  reserved

All others are reserved: of 256 causes on A 63 have a name, of the radio path 20, on Abis 33.

  $ named() { for cause in $(seq 0 255); do ./lab explain cause "$1" "$cause"; done | grep -vc '^reserved$'; }
  $ named a
  63
  $ named rr
  20
  $ named abis
  33

The refusals, by their numbers in a trace.

  $ ./lab explain refused 1
  NoCall: there is no such call
  $ ./lab explain refused 2
  CallExists: the call is there already
  $ ./lab explain refused 3
  WrongPhase: no attempt is open, or the call or its attempt is at the wrong stage
  $ ./lab explain refused 4
  NoChannel: the site names no such traffic channel
  $ ./lab explain refused 5
  SameCell: the channel lies in the cell where the call is served
  $ ./lab explain refused 6
  ChannelBusy: this channel isn't free
  $ ./lab explain refused 7
  RefBusy: this handover reference is in use
  $ ./lab explain refused 8
  Unexpected: no call has this channel, or it doesn't wait for this message of its station
  $ ./lab explain refused 9
  NotArmed: the timer isn't armed for the call

Faults of messages.

  $ ./lab explain fault abis 1
  no message of this link
  $ ./lab explain fault abis 2 255
  unknown type: FF
  $ ./lab explain fault abis 3 26
  an element is missing: identifier 1A
  $ ./lab explain fault abis 4 1
  an element is bad: identifier 01
  $ ./lab explain fault abis 5
  an element is cut
  $ ./lab explain fault abis 5 1
  an element is cut at offset 1
  $ ./lab explain fault abis 6
  too long
  $ ./lab explain fault a 1
  no message of this link
  $ ./lab explain fault a 2
  bad length octet
  $ ./lab explain fault a 3 2
  unknown type: 02
  $ ./lab explain fault a 4
  an element is missing
  $ ./lab explain fault a 5
  an element is bad
  $ ./lab explain fault a 6 254
  an element is cut at offset 254
  $ ./lab explain fault rr 1
  no message of this link
  $ ./lab explain fault rr 2
  unknown type
  $ ./lab explain fault rr 3
  the message is cut
  $ ./lab explain fault rr 4 2
  an element is bad: no traffic channel
  $ ./lab explain fault rr 4 3
  an element is bad: the channel hops
