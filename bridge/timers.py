"""How long each timer runs where nobody says otherwise, in seconds; None for ever. docs/NETWORK.md has these numbers too, beside
osmo-bsc's and the standards'."""

# Those that both bridges have. T3103, T3109 and T3111: TS 44.018, 11.1.2; T7 and T8: TS 48.008, 3.1.5.
OF_STATIONS = {
    "t3103": 5.0,
    "t7": 10.0,
    "t8": 10.0,
    "t3109": 5.0,
    "t3111": 0.5,
    "answer": 4.0,
    "patience": 10.0,
    "repeat": 10.0,
    "clear-lost": None,
}
# Those that a network has beside. T3101, T3113 and T3122: TS 44.018, 11.1; T4, T10 and T13: TS 48.008; `connect`,
# `release`, `silence` and `alive` are T(conn est), T(rel), T(iar) and T(ias) of SCCP (Q.714, annex C), of which the first is
# shorter here, since no mobile waits for a minute.
OF_NETWORK = {
    "t3101": 3.0,
    "t3113": 2.0,
    "t3122": 10.0,
    "t4": 10.0,
    "t10": 5.0,
    "t13": 1.0,
    "establish": 7.0,
    "settle": 2.0,
    "clearing": 10.0,
    "retry": 2.0,
    "connect": 20.0,
    "release": 10.0,
    "silence": 900.0,
    "alive": 300.0,
    "gateway": 3.0,
    "gateway-repeat": 0.5,
    "gateway-audit": 30.0,
}
