"""The keys of a site that only the controller reads (docs/PROGRAM.md, Sites), for `bridge/network --check`. The controller ignores
keys that it doesn't know; here they are faults, since they may be meant for others."""

# The timeslots of a TRX: the first of a cell has the broadcast channels in timeslot 0 (TS 45.002, 4.3.2 and 7).
FIRST_OF_CELL, FIRST, LAST = 1, 0, 7


def look_at(site, faults):
    """Looks at a site's other tables, and whether there are others yet."""
    site.faults = faults
    handover = site.table("handover")
    handover.whole("window", 1, 32)
    handover.whole("margin", 0, 63)
    handover.whole("minimum", 0, 63)
    handover.end()
    for table in site.tables("outside") if "outside" in site.rest else ():
        for name, most in (("lac", 65535), ("ci", 65535), ("bcch", 1023), ("ncc", 7), ("bcc", 7)):
            table.whole(name, 0, most)
        table.end()
    site.end()


def look_at_cell(cell, carriers, faults):
    """Looks at what a cell's table has beside what is broadcast, and at the tables of its TRX."""
    cell.faults = faults
    cell.whole("power", 0, 31)
    cell.end()
    for number, trx in enumerate(carriers):
        trx.faults = faults
        timeslots = trx.whole_list("tch", FIRST if number else FIRST_OF_CELL, LAST)
        if "half" in trx.rest:
            halves = trx.whole_list("half", FIRST, LAST)
            if not {*(halves or ())} <= {*(timeslots or halves or ())}:
                faults.add(trx.key("half"), "timeslots of tch are allowed", sorted({*halves} - {*timeslots}))
        trx.end()
