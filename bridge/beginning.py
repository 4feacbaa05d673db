"""Whether a network can begin with a CONFIG, or take it by `reload`: its controller is there, and takes its journal, which is of the
site as it is now, or of the one that is kept, and goes on over the other. A controller may be running with that."""
import shutil
import subprocess
import tempfile
import zlib

import site_changes
from journal import Journal, JournalError
from kept_site import CHANGED
from sites import table_of
from trial import Copy, Tried, command_over

# How many seconds a controller may take that is tried.
LONGEST = 120.0


def faults(found):
    """What is in the way of a CONFIG: a line each."""
    program, site = found.core[0], found.core[-1]
    if not shutil.which(program):
        yield f"controller: no program that can be run: {program}"
    elif (journal := Journal.of(found.core)) and (fault := fault_of(found, journal, site)):
        yield f"controller: --journal: {fault}"


def changes(found):
    """What a `reload` changes of the site, a line each."""
    if found.kept.kept and found.kept.text not in (None, found.text):
        yield from site_changes.sites_differ(table_of(found.kept.text) or {}, table_of(found.text))


def fault_of(found, journal, site):
    """What is wrong with a journal, in words; None where a controller would go on with it, or begin it."""
    try:
        last = journal.last()
        if last is None or last[1] == (own := zlib.crc32(found.text)):
            return None
        if found.kept.text is None or zlib.crc32(found.kept.text) != last[1]:
            path = journal.files()[-1][1]
            return f"{path}: of another site than {site}: the sum of that is {own}, and the journal has {last[1]}"
        return tried(found, journal) if list(changes(found)) else None
    except (JournalError, OSError) as error:
        return str(error)


def tried(found, journal):
    """What is wrong where a controller goes on over the site as it is now, tried on a copy of the journal; None where nothing is."""
    copy = Copy(journal)
    try:
        with tempfile.NamedTemporaryFile(prefix="gofnild-trial-") as old:
            old.write(found.kept.text)
            old.flush()
            command = [*command_over(found.core, copy.folder), CHANGED, old.name]
            ran = subprocess.run(command, stdin=subprocess.DEVNULL, capture_output=True, timeout=LONGEST)
    except subprocess.TimeoutExpired:
        return f"tried on a copy with {CHANGED}: it isn't done in {LONGEST:g} seconds"
    finally:
        copy.remove()
    it = Tried(copy.last)
    for line in ran.stderr.splitlines():
        it.hear(line)
    return (problem := it.problem(ran.returncode)) and f"tried on a copy with {CHANGED}: {problem}"
