"""What `tools/kills` and `tools/faults` know of journals: lines of calls, what is printed of them, and the records of files."""
import os
import re
import subprocess

TOP = os.path.dirname(os.path.dirname(os.path.abspath(__file__)))
SITE = f"{TOP}/bridge/demo.toml"

# A call that comes back from the other cell, and one that arrives there.
BEGINS = ["open {0} 0 0 3", "abis 0 0 0822010b0805ab", "handover {0} 1", "abis 1 0 082201090803f7"]
COMES_BACK = BEGINS + ["abis 0 0 0302010b02000b0003062801", "abis 1 0 08330109", "clear {0}", "abis 0 0 0833010b"]
ARRIVES = BEGINS + ["abis 1 0 0302010902000b0003062c00", "abis 0 0 0833010b", "clear {0}", "abis 1 0 08330109"]

# What is printed where no call is left.
EMPTY = "end channels=0 calls=0 references=0 timers=0\n"


class Unmet(Exception):
    """What isn't as it should be."""


def lines_of(calls):
    """The lines of so many calls."""
    return [line.format(1 + call % 9) for call in range(calls) for line in (ARRIVES if call % 2 else COMES_BACK)]


def text_of(lines):
    """Lines as a controller reads them."""
    return "".join(f"{it}\n" for it in lines)


def blocks_of(program, lines):
    """What a controller without a journal prints of each line."""
    plain = subprocess.run([program, "live", SITE], input=text_of(lines), capture_output=True, text=True, check=True).stdout
    blocks = re.findall(r"^in .*\n(?:(?!in |end ).*\n)*", plain, re.MULTILINE)
    if len(blocks) != len(lines):
        raise Unmet(f"{len(lines)} lines, and {len(blocks)} of them are printed")
    return blocks


def resumed_after(said):
    """The number of the line behind which a controller goes on."""
    found = re.search(r"^resumed after line (\d+): ", said, re.MULTILINE)
    return int(found[1]) if found else 0


def once_more(blocks, heard, last):
    """What is told once more of the lines behind the one that was heard."""
    return "".join(f"{number}: {line}\n" for number in range(heard + 1, last + 1)
        for line in blocks[number - 1].splitlines() if line.startswith("out "))


def files_of(folder):
    """The names of a journal's files, in their order."""
    return sorted(it for it in os.listdir(folder) if it.endswith(".journal")) if os.path.isdir(folder) else []


def records_of(path):
    """The records of a file, as far as they are whole: their numbers and bodies."""
    with open(path, "rb") as it:
        octets = it.read()
    at = octets.index(b"\n") + 1
    while at + 67 <= len(octets):
        word, number, size, _sum, _own = (octets[at:at + 66].split(b" ") + 5 * [b""])[:5]
        if word != b"record" or len(octets) < at + 67 + int(size):
            break
        yield int(number), octets[at + 67:at + 67 + int(size)].decode()
        at += 67 + int(size)


def last_noted(folder):
    """The number of the last whole record, as the next controller will find it."""
    files = files_of(folder)
    return max(number for number, _ in records_of(f"{folder}/{files[-1]}")) if files else 0


def look_at_files(folder, lines, some_went=False):
    """All lines stand in the files, once; those of files that went are gone."""
    names = files_of(folder)
    number = int(names[0].removesuffix(".journal")) if some_went else 0
    given = lines[:number]
    for name in names:
        records = list(records_of(f"{folder}/{name}"))
        if records[0][0] != number or f"{number:020}.journal" != name:
            raise Unmet(f"{name} begins with record {records[0][0]}, behind {number}")
        for number, body in records[1:]:
            given.append(body.splitlines()[0].removeprefix("in "))
            if len(given) != number:
                raise Unmet(f"{name}: record {number} is the {len(given)}th")
    if given != lines:
        raise Unmet("the files have other lines than were given")


def audit_files(program, folder):
    """Each file's attempts leave no trace."""
    for name in files_of(folder):
        audit = subprocess.run([program, "audit", SITE, f"{folder}/{name}"], capture_output=True, text=True, check=False)
        if audit.returncode != 0 or not audit.stdout.endswith("same\n"):
            raise Unmet(f"audit of {name}: {audit.stdout} {audit.stderr}")
