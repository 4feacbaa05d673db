"""The journal of a controller (docs/JOURNAL.md), as far as the bridge reads it: what came of each line, which the controller
noted before anything of that left. The controller has looked whether it is whole."""
import contextlib
import itertools
import pathlib
import re
import zlib

# The first line of a file. That of a record: its number and how many octets its body has, of twenty digits each, and two
# checksums; where both stand, and how long it is.
FIRST_LINE = b"gofnild journal 1\n"
RECORD, NUMBER, SIZE, HEAD = b"record ", slice(7, 27), slice(28, 48), 67
# The whole of it, with the checksum of the body, and of the 58 octets in front of its own; and the first line of the first body.
WHOLE_HEAD, SUMMED = re.compile(rb"record (\d{20}) (\d{20}) ([0-9a-f]{8}) ([0-9a-f]{8})\n"), 58
SITE = re.compile(rb"site (\d+)\n")
# Files of a journal, by the number of the line behind which each begins.
NAME = re.compile(r"(\d{20})\.journal")
# The options of a controller that have a value behind them.
VALUED = ("--pcap", "--history", "--journal", "--keep", "--heard", "--journal-lost", "--site-changed")
# More octets than a file has up to the end of its head's first line.
BEGINNING = 256


class JournalError(Exception):
    """It isn't what the bridge can read."""


class Journal:
    """The journal in a folder."""

    def __init__(self, folder):
        self.folder = pathlib.Path(folder)

    @classmethod
    def of(cls, command):
        """That of a controller's command; None where it has none."""
        for word, behind in itertools.pairwise([*command, ""]):
            if word == "--journal" and behind:
                return cls(behind)
            if word.startswith("--journal="):
                return cls(word.partition("=")[2])
        return None

    def files(self):
        """Its files, the oldest first, each with the number of the line behind which it begins."""
        try:
            found = [(NAME.fullmatch(it.name), it) for it in self.folder.iterdir()]
        except FileNotFoundError:
            return []
        return sorted((int(name[1]), path) for name, path in found if name)

    def site(self):
        """The checksum of the site in the head of the last file; None where there is no file, or its head can't be read so far."""
        with contextlib.suppress(OSError):
            for _, path in self.files()[-1:]:
                with path.open("rb") as file:
                    octets = file.read(BEGINNING)
                found = SITE.match(octets, len(FIRST_LINE) + HEAD)
                return int(found[1]) if found and octets.startswith(FIRST_LINE + RECORD) else None
        return None

    def records(self, path, last):
        """The records of a file up to the last line, head included: the number of each, and its body. What stands behind may be a
        record that was cut."""
        octets = path.read_bytes()
        if not octets.startswith(FIRST_LINE):
            raise JournalError(f"{path}: begins otherwise than a journal of version 1")
        at = len(FIRST_LINE)
        while at < len(octets):
            head = octets[at : at + HEAD]
            digits = head[NUMBER] + head[SIZE]
            if not (head.startswith(RECORD) and head.endswith(b"\n") and len(digits) == 40 and digits.isdigit()):
                raise JournalError(f"{path}: no record at octet {at}")
            number, begin = int(head[NUMBER]), at + HEAD
            at = begin + int(head[SIZE])
            if at > len(octets):
                raise JournalError(f"{path}: no whole record at octet {at}")
            yield number, octets[begin:at]
            if number >= last:
                return

    def lines_behind(self, number, last):
        """What came of the lines behind a line, up to the last one: the number of each, and the lines that it gave."""
        files = self.files()
        for place, (begin, path) in enumerate(files):
            if place + 1 < len(files) and files[place + 1][0] <= number:
                continue
            for record, body in self.records(path, last):
                if record > max(number, begin):
                    yield record, body.split(b"\n")[:-1]

    def last(self):
        """The number of the last whole record of the last file, and the checksum of the site in its head; None where there is no
        file. Raises JournalError where a controller would refuse the file: what ends it may be half a record, or be followed by
        zeros."""
        if not (files := self.files()):
            return None
        begin, path = files[-1]
        octets = path.read_bytes()
        if not octets.startswith(FIRST_LINE):
            raise JournalError(f"{path}: begins otherwise than a journal of version 1")
        records = whole_records(path, octets)
        number, head = next(records, (None, b""))
        site = SITE.match(head)
        if number != begin or site is None:
            raise JournalError(f"{path}: there is no whole head")
        for number, _ in records:
            begin += 1
            if number != begin:
                raise JournalError(f"{path}: record {begin} is missing, {number} stands there")
        return begin, int(site[1])

    def book(self, last):
        """The lines that lead from the empty book to that behind the last line."""
        for _, path in self.files()[-1:]:
            for _, body in self.records(path, last):
                yield from body.split(b"\n")[:-1]


def whole_records(path, octets):
    """The records of a file: of each its number and its body. Raises JournalError at one that is damaged."""
    at, end = len(FIRST_LINE), len(octets.rstrip(b"\0"))
    while at < end:
        begin = behind = at + HEAD
        head = WHOLE_HEAD.match(octets, at)
        if head and int(head[4], 16) == zlib.crc32(octets[at : at + SUMMED]):
            behind = begin + int(head[2])
            if behind <= len(octets) and int(head[3], 16) == zlib.crc32(octets[begin:behind]):
                yield int(head[1]), octets[begin:behind]
                at = behind
                continue
        if end < behind:
            # it is cut off
            return
        raise JournalError(f"{path}: a record is damaged, at octet {at}")
