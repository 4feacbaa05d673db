"""The text of the site that a controller has. It is kept beside the controller's journal, and each controller is given that: so the
site's file can be edited, and nothing comes of it before `reload` (reload.py).

Beside the journal FOLDER the text stands in FOLDER.site, and in FOLDER.stations which stations went by it. Another text that is to take
its place stands in FOLDER.site.new until the controller has gone on with it. Of which of them the journal is, its head says."""
import contextlib
import os
import pathlib
import zlib

from journal import Journal
from sites import place_of_site, table_of
from tell import Level, say

# The option by which a controller goes on over the journal of another site, whose text is in the file behind it.
CHANGED = "--site-changed"


class KeptSite:
    """The text of a controller's site, and the files that have it."""

    def __init__(self, command):
        """`command` is that of the controller, with the path of the site's file."""
        self.journal, self.place = Journal.of(command), place_of_site(command)
        self.file = None if self.place is None else command[self.place]
        folder = self.journal and self.file and pathlib.Path(os.path.abspath(self.journal.folder))
        self.kept, self.next, self.stations = (
            folder and folder.parent / f"{folder.name}.{name}" for name in ("site", "site.new", "stations")
        )
        # the text that the controller has, or gets first, as octets, None where none can be read; and the stations that go by it
        self.text, self.units = self.read(), b""
        # a text that is to take its place as the bridge begins; one that is tried for that; and whether controllers are given the
        # latter
        self.first_text: bytes | None = None
        self.next_text: bytes | None = None
        self.is_begun = False

    def read(self):
        """The text that the journal is of, or else that of the site's file."""
        known = self.journal.site() if self.kept else None
        for path in (self.kept, self.next):
            text = octets_of(path)
            if known is not None and text is not None and zlib.crc32(text) == known:
                return text
        return octets_of(self.file)

    def is_edited(self):
        """Whether the site's file has another text now."""
        return octets_of(self.file) not in (None, self.text)

    def begin_with(self, units):
        """A bridge begins with stations, of which it is said which TRX they are, a line each; the text that it goes by. Where other
        stations went by the one that is kept, and the site's file says something else too, both were changed for one another: then
        it is that of the file, with which the controller goes on."""
        self.units = "".join(f"{it}\n" for it in sorted(units)).encode()
        if self.kept and self.text is not None and octets_of(self.stations) not in (None, self.units) and not self.is_of_another():
            text = octets_of(self.file)
            if (table := table_of(text)) and table != table_of(self.text):
                self.first_text = text
        return self.first_text or self.text

    # What a controller is given

    def given(self, command):
        """A controller's command, with the text that it is given in the place of the site's file. That is on the disk then."""
        if self.first_text is not None:
            say(f"the stations and {self.file} have changed: the controller goes on over the site as it is now")
            self.prepare(self.first_text)
            self.begin()
        return self.given_next(command) if self.is_begun else self.replaced(command, self.keep())

    def given_next(self, command):
        """The command of a controller that goes on with the text which is to take the place."""
        command = self.replaced(command, self.next)
        return command if self.is_next() else [*command, CHANGED, str(self.kept)]

    def replaced(self, command, path):
        """A command with another path of a site."""
        if path is None or self.place is None:
            return command
        place = len(command) + self.place
        return [*command[:place], str(path), *command[place + 1 :]]

    def keep(self):
        """Writes the text, where it isn't there yet; the path of its file. Where that can't be, the controller reads the site's."""
        if not self.kept or self.text is None or self.is_of_another():
            return self.file
        try:
            for path, octets in ((self.kept, self.text), *(() if self.first_text else ((self.stations, self.units),))):
                if octets_of(path) != octets:
                    write(path, octets)
            if self.next_text is None and os.path.lexists(self.next):
                os.unlink(self.next)
        except OSError as error:
            say(f"the site's text can't be kept, and the controller reads {self.file} itself: {error}", Level.ERROR)
            return self.file
        return self.kept

    def is_of_another(self):
        """Whether the journal is of another text than is known."""
        known = self.journal.site()
        return known is not None and known != zlib.crc32(self.text)

    # Another text

    def prepare(self, text):
        """Another text is to take the place, if a controller goes on with it."""
        if self.keep() != self.kept:
            raise OSError(f"the controller reads {self.file} itself")
        write(self.next, text)
        self.next_text, self.first_text = text, None

    def begin(self):
        """Controllers are given the other text from here on."""
        self.is_begun = True

    def is_next(self):
        """Whether the journal is of the other text already."""
        return self.next_text is not None and self.journal.site() == zlib.crc32(self.next_text)

    def take(self):
        """The other text has taken the place, if there is one."""
        if not self.is_begun:
            return
        self.text, self.next_text, self.is_begun = self.next_text, None, False
        try:
            os.replace(self.next, self.kept)
            sync_folder(self.kept.parent)
        except OSError as error:
            # the journal says whose it is, and both are there
            say(f"{self.kept}: can't be replaced: {error}", Level.ERROR)
        self.keep()

    def go_by(self, file, units):
        """The text was read from a file; stations go by it, of which it is said which TRX they are."""
        self.file, self.units = file, "".join(f"{it}\n" for it in sorted(units)).encode()

    def drop(self):
        """The other text isn't to take the place any more."""
        self.next_text, self.is_begun = None, False
        with contextlib.suppress(OSError):
            os.unlink(self.next)


def octets_of(path):
    """The octets of a file; None where there are none to be read."""
    try:
        return path and pathlib.Path(path).read_bytes()
    except OSError:
        return None


def write(path, octets):
    """Writes a file that is whole, or the old one, however the machine ends."""
    beside = f"{path}.tmp"
    try:
        number = os.open(beside, os.O_WRONLY | os.O_CREAT | os.O_TRUNC | os.O_NOFOLLOW | os.O_CLOEXEC, 0o600)
        with open(number, "wb") as file:
            file.write(octets)
            file.flush()
            os.fsync(number)
        os.replace(beside, path)
        sync_folder(path.parent)
    except OSError:
        with contextlib.suppress(OSError):
            os.unlink(beside)
        raise


def sync_folder(path):
    """Has the names in a folder on the disk."""
    number = os.open(path, os.O_RDONLY | os.O_DIRECTORY | os.O_CLOEXEC)
    try:
        os.fsync(number)
    finally:
        os.close(number)
