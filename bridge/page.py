"""What a bridge knows, as a page of JSON from which another bridge goes on in its place (succession.py).

    {"page": "gofnild bridge", "version": 1, "sum": S, "state": {"parts": .., "objects": .., "times": .., ..}}

The parts of a bridge are there in each: the page has of every part the attributes that `keeps` names. All other objects stand in a
list, each once, however many others have it. S is the checksum of the state. A page of another version, one that is damaged, and one
whose classes have other attributes than those here are refused."""
import collections
import dataclasses
import enum
import json
import os
import socket
import subprocess
import zlib

from child import Adopted

# What each page begins with, and the version of what stands in it: another one wherever an attribute means something else.
TITLE, VERSION = "gofnild bridge", 1
# The classes whose objects may stand in a page, by their names.
KINDS: dict[str, type] = {}
# How octets and collections are written, by their classes.
OCTETS = {"octets": bytes, "buffer": bytearray}
COLLECTIONS = {"tuple": tuple, "set": set, "frozenset": frozenset, "deque": collections.deque}


class Unkept(Exception):
    """Something can't stand in a page, or a page can't be taken, in words."""


def keeps(*names, wired=(), files=()):
    """Declares a class whose objects stand in a page: with the attributes `names`, or with all where it is a data class, a named
    tuple or an enumeration. Those that are `wired` are what every bridge has anyway. `files` are names of numbers of open files."""

    def declare(cls):
        KINDS[name_of(cls)] = cls
        if dataclasses.is_dataclass(cls) and not names:
            cls.KEPT = tuple(it.name for it in dataclasses.fields(cls))
        else:
            cls.KEPT = (*getattr(cls, "KEPT", ()), *names)
        cls.WIRED = (*getattr(cls, "WIRED", ()), *wired)
        cls.FILES = (*getattr(cls, "FILES", ()), *files)
        return cls

    return declare


def name_of(cls):
    """The name of a class in a page."""
    return f"{cls.__module__}.{cls.__name__}"


class Keeper:
    """Writes what is known."""

    def __init__(self, parts):
        """`parts` are the parts of a bridge, by their names."""
        self.parts = parts
        self.names = {id(it): name for name, it in parts.items()}
        # by the identity of an object its place in the list; the objects; and the open files
        self.places, self.objects = {}, []
        self.files = set()

    def state(self, times):
        """The whole of it, with the times as they are: name and moment of each."""
        parts = {name: self.attributes(it, name) for name, it in self.parts.items() if hasattr(it, "KEPT")}
        moments = [[self.value(name, "times"), at] for name, at in times]
        written = []
        for it in self.objects:
            # more of them come meanwhile
            written.append({"is": name_of(type(it)), "has": self.attributes(it, name_of(type(it)))})
        return {"parts": parts, "objects": written, "times": moments}

    def attributes(self, it, where):
        """The attributes of a part or an object."""
        if stray := {*vars(it)} - {*it.KEPT, *it.WIRED}:
            raise Unkept(f"{where}: nobody says whether it keeps {', '.join(sorted(stray))}")
        return {name: self.attribute(it, name, f"{where}: {name}") for name in it.KEPT}

    def attribute(self, it, name, where):
        """An attribute, which may be the number of an open file."""
        value = getattr(it, name)
        if name in it.FILES and value is not None:
            self.files.add(value)
        return self.value(value, where)

    def value(self, it, where):
        """A value."""
        if id(it) in self.names:
            return {"part": self.names[id(it)]}
        if isinstance(it, enum.Enum):
            return {"one of": [self.known(it, where), it.name]}
        if it is None or isinstance(it, (bool, int, float, str)):
            return it
        if isinstance(it, list):
            return [self.value(each, where) for each in it]
        if isinstance(it, socket.socket):
            return self.socket(it.fileno())
        if isinstance(it, (subprocess.Popen, Adopted)):
            return {"process": it.pid}
        if isinstance(it, tuple) and type(it) is not tuple:
            return {"record": [self.known(it, where), [self.value(each, where) for each in it]]}
        return self.collection(it, where)

    def socket(self, number):
        """A socket, which may be closed."""
        if number < 0:
            return None
        self.files.add(number)
        return {"socket": number}

    def collection(self, it, where):
        """A collection, octets, or an object."""
        for name, cls in OCTETS.items():
            if type(it) is cls:
                return {name: it.hex()}
        for name, cls in COLLECTIONS.items():
            if type(it) is cls:
                return {name: [self.value(each, where) for each in it]}
        if isinstance(it, dict):
            return {"table": [[self.value(key, where), self.value(each, where)] for key, each in it.items()]}
        self.known(it, where)
        if id(it) not in self.places:
            self.places[id(it)] = len(self.objects)
            self.objects.append(it)
        return {"object": self.places[id(it)]}

    def known(self, it, where):
        """The name of something's class, which may stand in a page."""
        if (name := name_of(type(it))) not in KINDS:
            raise Unkept(f"{where}: {name} can't be kept")
        return name


class Taker:
    """Reads a page."""

    def __init__(self, parts, state, opens):
        """`opens` gives the socket of a number of an open file; None where that isn't opened, and the page is looked at alone."""
        self.parts, self.state, self.opens = parts, state, opens
        self.objects = [self.kind(it["is"]).__new__(self.kind(it["is"])) for it in state["objects"]]

    def kind(self, name):
        """The class of a name."""
        if name not in KINDS:
            raise Unkept(f"{name} isn't known here")
        return KINDS[name]

    def take(self):
        """Gives all parts what the page has of them; the times, by their names."""
        for it, found in zip(self.objects, self.state["objects"]):
            for name in it.WIRED:
                vars(it)[name] = None
            vars(it).update(self.attributes(it, found["has"], found["is"]))
        wanted = {name for name, it in self.parts.items() if hasattr(it, "KEPT")}
        if other := wanted ^ {*self.state["parts"]}:
            raise Unkept(f"it has other parts than this bridge: {', '.join(sorted(other))}")
        for name in wanted:
            self.give(self.parts[name], self.attributes(self.parts[name], self.state["parts"][name], name))
        return {self.value(name): at for name, at in self.state["times"]}

    def give(self, part, found):
        """Gives a part its attributes. Tables that are there go on, since others have them too."""
        for name, value in found.items():
            there = getattr(part, name)
            if isinstance(there, dict) and isinstance(value, dict):
                there.clear()
                dict.update(there, value)
            else:
                setattr(part, name, value)

    def attributes(self, it, found, where):
        """The attributes of a part or an object."""
        if other := {*it.KEPT} ^ {*found}:
            raise Unkept(f"{where} has other attributes than here: {', '.join(sorted(other))}")
        taken = {name: self.value(value) for name, value in found.items()}
        if self.opens:
            for number in (taken[name] for name in it.FILES if taken[name] is not None):
                # as all files that the bridge opens: programs that it begins don't have them
                os.set_inheritable(number, False)
        return taken

    def value(self, found):
        """A value."""
        if isinstance(found, list):
            return [self.value(it) for it in found]
        if not isinstance(found, dict):
            return found
        ((what, rest),) = found.items()
        if what in OCTETS:
            return OCTETS[what](bytes.fromhex(rest))
        if what in COLLECTIONS:
            return COLLECTIONS[what](self.value(it) for it in rest)
        if what == "table":
            return {self.value(key): self.value(it) for key, it in rest}
        return self.thing(what, rest)

    def thing(self, what, rest):
        """A part, an object, or what has a number in the system."""
        if what == "part":
            return self.parts[rest]
        if what == "object":
            return self.objects[rest]
        if what == "one of":
            return self.kind(rest[0])[rest[1]]
        if what == "record":
            return self.kind(rest[0])(*self.value(rest[1]))
        if what == "process":
            return Adopted(rest)
        if what == "socket":
            return self.opens(rest) if self.opens else None
        raise Unkept(f"{what} isn't known here")


def written(state):
    """The page of a state."""
    return json.dumps({"page": TITLE, "version": VERSION, "sum": sum_of(state), "state": state})


def read(text):
    """The state of a page."""
    try:
        page = json.loads(text)
        title, version = page["page"], page["version"]
    except (ValueError, KeyError, TypeError) as error:
        raise Unkept("it is no page of a bridge") from error
    if title != TITLE:
        raise Unkept("it is no page of a bridge")
    if version != VERSION:
        raise Unkept(f"it has version {version}, and this bridge knows version {VERSION}")
    if "state" not in page or page.get("sum") != sum_of(page["state"]):
        raise Unkept("it is damaged: its checksum isn't that of its state")
    return page["state"]


def sum_of(state):
    """The checksum of a state."""
    return zlib.crc32(json.dumps(state, sort_keys=True).encode())


def take(parts, state, opens):
    """Has parts take a state; the times, by their names."""
    try:
        return Taker(parts, state, opens).take()
    except (KeyError, TypeError, ValueError, AttributeError, IndexError) as error:
        raise Unkept(f"it can't be understood: {type(error).__name__}: {error}") from error
