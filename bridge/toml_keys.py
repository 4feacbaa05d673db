"""Tables of a TOML text, read key by key: each fault names its key, what is allowed there, and what was found."""
import re

# What stands for a default that a key doesn't have: it has to be there.
REQUIRED = object()


class Faults:
    """What is wrong with a text; all of it is found before anything is said."""

    def __init__(self):
        self.lines = []

    def add(self, key, allowed, found):
        """A key doesn't have what is allowed."""
        self.lines.append(f"{key}: {allowed}, not {found}")


class Table:
    """A table, whose keys are asked for one by one. What is faulty is None then."""

    def __init__(self, value, path, faults):
        self.path, self.faults = path, faults
        self.rest = dict(value) if isinstance(value, dict) else {}
        if not isinstance(value, dict):
            faults.add(path, "a table is allowed", shown(value))

    def key(self, name):
        """A key's full name."""
        return f"{self.path}.{name}" if self.path else name

    def take(self, name, default, allowed, read):
        """The value of a key, as `read` makes it of what stands there; that raises ValueError where it isn't allowed."""
        if name not in self.rest:
            if default is REQUIRED:
                self.faults.add(self.key(name), allowed, "left out")
                return None
            return default
        found = self.rest.pop(name)
        try:
            return read(found)
        except ValueError:
            self.faults.add(self.key(name), allowed, shown(found))
            return None

    def whole(self, name, low, high, default=REQUIRED):
        """A whole number within bounds."""

        def read(found):
            if type(found) is not int or not low <= found <= high:
                raise ValueError
            return found

        return self.take(name, default, f"a whole number from {low} to {high} is allowed", read)

    def seconds(self, name, default=REQUIRED):
        """A time."""

        def read(found):
            if type(found) not in (int, float) or not 0 < found < 1e6:
                raise ValueError
            return float(found)

        return self.take(name, default, "a number of seconds over 0 and under a million is allowed", read)

    def choice(self, name, allowed, default=REQUIRED):
        """One of a few values."""

        def read(found):
            if not any(type(found) is type(it) and found == it for it in allowed):
                raise ValueError
            return found

        return self.take(name, default, f"one of {', '.join(shown(it) for it in allowed)} is allowed", read)

    def text(self, name, pattern, what, default=REQUIRED):
        """A text of a form."""

        def read(found):
            if not isinstance(found, str) or not re.fullmatch(pattern, found):
                raise ValueError
            return found

        return self.take(name, default, f"{what} is allowed", read)

    def texts(self, name, what):
        """A list of texts, of one at least."""

        def read(found):
            if not isinstance(found, list) or not found:
                raise ValueError
            if not all(isinstance(it, str) and it and "\0" not in it for it in found):
                raise ValueError
            return found

        return self.take(name, REQUIRED, f"{what} is allowed", read)

    def whole_list(self, name, low, high):
        """A list of whole numbers within bounds."""

        def read(found):
            if not isinstance(found, list) or not all(type(it) is int and low <= it <= high for it in found):
                raise ValueError
            return found

        return self.take(name, REQUIRED, f"a list of whole numbers from {low} to {high} is allowed", read)

    def table(self, name):
        """A table in this one; one that isn't there is empty."""
        return Table(self.rest.pop(name, {}), self.key(name), self.faults)

    def tables(self, name):
        """The tables of a list, of one at least."""
        found = self.rest.pop(name, [])
        if not isinstance(found, list) or not found:
            self.faults.add(self.key(name), f"one table [[{name}]] at least is wanted", shown(found))
            return []
        return [Table(it, f"{self.key(name)} {place}", self.faults) for place, it in enumerate(found)]

    def end(self):
        """No other keys are known."""
        for name, found in self.rest.items():
            self.faults.add(self.key(name), "no such key is known", shown(found))


def shown(value):
    """A value, for a fault's line."""
    text = f'"{value}"' if isinstance(value, str) else str(value)
    text = "".join(it if it.isprintable() else "?" for it in text)
    return text if len(text) <= 60 else text[:57] + "..."
