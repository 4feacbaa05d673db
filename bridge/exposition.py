"""Figures as text for machines: Prometheus' text format, version 0.0.4, which node_exporter's textfile collector reads too. A
family of figures has a type and a line of help; each of its samples has labels that tell it from the others."""

COUNTER, GAUGE = "counter", "gauge"


class Family:
    """Figures of one kind under one name, of letters, digits and low lines. A counter's name ends by `_total`: a reader knows type
    and help by the whole name of the samples."""

    def __init__(self, name, kind, text):
        """`text` says what is counted."""
        self.name = f"{name}_total" if kind == COUNTER else name
        self.kind, self.text = kind, text
        self.samples = []

    def add(self, value, **labels):
        """Adds a sample; itself."""
        self.samples.append((labels, value))
        return self

    def lines(self):
        """The lines of it."""
        yield f"# HELP {self.name} {escaped(self.text)}"
        yield f"# TYPE {self.name} {self.kind}"
        for labels, value in self.samples:
            words = ",".join(f'{label}="{quoted(str(it))}"' for label, it in labels.items())
            yield f"{self.name}{{{words}}} {value}" if words else f"{self.name} {value}"


def escaped(text):
    """A text as it stands in a line of help."""
    return text.replace("\\", r"\\").replace("\n", r"\n")


def quoted(text):
    """A text as it stands between quotes."""
    return escaped(text).replace('"', r"\"")


def text_of(families):
    """The text of families, each of which has another name."""
    return "".join(f"{line}\n" for family in families for line in family.lines())
