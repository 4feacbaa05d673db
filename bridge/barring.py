"""Access classes (TS 22.011, clause 4) whose telephones mayn't ask for a channel: CONFIG's, and those that operators bar and unbar
meanwhile. All cells broadcast them (RACH Control Parameters, TS 44.018, clause 10.5.2.29)."""
from exposition import GAUGE, Family
from tell import Level, say, shown

# The bit of emergency calls stands among those of the classes, in the place of class 10, which nobody has.
EMERGENCY = 10
CLASSES = [it for it in range(16) if it != EMERGENCY]
# The words by which operators bar and unbar, and how they name the bits.
BAR, UNBAR, CLASS = b"bar", b"unbar", b"class"
NAMES = {it: str(it) for it in CLASSES} | {EMERGENCY: "emergency"}
BITS = {name.encode(): it for it, name in NAMES.items()}
HELP = (
    "bar class N: all cells tell telephones of access class N, 0 to 9 or 11 to 15, to ask for no channel; of `emergency`, to make"
    " no emergency call",
    "unbar class N: they may again",
)


class Barring:
    """What is barred. `information` has it for all cells, which `tell` sends to the stations."""

    def __init__(self, information, tell):
        self.information, self.tell = information, tell

    def take(self, operator, line):
        """An operator's line that bars a class, or unbars it."""
        words = line.split()
        if len(words) != 3 or words[1] != CLASS or words[2] not in BITS:
            operator.tell(f"refused: {shown(line)}: bar class N or unbar class N, N is 0 to 9, 11 to 15 or emergency")
            return
        bit, before = BITS[words[2]], self.information.barred
        self.information.barred = before | {bit} if words[0] == BAR else before - {bit}
        if self.information.barred != before:
            say(f"{operator}: {shown(line)}: {self.known()}", Level.NOTICE)
            self.tell()
        operator.tell(self.known())

    def known(self):
        """What is barred, in words."""
        return f"barred: {', '.join(NAMES[it] for it in sorted(self.information.barred)) or 'none'}"

    def figures(self):
        """Of each class whether it is barred."""
        text = "Whether telephones of an access class mayn't ask for a channel, or make emergency calls."
        family = Family("gofnild_barred_class", GAUGE, text)
        for bit, name in sorted(NAMES.items()):
            family.add(int(bit in self.information.barred), **{"class": name})
        return family
