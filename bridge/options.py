"""Options that both bridges take."""
from tell import Level


def seconds_of(word):
    """How long something takes, in seconds."""
    seconds = float(word)
    if not 0 < seconds < 1e6:
        raise ValueError(word)
    return seconds


def add_common(parser):
    """Has a parser take them."""
    parser.add_argument("--check", action="store_true")
    parser.add_argument("--takes-over", metavar="PAGE")
    parser.add_argument("--log")
    parser.add_argument("--control")
    parser.add_argument("--again", type=int, default=0)
    parser.add_argument("--hang", type=seconds_of, default=10.0)
    parser.add_argument("--figures")
    parser.add_argument("--figures-every", type=seconds_of, default=10.0)
    parser.add_argument("--messages", action="store_true")
    parser.add_argument("--log-level", type=Level.of, default=Level.INFO)
