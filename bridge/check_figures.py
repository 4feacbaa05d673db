"""Checks of the bridge: figures as Prometheus' text, which a reader of its grammar takes, and the services that examples/ has."""
import re
import resource
import subprocess
import time

from harness import FIRST, FOLDER, LIMIT, SECOND, Asker, Unmet, must, needs
from network_harness import begin, clear
from exposition import COUNTER, GAUGE, Family, text_of

# The grammar of Prometheus' text format, version 0.0.4, as far as counters and gauges need it. In a line of help a quotation mark
# stands for itself.
NAME, LABEL = "[a-zA-Z_:][a-zA-Z0-9_:]*", "[a-zA-Z_][a-zA-Z0-9_]*"
ESCAPED, HELP = r'(?:[^\\"\n]|\\[n"\\])*', r"(?:[^\\\n]|\\[n\\])*"
NUMBER = r"[+-]?\d+(?:\.\d*)?(?:[eE][+-]?\d+)?"
ABOUT = re.compile(rf"# (TYPE|HELP) ({NAME}) ({HELP})")
SAMPLE = re.compile(rf'({NAME})(?:\{{({LABEL}="{ESCAPED}"(?:,{LABEL}="{ESCAPED}")*)?\}})? ({NUMBER})')
PAIR = re.compile(rf'({LABEL})="({ESCAPED})"')
TYPES = ("counter", "gauge")


def samples_in(text):
    """The samples of a text: the number of each name with its labels."""
    *lines, rest = text.split("\n")
    must(rest == "", f"it ends by {rest!r}")
    families, samples, current = {}, {}, None
    for line in lines:
        if about := ABOUT.fullmatch(line):
            current = describe(families, current, *about.groups())
            continue
        sample = SAMPLE.fullmatch(line)
        must(sample, f"no line of the grammar: {line!r}")
        must(sample[1] == current and {*families[current]} >= {"TYPE", "HELP"}, f"not of the family {current}: {line!r}")
        families[current]["begun"] = True
        labels = PAIR.findall(sample[2] or "")
        key = sample[1], tuple(sorted((name, unescaped(value)) for name, value in labels))
        must(len({name for name, _ in labels}) == len(labels) and key not in samples, f"it stands twice: {line!r}")
        samples[key] = float(sample[3])
        must(samples[key] >= 0 or families[current]["TYPE"] == "gauge", f"a counter below 0: {line!r}")
    return samples


def describe(families, current, what, name, text):
    """Takes a line about a family, which stands in front of its samples, and once; the family that is described now."""
    must(name == current or name not in families, f"the family {name} stands in two places")
    family = families.setdefault(name, {})
    must(what not in family and not family.get("begun"), f"{what} of {name} stands twice, or behind samples")
    must(what != "TYPE" or text in TYPES, f"{name} has the type {text!r}")
    must(text != "counter" or name.endswith("_total"), f"{name} is a counter")
    family[what] = text
    return name


def unescaped(text):
    """What an escaped text stands for."""
    return re.sub(r"\\(.)", lambda it: "\n" if it[1] == "n" else it[1], text)


def is_read(text):
    """Whether the reader takes a text."""
    try:
        samples_in(text)
    except Unmet:
        return False
    return True


def figures_of(path, name, **labels):
    """What the file says now of one name with its labels; None where it says nothing."""
    return samples_in(path.read_text()).get((name, tuple(sorted(labels.items()))))


def await_figure(path, value, name, **labels):
    """Waits until the file says this."""
    end, found = time.monotonic() + LIMIT, None
    while (found := figures_of(path, name, **labels)) != value:
        must(time.monotonic() < end, f"{name} of {labels} is {found}, not {value}:\n{path.read_text()}")
        time.sleep(0.05)


def the_grammar(_start, _room, _program):
    """The reader refuses what isn't of the grammar; what is written it takes, with whatever stands in labels and in help."""
    odd = 'a "name"\\ of\ntwo lines, = {}'
    family = Family("gofnild_odd", COUNTER, odd).add(1, what=odd, other="").add(2, what="b", other="")
    text = text_of([family, Family("gofnild_plain", GAUGE, "Plain.").add(3)])
    wanted = {
        ("gofnild_odd_total", (("other", ""), ("what", odd))): 1,
        ("gofnild_odd_total", (("other", ""), ("what", "b"))): 2,
        ("gofnild_plain", ()): 3,
    }
    must(samples_in(text) == wanted, f"it reads {samples_in(text)}")
    plain = "# HELP a A.\n# TYPE a gauge\na 1\n"
    samples_in(plain)
    wrong = [plain[:-1], plain[12:], "\n" + plain, plain.replace("a 1", "a  1"), plain.replace("a 1", "b 1")]
    wrong += [plain.replace("gauge", "counter"), plain.replace("a 1", "a 1\na 2"), plain.replace("a 1", 'a{b="\\x"} 1')]
    wrong += [plain.replace("a 1", 'a{b="",b=""} 1'), plain + plain.replace("a", "b") + "# TYPE a gauge\n"]
    must(not [it for it in wrong if is_read(it)], f"the reader takes {[it for it in wrong if is_read(it)]}")


def of_calls(start, room, _program):
    """The figures say what is known of links, of channels and calls, and what came of the lines; the file goes at the end."""
    path = room / "figures"
    bridge = start("--figures", "figures", "--figures-every", "0.1")
    first, second = {"unit": FIRST, "cell": "0", "trx": "0"}, {"unit": SECOND, "cell": "1", "trx": "1"}
    await_figure(path, 0, "gofnild_station_up", **first)
    station, _ = bridge.station(FIRST), bridge.station(SECOND, trx=1)
    bridge.ask("open 1 0 0 3")
    bridge.expect("record 0/0/3 on$")
    bridge.ask("handover 1 1")
    bridge.expect("^event command 1 -> done$")
    bridge.ask("nonsense")
    bridge.ask("abis 0 0 08")
    station.say(b"\x0c\x12\x01\x88")
    # of what the script above gives: two activations and their answers, of which one is of the other station
    for who, came, sent in ((first, 1, 2), (second, 1, 1)):
        await_figure(path, 1, "gofnild_station_up", **who)
        await_figure(path, came, "gofnild_station_received_messages_total", **who)
        await_figure(path, sent, "gofnild_station_sent_messages_total", **who)
        await_figure(path, 1, "gofnild_station_channels", **who, state="on")
    await_figure(path, 1, "gofnild_station_passed_over_messages_total", **first, message="CCCH LOAD INDICATION")
    for cell in ("0", "1"):
        await_figure(path, 1, "gofnild_cell_channels", cell=cell, state="on")
    await_figure(path, 1, "gofnild_calls", attempt="internal")
    await_figure(path, 0, "gofnild_calls", attempt="none")
    await_figure(path, 5, "gofnild_read_lines_total")
    await_figure(path, 1, "gofnild_unread_lines_total")
    await_figure(path, 1, "gofnild_faulty_lines_total")
    await_figure(path, 1, "gofnild_events_total", event="command", reply="done")
    station.leave()
    await_figure(path, 1, "gofnild_station_lost_links_total", **first)
    await_figure(path, 0, "gofnild_station_up", **first)
    await_figure(path, 1, "gofnild_calls_on_lost_channels")
    bridge.end()
    must(not path.exists(), "the figures of a bridge that has ended stay")


def of_a_network(start, room, _program):
    """The figures of a network have the centre, calls that began on the air, and those that await their mobile."""
    path = room / "figures"
    run = start(words=("--figures", path, "--figures-every", "0.1"))
    station = run.begin()
    await_figure(path, 1, "gofnild_centre_up")
    number, connection = begin(run, station)
    await_figure(path, 1, "gofnild_calls_begun_on_air_total")
    await_figure(path, 1, "gofnild_calls", attempt="none")
    await_figure(path, 0, "gofnild_cell_awaited_mobiles", cell="0")
    clear(run, station, number, connection)
    await_figure(path, 0, "gofnild_calls", attempt="none")
    run.centre.stop()
    await_figure(path, 0, "gofnild_centre_up")
    run.end(is_empty=False)


def version_of(path):
    """Which file it is; one that took its place may have the number of one before."""
    status = path.stat()
    return status.st_ino, status.st_mtime_ns


def never_half(start, room, _program):
    """Who reads the figures meanwhile finds a whole text each time, also where there is no room for the next one; then the
    old one stays, that is told, and it goes on."""
    path = room / "figures"
    bridge = start("--figures", "figures", "--figures-every", "0.001")
    first, reads, end = version_of(path), 0, time.monotonic() + LIMIT
    while reads < 300 or version_of(path) == first:
        must(time.monotonic() < end, "it isn't replaced")
        samples_in(path.read_text())
        reads += 1
    resource.prlimit(bridge.process.pid, resource.RLIMIT_FSIZE, (100, resource.RLIM_INFINITY))
    bridge.said.expect("figures: the figures can't be written now: ")
    samples_in(path.read_text())
    bridge.station(FIRST)
    resource.prlimit(bridge.process.pid, resource.RLIMIT_FSIZE, (resource.RLIM_INFINITY, resource.RLIM_INFINITY))
    bridge.said.expect("figures: the figures are written again$")
    await_figure(path, 1, "gofnild_station_up", unit=FIRST, cell="0", trx="0")
    bridge.end()
    must(sorted(it.name for it in room.iterdir()) == [], "something stays beside it")


def no_file(start, room, _program):
    """What is no file isn't replaced: the bridge doesn't begin."""
    (room / "figures").mkdir()
    words = [FOLDER / "abis", "--port", "0", "--figures", "figures", "6969/0/0=0/0", "--", "true"]
    ran = subprocess.run(words, cwd=room, capture_output=True, text=True, timeout=LIMIT)
    must(ran.returncode == 2 and "'figures': is there, and is no file" in ran.stderr, f"{ran.returncode}: {ran.stderr}")


def reopened(start, room, _program):
    """An operator has the log opened anew, once it was moved; where there is none he is told."""
    log = room / "log"
    bridge = start("--log", "log", "--control", "control")
    log.rename(room / "old")
    it = Asker(room / "control")
    it.ask("reopen\nopen 1 0 0 3\n")
    it.expect("^log: the log is opened anew$", "^event open 1 ")
    it.leave()
    log.unlink()
    log.mkdir()
    bridge.ask("reopen")
    bridge.out.expect("^the log can't be opened anew, and goes on in the old file: ")
    bridge.process.terminate()
    bridge.wait(0)
    must("open 1" not in (room / "old").read_text(), "the old one goes on")
    bridge = start()
    bridge.ask("reopen")
    bridge.out.expect("^refused: reopen: there is no log$")
    bridge.end()


def services(_start, room, _program):
    """The services of examples/ give the bridge options that it takes, and systemd takes each line of them."""
    for name in ("network", "abis"):
        text = (FOLDER.parent / "examples" / f"gofnild-{name}.service").read_text().replace("\\\n", " ")
        words = re.search("^ExecStart=/opt/gofnild/(.*)$", text, re.MULTILINE)[1].split(" -- ")[0].split()
        must(words[0] == f"bridge/{name}", f"{name} begins {words[0]}")
        told = subprocess.run([FOLDER / name, "--help"], capture_output=True, text=True, timeout=LIMIT).stdout
        lacking = {it for it in words if it.startswith("--")} - set(re.findall(r"--[\w-]+", told))
        must(not lacking, f"{name} doesn't take {lacking}")
        text = text.replace("/opt/gofnild/bridge", str(FOLDER)).replace("=gofnild\n", "=root\n", 2)
        (room / f"gofnild-{name}.service").write_text(text)
    needs("systemd-analyze", "systemd")
    units = [room / f"gofnild-{name}.service" for name in ("network", "abis")]
    ran = subprocess.run(["systemd-analyze", "verify", "--man=no", *units], capture_output=True, text=True, timeout=LIMIT)
    must(ran.returncode == 0 and "gofnild-" not in ran.stderr, f"{ran.returncode}: {ran.stderr}")


OF_NETWORK = [of_a_network]
CHECKS = [the_grammar, of_calls, never_half, no_file, reopened, services]
