"""Checks of the bridge: figures of each cell, also over a controller that is begun again; what node_exporter, promtool and a
Prometheus make of them, of the alarms, and of the dashboard in examples/."""
import contextlib
import functools
import http.server
import json
import os
import re
import signal
import socket
import subprocess
import threading
import time
import urllib.error
import urllib.parse
import urllib.request

import rsl
from check_again import OFTEN, UNHURRIED, needs_journal
from check_figures import await_figure, samples_in
from harness import CHANNEL, FIRST, FOLDER, LIMIT, SECOND, SITE, SLOW, WITH_PARENT, child, must, needs
from network_harness import burst, clear, rejected, sent
from speech_harness import ASSIGN, failed, speak, start_call

EXAMPLES, TESTS = FOLDER.parent / "examples", FOLDER.parent / "tests"
OFTEN_WRITTEN = ("--figures", "figures", "--figures-every", "0.1")
# HANDOVER COMPLETE and HANDOVER FAILURE of a mobile (TS 44.018, 9.1.16 and 9.1.17), on the channels 1/1/3 and 0/0/2.
ARRIVED, CAME_BACK = "0302010b02000b0003062c00", "0302010a02000b0003062800"
# For how many seconds Prometheus looks back in a query of the dashboard.
WINDOW = "5s"


def figures(room, figure, value, **labels):
    """Waits until the figures say this of a cell."""
    await_figure(room / "figures", value, f"gofnild_cell_{figure}", **labels)


def calls_of_both_cells(bridge, room, between):
    """Calls begin in cell 0, move to cell 1, come back, are taken back, and aren't had; `between` is done on the way."""
    one, other = bridge.station(FIRST), bridge.station(SECOND, trx=1)

    def step(line, *patterns):
        bridge.ask(line)
        bridge.expect(*patterns)

    figures(room, "free_channels", 2, cell="0", rate="full")
    step("open 1 0 0 3", "record 0/0/3 on$")
    step("seize 2 0 full", "record 0/0/2 on$")
    step("seize 3 0 full", "^none free 0$")
    figures(room, "free_channels", 0, cell="0", rate="full")
    step("handover 1 1", "^event command 1 -> done$")
    step("handover 2 1", "^none free 1$")
    between()
    other.say(bytes.fromhex(ARRIVED))
    bridge.expect("^event complete 1 -> done$", "^event released 0/0/3 -> done$")
    one.say(bytes.fromhex("0828010a"))
    bridge.expect("^in abis 0 0 0828010a$")
    step("clear 1", "^event released 1/1/3 -> done$")
    for undoing in (lambda: one.say(bytes.fromhex(CAME_BACK)), lambda: bridge.ask("undo 2"), lambda: bridge.ask("expire 2 T3103")):
        step("handover 2 1", "^event command 2 -> done$")
        between()
        undoing()
        bridge.expect("^event undo 2 ", "^event released 1/1/3 -> done$")
    one.say(bytes.fromhex("0824010a1a0101"))
    bridge.expect("^in abis 0 0 0824010a1a0101$")
    between()
    step("clear 2", "^event clear 2 -> done$")


def are_counted(room):
    """What the figures say behind these calls, worked out by hand."""
    for cell, for_calls, for_handovers in (("0", 2, 0), ("1", 0, 4)):
        figures(room, "channels_given_total", for_calls, cell=cell, **{"for": "call"})
        figures(room, "channels_given_total", for_handovers, cell=cell, **{"for": "handover"})
    figures(room, "none_free_total", 1, cell="0", **{"for": "call"})
    figures(room, "none_free_total", 0, cell="0", **{"for": "handover"})
    figures(room, "none_free_total", 1, cell="1", **{"for": "handover"})
    for outcome, cause in (("done", "none"), ("undone", "HANDOVER FAILURE"), ("undone", "operator"), ("undone", "T3103")):
        figures(room, "handovers_total", 1, cell="0", kind="internal", outcome=outcome, cause=cause)
    figures(room, "timer_expiries_total", 1, cell="0", timer="T3103")
    figures(room, "reports_total", 1, cell="0")
    figures(room, "lost_channels_total", 1, cell="0", cause="radio link failure")
    # a report without results is one that the controller can't read
    figures(room, "faulty_messages_total", 1, cell="0")
    figures(room, "faulty_messages_total", 0, cell="1")
    figures(room, "free_channels", 1, cell="1", rate="full")


def of_cells(start, room, _program):
    """The figures say of each cell which channels are free, how many were asked for and given, and what became of handovers."""
    bridge = start(*OFTEN_WRITTEN, *UNHURRIED)
    calls_of_both_cells(bridge, room, lambda: None)
    are_counted(room)
    bridge.end(0)


def go_on(start, room, program):
    """The same where the controller is killed again and again: each is counted once, and goes on."""
    needs_journal(room, program)
    core = (program, "live", SITE, "--journal", room / "journal")
    bridge = start(*OFTEN_WRITTEN, *UNHURRIED, *OFTEN, core=core)
    kills = []

    def kill():
        kills.append(child(bridge))
        os.kill(kills[-1], signal.SIGKILL)
        bridge.said.expect("and is started again")

    calls_of_both_cells(bridge, room, kill)
    await_figure(room / "figures", len(kills), "gofnild_controller_restarts_total")
    are_counted(room)
    await_figure(room / "figures", 1, "gofnild_journal_up")
    bridge.end(0)


def barred(start, room, _program):
    """The figures say of each cell how many channels nobody gets, since their station hasn't acknowledged a release, until it does."""
    bridge = start(*OFTEN_WRITTEN, "--answer", SLOW)
    station = bridge.station(FIRST)
    station.unanswered = {rsl.RELEASE}
    for call, timeslot in ((1, 3), (2, 2)):
        bridge.ask(f"open {call} 0 0 {timeslot}")
        bridge.expect(f"record 0/0/{timeslot} on$")
    figures(room, "barred_channels", 0, cell="0")
    bridge.ask("clear 1\nclear 2")
    bridge.expect("^event released 0/0/3 -> done$", "^event released 0/0/2 -> done$")
    figures(room, "barred_channels", 2, cell="0")
    figures(room, "barred_channels", 0, cell="1")
    figures(room, "free_channels", 2, cell="0", rate="full")
    station.say(rsl.channel_message(rsl.RELEASE_ACK, CHANNEL))
    figures(room, "barred_channels", 1, cell="0")
    station.leave()
    figures(room, "barred_channels", 0, cell="0")
    bridge.end()


def of_requests(start, room, _program):
    """The figures of a network say why mobiles asked in a cell, why they were rejected, and what became of assignments."""
    run = start(words=OFTEN_WRITTEN[:1] + (room / "figures",) + OFTEN_WRITTEN[2:], t3101=SLOW)
    station = run.begin()
    call = start_call(run, station, reference="e50a0d")
    speak(call)
    run.centre.data(call.connection, ASSIGN.replace("0b07010a", "0b07020a"))
    failed(call, "25")
    # an emergency call (TS 44.018, table 9.1.8.1: 101), whose mobile doesn't come
    burst(station, "a50a0d")
    sent(station, "082101(..)03.*")
    burst(station, "050a0d")
    rejected(station, "050a0d")
    for cause, count in (("a call", 1), ("an emergency call", 1), ("a location update", 1), ("an answer to paging", 0)):
        figures(room, "requests_total", count, cell="0", cause=cause)
    figures(room, "rejected_requests_total", 1, cell="0", reason="no channel is free")
    figures(room, "rejected_requests_total", 0, cell="0", reason="the centre isn't there")
    figures(room, "awaited_mobiles", 1, cell="0")
    # TS 48.008, 3.2.2.5: 25 is that the requested resource isn't equipped
    figures(room, "assignments_total", 1, cell="0", kind="speech", outcome="complete", cause="none")
    figures(room, "assignments_total", 1, cell="0", kind="unread", outcome="failure", cause="NOT EQUIPPED")
    figures(room, "timer_expiries_total", 1, cell="0", timer="T3101")
    figures(room, "awaited_mobiles", 0, cell="0")
    clear(run, station, call.number, call.connection)
    run.centre.lose()
    run.said.expect("A: the link is lost")
    run.end(is_empty=False)


# What reads the figures


@contextlib.contextmanager
def running(*words, log):
    """A program that runs meanwhile."""
    with open(log, "w") as file:
        process = subprocess.Popen([*WITH_PARENT, *map(str, words)], stdout=file, stderr=file)
    try:
        yield process
    finally:
        process.kill()
        process.wait()


def free_port():
    """A port of this machine that is free."""
    with socket.socket() as it:
        it.bind(("127.0.0.1", 0))
        return it.getsockname()[1]


def fetched(port, path, log, seconds=LIMIT):
    """What a server answers, once it does."""
    end = time.monotonic() + seconds
    while True:
        try:
            with urllib.request.urlopen(f"http://127.0.0.1:{port}{path}", timeout=LIMIT) as answer:
                return answer.read().decode()
        except (urllib.error.URLError, ConnectionError) as error:
            must(time.monotonic() < end, f"no answer to {path}: {error}: {log.read_text()[-2000:]}")
            time.sleep(0.2)


def read_by_node_exporter(start, room, _program):
    """node_exporter's textfile collector shows each of our families with its type and its help. It needs node_exporter."""
    needs("prometheus-node-exporter", "prometheus-node-exporter")
    run = start(words=("--figures", room / "gofnild.prom", "--figures-every", "0.1"))
    run.begin()
    await_figure(room / "gofnild.prom", 1, "gofnild_centre_up")
    text, port, log = (room / "gofnild.prom").read_text(), free_port(), room / "log"
    words = ["--collector.disable-defaults", "--collector.textfile", f"--collector.textfile.directory={room}"]
    with running("prometheus-node-exporter", *words, f"--web.listen-address=127.0.0.1:{port}", log=log):
        shown = fetched(port, "/metrics", log)
    names = {name for name, _ in samples_in(text)}
    for name in names:
        (about,) = re.findall(f"^# HELP {name} .*$", text, re.MULTILINE)
        kind = "counter" if name.endswith("_total") else "gauge"
        must(about in shown and f"# TYPE {name} {kind}\n" in shown, f"{name}: it shows {re.findall(f'# .* {name} .*', shown)}")
    must(len(names) > 40 and "node_textfile_scrape_error 0" in shown, f"{len(names)} families: {log.read_text()}")
    run.end()


def alarms(_start, _room, _program):
    """The rules for alarms are raised when they should be, and not before, by promtool. It needs promtool."""
    needs("promtool", "prometheus")
    for words in (["check", "rules", EXAMPLES / "gofnild_alarms.yml"], ["test", "rules", TESTS / "alarms" / "alarms.yml"]):
        ran = subprocess.run(["promtool", *map(str, words)], capture_output=True, text=True, timeout=3 * LIMIT)
        must(ran.returncode == 0, f"promtool {words[0]} says: {ran.stdout}{ran.stderr}")
    raised = set(re.findall(r"alert: (\w+)", (EXAMPLES / "gofnild_alarms.yml").read_text()))
    tried = set(re.findall(r"alertname: (\w+)", (TESTS / "alarms" / "alarms.yml").read_text()))
    must(raised == tried, f"rules are {raised}, and tried are {tried}")


def queries_of(dashboard):
    """The queries of a dashboard's panels."""
    return [target["expr"] for panel in dashboard["panels"] for target in panel.get("targets", ())]


SCRAPING = """
global: {{scrape_interval: 200ms, evaluation_interval: 200ms}}
rule_files: [{rules}]
scrape_configs:
  - job_name: gofnild
    metrics_path: /figures
    static_configs: [{{targets: ["127.0.0.1:{port}"]}}]
"""


class Quiet(http.server.SimpleHTTPRequestHandler):
    """Gives files, and says nothing."""

    extensions_map = {"": "text/plain; version=0.0.4"}

    def log_message(self, *_words):
        """It isn't of use."""


def dashboard(start, room, program):
    """A Prometheus answers each query of the dashboard, and each of the alarms' expressions, once it has our figures. It needs
    prometheus."""
    needs("prometheus", "prometheus")
    needs_journal(room, program)
    panels = json.loads((EXAMPLES / "gofnild_dashboard.json").read_text())
    core = [program, "live", "--journal", room / "journal"]
    run = start(words=("--figures", room / "figures", "--figures-every", "0.1"), core=core)
    clear_one = start_call(run, run.begin())
    server = http.server.ThreadingHTTPServer(("127.0.0.1", 0), functools.partial(Quiet, directory=str(room)))
    threading.Thread(target=server.serve_forever, daemon=True).start()
    text = SCRAPING.format(port=server.server_port, rules=EXAMPLES / "gofnild_alarms.yml")
    (room / "prometheus.yml").write_text(text)
    port, log = free_port(), room / "prometheus.log"
    words = [f"--config.file={room / 'prometheus.yml'}", f"--storage.tsdb.path={room / 'data'}"]
    with running("prometheus", *words, f"--web.listen-address=127.0.0.1:{port}", log=log):
        for query in queries_of(panels):
            await_answer(port, query.replace("$__rate_interval", WINDOW), log)
        rules = json.loads(fetched(port, "/api/v1/rules", log))["data"]["groups"][0]["rules"]
    must(rules and all(it["health"] == "ok" for it in rules), f"rules that can't be evaluated: {rules}")
    server.shutdown()
    clear(run, run.stations[0], clear_one.number, clear_one.connection)
    run.end()


def await_answer(port, query, log):
    """Waits until a Prometheus has an answer to a query."""
    end, path = time.monotonic() + LIMIT, f"/api/v1/query?{urllib.parse.urlencode({'query': query})}"
    while not (found := json.loads(fetched(port, path, log))["data"]["result"]):
        must(time.monotonic() < end, f"no answer to {query}: {log.read_text()[-2000:]}")
        time.sleep(0.2)
    return found


OF_NETWORK = [of_requests, read_by_node_exporter, dashboard]
CHECKS = [of_cells, go_on, barred, alarms]
