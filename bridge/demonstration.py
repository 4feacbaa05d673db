"""What the demonstrations share: namespaces of their own, in which all ends with them, and traces that are kept."""
import difflib
import os
import pathlib
import re
import shutil
import signal
import subprocess
import sys
import tempfile
import threading

# The status where nothing is shown.
LEFT_OUT = 77
# What says that a script runs in the namespaces already, and by which file it notices that who began it is gone.
INSIDE = "BRIDGE_DEMO_INSIDE"
# A namespace of networks, and one of processes, in which all are killed with the first one.
NAMESPACES = ("unshare", "--net", "--pid", "--fork", "--kill-child")
# How many seconds the end of all in there may take.
ENDING = 10


def left_out(name, why):
    """Says why nothing is shown."""
    print(f"{name}: left out: {why}")
    return LEFT_OUT


def enter(name, programs, packages, seconds):
    """Runs a script again in namespaces of its own, with these programs, for so many seconds at most; its status, or None where
    it is there. All that it begins there ends with it, and it ends with who began it, whichever way."""
    if INSIDE in os.environ:
        threading.Thread(target=end_with_outside, args=(int(os.environ[INSIDE]),), daemon=True).start()
        return None
    for program in programs:
        if not shutil.which(program):
            return left_out(name, f"{program} isn't installed ({packages})")
    words = [*NAMESPACES] if os.geteuid() == 0 else [*NAMESPACES, "-r"]
    begin = 'ip link set lo up && ip route add 224.0.0.0/4 dev lo && exec "$@"'
    if subprocess.run([*words, "sh", "-c", begin, "sh", "true"], capture_output=True).returncode:
        return left_out(name, "no namespaces of networks and processes are to be had (unshare --net --pid)")
    script = [sys.executable, os.path.realpath(sys.argv[0]), *sys.argv[1:]]
    for number in (signal.SIGTERM, signal.SIGHUP):
        signal.signal(number, lambda number, _frame: sys.exit(128 + number))
    return run_inside(name, [*words, "sh", "-c", begin, "sh", *script], seconds)


def run_inside(name, words, seconds):
    """Runs a command that enters the namespaces; its status. Its folders for a while go with it."""
    reads, writes = os.pipe()
    with tempfile.TemporaryDirectory() as folder:
        settings = {**os.environ, INSIDE: str(reads), "TMPDIR": folder}
        inside = subprocess.Popen(words, env=settings, pass_fds=(reads,))
        os.close(reads)
        try:
            return inside.wait(seconds)
        except subprocess.TimeoutExpired:
            print(f"{name}: isn't done in {seconds} seconds, and is killed", file=sys.stderr)
            return 1
        finally:
            os.close(writes)
            end_inside(inside)


def end_inside(inside):
    """Waits until all in the namespaces has ended."""
    try:
        inside.wait(ENDING)
    except subprocess.TimeoutExpired:
        inside.kill()
        inside.wait()


def end_with_outside(number):
    """Waits until who began this is gone, and ends then: this is the first process of its namespace, so all there does."""
    os.read(number, 1)
    os._exit(1)


def masked(line):
    """A line without what hangs on the time and on levels: the frame number of an acknowledgement, and what a station
    measured."""
    line = re.sub(r"^(in abis \d+ 0 0822....08)[0-9a-f]{4}$", r"\1####", line)
    return re.sub(r"^(in abis \d+ 0 0828....)[0-9a-f]+$", r"\1####", line)


def compare(trace, path, is_recorded):
    """Whether a trace is the one that is kept, which is this one where that is asked for; says where it isn't."""
    path = pathlib.Path(path)
    if is_recorded:
        path.write_text("\n".join(trace) + "\n")
    kept = path.read_text().split("\n")[:-1] if path.is_file() else []
    for line in difflib.unified_diff(kept, trace, path.name, "what came", lineterm=""):
        print(line, file=sys.stderr)
    return kept == trace
