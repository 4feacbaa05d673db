"""Processes that the bridge begins. Where the bridge is killed they are too, whatever they do: one that is stopped would stay, with
the lock of its journal."""
import contextlib
import functools
import os
import signal
import subprocess
import typing

# What the system is told by a process that is to be killed with the thread that began it (prctl(2)).
PR_SET_PDEATHSIG = 1
PRCTL: typing.Callable | None = None
try:
    import ctypes

    PRCTL = ctypes.CDLL(None).prctl
except (ImportError, OSError, AttributeError, MemoryError):
    # it isn't to be had here
    pass


def begin(command):
    """Begins a process with a group of its own; itself, and the ends of pipes: where it is given something, where it prints, and
    where it says something on standard error. Where that can't be done nothing of it is left."""
    with contextlib.ExitStack() as opened:
        (given, writes), (reads, printed) = pipe(opened), pipe(opened)
        errors, own = pipe(opened)
        settings = {"start_new_session": True, "preexec_fn": with_parent(os.getpid())}
        process = subprocess.Popen([str(word) for word in command], stdin=given, stdout=printed, stderr=own, **settings)
        opened.pop_all()
    for number in (given, printed, own):
        os.close(number)
    for number in (writes, reads, errors):
        os.set_blocking(number, False)
    return process, writes, reads, errors


class Adopted:
    """A process that this one began before it became another program (succession.py): as of subprocess.Popen."""

    def __init__(self, pid):
        self.pid, self.returncode = pid, None

    def poll(self):
        """Its status, negative where a signal killed it; None while it runs."""
        return self.look(os.WNOHANG)

    def wait(self):
        """Waits for its end; its status."""
        return self.look(0)

    def look(self, options):
        """Looks whether it has ended."""
        if self.returncode is None:
            number, status = os.waitpid(self.pid, options)
            if number:
                self.returncode = os.waitstatus_to_exitcode(status)
        return self.returncode

    def kill(self):
        """Kills it, unless it has ended."""
        if self.poll() is None:
            os.kill(self.pid, signal.SIGKILL)


def kill_all(process):
    """Kills a process that was begun so, and what it has begun; not one that is gone, whose number may be another's."""
    if process.returncode is None:
        with contextlib.suppress(ProcessLookupError):
            os.killpg(process.pid, signal.SIGKILL)


def pipe(opened):
    """A pipe, whose ends are closed where what is opened is."""
    ends = os.pipe()
    for number in ends:
        opened.callback(os.close, number)
    return ends


def with_parent(parent):
    """What a process does before it becomes another program, so that it is killed with its parent; None where that isn't to be had.
    Other threads are no matter of it: it waits for nothing that they may have."""
    return functools.partial(follow, PRCTL, parent) if PRCTL else None


def follow(prctl, parent):
    """Has this process killed with its parent, and ends it where that is gone."""
    prctl(PR_SET_PDEATHSIG, int(signal.SIGKILL), 0, 0, 0)
    if os.getppid() != parent:
        os._exit(1)
