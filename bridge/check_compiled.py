"""The checks of the programs in C: they are compiled, without a warning, and do on this machine what needs no other program. Where
the compiler or a package isn't there that is left out."""
import socket
import subprocess
import sys

import c_programs
import core_network
import m3ua
from harness import FOLDER, LIMIT, LeftOut, Lines, Unmet, must, namespaces, needs

# What the compiler finds fault with.
STRICT = ("-Wall", "-Wextra", "-Werror")
# Messages of M3UA (RFC 4666, 3.1): version 1, a class and a type, how long all of it is, and what follows. The first is ASP UP,
# of the class for an application server's state; the second DATA, of the class that carries data; then half of another one.
ASP_UP, DATA, HALF = "0100030100000008", "010001010000000c" + "0a0b0c0d", "0100010100000010" + "0a0b"
# Two ends of an SCTP socket on this machine, by the library that is preloaded, and what the second hears of the first. It is a
# script, since Python's own socket is the one that the library takes the place of.
TALK = """
import ctypes, socket, sys, threading
SCTP = 132
library = ctypes.CDLL(None)
listens = socket.socket(socket.AF_INET, socket.SOCK_STREAM, SCTP)
listens.bind(("127.0.0.1", 0))
listens.listen()
says = socket.socket(socket.AF_INET, socket.SOCK_STREAM, SCTP)
says.connect(listens.getsockname())
hears, _ = listens.accept()
for text in sys.argv[1:]:
    octets = bytes.fromhex(text)
    assert library.sctp_send(says.fileno(), octets, len(octets), None, 0) == len(octets)
says.shutdown(socket.SHUT_WR)
room, about, flags = ctypes.create_string_buffer(4096), ctypes.create_string_buffer(256), ctypes.c_int()
while (count := library.sctp_recvmsg(hears.fileno(), room, 4096, None, None, about, ctypes.byref(flags))) > 0:
    print(room.raw[:count].hex(), "stream", int.from_bytes(about.raw[:2], sys.byteorder), flush=True)
"""


# osmo-stp, an end that is watched, and another one that comes, goes, and comes again; the lines that the first prints.
NETWORK = """
import sys
sys.dont_write_bytecode = True
sys.path.insert(0, {folder!r})
import pathlib, subprocess
import core_network
from harness import WITH_PARENT, Lines
room = pathlib.Path(".").resolve()
settings = core_network.preloaded(room)
(room / "stp.cfg").write_text(core_network.TRANSFER_SETTINGS)
log = open(room / "stp.log", "w")
transfer = subprocess.Popen([*WITH_PARENT, "osmo-stp", "-c", "stp.cfg"], env=settings, stdout=log, stderr=log)
core_network.await_port(4239)
def begin(own, peer):
    words, pipe = [{program!r}, core_network.TRANSFER, "2905", str(own), str(peer)], subprocess.PIPE
    it = subprocess.Popen(words, env=settings, stdin=pipe, stdout=pipe, stderr=log, text=True)
    return it, Lines(it.stdout)
first, heard = begin(337, 185)
heard.expect("^up$")
for wanted in ("back", "away", "back"):
    if wanted == "away":
        other.kill()
        other.wait()
    else:
        other, _ = begin(185, 337)
    heard.expect(f"^{{wanted}}$")
print(*heard.lines)
for it in (first, other, transfer):
    it.kill()
    it.wait()
"""


def built(build, room):
    """What is built; that is left out where something isn't there that it wants, and not met where it can't be compiled."""
    try:
        return build(room, *STRICT)
    except c_programs.Missing as why:
        raise LeftOut(str(why)) from why
    except OSError as why:
        raise Unmet(str(why)) from why


# Each gets a function that starts a bridge, which these don't need, a folder, and the program.


def m3ua_is_compiled(_start, room, _program):
    """m3ua.c is compiled. It says what words it takes; without a centre it says nothing, reads lines, and ends with its input."""
    program = built(m3ua.build, room)
    settings = None if core_network.has_sctp() else core_network.preloading(built(core_network.build_library, room))
    ran = subprocess.run([program], capture_output=True, text=True, timeout=LIMIT)
    must((ran.returncode, ran.stderr) == (2, "m3ua ADDRESS PORT OWN PEER\n"), f"{ran.returncode}: {ran.stderr}")
    # a port at which nobody listens
    with socket.create_server(("127.0.0.1", 0)) as taken:
        port = taken.getsockname()[1]
    words, pipe = [program, "127.0.0.1", str(port), "337", "185"], subprocess.PIPE
    with subprocess.Popen(words, stdin=pipe, stdout=pipe, stderr=pipe, text=True, env=settings) as it:
        said = Lines(it.stderr)
        it.stdin.write("nonsense 1\n")
        it.stdin.flush()
        said.expect("^no line that is known: nonsense$")
        it.stdin.close()
        must(it.wait(LIMIT) == 0 and it.stdout.read() == "", f"it ends with status {it.returncode}")


def the_network_tells(_start, room, _program):
    """osmo-stp tells m3ua.c, over the library, that a point code can't be reached any more, and that it can again. It needs osmo-stp,
    and a namespace of networks."""
    program = built(m3ua.build, room)
    needs("osmo-stp", "osmo-stp")
    needs("ip", "iproute2")
    words = namespaces("--net")
    (room / "it.py").write_text(NETWORK.format(folder=str(FOLDER), program=str(program)))
    begin = [*words, "sh", "-c", "ip link set lo up && exec python3 it.py"]
    ran = subprocess.run(begin, cwd=room, capture_output=True, text=True, timeout=2 * LIMIT)
    must(ran.stdout.split() == ["up", "back", "away", "back"], f"it is told {ran.stdout}{ran.stderr}")


def sctp_over_tcp_is_compiled(_start, room, _program):
    """sctp_over_tcp.c is compiled. Preloaded it carries messages of M3UA, which come one by one however they are sent; of one that is
    cut by the end nothing comes."""
    library = built(core_network.build_library, room)
    # two messages at once, one in two pieces, and half a one
    words = [sys.executable, "-c", TALK, ASP_UP + DATA, DATA[:10], DATA[10:] + HALF]
    ran = subprocess.run(words, env=core_network.preloading(library), capture_output=True, text=True, timeout=LIMIT)
    wanted = [f"{ASP_UP} stream 0", f"{DATA} stream 1", f"{DATA} stream 1"]
    must(ran.stdout.split("\n")[:-1] == wanted, f"what came is {ran.stdout} {ran.stderr}")


def what_is_missing(_start, room, _program):
    """What isn't there for a program in C is told from one that can't be compiled."""
    for text, kind in (("#include <no/such.h>\n", c_programs.Missing), ("#include <errno.h>\n#error wrong\n", OSError)):
        (room / "it.c").write_text(text)
        try:
            c_programs.build("it", room / "it", room / "it.c", (), "a package")
        except OSError as why:
            if "no cc" in str(why):
                raise LeftOut(str(why)) from why
            must(type(why) is kind, f"{text!r}: {why!r}")
        else:
            raise Unmet(f"{text!r} is compiled")


CHECKS = [m3ua_is_compiled, the_network_tells, sctp_over_tcp_is_compiled, what_is_missing]
