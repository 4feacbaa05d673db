"""The programs in C (m3ua.c, sctp_over_tcp.c), which are built where they are wanted."""
import pathlib
import re
import shutil
import subprocess
import tempfile

FOLDER = pathlib.Path(__file__).resolve().parent
# A file that a source takes in of the system or of a library.
TAKEN_IN = re.compile(r"#include <.*>")


class Missing(OSError):
    """The compiler isn't there, or a package that a source wants."""


def build(name, result, source, words, package):
    """Builds something of a source; raises Missing where the compiler or the package isn't there, OSError where they are, and
    it can't be compiled."""
    if not shutil.which("cc"):
        raise Missing(f"{name} wants a C compiler and {package}, and there is no cc")
    built = compiled(result, FOLDER / source, words)
    if built.returncode == 0:
        return
    why = (built.stderr.strip().splitlines() or ["it says no reason"])[0]
    if has_all(FOLDER / source, words):
        raise OSError(f"{source} can't be compiled: {why}")
    raise Missing(f"{name} wants {package}: {why}")


def compiled(result, source, words):
    """What came of the compiler."""
    words = ["cc", "-O2", "-o", result, source, *words]
    return subprocess.run([str(it) for it in words], capture_output=True, text=True)


def has_all(source, words):
    """Whether all is there that a source takes in, and the libraries: a program that takes in the same, and does nothing, is
    compiled."""
    with tempfile.TemporaryDirectory() as folder:
        empty = pathlib.Path(folder) / "empty.c"
        lines = TAKEN_IN.findall(source.read_text())
        empty.write_text("\n".join(["#define _GNU_SOURCE", *lines, "int main(void) { return 0; }", ""]))
        return compiled(empty.with_suffix(".o"), empty, words).returncode == 0
