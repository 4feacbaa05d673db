"""The kit's own command `rt` as a module, for the scripts beside this file: they do what it does, by its own functions."""
import importlib.machinery
import importlib.util
import json
import os
import re
import shutil
import subprocess
import sys
from typing import NamedTuple

# Signs that `rattle fmt --tokens` has one by one.
JOINED = ("::", "=>", "->", "==", "!=", "&&", "||", "<=", ">=", "..")
# The top of the repository.
TOP = os.path.dirname(os.path.dirname(os.path.realpath(__file__)))


def load():
    """The module; where the kit isn't on the path it ends the script that asks for it."""
    path = shutil.which("rt")
    if path is None:
        sys.exit(f"{os.path.basename(sys.argv[0])}: 'rt', the toolchain's command, is not on the path")
    loader = importlib.machinery.SourceFileLoader("rt", os.path.realpath(path))
    made = importlib.util.module_from_spec(importlib.util.spec_from_loader("rt", loader))
    sys.modules["rt"] = made
    loader.exec_module(made)
    return made


class Token(NamedTuple):
    """A token of code: its text, its line, counted from 1, the place of its end in the file, and whether it is a literal."""

    text: str
    line: int
    end: int
    is_literal: bool = False


def tokens_of(files):
    """The code of each file as the compiler reads it, without comments, clauses and ghost items."""
    ran = subprocess.run([load().rtlib.RATTLE, "fmt", "--tokens", *files], capture_output=True, text=True, check=False)
    if ran.returncode:
        sys.exit(f"{os.path.basename(sys.argv[0])}: the sources can't be read: {ran.stderr.strip()}")
    for part in re.split(r"(?m)^file \d+\n", ran.stdout)[1:]:
        found, inside = [], False
        for row in part.splitlines():
            line, start, end, kind, text = row.split(" ", 4)
            text = json.loads(text)
            if kind == "Head" and text == "{":
                inside = True
            elif kind == "End":
                inside = False
            elif kind in ("Code", "Literal") and not inside:
                if found and found[-1].end == int(start) and found[-1].text + text in JOINED:
                    text = found.pop().text + text
                found.append(Token(text, int(line), int(end), kind == "Literal"))
        yield found
