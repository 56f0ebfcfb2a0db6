"""What the tests share: places of their files, and a program `saturn_check` where one is built."""

from __future__ import annotations

import importlib
import json
import os
import re
import subprocess
import sys
import tempfile
import unittest
from collections.abc import Iterator
from contextlib import contextmanager
from functools import lru_cache

from nalvegop.filter import Filter
from nalvegop.verdicts import At

KIT = os.path.dirname(os.path.dirname(os.path.abspath(__file__)))
TOP = os.path.dirname(KIT)
PROJECTS = os.path.join(KIT, "tests", "projects")
COMMAND = os.path.join(TOP, "bin", "nalvegop")


@lru_cache(maxsize=None)
def built_checker() -> str | None:
    """Returns the program that the environment names, or one that is built of this text, proved or not."""
    if os.environ.get("NALVEGOP_CHECKER"):
        return os.environ["NALVEGOP_CHECKER"]
    sys.path.insert(0, os.path.join(TOP, "bin"))
    try:
        found = importlib.import_module("programs").is_kept("saturn_check")
    finally:
        sys.path.pop(0)
    return str(found) if found else None


needs_checker = unittest.skipUnless(built_checker(), "no saturn_check is built: bin/saturn_check [--unproved] --where builds it")


@contextmanager
def folder(**files: str) -> Iterator[str]:
    """Gives a new folder with these files; `__` in a name stands for a dot."""
    with tempfile.TemporaryDirectory(prefix="nalvegop-test-") as room:
        for name, text in files.items():
            with open(os.path.join(room, name.replace("__", ".")), "w", encoding="utf-8") as it:
                it.write(text)
        yield room


def refused_at(text: str) -> Filter:
    """Returns the filter of a text in which the checker does not take something where an `@` stands; without these."""
    lines = text.split("\n")
    places = [At(number, it.start() + 1 - i) for number, line in enumerate(lines, 1) for i, it in enumerate(re.finditer("@", line))]
    made = Filter(text.replace("@", ""), lambda line: True)
    assert made.refuse(places)
    return made


# What a check of nothing says.
EMPTY = json.dumps({"format": "nalvegop verdicts", "version": 1, "functions": [], "notes": []})
# What a script in Python that stands for saturn_check begins and ends with: it adds to `functions`.
_BEGIN, _END = (
    """\
import json, sys, time
text = open("unit.c").read()
lines, functions = text.split("\\n"), []

def place(line, column):
    return {"line": line, "column": column}

def event(line, column, kind, **more):
    return {"place": place(line, column), "kind": kind, **more}

def call(line, column, callee):
    return event(line, column, "call", callee=callee)

def function(name, line, column, entry, items=(), reports=()):
    bits = [{"name": it, "type": "int"} for it in entry]
    more = {"entry": bits, "items": [*items], "writes": [], "reports": [*reports]}
    functions.append({"name": name, "place": place(line, column), "skipped": None, **more})

""",
    """
print(json.dumps({"format": "nalvegop verdicts", "version": 1, "functions": functions, "notes": []}))
""",
)


def program(room: str, text: str) -> str:
    """Writes a script that stands for saturn_check, and returns its path."""
    return _script(room, f"#!/bin/sh\n{text}\n")


def told_by(room: str, text: str) -> str:
    """Writes a script in Python that stands for saturn_check and tells functions, and returns its path."""
    return _script(room, f"#!{sys.executable} -IS\n{_BEGIN}{text}{_END}")


def _script(room: str, text: str) -> str:
    path = os.path.join(room, "checker")
    with open(path, "w", encoding="utf-8") as it:
        it.write(text)
    os.chmod(path, 0o755)
    return path


def nalvegop(*words: str, at: str, checker: str | None = None) -> subprocess.CompletedProcess[str]:
    """Runs the command in a folder."""
    env = {**os.environ, "NALVEGOP_CHECKER": checker or built_checker() or "/nonexistent"}
    env.pop("CC", None)
    return subprocess.run(
        [sys.executable, "-B", COMMAND, *words], cwd=at, env=env, stdin=subprocess.DEVNULL, capture_output=True, text=True, errors="replace", check=False
    )
