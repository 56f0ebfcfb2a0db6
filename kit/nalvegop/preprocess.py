"""Has a file's own compiler preprocess it, with the models of a library put in front."""

from __future__ import annotations

import os
import re
import subprocess
from dataclasses import dataclass
from functools import lru_cache

from .compilations import Compilation
from .processes import CLOCK, ran

# The headers of the models.
MODELS = os.path.join(os.path.dirname(os.path.dirname(os.path.abspath(__file__))), "models")


class NotPreprocessed(Exception):
    """The compiler is missing, or did not preprocess the file: the text says why."""


@dataclass(frozen=True)
class Models:
    """Which models are put in front: `linux`, `libc` or `none`, and headers of the user's."""

    name: str
    more: tuple[str, ...] = ()
    has_machine: bool = False

    def flags(self) -> tuple[list[str], list[str]]:
        """Returns the words before and behind the file's own flags.

        For Linux a header is forced in front, which includes the usual headers first and then sets their macros anew.
        For the C library that would come before the file's own _GNU_SOURCE: so there folders of headers stand first
        among the system's, each of which includes the real one and then sets its macros. (The header that both share
        includes none of the system's.)"""
        first = ["-DNALVEGOP_MACHINE"] if self.has_machine else []
        first += ["-isystem", os.path.join(MODELS, "libc")] if self.name == "libc" else []
        shared = {"linux": "linux.h", "libc": "nalvegop.h"}.get(self.name)
        last = ["-include", os.path.join(MODELS, shared)] if shared else []
        return first, last + [word for it in self.more for word in ("-include", os.path.abspath(it))]


_KERNEL_HEADER = re.compile(r"^[ \t]*#[ \t]*include[ \t]*<(linux|asm)/", re.MULTILINE)
_USER_HEADER = re.compile(r"^[ \t]*#[ \t]*include[ \t]*<(stdio|stdlib|string|unistd|pthread|errno|assert)\.h>", re.MULTILINE)


def fitting_models(it: Compilation) -> str:
    """Returns the models that fit what the file includes."""
    if "-D__KERNEL__" in it.flags:
        return "linux"
    try:
        with open(it.path, encoding="utf-8", errors="replace") as file:
            text = file.read()
    except OSError:
        return "libc"
    return "linux" if _KERNEL_HEADER.search(text) and not _USER_HEADER.search(text) else "libc"


def preprocessed(it: Compilation, models: Models, seconds: float) -> str:
    """Returns the preprocessed text of the file, with line markers, and with a character for each byte."""
    if not os.path.isfile(it.path):
        raise NotPreprocessed(f"{it.path}: there is no such file")
    first, last = models.flags()
    said = _compiled([it.compiler, *first, *it.flags, *last, "-E", it.file], it.folder, seconds)
    if not said.stdout.strip():
        raise NotPreprocessed(f"{it.compiler} -E gave no text")
    return said.stdout.decode("latin-1")


def _compiled(words: list[str], folder: str, seconds: float) -> subprocess.CompletedProcess[bytes]:
    try:
        said = ran(words, folder, seconds)
    except FileNotFoundError as error:
        missing = f"there is no folder {folder}" if not os.path.isdir(folder) else f"there is no compiler {words[0]}"
        raise NotPreprocessed(missing) from error
    except OSError as error:
        raise NotPreprocessed(f"{words[0]}: {error.strerror}") from error
    except subprocess.TimeoutExpired as error:
        raise NotPreprocessed(f"{words[0]} -E did not end within {seconds:.0f} seconds of a processor, or {CLOCK * seconds:.0f} by the clock") from error
    if said.returncode:
        lines = said.stderr.decode(errors="replace").strip().split("\n")
        shown = next((line for line in lines if "error" in line), lines[0])
        raise NotPreprocessed(f"{words[0]} -E ended with status {said.returncode}: {shown}")
    return said


@lru_cache(maxsize=None)
def model_names() -> frozenset[str]:
    """Returns the names of the macros of all models."""
    found = set[str]()
    for at, _, names in os.walk(MODELS):
        for name in names:
            with open(os.path.join(at, name), encoding="utf-8") as it:
                found |= set(re.findall(r"^#define (\w+)\(", it.read(), re.MULTILINE))
    return frozenset(found)


@lru_cache(maxsize=None)
def _widths(compiler: str, flags: tuple[str, ...], folder: str) -> tuple[str, str]:
    said = _compiled([compiler, *flags, "-E", "-dM", "-x", "c", os.devnull], folder, 30).stdout.decode(errors="replace")
    found = dict(re.findall(r"#define __SIZEOF_(LONG|POINTER)__ (\d+)", said))
    return found.get("LONG", ""), found.get("POINTER", "")


def width_model(it: Compilation) -> str:
    """Returns `lp64` or `ilp32`, whichever has the widths of long and of pointers with which the file is compiled."""
    # (gcc takes some of -m only with one of -f: -mcmodel=kernel wants -fno-pie)
    flags = tuple(word for word in it.flags if word.startswith(("-m", "-f", "--target")) or word == "-target")
    flags = it.flags if "-target" in flags else flags
    widths = _widths(it.compiler, flags, it.folder)
    if widths == ("4", "4"):
        return "ilp32"
    if widths == ("8", "8"):
        return "lp64"
    raise NotPreprocessed(f"{it.compiler} has a long of {widths[0] or '?'} bytes and pointers of {widths[1] or '?'}, which is neither ilp32 nor lp64")
