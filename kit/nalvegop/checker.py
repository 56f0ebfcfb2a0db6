"""Runs `saturn_check` on a filtered text, for a limited time."""

from __future__ import annotations

import os
import subprocess
import tempfile
from collections.abc import Mapping, Sequence
from dataclasses import dataclass

from .processes import CLOCK, ran
from .verdicts import Told, Verdicts, read_json

TOP = os.path.dirname(os.path.dirname(os.path.dirname(os.path.abspath(__file__))))
# A program to run in place of the one that bin/saturn_check finds.
PROGRAM = "NALVEGOP_CHECKER"


class NotChecked(Exception):
    """There is no program, or it gave no verdicts: the text says why."""


class OutOfTime(NotChecked):
    """The program was ended, since its time was over."""


class OutOfMemory(NotChecked):
    """The program was refused memory."""


def find_program(is_unproved: bool) -> str:
    """Returns the path of `saturn_check`; where it is not built, bin/saturn_check builds it first, and says so."""
    if os.environ.get(PROGRAM):
        return os.environ[PROGRAM]
    words = [os.path.join(TOP, "bin", "saturn_check"), *["--unproved"] * is_unproved, "--where"]
    try:
        said = subprocess.run(words, stdin=subprocess.DEVNULL, stdout=subprocess.PIPE, text=True, check=False)
    except OSError as error:
        raise NotChecked(f"{words[0]}: {error.strerror}") from error
    if said.returncode:
        raise NotChecked("there is no program saturn_check: the lines above say why")
    return said.stdout.strip()


@dataclass(frozen=True)
class Checker:
    """The program and the options with which it runs."""

    program: str
    depth: int = 2
    reach: int = 2
    machine: str | None = None

    def check(self, text: str, model: str, seconds: float, renamed: Mapping[str, str], told: Told | None = None) -> Verdicts:
        """Returns the verdicts of a text, in which names in place of others are told as those, and places as `told` says. It
        is written to a file of a plain name, so that no name has a meaning."""
        with tempfile.TemporaryDirectory(prefix="nalvegop-") as room:
            with open(os.path.join(room, "unit.c"), "w", encoding="latin-1", newline="\n") as it:
                it.write(text)
            words = [self.program, "--depth", str(self.depth), "--reach", str(self.reach), "--model", model]
            words += ["--machine", os.path.abspath(self.machine)] if self.machine else []
            said = _ran([*words, "--format", "json", "unit.c"], room, seconds)
        if said.returncode == 6:
            raise OutOfMemory("memory was refused")
        if said.returncode not in (0, 1):
            raise NotChecked(_why(said))
        return read_json(said.stdout, renamed, told)


def _ran(words: Sequence[str], folder: str, seconds: float) -> subprocess.CompletedProcess[bytes]:
    try:
        return ran(words, folder, seconds)
    except subprocess.TimeoutExpired as error:
        raise OutOfTime(f"no answer within {seconds:.0f} seconds of a processor, or {CLOCK * seconds:.0f} by the clock") from error
    except OSError as error:
        raise NotChecked(f"{words[0]}: {error.strerror}") from error


def _why(said: subprocess.CompletedProcess[bytes]) -> str:
    lines = [it for it in said.stderr.decode(errors="replace").splitlines() if it.startswith("saturn_check: ")]
    text = lines[-1].removeprefix("saturn_check: ") if lines else ""
    if said.returncode < 0:
        return f"saturn_check was ended by signal {-said.returncode}"
    return text or f"saturn_check ended with status {said.returncode}"
