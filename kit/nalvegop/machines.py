"""Machines of states in place of locks: where a named one lies, and which functions are its operations."""

from __future__ import annotations

import re
from pathlib import Path

_TOP = Path(__file__).resolve().parents[2]
# The machines that come with the kit, and those of the examples.
FOLDERS = (_TOP / "kit" / "machines", _TOP / "examples" / "machines")
_OPERATION = re.compile(r"^op (\w+)", re.MULTILINE)


def find_machine(word: str) -> str | None:
    """Returns the file that a word means: that file, or the machine of this name that comes with the kit."""
    found = (it for it in (Path(word), *(folder / f"{word}.machine" for folder in FOLDERS)) if it.is_file())
    return str(next(found, "")) or None


def operations(path: str) -> frozenset[str]:
    """Returns the names of a machine's operations."""
    return frozenset(_OPERATION.findall(Path(path).read_text(encoding="utf-8", errors="replace")))
