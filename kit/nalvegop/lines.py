"""From places in preprocessed text to places in the source: line markers (`# LINE "NAME" FLAGS`), and columns.

All text is held with a character for each byte, as `saturn_check` counts columns; `decoded` gives it to be shown. A line
marker gives file and line exactly. A column of preprocessed text says little, since the preprocessor squeezes
white space and expands macros: the tokens of the line are laid beside those of the source line, and a token that a
macro gave gets the place of the macro's name.
"""

from __future__ import annotations

import os
import re
from bisect import bisect_right
from dataclasses import dataclass
from functools import lru_cache

from .tokens import tokens_of

_MARKER = re.compile(r'# (\d+) "((?:[^"\\]|\\.)*)"((?: \d)*)\s*')
_ESCAPE = re.compile(r"\\([0-7]{1,3}|.)")


@dataclass(frozen=True, slots=True, order=True)
class Place:
    """A place of a source file: its name as the compiler has it, line and column from 1."""

    file: str
    line: int
    column: int

    def __str__(self) -> str:
        return f"{self.file}:{self.line}:{self.column}"


def decoded(text: str) -> str:
    """Returns a text that has a character for each byte as it is to be shown."""
    return text.encode("latin-1", errors="replace").decode("utf-8", errors="replace")


def unescaped(name: str) -> str:
    """Returns the name that a line marker spells."""
    spelled = _ESCAPE.sub(lambda it: chr(int(it[1], 8)) if it[1][0] in "01234567" else it[1], name)
    return spelled.encode("latin-1", errors="replace").decode("utf-8", errors="surrogateescape")


class SourceFiles:
    """Source files as lines. Names are relative to the folder in which the compiler ran."""

    def __init__(self, folder: str = ".") -> None:
        self.folder = folder
        self._lines: dict[str, list[str]] = {}

    def path(self, name: str) -> str:
        return os.path.join(self.folder, name)

    def lines(self, name: str) -> list[str]:
        if name not in self._lines:
            try:
                with open(self.path(name), encoding="latin-1", newline="\n") as it:
                    self._lines[name] = it.read().split("\n")
            except OSError:
                self._lines[name] = []
        return self._lines[name]

    def line(self, name: str, number: int) -> str:
        """Returns a line without its end, or nothing where there is no such line."""
        lines = self.lines(name)
        return lines[number - 1].rstrip("\r") if 0 < number <= len(lines) else ""


class LineMap:
    """The lines of a preprocessed text, and where each comes from."""

    def __init__(self, text: str, name: str, files: SourceFiles) -> None:
        self.files = files
        self.lines = text.split("\n")
        self._from: list[tuple[str, int]] = []
        self._is_own: list[bool] = []
        self._spots_of: dict[tuple[str, int], tuple[Spot, ...]] = {}
        file, number, depth = name, 1, 0
        self.main = name
        for line in self.lines:
            found = _MARKER.fullmatch(line)
            if found:
                number, file, flags = int(found[1]), unescaped(found[2]), found[3].split()
                depth += ("1" in flags) - ("2" in flags)
                if len(self._from) == 0:
                    self.main = file
                # (the marker itself stands on no line of the source)
                self._from.append((file, max(number - 1, 1)))
            else:
                self._from.append((file, number))
                number += 1
            self._is_own.append(not file.startswith("<") and (depth <= 0 or file.endswith(".c")))

    def is_own(self, line: int) -> bool:
        """Returns whether the line, from 1, is of the file itself: in no header, nor in what the compiler puts in front."""
        return 0 < line <= len(self._is_own) and self._is_own[line - 1]

    def source_line(self, line: int) -> tuple[str, int]:
        """Returns the file and line of the source for a line of the text, both from 1."""
        return self._from[line - 1] if 0 < line <= len(self._from) else (self.main, 1)

    def place(self, line: int, column: int) -> Place:
        """Returns the place in the source for a line and column of the text, both from 1."""
        file, number = self.source_line(line)
        return Place(file, *self._spot(line, column, file, number))

    def _spot(self, line: int, column: int, file: str, number: int) -> tuple[int, int]:
        """Returns line and column in the source. The line may be a later one than the marker says: clang puts all behind
        a macro of several lines on its first line, and lines may be joined by a backslash."""
        source = self.files.line(file, number)
        here = self.lines[line - 1] if 0 < line <= len(self.lines) else ""
        if not source or source == here:
            return number, column
        made, at = list[str](), -1
        for one in self._same_source(line):
            for token in tokens_of(self.lines[one - 1]):
                if one == line and token.start <= column - 1 < token.end:
                    at = len(made)
                made.append(token.text)
        known = self._known(file, number)
        return _spots(tuple(made), known)[at] if at >= 0 and known else (number, column)

    def _known(self, file: str, number: int) -> tuple[Spot, ...]:
        """Returns the tokens of a line of the source and of some behind it."""
        key = file, number
        if key not in self._spots_of:
            text = "\n".join(self.files.lines(file)[number - 1 : number - 1 + _WINDOW])
            begins = [0, *(i + 1 for i, it in enumerate(text) if it == "\n")]
            found = list[Spot]()
            for it in tokens_of(text):
                row = bisect_right(begins, it.start) - 1
                found.append((it.text, number + row, it.start - begins[row] + 1))
            self._spots_of[key] = tuple(found)
        return self._spots_of[key]

    def _same_source(self, line: int) -> list[int]:
        """Returns the lines of the text that come from one line of the source: a macro of a header is set off by markers."""
        wanted, found = self._from[line - 1], [line]
        for step in (-1, 1):
            at = line + step
            while 0 < at <= len(self.lines) and (self._from[at - 1] == wanted or not self.lines[at - 1].strip() or self.lines[at - 1].startswith("#")):
                if self._from[at - 1] == wanted and not self.lines[at - 1].startswith("#"):
                    found.append(at)
                at += step
        return sorted(found)


# A token of the source, with its line and column.
Spot = tuple[str, int, int]
# How many lines of the source a line of the text may stand for.
_WINDOW = 40
_OPEN, _CLOSE = {"(", "[", "{"}, {")", "]", "}"}


@lru_cache(maxsize=4096)
def _spots(made: tuple[str, ...], known: tuple[Spot, ...]) -> list[tuple[int, int]]:
    """Returns for each token of preprocessed text its line and column in the source, which has the known tokens.

    Both are read side by side. Where they differ a macro stands in the source: all that it gave gets the place of its
    name, but for what stands just once in its arguments, and once in what it gave: that has its own place."""
    found, at, i = list[tuple[int, int]](), 0, 0
    if made and made[0] != known[0][0]:
        i = _behind_open_arguments(known)
    while at < len(made):
        if i >= len(known):
            # (what a macro gave was taken for its end too early)
            found += [known[-1][1:]] * (len(made) - at)
            break
        if made[at] == known[i][0]:
            found.append(known[i][1:])
            at, i = at + 1, i + 1
            continue
        behind = _behind_macro(known, i)
        end = _balanced_end(made, at, known[behind][0] if behind < len(known) else None)
        given, gave = [it[0] for it in known[i + 1 : behind]], made[at:end]
        own = {it[0]: it[1:] for it in known[i + 1 : behind] if given.count(it[0]) == 1 and gave.count(it[0]) == 1}
        found += [own.get(it, known[i][1:]) for it in gave]
        at, i = end, behind
    return found


def _behind_open_arguments(known: tuple[Spot, ...]) -> int:
    """Returns the number of the token behind the last bracket of the first line that closes what an earlier line opened,
    or 0 where there is none."""
    depth, behind = 0, 0
    for number, (text, line, _) in enumerate(known):
        if line != known[0][1]:
            break
        depth += (text in _OPEN) - (text in _CLOSE)
        if depth < 0:
            depth, behind = 0, number + 1
    return behind if behind < len(known) else 0


def _behind_macro(known: tuple[Spot, ...], i: int) -> int:
    """Returns the number of the token behind a macro and its arguments."""
    if i + 1 >= len(known) or known[i + 1][0] != "(":
        return i + 1
    depth = 0
    for at in range(i + 1, len(known)):
        depth += (known[at][0] in _OPEN) - (known[at][0] in _CLOSE)
        if depth == 0:
            return at + 1
    return len(known)


def _balanced_end(made: tuple[str, ...], at: int, text: str | None) -> int:
    """Returns where the text stands first outside of all brackets that what a macro gave has opened."""
    depth = 0
    for end in range(at, len(made)):
        if depth <= 0 and made[end] == text:
            return end
        depth += (made[end] in _OPEN) - (made[end] in _CLOSE)
    return len(made)
