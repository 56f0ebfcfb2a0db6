"""Findings as gcc prints its diagnostics: one line each, the source line with a caret, and the path as notes; in gcc's colours
where they are wanted."""

from __future__ import annotations

from collections.abc import Iterator
from dataclasses import dataclass

from .findings import Finding, Path
from .lines import SourceFiles, decoded


@dataclass(frozen=True)
class Colours:
    """What stands round parts of a line on a terminal (ECMA-48 SGR), as gcc has it; nothing without colours."""

    is_on: bool = False

    def place(self, text: object) -> str:
        return self._in("1", str(text))

    def warning(self, text: str) -> str:
        return self._in("1;35", text)

    def note(self, text: str) -> str:
        return self._in("1;36", text)

    def caret(self, text: str) -> str:
        return self._in("1;32", text)

    def _in(self, code: str, text: str) -> str:
        return f"\033[{code}m{text}\033[m" if self.is_on else text


PLAIN = Colours()


def lines_of(findings: list[Finding], files: SourceFiles, colours: Colours = PLAIN) -> Iterator[str]:
    """Gives the lines of all findings of a file."""
    inside = ""
    for it in findings:
        if it.function != inside:
            inside = it.function
            yield f"{colours.place(f'{it.place.file}:')} In function '{colours.place(inside)}':"
        yield from lines_of_one(it, files, colours)


def lines_of_one(it: Finding, files: SourceFiles, colours: Colours = PLAIN) -> Iterator[str]:
    yield f"{colours.place(f'{it.place}:')} {colours.warning('warning:')} {it.text} [{colours.warning(it.kind)}]"
    source = files.line(it.place.file, it.place.line)
    if source:
        yield f"{it.place.line:5} | {decoded(source).expandtabs(8)}"
        yield f"      | {' ' * len(decoded(source[: it.place.column - 1]).expandtabs(8))}{colours.caret('^')}"
    for path in it.paths:
        yield from _path(it, path, colours)


def _path(it: Finding, path: Path, colours: Colours) -> Iterator[str]:
    if path.head:
        place = path.steps[0].place if path.steps else it.place
        yield f"{colours.place(f'{place}:')} {colours.note('note:')} {path.head}:"
    for number, step in enumerate(path.steps, 1):
        yield f"{colours.place(f'{step.place}:')} {colours.note('note:')} ({number}) {step.text}"
