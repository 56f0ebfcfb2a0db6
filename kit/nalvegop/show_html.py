"""Findings as one page of HTML that needs nothing else: a list by file and kind, and each path drawn on its source."""

from __future__ import annotations

from collections import Counter
from collections.abc import Iterator
from html import escape

from .check import FileResult
from .findings import Finding, Path
from .lines import SourceFiles, decoded
from .segments import KEYWORDS
from .tokens import parts_of
from .totals import summary

_STYLE = """
body { font: 15px/1.45 system-ui, sans-serif; margin: 2em auto; max-width: 70em; padding: 0 1em; color: #222; background: #fff }
h1 { font-size: 1.5em } h2 { font-size: 1.2em; margin-top: 2em } h3 { font-size: 1em; margin-bottom: .2em }
table { border-collapse: collapse } td, th { padding: .15em .8em .15em 0; text-align: left; vertical-align: top }
pre { background: #f6f6f4; padding: .6em; overflow-x: auto; tab-size: 8; line-height: 1.5 }
.n { color: #999; user-select: none } .at { background: #fff3c4 } .end { background: #ffd9d4 }
.step { color: #8a4b00; font-family: system-ui, sans-serif; font-size: 13px } .gap { color: #999 }
.comment { color: #6a737d } .string, .char { color: #0a5c36 } .number { color: #1a4f8b } .word { color: #7a1f5c }
"""
# How many lines are shown before and behind a step.
_AROUND = 2


def page(results: list[FileResult], files: SourceFiles, status: int) -> str:
    """Returns the whole page."""
    return "".join(_parts(results, files, status))


def _parts(results: list[FileResult], files: SourceFiles, status: int) -> Iterator[str]:
    yield f'<!doctype html>\n<html lang="en"><head><meta charset="utf-8"><title>nalvegop</title><style>{_STYLE}</style></head><body>\n'
    yield f"<h1>nalvegop</h1>\n<p>{escape(summary(results))}</p>\n"
    numbered = [(number, result, it) for number, (result, it) in enumerate(((result, it) for result in results for it in result.findings), 1)]
    yield "<table><tr><th>file</th><th>kind</th><th>findings</th></tr>\n"
    for (file, kind), count in sorted(Counter((result.file, it.kind) for _, result, it in numbered).items()):
        links = " ".join(f'<a href="#f{number}">{number}</a>' for number, result, it in numbered if (result.file, it.kind) == (file, kind))
        yield f"<tr><td>{escape(file)}</td><td>{kind}</td><td>{count}: {links}</td></tr>\n"
    yield "</table>\n"
    for number, _, it in numbered:
        yield from _finding(number, it, files)
    for result in results:
        rest = [
            *(f"{why.place or result.file}: {name} is passed over: {why.text}" for name, why in result.passed_over.items()),
            *(f"{name}: no answer in time" for name in result.late),
            *(f"{name}: without what {', '.join(calls)} does, for want of time" for name, calls in result.without_calls.items()),
            *(f"{one.place}: {one.text}" for one in result.missing),
        ]
        if result.failure or rest:
            yield f"<h2>{escape(result.file)}: what was not analysed</h2>\n"
            yield f"<p>{escape(result.failure)}</p>\n" if result.failure else "<p>" + "<br>".join(map(escape, rest)) + "</p>\n"
    yield "</body></html>\n"


def _finding(number: int, it: Finding, files: SourceFiles) -> Iterator[str]:
    yield f'<h2 id="f{number}">{number}. {escape(it.text)} [{it.kind}]</h2>\n<p>{escape(str(it.place))}, in function {escape(it.function)}</p>\n'
    for path in it.paths:
        if path.head:
            yield f"<h3>{escape(path.head[:1].upper() + path.head[1:])}</h3>\n"
        yield from _drawn(it, path, files)


def _drawn(it: Finding, path: Path, files: SourceFiles) -> Iterator[str]:
    """Draws a path: the lines of its steps with what happens beside them, and the lines around; a gap is three dots."""
    for file in dict.fromkeys(step.place.file for step in path.steps):
        notes: dict[int, list[str]] = {}
        for number, step in enumerate(path.steps, 1):
            if step.place.file == file:
                notes.setdefault(step.place.line, []).append(f"({number}) {step.text}")
        lines = coloured(files.lines(file))
        wanted = sorted({line for at in notes for line in range(max(at - _AROUND, 1), at + _AROUND + 1) if line <= len(lines)})
        last_line = path.steps[-1].place.line
        yield f"<p>{escape(file)}</p>\n<pre>"
        before = min(wanted, default=0)
        for line in wanted:
            if line > before + 1:
                yield '<span class="gap">      ...</span>\n'
            before = line
            text = lines[line - 1] or " "
            kind = ' class="end"' if line == last_line and path.steps[-1].place.file == file else ' class="at"' if line in notes else ""
            yield f'<span class="n">{line:5} </span><span{kind}>{text}</span>'
            yield f'   <span class="step">{escape("; ".join(notes[line]))}</span>\n' if line in notes else "\n"
        yield "</pre>\n"


def coloured(lines: list[str]) -> list[str]:
    """Returns the lines of a source as HTML, with comments, keywords, strings and numbers set off."""
    text, made, at = "\n".join(lines), list[str](), 0
    for it in parts_of(text):
        if it.kind == "punct" or it.is_word and it.text not in KEYWORDS:
            continue
        made.append(escape(decoded(text[at : it.start])))
        made.append("\n".join(f'<span class="{it.kind}">{escape(decoded(line))}</span>' for line in it.text.split("\n")))
        at = it.end
    return [*"".join([*made, escape(decoded(text[at:]))]).split("\n")]
