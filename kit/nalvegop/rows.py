"""What functions do, in tables and in words: the rows of their summaries."""

from __future__ import annotations

from collections.abc import Iterator

from .check import FileResult
from .findings import KINDS, Finding, pretty
from .lines import SourceFiles
from .reasons import Reason, words_of
from .show_gcc import lines_of_one
from .verdicts import Function, Item, Row

_STATES = {"U": "unlocked", "L": "locked", "!": "an error"}
_ENDS = {"null": "null", "fresh": "new memory", "other": "another pointer", "same": "unchanged", "held": "kept", "escaped": "given away", "freed": "freed"}


def _word(state: str | None) -> str:
    return "" if state is None else {**_STATES, **_ENDS}.get(state, state)


def _result(row: Row) -> str:
    return {"-": "nothing", "0": "0", "1": "not 0"}[row.result]


def _title(item: Item) -> str:
    return {
        "end": "how it ends",
        "state": f"the state of {pretty(item.name)}",
        "param": f"what becomes of what {item.name} points to",
        "out": f"what *{item.name} is at the end",
    }[item.what]


def rows_text(function: Function, result: FileResult) -> Iterator[str]:
    """Gives the summary as tables with a column for each parameter of the entry bits, and which calls are not in it."""
    yield f"{function.name}:"
    if function.name in result.without_calls:
        yield f"  without what {', '.join(result.without_calls[function.name])} does, for want of time"
    yield from _missing(function, result)
    if function.skip:
        yield f"  passed over: {Reason(words_of(function.skip)).text}"
        return
    for item in function.items:
        yield f"  {_title(item)}"
        if not item.rows:
            yield "    it never ends"
            continue
        has_before = any(it.before for it in item.rows)
        heads = [*function.entry[: len(item.rows[0].entry)], *["before"] * has_before, "gives", *["after"] * any(it.after for it in item.rows)]
        table = [heads] + [_cells(function, row, has_before) for row in item.rows]
        widths = [max(len(line[i]) for line in table) for i in range(len(heads))]
        for line in table:
            yield "    " + "  ".join(cell.ljust(width) for cell, width in zip(line, widths)).rstrip()
    if function.writes:
        yield f"  it may write {', '.join(pretty(it) for it in function.writes)}"


def _cells(function: Function, row: Row, has_before: bool) -> list[str]:
    bits = [function.is_or_not(name, bit).removeprefix("is ") for name, bit in zip(function.entry, row.entry)]
    return [*bits, *[_word(row.before)] * has_before, _result(row), *[_word(row.after)] * (row.after is not None)]


def _missing(function: Function, result: FileResult) -> Iterator[str]:
    """Gives the calls whose effects are in no row."""
    for it in result.missing:
        if it.caller == function.name:
            yield f"  it calls '{it.callee}', which {it.note}"


def story(it: Finding, result: FileResult) -> Iterator[str]:
    """Gives the whole story of a finding: what its kind means, its paths, and the rows of its function in words."""
    yield from lines_of_one(it, SourceFiles())
    yield ""
    yield f"{it.kind}: {KINDS[it.kind]}."
    function = next((one for one in result.functions if one.name == it.function), None)
    if not function:
        return
    yield f"What '{it.function}' does, for each way in which its parameters are 0 or not:"
    yield from _missing(function, result)
    for item in function.items:
        for row in item.rows:
            yield f"  {_in_words(function, item, row)}"


def _in_words(function: Function, item: Item, row: Row) -> str:
    given = [f"{name} {function.is_or_not(name, bit)}" for name, bit in zip(function.entry, row.entry)]
    if row.before is not None:
        given.append(f"{pretty(item.name)} is {_word(row.before)}")
    when = f"where {' and '.join(given)}, " if given else ""
    gives = "" if row.result == "-" else f" and it gives {_result(row)}"
    if item.what == "state" and row.after == "!":
        return f"{when}there is an error on {pretty(item.name)}"
    ends = {
        "end": f"it can end{f' and it gives {_result(row)}' if row.result != '-' else ''}{f' ({_word(row.after)})' if row.after else ''}",
        "state": f"{pretty(item.name)} can be left {_word(row.after)}{gives}",
        "param": f"what {item.name} points to can be {_word(row.after)}{gives}",
        "out": f"*{item.name} can be {_word(row.after)} at the end{gives}",
    }
    return when + ends[item.what]
