"""What a check says, as data: from the JSON of `saturn_check` (docs/JSON.md).

It has all rows, reports and events. It has not the values that a run begins with, what its calls gave, or why runs
were set aside; `observed` asks for values.
"""

from __future__ import annotations

import json
import re
from collections.abc import Callable, Mapping
from dataclasses import dataclass, field
from typing import Any


@dataclass(frozen=True)
class At:
    """A line and column of the text that was checked, from 1."""

    line: int
    column: int


@dataclass(frozen=True)
class Skip:
    """Why a function, or something at file scope, was left out: `unsupported`, `float`, and where; a limit has a count.
    `stands`: where that stands in the text that was checked, if something moved there."""

    reason: str
    kind: str = ""
    at: At | None = None
    count: int | None = None
    stands: At | None = None


@dataclass(frozen=True)
class Row:
    """`entry`: the entry bits. `before` and `after`: a state of the machine, `!` for an error, what becomes of an object
    (held, escaped, freed), of a pointer (null, fresh, other, same); or None. `result`: -, 0, or 1 for anything else."""

    entry: str
    before: str | None
    result: str
    after: str | None


@dataclass(frozen=True)
class Item:
    """Of what rows speak: `end`, `state` of a location, `param` (its object), `out` (a pointer behind a parameter)."""

    what: str
    name: str
    rows: list[Row]


@dataclass(frozen=True)
class Event:
    """A step of a run: `call`, `if`, `loop`, `switch`, `goto`, `return`, `end`, `error`; and its word in the text."""

    at: At
    kind: str
    word: str = ""

    @property
    def holds(self) -> bool:
        return self.word == "1"


@dataclass(frozen=True)
class Run:
    """A run that shows a report."""

    choice: str
    events: list[Event]


@dataclass(frozen=True)
class Report:
    """`about`: the location's text; for a leak nothing, and `at` is where the object came from."""

    kind: str
    about: str
    at: At | None
    runs: list[Run]


@dataclass
class Function:
    name: str
    at: At
    skip: Skip | None = None
    entry: list[str] = field(default_factory=list)
    # (those of them that are pointers)
    pointers: frozenset[str] = frozenset()
    items: list[Item] = field(default_factory=list)
    writes: list[str] = field(default_factory=list)
    reports: list[Report] = field(default_factory=list)

    def is_or_not(self, name: str, bit: str) -> str:
        """Returns what an entry bit says of a parameter: that it is 0, or null, or not."""
        return f"is {'not ' if bit == '1' else ''}{'null' if name in self.pointers else '0'}"


@dataclass
class Verdicts:
    """All functions of a check, in order, and what was left out at file scope."""

    functions: list[Function] = field(default_factory=list)
    notes: list[Skip] = field(default_factory=list)


class NotVerdicts(ValueError):
    """The text is not JSON of the form that `saturn_check` writes."""


_FORM = ("nalvegop verdicts", 1)
# The members that have names of C in them.
_NAMES = {"name", "text", "callee", "label", "location"}
# The object that a call gave, by the call's place.
_OBJECT = re.compile(r"\bcall@(\d+):(\d+)")


# Where something is told that stands at a place.
Told = Callable[[At], At]


def read_json(text: str | bytes, renamed: Mapping[str, str] | None = None, told: Told | None = None) -> Verdicts:
    """Reads the JSON of a check, in which names that stand for others are told as those, and places as `told` says. Members
    that are not known are passed over."""
    try:
        value = json.loads(text, object_hook=_as_told(renamed or {}, told or (lambda at: at)) if renamed or told else None)
        form = value["format"], value["version"]
        if form == _FORM:
            return Verdicts([_function(it) for it in value["functions"]], [_skip(it) for it in value["notes"]])
    except (ValueError, KeyError, TypeError) as error:
        raise NotVerdicts(f"what saturn_check wrote is not JSON of the form of docs/JSON.md: {error!r}") from error
    raise NotVerdicts(f"saturn_check wrote {form[0]!r}, version {form[1]!r}, and this kit reads {_FORM[0]!r}, version {_FORM[1]}")


def _as_told(renamed: Mapping[str, str], told: Told) -> Callable[[dict[str, Any]], dict[str, Any]]:
    """Returns what puts old names and places into an object of JSON, and leaves the words of the form and the states of a
    machine."""
    pattern = re.compile(rf"\b(?:{'|'.join(renamed)})\b") if renamed else None

    def object_of(call: re.Match[str]) -> str:
        at = told(At(int(call[1]), int(call[2])))
        return f"call@{at.line}:{at.column}"

    def old(key: str, value: Any) -> Any:
        if key not in _NAMES or not isinstance(value, str):
            return value
        named = pattern.sub(lambda name: renamed[name[0]], value) if pattern else value
        return _OBJECT.sub(object_of, named)

    def hook(it: dict[str, Any]) -> dict[str, Any]:
        if isinstance(it.get("line"), int) and isinstance(it.get("column"), int):
            stands = At(it["line"], it["column"])
            at = told(stands)
            return {**it, "line": at.line, "column": at.column, "stands": stands}
        return {key: old(key, value) for key, value in it.items()}

    return hook


def _at(place: dict[str, Any]) -> At:
    return At(place["line"], place["column"])


def _skip(it: dict[str, Any]) -> Skip:
    place = it.get("place")
    return Skip(it["reason"], it.get("kind", ""), _at(place) if place else None, it.get("count"), place.get("stands") if place else None)


def _function(it: dict[str, Any]) -> Function:
    made = Function(it["name"], _at(it["place"]))
    if it["skipped"]:
        made.skip = _skip(it["skipped"])
        return made
    made.entry = [parameter["name"] for parameter in it["entry"]]
    made.pointers = frozenset(parameter["name"] for parameter in it["entry"] if parameter["type"] == "pointer")
    kinds = {"end": "end", "state": "state", "object": "param", "pointer": "out"}
    for item in it["items"]:
        name = item["path"]["text"] if "path" in item else item.get("name", "")
        made.items.append(Item(kinds[item["item"]], name, [_row(row) for row in item["rows"]]))
    made.writes = [write["path"]["text"] for write in it["writes"]]
    made.reports = [_report(report) for report in it["reports"]]
    return made


def _state(state: Any) -> str | None:
    match state:
        case None:
            return None
        case {"state": name}:
            return str(name)
        case "error":
            return "!"
    return str(state)


def _row(row: dict[str, Any]) -> Row:
    result = {"none": "-", "zero": "0", "nonzero": "1"}[row["result"]]
    return Row("".join("1" if it else "0" for it in row["entry"]), _state(row["before"]), result, _state(row["after"]))


def _event(it: dict[str, Any], location: str) -> Event:
    return Event(_at(it["place"]), it["kind"], _word(it, location))


def _word(it: dict[str, Any], location: str) -> str:
    """Returns the word that the text has for an event."""
    match it["kind"]:
        case "call":
            return "*" if it["callee"] is None else str(it["callee"])
        case "if" | "loop":
            return str(int(it["holds"]))
        case "switch":
            return str(it["number"])
        case "goto":
            return str(it["label"])
        case "error":
            return location
    return ""


def _report(it: dict[str, Any]) -> Report:
    runs = [Run(run["choice"], [_event(event, run["location"]) for event in run["events"]]) for run in it["runs"]]
    about = it["path"]["text"] if "path" in it else it["runs"][0]["location"] if it["kind"] == "inner" else ""
    return Report(it["kind"], about, _at(it["place"]) if "place" in it else None, runs)
