"""Verdicts: what is read of the JSON of a check."""

from __future__ import annotations

import json
import unittest
from typing import Any

from nalvegop.reasons import Reason, words_of
from nalvegop.verdicts import At, Event, Function, Item, NotVerdicts, Report, Row, Run, Skip, Verdicts, read_json
from tests.support import EMPTY


def _place(line: int, column: int) -> dict[str, Any]:
    return {"file": "unit.c", "line": line, "column": column, "source": {"file": "unit.c", "line": line}}


def _row(entry: list[bool], before: Any, result: str, after: Any) -> dict[str, Any]:
    return {"entry": entry, "before": before, "result": result, "after": after}


def _path(text: str) -> dict[str, Any]:
    return {"text": text, "root": {"kind": "parameter", "number": 0, "name": "p"}, "steps": ["target"]}


_HEAD = {"in_header": False, "skipped": None}
_ENTER = {
    "name": "enter",
    "place": _place(6, 13),
    **_HEAD,
    "entry": [{"name": "lock", "type": "pointer"}],
    "bits": 1,
    "items": [
        {"item": "end", "rows": [_row([True], None, "none", None)]},
        {
            "item": "state",
            "path": _path("*lock"),
            "rows": [_row([True], {"state": "U"}, "none", {"state": "L"}), _row([True], {"state": "L"}, "none", "error")],
        },
    ],
    "writes": [],
    "reports": [],
}
_EVENTS: list[dict[str, Any]] = [
    {"place": _place(13, 24), "kind": "call", "callee": "kmalloc"},
    {"place": _place(14, 2), "kind": "call", "callee": None},
    {"place": _place(15, 9), "kind": "switch", "number": "-3"},
    {"place": _place(16, 9), "kind": "if", "holds": True},
    {"place": _place(17, 1), "kind": "loop", "holds": False},
    {"place": _place(18, 1), "kind": "goto", "label": "out"},
    {"place": _place(19, 17), "kind": "return"},
]
_SERVE = {
    "name": "serve",
    "place": _place(11, 6),
    **_HEAD,
    "entry": [],
    "bits": 0,
    "items": [
        {"item": "end", "rows": []},
        {"item": "object", "parameter": 0, "name": "p", "rows": [_row([], None, "zero", "freed")]},
        {"item": "pointer", "parameter": 0, "name": "p", "rows": [_row([], None, "none", "same")]},
    ],
    "writes": [{"path": _path("*p"), "width": 0}],
    "reports": [
        {"kind": "leak", "place": _place(13, 24), "runs": [{"choice": "d4", "location": "", "events": _EVENTS}]},
        {
            "kind": "inner",
            "runs": [{"choice": "none", "location": "call@13:24->lock", "events": [_EVENTS[0], {"place": _place(20, 1), "kind": "error"}]}],
        },
    ],
}
VALUE: dict[str, Any] = {
    "format": "nalvegop verdicts",
    "version": 1,
    "options": {"depth": 2, "reach": 2, "model": "lp64", "machine": "lock", "states": ["U", "L"]},
    "files": [{"name": "unit.c", "source": "unit.c"}],
    "notes": [{"reason": "unsupported", "kind": "float", "place": _place(1, 5)}],
    "functions": [
        _ENTER,
        {"name": "odd", "place": _place(9, 6), "in_header": False, "skipped": {"reason": "unsupported", "kind": "float", "place": _place(9, 20)}},
        {"name": "many", "place": _place(10, 6), "in_header": False, "skipped": {"reason": "limit", "kind": "nodes", "count": 4097}},
        _SERVE,
    ],
    "totals": {"functions": 4, "skipped": 2, "rows": 5, "reports": 2},
}


_READ_EVENTS = [
    Event(At(13, 24), "call", "kmalloc"),
    Event(At(14, 2), "call", "*"),
    Event(At(15, 9), "switch", "-3"),
    Event(At(16, 9), "if", "1"),
    Event(At(17, 1), "loop", "0"),
    Event(At(18, 1), "goto", "out"),
    Event(At(19, 17), "return"),
]
_READ = Verdicts(
    [
        Function(
            "enter",
            At(6, 13),
            entry=["lock"],
            pointers=frozenset(["lock"]),
            items=[Item("end", "", [Row("1", None, "-", None)]), Item("state", "*lock", [Row("1", "U", "-", "L"), Row("1", "L", "-", "!")])],
        ),
        Function("odd", At(9, 6), Skip("unsupported", "float", At(9, 20))),
        Function("many", At(10, 6), Skip("limit", "nodes", None, 4097)),
        Function(
            "serve",
            At(11, 6),
            items=[Item("end", "", []), Item("param", "p", [Row("", None, "0", "freed")]), Item("out", "p", [Row("", None, "-", "same")])],
            writes=["*p"],
            reports=[
                Report("leak", "", At(13, 24), [Run("d4", _READ_EVENTS)]),
                Report("inner", "call@13:24->lock", None, [Run("none", [_READ_EVENTS[0], Event(At(20, 1), "error", "call@13:24->lock")])]),
            ],
        ),
    ],
    [Skip("unsupported", "float", At(1, 5))],
)


class Reading(unittest.TestCase):
    maxDiff = None

    def test_all_that_a_check_says(self) -> None:
        found = read_json(json.dumps(VALUE))
        self.assertEqual(found, _READ)
        self.assertEqual([Reason(words_of(it.skip)).text for it in found.functions if it.skip], ["floating point", "too large"])

    def test_members_that_are_not_known(self) -> None:
        more = {**VALUE, "functions": [{**it, "asides": [{}]} for it in VALUE["functions"]], "says": 1}
        self.assertEqual(read_json(json.dumps(more)), _READ)

    def test_names_that_stand_for_others(self) -> None:
        renamed = {"lock": "mutex", "kmalloc": "list", "U": "t", "kind": "held", "p": "end", "out": "name"}
        event = Event(At(20, 1), "error", "call@13:24->mutex")
        enter, _, _, serve = read_json(json.dumps(VALUE), renamed).functions
        self.assertEqual((enter.entry, enter.items[1]), (["mutex"], Item("state", "*mutex", [Row("1", "U", "-", "L"), Row("1", "L", "-", "!")])))
        self.assertEqual([(it.what, it.name) for it in serve.items], [("end", ""), ("param", "end"), ("out", "end")])
        self.assertEqual(serve.writes, ["*end"])
        events = [event, Event(At(13, 24), "call", "list"), Event(At(18, 1), "goto", "name")]
        leak, inner = serve.reports
        self.assertEqual([inner.runs[0].events[1], leak.runs[0].events[0], leak.runs[0].events[5]], events)
        self.assertEqual((leak.kind, inner.kind, inner.about), ("leak", "inner", "call@13:24->mutex"))

    def test_nothing(self) -> None:
        self.assertEqual(read_json(EMPTY), Verdicts())

    def test_other_texts_are_refused(self) -> None:
        lacking: dict[str, Any] = {**VALUE, "functions": [{**_SERVE, "reports": [{"kind": "leak"}]}]}
        others: list[str | bytes] = ["", "{}", "[]", "total functions 0 skipped 0 rows 0 reports 0\n", b"\xff", json.dumps(lacking)]
        for text in others:
            with self.assertRaisesRegex(NotVerdicts, "is not JSON of the form"):
                read_json(text)
        with self.assertRaisesRegex(NotVerdicts, "'nalvegop verdicts', version 2, and this kit reads 'nalvegop verdicts', version 1"):
            read_json(json.dumps({**VALUE, "version": 2}))


if __name__ == "__main__":
    unittest.main()
