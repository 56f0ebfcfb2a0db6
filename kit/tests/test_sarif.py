"""Findings as SARIF 2.1.0: against the schema, and against what the document asks beyond it.

`sarif.schema.json` has all objects of the document (OASIS, chapter 3). It was written for these tests, since no package of
Debian has the schema of OASIS. Names of members, their types and which of them must be there were held against two packages
that were made from that one, python3-sarif-python-om and golang-github-haya14busa-go-sarif-dev. Bounds, and which arrays have
no element twice, were written from knowledge of the document and held against nothing.
"""

from __future__ import annotations

import copy
import json
import os
import unittest
from collections.abc import Callable, Iterator
from typing import Any

from nalvegop.check import FileResult
from nalvegop.findings import Finding, Path, Step
from nalvegop.lines import Place
from nalvegop.show_sarif import sarif
from tests.support import KIT, PROJECTS, nalvegop, needs_checker

Log = dict[str, Any]


def result() -> FileResult:
    place = Place("a b/it's.c", 3, 7)
    steps = [Step(place, "'malloc' is called"), Step(Place("/usr/include/x.h", 4, 1), "'f' ends")]
    path = Path("a run", steps, "d4", {"dev->open": "not 0"})
    return FileResult("a b/it's.c", findings=[Finding("leak", "f", place, "memory <is> lost", [path], "sum")], late=["g"], without_calls={"h": ["g"]})


def log_of(*results: FileResult) -> Log:
    """Returns a log as a reader has it."""
    made: Log = json.loads(json.dumps(sarif([*results], 2)))
    return made


def artifact_locations(value: Any) -> Iterator[Log]:
    """Gives all objects that say where a file is, somewhere in a value."""
    if isinstance(value, list):
        for it in value:
            yield from artifact_locations(it)
    elif isinstance(value, dict):
        if "artifactLocation" in value:
            yield value["artifactLocation"]
        for it in value.values():
            yield from artifact_locations(it)


class Members(unittest.TestCase):
    def test_a_finding(self) -> None:
        run = log_of(result(), FileResult("b.c", failure="why"))["runs"][0]
        found = run["results"][0]
        self.assertEqual(found["locations"][0]["physicalLocation"]["artifactLocation"], {"uri": "a%20b/it%27s.c", "uriBaseId": "SRCROOT"})
        flow = found["codeFlows"][0]["threadFlows"][0]
        self.assertEqual(flow["locations"][1]["location"]["physicalLocation"]["artifactLocation"]["uri"], "file:///usr/include/x.h")
        self.assertEqual(flow["initialState"], {"dev->open": {"text": "not 0"}})
        self.assertEqual([it["level"] for it in run["invocations"][0]["toolExecutionNotifications"]], ["error", "warning", "note"])

    def test_what_the_document_asks_beyond_the_schema(self) -> None:
        log = log_of(result(), FileResult("b.c", failure="why"))
        run = log["runs"][0]
        rules = run["tool"]["driver"]["rules"]
        self.assertEqual(len({it["id"] for it in rules}), len(rules))
        for it in run["results"]:
            self.assertEqual(rules[it["ruleIndex"]]["id"], it["ruleId"])
            orders = [step["executionOrder"] for flow in it["codeFlows"] for step in flow["threadFlows"][0]["locations"]]
            self.assertEqual(orders, [*range(1, len(orders) + 1)])
        bases = run["originalUriBaseIds"]
        self.assertTrue(all(it["uri"].endswith("/") for it in bases.values()))
        located = [*artifact_locations(log)]
        self.assertEqual(len(located), 6)
        for one in located:
            self.assertTrue(one["uri"].startswith("file:///") if "uriBaseId" not in one else one["uriBaseId"] in bases and not one["uri"].startswith("/"))


class Schema(unittest.TestCase):
    def setUp(self) -> None:
        try:
            import jsonschema
        except ImportError:
            self.skipTest("there is no jsonschema")
        with open(os.path.join(KIT, "tests", "sarif.schema.json"), encoding="utf-8") as it:
            self.validator = jsonschema.Draft7Validator(json.load(it))

    def faults(self, log: Log) -> list[str]:
        return [it.message for it in self.validator.iter_errors(log)]

    def test_what_is_written_is_valid(self) -> None:
        bare = FileResult("c.c", findings=[Finding("double", "f", Place("c.c", 0, 0), "m", [Path("", [], "none")], "sum")])
        cases: list[list[FileResult]] = [[], [result()], [bare], [FileResult("b.c", failure="why"), result()]]
        for results in cases:
            self.assertEqual(self.faults(log_of(*results)), [])

    def test_other_logs_are_refused(self) -> None:
        def at(log: Log, *names: str | int) -> Any:
            for name in names:
                log = log[name]  # type: ignore[index]
            return log

        def location(log: Log) -> Any:
            return at(log, "runs", 0, "results", 0, "locations", 0, "physicalLocation")

        wrong: dict[str, Callable[[Log], Any]] = {
            "version": lambda log: log.update(version="2.2.0"),
            "tool": lambda log: log["runs"][0].pop("tool"),
            "name": lambda log: at(log, "runs", 0, "tool", "driver").pop("name"),
            "kind": lambda log: at(log, "runs", 0, "results", 0).update(kind="bug"),
            "level": lambda log: at(log, "runs", 0, "results", 0).update(level="fatal"),
            "message": lambda log: at(log, "runs", 0, "results", 0).update(message={}),
            "column": lambda log: location(log)["region"].update(startColumn=0),
            "place": lambda log: location(log).pop("artifactLocation"),
            "flow": lambda log: at(log, "runs", 0, "results", 0, "codeFlows", 0).update(threadFlows=[]),
            "twice": lambda log: at(log, "runs", 0, "tool", "driver", "rules").append(at(log, "runs", 0, "tool", "driver", "rules", 0)),
            "unknown": lambda log: log["runs"][0].update(findings=[]),
            "guid": lambda log: at(log, "runs", 0, "results", 0).update(guid="1"),
        }
        whole = log_of(result())
        for name, change in wrong.items():
            log = copy.deepcopy(whole)
            change(log)
            self.assertNotEqual(self.faults(log), [], name)

    @needs_checker
    def test_logs_of_projects(self) -> None:
        for name in ("words", "port", "header", "cleanup", "missing"):
            said = nalvegop("check", "-p", ".", "--format", "sarif", at=os.path.join(PROJECTS, name))
            self.assertEqual(self.faults(json.loads(said.stdout)), [], name)


if __name__ == "__main__":
    unittest.main()
