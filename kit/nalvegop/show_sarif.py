"""Findings as SARIF 2.1.0 (OASIS), with each path as a code flow."""

from __future__ import annotations

import os
import urllib.parse
from typing import Any

from . import VERSION
from .check import FileResult
from .findings import KINDS, Finding, Path
from .lines import Place, SourceFiles, decoded

SCHEMA = "https://docs.oasis-open.org/sarif/sarif/v2.1.0/errata01/os/schemas/sarif-schema-2.1.0.json"


def sarif(results: list[FileResult], status: int) -> dict[str, Any]:
    """Returns the log of one run."""
    return _Log(SourceFiles()).whole(results, status)


class _Log:
    def __init__(self, files: SourceFiles) -> None:
        self.files = files

    def whole(self, results: list[FileResult], status: int) -> dict[str, Any]:
        run = {
            "tool": {"driver": {"name": "nalvegop", "version": VERSION, "rules": [self._rule(kind, text) for kind, text in KINDS.items()]}},
            "columnKind": "unicodeCodePoints",
            "originalUriBaseIds": {"SRCROOT": {"uri": f"file://{urllib.parse.quote(os.fsencode(os.getcwd()))}/"}},
            "invocations": [{"executionSuccessful": status in (0, 1), "exitCode": status, "toolExecutionNotifications": self._notifications(results)}],
            "results": [self._result(it) for result in results for it in result.findings],
        }
        return {"$schema": SCHEMA, "version": "2.1.0", "runs": [run]}

    def _rule(self, kind: str, text: str) -> dict[str, Any]:
        return {"id": kind, "name": kind, "shortDescription": {"text": kind}, "fullDescription": {"text": text}, "defaultConfiguration": {"level": "warning"}}

    def _notifications(self, results: list[FileResult]) -> list[dict[str, Any]]:
        """Says what was not analysed, and where that is missing."""
        found = [("error", Place(it.file, 1, 1), f"{it.file}: {it.failure}") for it in results if it.failure]
        found += [("warning", it.places.get(name, Place(it.file, 1, 1)), f"{it.file}: '{name}' had no answer in time") for it in results for name in it.late]
        found += [
            ("note", it.places.get(name, Place(it.file, 1, 1)), f"{it.file}: '{name}' is answered without what {', '.join(calls)} does, for want of time")
            for it in results
            for name, calls in it.without_calls.items()
        ]
        found += [("note", one.place, one.text) for it in results for one in it.missing]
        return [{"level": level, "message": {"text": text}, "locations": [self._location(place)]} for level, place, text in found]

    def _result(self, it: Finding) -> dict[str, Any]:
        made: dict[str, Any] = {
            "ruleId": it.kind,
            "ruleIndex": list(KINDS).index(it.kind),
            "level": "warning",
            "message": {"text": it.text},
            "locations": [{**self._location(it.place), "logicalLocations": [{"name": it.function, "kind": "function"}]}],
            "partialFingerprints": {"nalvegop/v1": it.known_by},
        }
        flows = [self._flow(path) for path in it.paths if path.steps]
        return {**made, "codeFlows": flows} if flows else made

    def _flow(self, path: Path) -> dict[str, Any]:
        steps = [
            {"location": {**self._location(step.place), "message": {"text": step.text}}, "executionOrder": number} for number, step in enumerate(path.steps, 1)
        ]
        begins = {name: {"text": value} for name, value in path.entry.items()}
        flow: dict[str, Any] = {"threadFlows": [{**({"initialState": begins} if begins else {}), "locations": steps}]}
        return {"message": {"text": path.head}, **flow} if path.head else flow

    def _location(self, place: Place) -> dict[str, Any]:
        name = urllib.parse.quote(os.fsencode(place.file))
        artifact = {"uri": f"file://{name}"} if os.path.isabs(place.file) else {"uri": name, "uriBaseId": "SRCROOT"}
        region = {"startLine": max(place.line, 1), "startColumn": self._column(place)}
        return {"physicalLocation": {"artifactLocation": artifact, "region": region}}

    def _column(self, place: Place) -> int:
        """Returns the column in characters: a place counts bytes."""
        before = max(place.column - 1, 0)
        return len(decoded(self.files.line(place.file, place.line)[:before].ljust(before))) + 1
