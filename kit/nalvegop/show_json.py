"""Findings, and what was analysed and what not, as JSON of the kit's own form (docs/USE.md)."""

from __future__ import annotations

from typing import Any

from .check import FileResult
from .findings import Finding, Path
from .lines import Place
from .missing import Missing
from .reasons import Reason
from .rows import story


def as_json(results: list[FileResult], status: int) -> dict[str, Any]:
    return {"format": "nalvegop findings", "version": 2, "status": status, "files": [_file(it) for it in results]}


def _file(it: FileResult) -> dict[str, Any]:
    return {
        "file": it.file,
        "failure": it.failure,
        "models": it.models,
        "analysed": [function.name for function in it.analysed],
        "passed_over": [_passed_over(name, why) for name, why in it.passed_over.items()],
        "late": it.late,
        "without_calls": [{"function": name, "calls": calls} for name, calls in it.without_calls.items()],
        "missing": [_missing(one) for one in it.missing],
        "hidden": it.hidden,
        "findings": [_finding(finding, it) for finding in it.findings],
    }


def _passed_over(name: str, why: Reason) -> dict[str, Any]:
    return {"function": name, "reason": why.words, "text": why.text, **({"place": _place(why.place)} if why.place else {})}


def _missing(it: Missing) -> dict[str, Any]:
    return {"caller": it.caller, "callee": it.callee, **_place(it.place), "does": it.does, "text": it.text}


def _finding(it: Finding, result: FileResult) -> dict[str, Any]:
    return {
        "kind": it.kind,
        "function": it.function,
        **_place(it.place),
        "message": it.message,
        "unsure": it.marks,
        "known_by": it.known_by,
        "paths": [_path(path) for path in it.paths],
        "story": [*story(it, result)],
    }


def _path(it: Path) -> dict[str, Any]:
    steps = [{**_place(step.place), "text": step.text} for step in it.steps]
    return {"head": it.head, "entry": it.entry, "choice": it.choice, "steps": steps}


def _place(it: Place) -> dict[str, Any]:
    return {"file": it.file, "line": it.line, "column": it.column}
