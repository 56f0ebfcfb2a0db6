"""What is not shown: findings in a baseline, and those under a comment `/* nalvegop: ok REASON */`."""

from __future__ import annotations

import json
import os
import re
from collections import Counter
from collections.abc import Iterable

from .findings import Finding
from .lines import SourceFiles
from .tokens import comments_of

_OK = re.compile(r"\bnalvegop:\s*ok\b[ \t]*(.*?)\s*(?:\*/)?\s*\Z", re.DOTALL)


class Comments:
    """The lines of source files for which a comment says that a finding is right as it is, with the reason."""

    def __init__(self, files: SourceFiles) -> None:
        self._files = files
        self._lines: dict[str, dict[int, str]] = {}

    def reason(self, file: str, line: int) -> str | None:
        """Returns the reason that a comment on this line, or alone on the line above, gives."""
        if file not in self._lines:
            self._lines[file] = self._read(file)
        return self._lines[file].get(line)

    def _read(self, file: str) -> dict[int, str]:
        lines = self._files.lines(file)
        text, found = "\n".join(lines), dict[int, str]()
        if "nalvegop:" not in text:
            return found
        for start, comment in comments_of(text):
            said = _OK.search(comment)
            if not said or not said[1]:
                continue
            first, last = text.count("\n", 0, start), text.count("\n", 0, start + len(comment))
            found.update((line + 1, said[1]) for line in range(first, last + 1))
            before = lines[first][: start - (text.rfind("\n", 0, start) + 1)]
            if not before.strip() and last + 1 < len(lines):
                found.setdefault(last + 2, said[1])
        return found

    def hides(self, finding: Finding, function_line: int) -> bool:
        place = finding.place
        return any(self.reason(place.file, line) is not None for line in (place.line, function_line))


class BadBaseline(ValueError):
    """The baseline cannot be read, or is not of its form."""


_FORM = "nalvegop baseline"


class Baseline:
    """Findings that are known: each is known as often as it stands in the baseline, and no oftener."""

    def __init__(self, path: str, known: Iterable[tuple[str, str]] = ()) -> None:
        self.path = path
        self._left = Counter(known)

    @classmethod
    def read(cls, path: str) -> Baseline:
        try:
            with open(path, encoding="utf-8") as it:
                value = json.load(it)
            if value["format"] != _FORM:
                raise BadBaseline(f"{path}: it is no baseline of nalvegop")
            return cls(path, [(str(it["file"]), str(it["known_by"])) for it in value["findings"]])
        except (OSError, ValueError, KeyError, TypeError) as error:
            raise BadBaseline(f"{path}: {getattr(error, 'strerror', None) or repr(error)}") from error

    def key(self, file: str, finding: Finding) -> tuple[str, str]:
        """Returns what a finding is known by: the file as seen from the baseline's folder, and the finding's own sum."""
        return os.path.relpath(file, os.path.dirname(os.path.abspath(self.path))), finding.known_by

    def takes(self, file: str, finding: Finding) -> bool:
        """Returns whether the finding is known, and counts it off."""
        key = self.key(file, finding)
        if self._left[key] <= 0:
            return False
        self._left[key] -= 1
        return True

    def write(self, findings: Iterable[tuple[str, Finding]]) -> None:
        listed = [
            {"file": key[0], "kind": it.kind, "function": it.function, "message": it.message, "known_by": key[1]}
            for file, it in findings
            for key in [self.key(file, it)]
        ]
        listed.sort(key=lambda it: (it["file"], it["function"], it["kind"], it["known_by"]))
        part = f"{self.path}.part-{os.getpid()}"
        with open(part, "w", encoding="utf-8") as made:
            json.dump({"format": _FORM, "version": 1, "findings": listed}, made, indent=1)
            made.write("\n")
        os.replace(part, self.path)
