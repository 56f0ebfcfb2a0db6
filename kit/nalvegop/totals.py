"""The last line: how much was analysed, how much not and why, and what was found."""

from __future__ import annotations

from collections import Counter

from .check import FileResult


def _some(count: int, word: str) -> str:
    return f"{count} {word}" if count == 1 else f"{count} {word}s"


def summary(results: list[FileResult], known: int = 0) -> str:
    """Returns the line."""
    analysed = sum(len(it.analysed) for it in results)
    reasons = Counter(why.text for it in results for why in it.passed_over.values())
    late = sum(len(it.late) for it in results)
    failed = sum(it.failure is not None for it in results)
    hidden = sum(it.hidden for it in results)
    found = sum(len(it.findings) for it in results)
    parts = [f"{_some(found, 'finding')}; {_some(analysed, 'function')} analysed in {_some(len(results) - failed, 'file')}"]
    without = sum(len(it.without_calls) for it in results)
    if without:
        parts.append(f"{without} of them without what they call, for want of time")
    if reasons:
        parts.append(f"{sum(reasons.values())} passed over ({', '.join(f'{why}: {count}' for why, count in reasons.most_common())})")
    if late:
        parts.append(f"{late} without an answer in time")
    if failed:
        parts.append(f"{_some(failed, 'file')} not analysed")
    if hidden:
        parts.append(f"{_some(hidden, 'finding')} under a comment")
    if known:
        parts.append(f"{_some(known, 'finding')} known by the baseline")
    return ", ".join(parts)
