"""Leaks that may be none: which function on the path may have freed the memory, or given it away.

A row says what becomes of the object that a parameter points to. What a function frees or gives away behind that, as
`free(s->text)` of its parameter `s`, or through a global variable, stands in no row. Where such a function is called
behind the allocation, the leak may be none. Then the caller is checked once more with the function as an unknown one,
to which all goes away that it can reach: a run that shows the leak even so is sure.
"""

from __future__ import annotations

from collections.abc import Callable, Iterator
from functools import cached_property

from .filter import BUILT_IN, Filter
from .segments import Segment
from .verdicts import Function, Report

FREEING = frozenset({"free", "kfree"})
# How often a caller is checked once more for one leak.
_MOST_CHECKS = 4

# Checks a function with some of those that it calls as unknown ones; None where there is no answer in time.
Ask = Callable[[str, set[str]], Function | None]


class Leaks:
    """The leaks of one file's functions."""

    def __init__(self, it: Filter, is_model: Callable[[str], bool], ask: Ask) -> None:
        """`is_model`: whether a function of this name stands for something of which all that counts is known."""
        self._filter, self._is_model, self._ask = it, is_model, ask
        self._may_free: dict[str, bool] = {}

    @cached_property
    def _bodies(self) -> dict[str, Segment]:
        return {it.function: it for it in self._filter.unit.segments if it.function and it.function not in BUILT_IN}

    def told(self, function: Function, unknown: set[str]) -> Iterator[tuple[Report, list[str]]]:
        """Gives the reports of a function; with a leak that may be none the functions that may have freed the memory or given
        it away. Where another run of it is sure, that one is shown. `unknown`: functions that were unknown already."""
        for report in function.reports:
            names = self._doubts(report, unknown)
            sure = self._sure(function, report, unknown, names) if names else None
            yield (sure, []) if sure else (report, names)

    def _sure(self, function: Function, report: Report, unknown: set[str], names: list[str]) -> Report | None:
        """Returns the leak as it is shown where these functions, and whoever is doubted then, are unknown; None if it is not."""
        cut = {*unknown}
        for _ in range(_MOST_CHECKS):
            cut |= {*names}
            other = self._same(self._ask(function.name, cut), report)
            names = self._doubts(other, cut) if other else []
            if not other or not names:
                return other
        return None

    def _same(self, function: Function | None, report: Report) -> Report | None:
        """Returns the leak of the same place."""
        return next((it for it in (function.reports if function else ()) if (it.kind, it.at) == (report.kind, report.at)), None)

    def _doubts(self, report: Report, unknown: set[str]) -> list[str]:
        """Returns the functions with bodies that are called behind the allocation of a leak and may free memory or give it
        away."""
        if report.kind != "leak":
            return []
        events = report.runs[0].events if report.runs else []
        begins = next((number for number, it in enumerate(events) if it.kind == "call" and it.at == report.at), len(events))
        behind = dict.fromkeys(it.word for it in events[begins + 1 :] if it.kind == "call")
        return [it for it in behind if it in self._bodies and it not in unknown and self._frees(it)]

    def _frees(self, name: str) -> bool:
        """Returns whether a function, or one that it calls, frees something or calls a function of which nothing is known."""
        if name not in self._may_free:
            seen, work = {name}, [name]
            while work:
                called = {it for it, _ in self._filter.unit.calls(self._bodies[work.pop()])}
                if any(it in FREEING or it not in self._bodies and it not in BUILT_IN and not self._is_model(it) for it in called):
                    break
                work += [it for it in called - seen if it in self._bodies]
                seen |= called
            else:
                self._may_free[name] = False
            self._may_free.setdefault(name, True)
        return self._may_free[name]
