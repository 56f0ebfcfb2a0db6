"""Calls of functions of which nothing is known: what they do is missing in what is said of their callers.

A function that was passed over, or had no answer in time, is an unknown one to its callers. Where its text has an
operation, an allocation or a release, or that of a function which it calls, the user is told: once of each caller and
callee.
"""

from __future__ import annotations

from collections.abc import Callable, Iterator, Sequence
from dataclasses import dataclass
from functools import cached_property

from .filter import BUILT_IN, Filter
from .lines import Place
from .segments import Segment
from .verdicts import At

# What a call of a built-in function does, in words.
_LOCKS = {
    **dict.fromkeys(("spin_lock", "mutex_lock", "pthread_mutex_lock"), "locks"),
    **dict.fromkeys(("spin_unlock", "mutex_unlock", "pthread_mutex_unlock"), "unlocks"),
    **dict.fromkeys(("spin_trylock", "mutex_trylock", "pthread_mutex_trylock"), "tries to lock"),
}
_MEMORY = {**dict.fromkeys(("malloc", "calloc", "kmalloc", "kzalloc"), "allocates"), **dict.fromkeys(("free", "kfree"), "frees")}
_ORDER = ["locks", "tries to lock", "unlocks", "allocates", "frees"]


@dataclass(frozen=True)
class Missing:
    """A caller, and a function that it calls of which nothing is known: `why`, and what its text `does`. The place is that of
    the first such call."""

    caller: str
    callee: str
    why: str
    does: tuple[str, ...]
    place: Place

    @property
    def note(self) -> str:
        """Returns what is to be said of the callee, behind `it` or `which`."""
        does = " and ".join([", ".join(self.does[:-1]), self.does[-1]] if len(self.does) > 1 else self.does)
        return f"{self.why} and {does}: what it does is missing here"

    @property
    def text(self) -> str:
        return f"'{self.caller}' calls '{self.callee}', which {self.note}"


class Unknown:
    """The functions of a file of which nothing is known, and who calls them."""

    def __init__(self, it: Filter, operations: frozenset[str], why: Callable[[str], str | None], place: Callable[[At], Place]) -> None:
        """`operations`: those of a machine, in place of locks. `why`: returns of a function why nothing is known of it."""
        self._filter, self._why, self._place = it, why, place
        self._words = {**({name: f"calls '{name}'" for name in operations} or _LOCKS), **_MEMORY}
        self._does: dict[str, tuple[str, ...]] = {}

    @cached_property
    def _bodies(self) -> dict[str, Segment]:
        return {it.function: it for it in self._filter.unit.segments if it.function and it.function not in self._words and it.function not in BUILT_IN}

    def called_by(self, caller: str, lost: Sequence[str]) -> Iterator[Missing]:
        """Gives what is missing in the answer on a function. `lost`: functions that were left out of it, for want of time."""
        if caller not in self._bodies:
            return
        first = dict[str, int]()
        for name, at in self._filter.unit.calls(self._bodies[caller]):
            first.setdefault(name, at)
        for name, at in first.items():
            why = None if name == caller else self._why(name) or ("is not followed for want of time" if name in lost else None)
            if why and self._effects(name):
                yield Missing(caller, name, why, self._effects(name), self._place(self._filter.at(at)))

    def _effects(self, name: str) -> tuple[str, ...]:
        """Returns what a function does by its text, and by that of all that it calls, in words."""
        if name not in self._does:
            found, seen, work = set[str](), {name}, [name]
            while work:
                it = self._bodies.get(work.pop())
                called = {one for one, _ in self._filter.unit.calls(it)} if it else set[str]()
                found |= {self._words[one] for one in called & self._words.keys()}
                work += called - seen
                seen |= called
            self._does[name] = tuple(sorted(found, key=lambda it: (_ORDER.index(it) if it in _ORDER else 0, it)))
        return self._does[name]
