"""What a run begins with, and what its calls give: the checker is asked, by statements that look at variables.

A report shows a run by its calls and branches, and says no values. So its function is checked once more with
*observers*: statements as `if (p) ;` and `switch (n) { }` behind the ends of lines. The event of each tells a
value, and none changes one. What they tell counts where the run is the one of the report: of the same choice, and with
the same events but for theirs.
"""

from __future__ import annotations

import re
from collections.abc import Iterator
from dataclasses import dataclass, field

from .pointers import Pointers
from .segments import KEYWORDS, Segment, Unit
from .tokens import LineIndex, tokens_of
from .verdicts import At, Event, Run, Told

_HEADS = {"if", "while", "for", "switch"}
# What may stand before and behind an expression that a condition tests as it is.
_BEFORE, _BEHIND = {"(", "!", "&&", "||", ";"}, {")", "&&", "||", ";", "==", "!=", "<", ">", "<=", ">="}
_MEMBERS = {"->", "."}
_ALLOCATORS = {"malloc", "calloc", "kmalloc", "kzalloc"}
_NO_DECLARATION = KEYWORDS - {*"char const double enum float int long short signed struct union unsigned void volatile _Bool".split()}


@dataclass(frozen=True)
class Observer:
    """A statement that looks at the value of an expression: at entry, or just behind the call that gave it."""

    subject: str
    call: At | None
    is_number: bool
    is_pointer: bool

    def value(self, it: Event) -> str:
        """Returns in words what its event tells."""
        if self.is_number:
            return it.word
        nothing = "null" if self.is_pointer else "0"
        return f"not {nothing}" if it.holds else nothing


@dataclass(frozen=True)
class Values:
    """What is known of a run: values at entry, by expressions, and what calls gave, by the numbers of their events."""

    entry: dict[str, str] = field(default_factory=dict)
    gave: dict[int, str] = field(default_factory=dict)


class Observers:
    """A text with observers in one of its functions."""

    def __init__(self, text: str, function: str, with_numbers: bool, told: Told = lambda at: at) -> None:
        """With numbers, what seems to be an integer is looked at by `switch`, which is not C where it is a pointer. `told`:
        where something is told that stands at a place of the text."""
        self._text, self._with_numbers, self._told = text, with_numbers, told
        self._tokens = [*tokens_of(text)]
        self._unit = Unit(self._tokens)
        self._partner = self._unit.partner
        self._index = LineIndex(text)
        self._lines = text.split("\n")
        self._asked: dict[At, Observer | None] = {}
        it = next((it for it in self._unit.segments if it.function == function), None)
        if it and it.body[0] < it.body[1]:
            self._pointers = Pointers(self._unit, it)
            self._at_entry(it)
            self._behind_calls(it)

    @property
    def text(self) -> str:
        return "\n".join(self._lines)

    def values(self, run: Run, seen: Run) -> Values | None:
        """Returns what the observers tell of a run; None where what was seen is another run."""
        if seen.choice != run.choice or [it for it in seen.events if it.at not in self._asked] != run.events:
            return None
        found, number, last = Values(), 0, dict[At, int]()
        for it in seen.events:
            observer = self._asked.get(it.at)
            if it.at not in self._asked:
                last[it.at] = number
                number += 1
            elif observer and not observer.call:
                found.entry[observer.subject] = observer.value(it)
            elif observer and observer.call in last:
                found.gave[last[observer.call]] = observer.value(it)
        return found

    # ---- statements that look

    def _put(self, behind: int, observer: Observer, guards: list[str]) -> None:
        """Puts an observer behind a token that ends its line; each guard is a pointer that it needs not to be null."""
        line = self._index.line(self._tokens[behind].start)
        for guard in guards:
            self._write(line, f"if ({guard})", None)
        self._write(line, f"switch ({observer.subject}) {{ }}" if observer.is_number else f"if ({observer.subject}) ;", observer)

    def _write(self, line: int, statement: str, observer: Observer | None) -> None:
        self._lines[line - 1] += f" {statement}"
        self._asked[self._told(At(line, len(self._lines[line - 1]) - len(statement) + 1))] = observer

    def _ends_line(self, at: int) -> bool:
        return not self._text[self._tokens[at].end :].partition("\n")[0].strip()

    def _observer(self, subject: str, call: At | None, is_number: bool, is_allocated: bool = False) -> Observer:
        *before, name = re.split(r"->|\.", subject)
        is_pointer = is_allocated or name in (self._pointers.members if before else self._pointers.variables)
        return Observer(subject, call, is_number and self._with_numbers and not is_pointer, is_pointer)

    # ---- at entry

    def _at_entry(self, it: Segment) -> None:
        """Looks at parameters, and at members behind them that a condition tests as they are."""
        if not self._ends_line(it.body[0]):
            return
        names = [*self._parameters(it)]
        for name in names:
            self._put(it.body[0], self._observer(name, None, True), [])
        for chain, is_number in self._tested(it, {*names}).items():
            parts = chain.split("->")
            guards = ["->".join(parts[:count]) for count in range(1, len(parts))]
            self._put(it.body[0], self._observer(chain, None, is_number), guards)

    def _parameters(self, it: Segment) -> Iterator[str]:
        """Gives the names of parameters: the last word of each, outside of brackets."""
        name, at = "", it.parameters[0] + 1
        while at <= it.parameters[1]:
            token = self._tokens[at]
            if token.text in (",", ")"):
                if name:
                    yield name
                name = ""
            elif token.is_word and token.text not in KEYWORDS and self._tokens[at + 1].text in (",", ")", "["):
                name = token.text
            at = self._partner[at] + 1 if self._partner[at] > at else at + 1

    def _tested(self, it: Segment, names: set[str]) -> dict[str, bool]:
        """Returns the expressions as `p->a.b` of these names that conditions test, and whether each surely is a number."""
        found: dict[str, bool] = {}
        for head in range(it.body[0], it.end - 1):
            opening = head + 1
            if self._tokens[head].text not in _HEADS or self._partner[opening] < opening:
                continue
            for at in range(opening + 1, self._partner[opening]):
                end = self._chain_end(at)
                if self._tokens[at].text not in names or end == at + 1 or not self._is_tested(at, end):
                    continue
                chain = "".join(token.text for token in self._tokens[at:end])
                found[chain] = found.get(chain, False) or self._is_number(head, at, end)
        return found

    def _chain_end(self, at: int) -> int:
        end = at + 1
        while self._tokens[end].text in _MEMBERS and self._tokens[end + 1].is_word:
            end += 2
        return end

    def _is_tested(self, at: int, end: int) -> bool:
        before = self._tokens[at - 1].text
        is_argument = before == "(" and self._tokens[at - 2].is_word and self._tokens[at - 2].text not in _HEADS
        return before in _BEFORE and self._tokens[end].text in _BEHIND and not is_argument

    def _is_number(self, head: int, at: int, end: int) -> bool:
        """Returns whether an integer is wanted there: it is compared with a number other than 0, or switched by."""
        behind = self._tokens[end + 1]
        is_compared = self._tokens[end].text not in (")", ";", "&&", "||") and behind.kind in ("number", "char") and behind.text != "0"
        return is_compared or self._tokens[head].text == "switch" and head + 2 == at

    # ---- behind calls

    def _behind_calls(self, it: Segment) -> None:
        """Looks at what a statement as `p = f(a);` or `int n = f(a);` sets."""
        for first, end in self._statements(it):
            equals = next((at for at in range(first, end) if self._tokens[at].text == "="), end)
            subject, call = self._subject(first, equals), self._call(equals, end)
            if subject and call is not None and self._ends_line(end):
                token = self._tokens[call]
                is_variable = not _MEMBERS & {it.text for it in self._tokens[first:equals]}
                self._put(end, self._observer(subject, self._told(self._index.at(token.start)), is_variable, token.text in _ALLOCATORS), [])

    def _statements(self, it: Segment) -> Iterator[tuple[int, int]]:
        """Gives the statements that stand in a block and not behind the head of another one: the first token, and the `;`."""
        first = at = it.body[0] + 1
        while at < it.body[1]:
            text = self._tokens[at].text
            is_inside = text in ("(", "[") or text == "{" and self._tokens[at - 1].text == "="
            if is_inside and self._partner[at] > at:
                at = self._partner[at]
            elif text in ("{", "}"):
                first = at + 1
            elif text == ";":
                yield first, at
                first = at + 1
            at += 1

    def _subject(self, first: int, equals: int) -> str:
        """Returns what is set: a variable, also one that is declared there, or a member; nothing for all else."""
        tokens = self._tokens[first:equals]
        if not tokens or not tokens[0].is_word or not tokens[-1].is_word or {it.text for it in tokens} & _NO_DECLARATION:
            return ""
        if not all(it.is_word or it.text in _MEMBERS or it.text == "*" for it in tokens):
            return ""
        return "".join(it.text for it in tokens) if self._chain_end(first) == equals else "" if any(it.text in _MEMBERS for it in tokens) else tokens[-1].text

    def _call(self, equals: int, end: int) -> int | None:
        """Returns the token of the function that is called between `=` and `;`, where nothing but casts stands round it."""
        at = end - 1
        while at > equals + 1 and self._tokens[at].text == ")":
            name = self._partner[at] - 1
            if name > equals and self._tokens[name].is_word and self._tokens[name].text not in KEYWORDS:
                return name if self._is_cast(equals + 1, name) else None
            at -= 1
        return None

    def _is_cast(self, at: int, end: int) -> bool:
        """Returns whether there are but brackets that begin, and whole ones, as a cast has."""
        while at < end:
            if self._tokens[at].text != "(":
                return False
            at = self._partner[at] + 1 if self._partner[at] < end else at + 1
        return True
