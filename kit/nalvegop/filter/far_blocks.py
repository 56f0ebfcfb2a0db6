"""Statement expressions and `?:` without a second operand (GNU C), where parts of a statement have to move: what moves in its
line is told by its old place. And jumps to labels that stand before them.

`return ({ S; e; });` becomes `{ S; return (e); }`. `a ?: b` becomes `a ? a : b`, where evaluating `a` does nothing else; else
`x = f() ?: b;` becomes `x = f(); if (!(x)) x = b;`.
"""

from __future__ import annotations

from collections.abc import Iterator
from dataclasses import dataclass

from ..segments import KEYWORDS, Segment
from .block_values import BlockValues
from .counted import CountedPointers
from .names import MODEL_HEAD, TYPE_WORDS
from .page import Page, Work
from .unknowns import Unknowns

_STARTS = {";", "{", "}"}
_HEADS = {"if", "while", "for", "switch"}
_BEGINS = {*"= return ( , ; { } ? : [ += -= *= /= %= &= |= ^= <<= >>= case".split()}
_BEFORE_LABELS = {";", "{", "}", ":", ")", "else"}
_STORAGE = {"static", "extern", "register", "typedef", "auto", "_Thread_local"}
_NOT_IN_TYPES = {"static", "inline", "__inline", "__inline__", "extern", "_Noreturn", "__extension__"}
# A variable of what `return f() ?: b;` looks at.
_LOOKED_AT = "Nr"


@dataclass(frozen=True)
class Braced:
    """A statement with one statement expression, by its tokens: from `first` to behind its `;`, the outer bracket of the
    expression, and the last expression in it. `equals`: the `=` of a declaration."""

    first: int
    end: int
    opening: int
    value: tuple[int, int]
    equals: int | None


class FarBlocks(Work):
    """The steps."""

    def __init__(self, page: Page, unknowns: Unknowns) -> None:
        super().__init__(page)
        self._unknowns = unknowns
        self._values = CountedPointers(self.tokens, self.partner, MODEL_HEAD)
        self._blocks = BlockValues(self.tokens, self.partner)

    # ---- statement expressions

    def statement_expressions(self, segment: Segment, but: set[int]) -> None:
        """Takes those that are left."""
        for it in self._braced(segment, but):
            if it.equals is not None:
                self._put(self.tokens[it.equals], ";")
                self._blank(it.equals + 1, it.opening + 1)
                before = range(it.equals - 1, it.equals + 1)
            else:
                before = range(it.first, it.opening)
                self._blank(it.first, it.opening + 1)
            start = self.tokens[it.value[0]].start
            for at in before:
                self.page.insert(start, f"{self.page.named(at)} ", at)
            closing = self.partner[it.opening]
            self.page.insert(start, "(", it.value[0])
            self.page.insert(self.tokens[it.value[1] - 1].end, ")", it.value[0])
            for at in range(closing + 1, it.end - 1):
                self.page.insert(self.tokens[it.value[1] - 1].end, f" {self.page.named(at)}", at)
            self._blank(closing, it.end)
            self.page.settled.add(it.opening)
            self._count("far blocks")

    def _braced(self, segment: Segment, but: set[int]) -> Iterator[Braced]:
        end = 0
        for at in range(segment.body[0] + 2, segment.end - 4):
            if self.tokens[at].text != "(" or self.tokens[at + 1].text != "{" or at + 1 in but or at < end or self.partner[at] != self.partner[at + 1] + 1:
                continue
            it = self._read(segment, at)
            if it and not self.page.settled & {*range(it.first, it.opening), *range(*it.value), *range(self.partner[it.opening], it.end)}:
                end = it.end
                yield it

    def _read(self, segment: Segment, opening: int) -> Braced | None:
        first, closing = opening, self.partner[opening]
        while first - 1 > segment.body[0] and self.tokens[first - 1].text not in _STARTS | {"else", "do", ":"}:
            if self.tokens[first - 1].text in ("(", "["):
                # (it is in brackets, as in the head of a loop)
                return None
            before = self.partner[first - 1] if self.tokens[first - 1].text in (")", "]") else -1
            if before > 0 and self.tokens[before - 1].text in _HEADS:
                break
            first = before if before > 0 else first - 1
        end = closing + 1
        while self.tokens[end].text not in (";", "{", "}") and end < segment.end:
            end = self.partner[end] + 1 if self.partner[end] > end else end + 1
        prefix, suffix = range(first, opening), range(closing + 1, end)
        value = self._blocks.value(opening + 1, closing - 1)
        if (
            self.tokens[end].text != ";"
            or not value
            or first == opening
            or {self.tokens[at].text for at in [*prefix, *suffix]} & {"?", "&&", "||", "{", "if", "else", "case"}
        ):
            return None
        equals = self._equals_of_declaration(first, opening)
        begins = self.tokens[first - 1].text
        if begins == ":" and self.tokens[first - 2].text not in ("default",) and self.tokens[first - 3].text not in ("case", ";", "{", "}"):
            return None
        if equals is not None and (
            begins not in _STARTS or equals + 1 != opening or self.tokens[first].text in _STORAGE or "," in {self.tokens[at].text for at in suffix}
        ):
            return None
        if equals is None and (self.tokens[opening - 1].is_word and self.tokens[opening - 1].text != "return" or self._declares(first)):
            return None
        is_named = self._is_named(prefix if equals is None else range(equals - 1, equals), suffix, opening + 1)
        if is_named or self._has_effects(prefix if equals is None else range(0)) or self._has_effects(suffix):
            return None
        return Braced(first, end + 1, opening, value, equals)

    def _is_named(self, prefix: range, suffix: range, brace: int) -> bool:
        """Returns whether the block names something of what stands round it, and that may be another thing there, or have another
        value. (`x = ({ .. x .. });` sets x behind all of the block.)"""
        is_plain = len(prefix) <= 2 and self.tokens[prefix[0]].is_word
        names = {self.tokens[at].text for at in [*prefix, *suffix] if self.tokens[at].is_word} - KEYWORDS
        inside = {it.text for it in self.tokens[brace : self.partner[brace]]}
        return bool(names & (self._declared(brace, self.partner[brace]) if is_plain else inside))

    def _has_effects(self, them: range) -> bool:
        """Returns whether tokens have a call, a step, or an assignment before the last one."""
        for at in them:
            text, behind = self.tokens[at].text, self.tokens[at + 1].text
            is_call = self.tokens[at].is_word and text not in KEYWORDS and behind == "(" and at + 1 in them
            if (
                is_call
                or text in ("++", "--")
                or text.endswith("=")
                and text not in ("==", "!=", "<=", ">=")
                and any(self.tokens[it].text == "(" and not self._is_cast(it) for it in them if it > at)
            ):
                return True
        return False

    def _is_cast(self, opening: int) -> bool:
        inside = [it.text for it in self.tokens[opening + 1 : self.partner[opening]]] if self.partner[opening] > opening else []
        return bool(inside) and (inside[-1] == "*" or all(it in TYPE_WORDS or it.isidentifier() for it in inside))

    def _equals_of_declaration(self, first: int, opening: int) -> int | None:
        """Returns the `=` of a declaration of one name."""
        equals = next((at for at in range(first, opening) if self.tokens[at].text == "="), None)
        if equals is None or equals - first < 2 or not self.tokens[equals - 1].is_word:
            return None
        words = self.tokens[first:equals]
        return equals if all(it.is_word or it.text == "*" for it in words) and words[0].is_word and words[0].text != "return" else None

    def _declares(self, first: int) -> bool:
        """Returns whether a statement may be a declaration: two words stand there in a row, or a type's word."""
        one, other = self.tokens[first], self.tokens[first + 1]
        return one.text in TYPE_WORDS | {"struct", "union", "enum"} | _STORAGE or one.is_word and one.text not in KEYWORDS and other.is_word

    def _declared(self, brace: int, closing: int) -> set[str]:
        """Returns the names that may be declared in a block: words behind a word or a star."""
        pairs = zip(self.tokens[brace:closing], self.tokens[brace + 1 : closing])
        return {it.text for before, it in pairs if it.is_word and (before.is_word and before.text not in KEYWORDS - TYPE_WORDS or before.text in ("*", ","))}

    # ---- goto

    def backward_jumps(self, segment: Segment) -> None:
        """`goto again;` becomes `abort();` where the label stands before it: the runs that go on there are not followed."""
        gotos = [at for at in range(*segment.body) if self.tokens[at].text == "goto" and self.tokens[at + 2].text == ";"]
        if not any(self.page.at(at) in self._unknowns.refused for at in gotos):
            return
        for at in gotos:
            name = self.tokens[at + 1].text
            labels = [
                it
                for it in range(*segment.body)
                if self.tokens[it].text == name and self.tokens[it + 1].text == ":" and self.tokens[it - 1].text in _BEFORE_LABELS
            ]
            if labels and labels[0] < at and self.page.stands(at):
                self.page.replace(at, at + 2, "abort()", at)
                self.page.settled |= {at, at + 1}
                self._count("jumps")

    # ---- ?:

    def conditions(self, segment: Segment) -> None:
        """Takes each `?:` without a second operand."""
        for at in range(segment.body[0], segment.end - 2):
            if self.tokens[at].text == "?" and self.tokens[at + 1].text == ":" and at not in self.page.settled and self.page.stands(at):
                first = self._condition(at, segment.body[0])
                inside = {*range(first, at)}
                if first == at or inside & self.page.settled:
                    continue
                if not self._values.changes(first, at, (MODEL_HEAD,)):
                    for token in range(first, at):
                        self.page.insert(self.tokens[at + 1].start, f" {self.page.named(token)}", token)
                    self.page.settled.add(at)
                    self._count("conditions")
                elif self._in_assignment(segment, first, at) or self._in_return(segment, first, at):
                    self.page.settled.add(at)
                    self._count("conditions")

    def _condition(self, mark: int, brace: int) -> int:
        """Returns where the first operand begins."""
        at = mark
        while at - 1 > brace and self.tokens[at - 1].text not in _BEGINS:
            at = self.partner[at - 1] if self.tokens[at - 1].text in (")", "]") and self.partner[at - 1] >= 0 else at - 1
        return at

    def _end(self, at: int) -> int:
        while self.tokens[at].text not in (";", ",", ")", "}", ":"):
            at = self.partner[at] + 1 if self.partner[at] > at else at + 1
        return at

    def _in_assignment(self, segment: Segment, first: int, mark: int) -> bool:
        """`x = f() ?: b;`, also in a declaration of `x`: behind the first operand stands `; if (!(x)) x =`."""
        equals, begin = first - 1, first - 1
        if self.tokens[equals].text != "=" or self.tokens[self._end(mark + 2)].text != ";":
            return False
        while begin - 1 > segment.body[0] and self.tokens[begin - 1].text not in _STARTS | {")", "else", "do", ":"}:
            begin = self.partner[begin - 1] if self.tokens[begin - 1].text == "]" and self.partner[begin - 1] > 0 else begin - 1
        target = range(begin, equals)
        is_declaration = len(target) > 1 and all(self.tokens[at].is_word or self.tokens[at].text == "*" for at in target) and self.tokens[begin].is_word
        target = range(equals - 1, equals) if is_declaration else target
        if (
            not target
            or self.tokens[begin - 1].text not in _STARTS
            or self.tokens[begin].text in _STORAGE
            or any(self.tokens[at].text in ("(", ",", "++", "--") for at in target)
        ):
            return False
        text = " ".join(self.page.named(at) for at in target)
        self.page.replace(mark, mark + 2, f"; if (!({text})) {text} = ", mark)
        return True

    def _in_return(self, segment: Segment, first: int, mark: int) -> bool:
        """`return f() ?: b;` becomes `{ T Nr = f(); return Nr ? Nr : b; }`, with the type that the function gives."""
        end = self._end(mark + 2)
        kind = [it.text for it in self.tokens[segment.first : segment.name_at] if it.text not in _NOT_IN_TYPES]
        is_type = bool(kind) and all(it.isidentifier() or it == "*" for it in kind) and "__attribute__" not in kind
        if self.tokens[first - 1].text != "return" or self.tokens[end].text != ";" or not is_type or _LOOKED_AT in self.page.taken:
            return False
        self.page.replace(first - 1, first, f"{{ {' '.join(kind)} {_LOOKED_AT} = ", first - 1)
        self.page.replace(mark, mark + 2, f"; return {_LOOKED_AT} ? {_LOOKED_AT} : ", mark)
        self.page.insert(self.tokens[end].end, " }", end)
        return True
