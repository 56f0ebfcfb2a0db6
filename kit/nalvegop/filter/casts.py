"""Casts between pointers and numbers, as `(void *)arg` and `(unsigned long)p`: what is put in place of those that the
checker does not take, and of values that are dropped.

Which of a pointer and a number an operand is no token tells. So the checker says which casts it stumbles on, by their
places, and those alone are changed.
"""

from __future__ import annotations

from collections.abc import Sequence
from dataclasses import dataclass

from ..segments import KEYWORDS
from ..tokens import Token

_PREFIXES = {*"* & - + ~ !".split()}
_NUMBERS = {*"char short int long unsigned signed const size_t ssize_t uintptr_t intptr_t ptrdiff_t u8 u16 u32 u64 s8 s16 s32 s64".split()}
# What may stand round a pointer of any type: nothing that looks behind it.
_BEFORE, _BEHIND = {*"= return , ( == != :".split()}, {*"; , ) == != :".split()}


@dataclass(frozen=True)
class Cast:
    """A cast by its tokens: the bracket at `first`, the operand and its end. `is_pointer`: a pointer is made of a number."""

    first: int
    operand: int
    end: int
    is_pointer: bool


class Casts:
    """Finds casts in the tokens of a text."""

    def __init__(self, tokens: Sequence[Token], partner: list[int]) -> None:
        self.tokens, self.partner = tokens, partner

    def read(self, first: int) -> Cast | None:
        """Returns the cast that begins with a bracket; None where its type is neither a pointer nor a number by its words."""
        if self.tokens[first].text != "(" or self.partner[first] < first + 2:
            return None
        words = [it.text for it in self.tokens[first + 1 : self.partner[first]]]
        operand = self.partner[first] + 1
        end = self.operand_end(operand)
        if end is None or words[-1] != "*" and not {*words} <= _NUMBERS:
            return None
        return Cast(first, operand, end, words[-1] == "*")

    def same(self, it: Cast, other: Cast) -> bool:
        """Returns whether two casts have the same words."""
        return [one.text for one in self.tokens[it.first : it.end]] == [one.text for one in self.tokens[other.first : other.end]]

    def is_free(self, it: Cast) -> bool:
        """Returns whether a pointer to anything may stand there."""
        before, behind = self.tokens[it.first - 1], self.tokens[it.end].text
        if before.text == "(" and not (self.tokens[it.first - 2].is_word and self.tokens[it.first - 2].text not in KEYWORDS):
            return False
        return before.text in _BEFORE and behind in _BEHIND

    def _is_cast(self, opening: int) -> bool:
        """Returns whether round brackets hold the type of a pointer or of a number, by its words."""
        words = [it.text for it in self.tokens[opening + 1 : self.partner[opening]]] if self.partner[opening] > opening else []
        return bool(words) and (words[-1] == "*" or {*words} <= _NUMBERS)

    def operand_end(self, at: int) -> int | None:
        """Returns the end of the operand of a cast: of `p->q[2]`, `&p->q`, `(a + b)`; None of what is no operand."""
        while self.tokens[at].text in _PREFIXES:
            at += 1
        token = self.tokens[at]
        if token.text == "(" and self._is_cast(at):
            return self.operand_end(self.partner[at] + 1)
        if token.text == "(" and self.partner[at] > at:
            at = self.partner[at] + 1
        elif token.is_word and token.text not in KEYWORDS or token.kind == "number":
            at += 1
        else:
            return None
        while True:
            if self.tokens[at].text in ("(", "[") and self.partner[at] > at:
                at = self.partner[at] + 1
            elif self.tokens[at].text in (".", "->") and self.tokens[at + 1].is_word:
                at += 2
            else:
                return at
