"""Differences of two pointers, as `p - q`, and comparisons by their order, as `p < q`, which the checker does not take.

The filter puts a number that is not known in place of a difference, and a truth that is not known in place of a
comparison. The checker says on which it stumbles, by their places. In the same function all are changed whose operands are
surely pointers, by their declarations.
"""

from __future__ import annotations

from collections.abc import Iterator, Sequence
from dataclasses import dataclass

from .counted import CountedPointers
from ..segments import KEYWORDS, Segment
from ..tokens import Token

_ORDERS = {*"< > <= >=".split()}
# What ends an operand of a comparison, outside of brackets, and what may stand between a statement's head and its body.
_ENDS = {*"< > <= >= == != ^ | && || ? : = , ; ( [ { ) ] } += -= *= /= %= &= |= ^= <<= >>=".split()}
_HEADS = {"if", "while", "for", "switch"}
_PREFIXES = {*"* & - + ~ !".split()}
_QUALIFIERS = {*"const volatile restrict __restrict __restrict__".split()}
_OF_STATEMENTS = {"return", "else", "case", "goto", "sizeof", "do"}


@dataclass(frozen=True)
class Difference:
    """Tokens: the left operand from `first` up to `operator`, and the end of the right one."""

    first: int
    operator: int
    end: int
    is_order: bool


class Differences:
    """Finds them in the tokens of a text."""

    def __init__(self, tokens: Sequence[Token], partner: list[int], values: CountedPointers) -> None:
        self.tokens, self.partner, self.values = tokens, partner, values

    def of(self, segment: Segment) -> Iterator[Difference]:
        """Gives what may be one in a body, where no operand has a call or an assignment."""
        for at in range(segment.body[0] + 2, segment.body[1]):
            text = self.tokens[at].text
            if text != "-" and text not in _ORDERS or not self.ends_operand(at - 1):
                continue
            it = self._difference(at, segment.body[0] + 1) if text == "-" else self.order(at, segment.body[0] + 1)
            if it.first < at < it.end - 1 and not self._changes(it.first, at) and not self._changes(at + 1, it.end):
                yield it

    def is_between(self, it: Difference, variables: frozenset[str], members: frozenset[str]) -> bool:
        """Returns whether the right operand surely is a pointer, or one of those of a comparison: then the other is one too."""
        sides = [self.is_pointer(it.first, it.operator, variables, members), self.is_pointer(it.operator + 1, it.end, variables, members)]
        return any(sides) if it.is_order else sides[1]

    def arrays(self, first: int, end: int, is_declaration: bool = False) -> frozenset[str]:
        """Returns the names that are declared as arrays between two tokens: `char text[8]`, the word of a type before each;
        in a declaration also `*all[4]` and those behind a comma."""
        found = set[str]()
        for at in range(first + 1, end - 1):
            before, token = self.tokens[at - 1], self.tokens[at]
            is_declared = before.text in (",", "*") if is_declaration and not before.is_word else before.is_word and before.text not in _OF_STATEMENTS
            if token.is_word and token.text not in KEYWORDS and self.tokens[at + 1].text == "[" and is_declared:
                found.add(token.text)
        return frozenset(found)

    def pointers_to_pointers(self, first: int, end: int) -> frozenset[str]:
        """Returns, with a star before each, the names that two stars are put before between two tokens, as in `char **p`."""
        found = set[str]()
        for at in range(first, end - 2):
            is_declared = self.tokens[at - 1].is_word and self.tokens[at - 1].text not in _OF_STATEMENTS
            if is_declared and self.tokens[at].text == "*":
                behind, stars = at, 0
                while self.tokens[behind].text in {"*"} | _QUALIFIERS:
                    stars, behind = stars + (self.tokens[behind].text == "*"), behind + 1
                found |= {f"*{self.tokens[behind].text}"} if stars == 2 else set()
        return frozenset(found)

    # ---- operands

    def _difference(self, at: int, floor: int) -> Difference:
        right = at + 1
        while self.tokens[right].text in ("*", "&"):
            right += 1
        return Difference(self.operand_begins(at, floor), at, self.values.term_end(right), False)

    def order(self, at: int, floor: int) -> Difference:
        """Returns the comparison whose operator stands there."""
        first = at
        while first > floor and not self._begins_behind(first - 1):
            first = self.partner[first - 1] if self.tokens[first - 1].text in (")", "]") and self.partner[first - 1] >= 0 else first - 1
        end = at + 1
        while self.tokens[end].text in _PREFIXES:
            end += 1
        while self.tokens[end].text in ("(", "[") or self.tokens[end].text not in _ENDS | {"&"}:
            end = self.partner[end] + 1 if self.partner[end] > end else end + 1
        return Difference(first, at, end, True)

    def _begins_behind(self, at: int) -> bool:
        """Returns whether an operand of a comparison begins behind this token."""
        token = self.tokens[at]
        if token.text == ")" and self.partner[at] > 0:
            return self.tokens[self.partner[at] - 1].text in _HEADS
        if token.text == "]":
            return False
        if token.text == "&":
            return self.ends_operand(at - 1)
        return token.text in _ENDS or token.is_word and token.text in KEYWORDS - {"sizeof"}

    def operand_begins(self, operator: int, floor: int) -> int:
        """Returns where the left operand of a `-` begins: `p->q[2]`, `*p`, `(char *)p`, `(p + 1)`."""
        at = operator
        while at > floor:
            token = self.tokens[at - 1]
            if token.text in (")", "]") and self.partner[at - 1] >= floor:
                at = self.partner[at - 1]
            elif token.is_word and token.text not in KEYWORDS or token.text in (".", "->"):
                at -= 1
            else:
                break
        while at > floor and self.tokens[at - 1].text in ("*", "&") and not self.ends_operand(at - 2):
            at -= 1
        return at

    def ends_operand(self, at: int) -> bool:
        """Returns whether an operand ends with this token: behind it stands an operator of two."""
        token = self.tokens[at]
        if token.text == ")":
            opening = self.partner[at]
            return not (self._is_cast(opening) or opening > 0 and self.tokens[opening - 1].text in _HEADS)
        return token.text == "]" or token.kind in ("number", "char", "string") or token.is_word and token.text not in KEYWORDS

    def _is_cast(self, opening: int) -> bool:
        """Returns whether a bracket holds the type of a pointer."""
        closing = self.partner[opening]
        return opening >= 0 and closing > opening + 1 and self.tokens[closing - 1].text == "*"

    def is_pointer(self, first: int, end: int, variables: frozenset[str], members: frozenset[str]) -> bool:
        """Returns whether an operand is surely a pointer: a name or a member of one, what is cast to one, the address of something."""
        while self.tokens[first].text == "(" and self.partner[first] == end - 1:
            first, end = first + 1, end - 1
        at = first + 1 if self.tokens[first].text == "&" else first
        if self.tokens[first].text == "(" and self._is_cast(first):
            at = self.partner[first] + 1
        while at < end and self.tokens[at].text not in ("+", "-"):
            at = self.partner[at] + 1 if self.partner[at] > at else at + 1
        if any(self.tokens[it].text == "-" and self.is_pointer(it + 1, self.values.term_end(it + 1), variables, members) for it in self._operators(at, end)):
            return False
        return self._leads(first, at, variables, members)

    def _operators(self, at: int, end: int) -> Iterator[int]:
        """Gives each `+` and `-` of a sum from its first one on."""
        while at < end and self.tokens[at].text in ("+", "-"):
            yield at
            at = self.values.term_end(at + 1)

    def _leads(self, first: int, end: int, variables: frozenset[str], members: frozenset[str]) -> bool:
        """Returns whether these tokens, which have no sum, surely are a pointer. (`*p` is where `p` has two stars.)"""
        if self.tokens[first].text == "*" and end == first + 2:
            return f"*{self.tokens[first + 1].text}" in variables
        if self.tokens[first].text == "&" or self.tokens[first].text == "(" and self._is_cast(first):
            return True
        is_bracketed = self.tokens[first].text == "(" and self.partner[first] > first
        at, is_member = self.partner[first] + 1 if is_bracketed else first + 1, False
        while at < end and self.tokens[at].text in (".", "->", "["):
            is_index = self.tokens[at].text == "["
            at, is_member = (self.partner[at] + 1, False) if is_index else (at + 2, True)
        last = self.tokens[at - 1]
        return at == end and last.is_word and last.text not in KEYWORDS and last.text in (members if is_member else variables)

    def _changes(self, first: int, end: int) -> bool:
        return self.values.changes(first, end, (self.values.harmless,))
