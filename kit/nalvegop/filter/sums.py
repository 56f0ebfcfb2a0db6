"""Sums of a pointer and a number, as `p + n`, `p += n` and `p++`, which the checker does not take: what is put in place of
them.

Which operand is a pointer no token tells. So the checker says on which sums it stumbles, by their places; in the same
function all sums with the same left operand are changed, and those of a variable that is declared there as a pointer.
Where the guess is wrong the operands do not fit, and the function is passed over as before.
"""

from __future__ import annotations

from collections.abc import Iterator, Sequence
from dataclasses import dataclass

from .counted import CountedPointers
from ..segments import KEYWORDS, Segment
from ..tokens import Token

# What may stand round a pointer to anything: nothing that looks behind it, and no `?:`, which would give it no type.
_TYPE_WORDS = {*"void char short int long signed unsigned _Bool float double const volatile struct union enum static register".split()}
_QUALIFIERS = {*"const volatile restrict __const __restrict __restrict__ __volatile__".split()}
_OPERATORS = {*"+ - += -= ++ --".split()}
_BEFORE, _BEHIND = {*"= return , ( == !=".split()}, {*"; , ) == !=".split()}


@dataclass(frozen=True)
class Sum:
    """Tokens: the left operand from `first` up to `operator`, and the end of all that is added."""

    first: int
    operator: int
    end: int
    # (`p += n`, `p++` and `++p`, alone in a statement or in the head of a loop: the pointer becomes another one)
    variable: tuple[int, int] | None = None


class Sums:
    """Finds them in the tokens of a text."""

    def __init__(self, tokens: Sequence[Token], partner: list[int], values: CountedPointers) -> None:
        self.tokens, self.partner, self.values = tokens, partner, values
        self._pointers = set[str]()

    def of(self, segment: Segment) -> Iterator[Sum]:
        """Gives the sums in a body whose operands have no call and no assignment, with a left operand as `p->q[2]`."""
        self._pointers = self.pointers(segment)
        behind = segment.body[0] + 1
        for at in range(*segment.body):
            if at < behind or self.tokens[at].text not in _OPERATORS:
                continue
            found = self._sum(at, segment.body[0]) if self.tokens[at].text in ("+", "-") else self._step(at, segment.body[0])
            if found:
                yield found
                behind = found.end

    def _sum(self, at: int, brace: int) -> Sum | None:
        first, end = self._left(at, brace), self._end(at)
        closing = self.partner[first - 1] if self.tokens[first - 1].text == "(" else -1
        before = self.tokens[first - 3]
        is_product = before.kind == "number" or before.text == "]" or before.is_word and before.text not in KEYWORDS
        if closing > at and (self.tokens[first - 2].text == "*" and not is_product or self.tokens[closing + 1].text == "->"):
            # (what is followed is a pointer, so no other one is taken from it)
            end = closing
        is_sum = first < at < end - 1 and not self.values.changes(first, at) and not self.values.changes(at, end, (self.values.harmless,))
        return Sum(first, at, end) if is_sum else None

    def _step(self, at: int, brace: int) -> Sum | None:
        """Returns `p += n`, `p++` or `++p` where it is all of an expression whose value nobody uses."""
        first, end = self._left(at, brace), at + 1
        if first == at and self._is_target(self.partner[at - 1], at):
            first = self.partner[at - 1]
        elif first == at - 1 and self.tokens[at].text in ("+=", "-=") and self.tokens[first - 1].text == "*":
            first -= 1
        variable = first, at
        if self.tokens[at].text in ("+=", "-="):
            end = self._behind_expression(at + 1)
        elif first == at:
            end = self._behind_expression(at + 1)
            variable = at + 1, end
        is_loop = self.tokens[end].text == ")" and self.partner[end] > brace and self.tokens[self.partner[end] - 1].text == "for"
        is_alone = is_loop and self.tokens[first - 1].text in (";", ",") or self.tokens[end].text == ";" and self._begins_statement(first, brace)
        if not is_alone or variable[0] >= variable[1] or self.values.changes(*variable):
            return None
        is_plain = self._left(end, brace) == variable[0] + (self.tokens[variable[0]].text == "*")
        if variable[0] > at and not is_plain or self.values.changes(max(at, variable[1]) + 1, end, (self.values.harmless,)):
            return None
        return Sum(first, at, end, variable)

    def _is_target(self, opening: int, end: int) -> bool:
        """Returns whether the brackets that end there are those of `(*p)`."""
        is_one = opening >= 0 and end == opening + 4 and self.tokens[end - 1].text == ")" and self.tokens[opening + 1].text == "*"
        return is_one and self.tokens[opening + 2].is_word and not self.tokens[opening - 1].is_word

    def _begins_statement(self, at: int, brace: int) -> bool:
        """Returns whether a statement begins there: behind another one, or behind the head of a loop or of a condition."""
        before = self.tokens[at - 1].text
        opening = self.partner[at - 1] if before == ")" else -1
        return before in (";", "{", "}", "else", "do") or opening > brace and self.tokens[opening - 1].text in ("if", "while", "for")

    def _behind_expression(self, at: int) -> int:
        """Returns where an expression ends that a statement has alone, or the head of a loop."""
        while self.tokens[at].text not in (";", ")", ",", "}"):
            at = self.partner[at] + 1 if self.partner[at] > at else at + 1
        return at

    def words(self, it: Sum) -> tuple[str, ...]:
        """Returns the pointer as its words."""
        first, end = it.variable or (it.first, it.operator)
        return tuple(token.text for token in self.tokens[first:end])

    def pointers(self, segment: Segment) -> set[str]:
        """Returns the names that a function declares as pointers: parameters and variables."""
        stars = [at for at in range(segment.parameters[0], segment.end - 2) if self.tokens[at].text == "*"]
        named = [(star, self._behind_qualifiers(star)) for star in stars]
        return {self.tokens[name].text for star, name in named if self.tokens[name].is_word and self._is_declarator(segment, star, name)} - KEYWORDS

    def _behind_qualifiers(self, at: int) -> int:
        """Returns the first token behind one that is no qualifier."""
        at += 1
        while self.tokens[at].text in _QUALIFIERS:
            at += 1
        return at

    def _is_declarator(self, segment: Segment, star: int, name: int) -> bool:
        """Returns whether a `*` before a name stands in a declaration, as far as words tell, and is no product."""
        behind = self.tokens[name + 1].text
        if star < segment.parameters[1]:
            return behind in (",", ")")
        at = star
        while self.tokens[at - 1].text == "*" or self.tokens[at - 1].is_word and self.tokens[at - 1].text not in KEYWORDS - _TYPE_WORDS:
            at -= 1
        before = self.tokens[at - 1].text
        return behind in (",", "=", ";") and (before in (";", "{", "}") and self.tokens[at].is_word or before == "," and self.tokens[at].text == "*")

    def is_free(self, it: Sum) -> bool:
        """Returns whether a pointer to anything may stand in its place."""
        if it.variable:
            return True
        first, end = it.first, it.end
        while self.tokens[first - 1].text == "(" and self.partner[first - 1] == end and self.tokens[first - 2].text in ("(", ",", "=", "return"):
            # (round brackets round it change nothing)
            first, end = first - 1, end + 1
        before, behind = self.tokens[first - 1].text, self.tokens[end].text
        if before == "(":
            return behind in (",", ")") and (self.tokens[first - 2].is_word or self._is_cast(first - 2) and behind == ")")
        return before in _BEFORE and behind in _BEHIND

    def element(self, it: Sum) -> str | None:
        """Returns whether the sum stands in `*(p + n)` or in `(p + n)->m`, by the `*` or the `->`: both are the element `p[n]`
        (C11 6.5.2.1). None where it does not."""
        opening, closing = it.first - 1, it.end
        if it.variable:
            return None
        if self.tokens[opening].text != "(" or self.partner[opening] != closing:
            return None
        before, behind = self.tokens[opening - 1], self.tokens[closing + 1].text
        if before.text == "*" and behind not in (".", "->", "[", "(", "++", "--"):
            return "*"
        is_operand = before.is_word and before.text not in KEYWORDS or before.text in (")", "]")
        return "->" if behind == "->" and not is_operand else None

    def is_in_place(self, it: Sum) -> bool:
        """Returns whether one number is added to the pointer, so that an index may stand in its place."""
        return self.tokens[it.operator].text == "+" and self.values.term_end(it.operator + 1) == it.end

    def _is_cast(self, closing: int) -> bool:
        """Returns whether a cast to a pointer ends there."""
        return self.tokens[closing].text == ")" and self.tokens[closing - 1].text == "*" and self.partner[closing] < closing - 2

    def _left(self, operator: int, first: int) -> int:
        """Returns where the left operand of a sum begins, if it is as `p->q[2]`; else the operator."""
        at = operator
        while at - 1 > first:
            token = self.tokens[at - 1]
            if token.text == "]" and self.partner[at - 1] > first:
                at = self.partner[at - 1]
                continue
            if not token.is_word or token.text in KEYWORDS:
                return operator
            at -= 1
            if self.tokens[at - 1].text not in (".", "->"):
                return at
            at -= 1
        return operator

    def _end(self, at: int) -> int:
        """Returns the end of all that is added from an operator on; the operator where a pointer may be taken from another one."""
        first = at
        while self.tokens[at].text in ("+", "-"):
            end = self.values.term_end(at + 1)
            is_name = end == at + 2 and self.tokens[at + 1].is_word and self.tokens[at + 1].text not in self._pointers
            if self.tokens[at].text == "-" and not is_name and not self.values.is_number(at + 1):
                return first
            at = end
        return at
