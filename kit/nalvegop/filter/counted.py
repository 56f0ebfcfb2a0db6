"""Pointers that are counted from a pointer to bytes: `(char *)p + n`, `((char *)p) + n - 1`, `(char *)p - offsetof(T, m)`; or
by way of a number, as in `(T *)((uintptr_t)p - offsetof(T, m))`.

The checker does not follow where such a pointer leads. The filter puts an unknown object in its place, as the models do
with container_of: the pointer that it is counted from goes away to it.
"""

from __future__ import annotations

from collections.abc import Iterator, Sequence
from dataclasses import dataclass

from ..segments import KEYWORDS
from ..tokens import Token

# What the macro offsetof gives.
OFFSET = "__builtin_offsetof"
_BYTES = {*"char unsigned signed const void uint8_t int8_t u8".split()}
# A number of this type has all of a pointer.
_ADDRESSES = ({"uintptr_t"}, {"intptr_t"}, {"unsigned", "long"}, {"long"}, {"size_t"})
_NUMBERS = {*"char short int long unsigned signed const size_t ssize_t ptrdiff_t uintptr_t intptr_t off_t u8 u16 u32 u64".split()}
# What may stand before the cast: then it is the cast that the counting begins with, and no operand of something else.
_BEFORE = {*"( [ { } ; , = ? : == != < > <= >= && || return".split()}
# What ends a term, outside of brackets.
_ENDS = {*"+ - << >> < > <= >= == != & ^ | && || ? : = , ; ) ] } += -= *= /= %= &= |= ^= <<= >>=".split()}
_CHANGES = {*"++ -- = += -= *= /= %= &= |= ^= <<= >>= { ;".split()}


@dataclass(frozen=True)
class Counted:
    """Tokens: the cast from `first` up to `operand`, with a bracket round cast and operand before it if it `is_bracketed`;
    the operator, and the end of what is counted."""

    first: int
    operand: int
    is_bracketed: bool
    operator: int
    end: int


class CountedPointers:
    """Finds them in the tokens of a function's body."""

    def __init__(self, tokens: Sequence[Token], partner: list[int], harmless: str) -> None:
        """`harmless`: the head of the names of functions whose calls may be left out."""
        self.tokens, self.partner, self.harmless = tokens, partner, harmless

    def of(self, first: int, end: int) -> Iterator[Counted]:
        """Gives those between two tokens, outside of what others count by."""
        at = first
        while at < end:
            found = self._at(at, first) if self.tokens[at].text in ("+", "-") else None
            if found:
                yield found
            at = found.end if found else at + 1

    def _at(self, operator: int, first: int) -> Counted | None:
        begins = self._bracketed(operator, first) or self._bare(operator, first)
        if not begins or self.tokens[begins[0] - 1].text not in _BEFORE or self._is_used_at_once(begins[0] - 1):
            return None
        end, at = operator, operator
        while self.tokens[at].text in ("+", "-"):
            end = self.term_end(at + 1)
            if end == at + 1 or self.changes(at + 1, end, (self.harmless,)) or self.tokens[at].text == "-" and not self.is_number(at + 1):
                return None
            at = end
        if self._is_address(begins[1] - 1) and not self._is_pointer_again(begins[0], end):
            return None
        return Counted(begins[0], begins[1], begins[2], operator, end)

    def _is_address(self, closing: int) -> bool:
        """Returns whether a cast, by its closing bracket, makes a number of a pointer."""
        return {it.text for it in self.tokens[self.partner[closing] + 1 : closing]} in _ADDRESSES

    def _is_pointer_again(self, first: int, end: int) -> bool:
        """Returns whether all of the bracket that ends here is cast to a pointer."""
        closing = first - 2
        is_whole = self.tokens[first - 1].text == "(" and self.partner[first - 1] == end and self.tokens[closing].text == ")"
        return is_whole and self.partner[closing] < closing and self.tokens[closing - 1].text == "*"

    def _is_used_at_once(self, before: int) -> bool:
        """Returns whether bytes are read or written there, as in `*((char *)p + n)`: an unknown object would have no type."""
        if self.tokens[before].text != "(" or self.partner[before] < 0:
            return False
        return self.tokens[before - 1].text == "*" or self.tokens[self.partner[before] + 1].text == "["

    # ---- what it is counted from

    def _bracketed(self, operator: int, first: int) -> tuple[int, int, bool] | None:
        """`((char *)p) + n`: returns where the outer bracket and where the operand begins."""
        closing = operator - 1
        opening = self.partner[closing] if self.tokens[closing].text == ")" else -1
        if opening <= first or self.tokens[opening + 1].text != "(" or not self._is_cast(opening + 1):
            return None
        operand = self.partner[opening + 1] + 1
        return (opening, operand, True) if self._operand_begins(closing, operand - 1) == operand else None

    def _bare(self, operator: int, first: int) -> tuple[int, int, bool] | None:
        """`(char *)p + n`: returns where the cast and where the operand begins."""
        operand = self._operand_begins(operator, first)
        closing = operand - 1
        if operand == operator or self.tokens[closing].text != ")" or self.partner[closing] <= first or not self._is_cast(self.partner[closing]):
            return None
        return self.partner[closing], operand, False

    def _operand_begins(self, behind: int, first: int) -> int:
        """Returns where the operand of a cast begins that ends before a token: `p->q[2]`, `&(p->q)`, `f(x)`."""
        at = behind - 1
        while at > first:
            token = self.tokens[at]
            if token.text in (")", "]") and self.partner[at] > first and not self._is_cast(self.partner[at]):
                at = self.partner[at] - 1
            elif token.is_word and token.text not in KEYWORDS or token.text in (".", "->"):
                at -= 1
            else:
                break
        return at if at < behind - 1 and self.tokens[at].text == "&" and self.tokens[at - 1].text == ")" and self._is_cast(self.partner[at - 1]) else at + 1

    def _is_cast(self, opening: int) -> bool:
        """Returns whether a bracket holds a type as `char *`, or one of a number that has all of a pointer."""
        texts = [it.text for it in self.tokens[opening + 1 : self.partner[opening]]] if self.partner[opening] > opening else []
        return len(texts) > 1 and texts[-1] == "*" and all(it in _BYTES for it in texts[:-1]) or {*texts} in _ADDRESSES

    # ---- what it is counted by

    def term_end(self, at: int) -> int:
        """Returns the end of a product that begins there: an operand of `+` or `-`."""
        while self.tokens[at].text in ("+", "-", "~", "!"):
            at += 1
        while self.tokens[at].text not in _ENDS:
            at = self.partner[at] + 1 if self.partner[at] > at else at + 1
        return at

    def changes(self, first: int, end: int, harmless: tuple[str, ...] = ()) -> bool:
        """Returns whether evaluating these tokens may do more than give a value: they have an assignment, or a call of a
        function without one of these heads."""
        for at in range(first, end):
            token, behind = self.tokens[at], self.tokens[at + 1].text
            is_call = token.is_word and behind == "(" and token.text not in KEYWORDS and token.text != OFFSET and not token.text.startswith(harmless)
            is_call_of_pointer = token.text == ")" and behind == "(" and self.tokens[self.partner[at] + 1].text == "*"
            if token.text in _CHANGES or is_call or is_call_of_pointer:
                return True
        return False

    def is_number(self, at: int) -> bool:
        """Returns whether a term surely is a number, by how it begins: behind a `-` a pointer may stand too."""
        token = self.tokens[at]
        if token.text == "(":
            return all(it.text in _NUMBERS for it in self.tokens[at + 1 : self.partner[at]])
        return token.kind in ("number", "char") or token.text in ("sizeof", OFFSET)
