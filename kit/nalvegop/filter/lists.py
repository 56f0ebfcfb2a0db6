"""Initialisers with designators or with braces in braces, as `struct s x = { .a = 1, .b = { .c = n } };`, and compound
literals that are assigned, as `*p = (struct s) { .a = 1 };` (C11 6.7.9, 6.5.2.5): the checker takes neither.

What is named is assigned behind the statement: `struct s x = { }; x.a = 1; x.b.c = n;`. All else is 0 in either form.
"""

from __future__ import annotations

from collections.abc import Iterator, Sequence
from dataclasses import dataclass

from ..segments import KEYWORDS, Segment
from ..tokens import Token

_STARTS = {";", "{", "}"}
_TYPE_WORDS = {*"void char short int long signed unsigned _Bool float double const volatile struct union enum".split()}
_ZEROS = {"0", "{", "}", ",", "(", ")", "void", "*", "0L", "0U", "0UL"}


@dataclass(frozen=True)
class Listed:
    """A statement by its tokens: from `first` to behind its `;`, with a list in braces. `value`: what stands before the list
    is a cast of a compound literal, from here on. Of each part that is not 0 what it is a part by, as `.a[2]`, and its
    tokens."""

    first: int
    end: int
    target: tuple[int, int]
    opening: int
    cast: tuple[int, int] | None
    is_declaration: bool
    parts: tuple[tuple[str, int, int], ...]


class Lists:
    """Finds them in the tokens of a text."""

    def __init__(self, tokens: Sequence[Token], partner: list[int]) -> None:
        self.tokens, self.partner = tokens, partner

    def of(self, segment: Segment) -> Iterator[Listed]:
        """Gives those that are a whole statement."""
        for at in range(segment.body[0] + 2, segment.end - 3):
            found = self._read(at, segment.body[0]) if self.tokens[at].text == "=" else None
            if found:
                yield found

    def empty_texts(self, segment: Segment) -> Iterator[int]:
        """Gives the tokens `""` in `char a[4] = "";`: all of it is 0."""
        for at in range(segment.body[0] + 4, segment.end - 1):
            if [it.text for it in self.tokens[at - 2 : at + 2]] == ["]", "=", '""', ";"] and self.partner[at - 2] < at - 3:
                if self.tokens[self.partner[at - 2] - 2].text == "char":
                    yield at

    def _read(self, equals: int, brace: int) -> Listed | None:
        opening, cast = equals + 1, None
        if self.tokens[opening].text == "(" and self.partner[opening] > 0 and self._is_type(opening):
            cast = opening, self.partner[opening] + 1
            opening = cast[1]
        if self.tokens[opening].text != "{" or self.tokens[self.partner[opening] + 1].text != ";":
            return None
        first = equals
        while first - 1 > brace and self.tokens[first - 1].text not in _STARTS | {")", "else", "do", ":"}:
            first = self.partner[first - 1] if self.tokens[first - 1].text == "]" and self.partner[first - 1] > 0 else first - 1
        if self.tokens[first - 1].text == ")" and self.tokens[self.partner[first - 1] - 1].text not in ("if", "while", "for"):
            return None
        is_declaration = self._declares(first, equals)
        parts = self._parts(opening, "")
        if parts is None or not is_declaration and cast is None or is_declaration and cast is None and not self._is_needed(opening):
            return None
        if is_declaration and not self._has_length(equals) or any(it.text in ("(", ",") for it in self.tokens[first:equals]):
            return None
        name = self._name(equals)
        return Listed(first, self.partner[opening] + 2, (name, name + 1) if is_declaration else (first, equals), opening, cast, is_declaration, tuple(parts))

    def _is_type(self, opening: int) -> bool:
        """Returns whether round brackets hold the name of a type that is no pointer, by its words."""
        return all(it.is_word and (it.text not in KEYWORDS or it.text in _TYPE_WORDS) for it in self.tokens[opening + 1 : self.partner[opening]])

    def _declares(self, first: int, equals: int) -> bool:
        """Returns whether a declaration of one name begins there: two words in a row, and nothing but words and stars."""
        words = self.tokens[first : self._name(equals) + 1]
        return len(words) > 1 and all(it.is_word or it.text == "*" for it in words) and words[0].is_word and words[0].text not in ("static", "return")

    def _name(self, equals: int) -> int:
        """Returns the name that stands before a `=`, and before the lengths of an array."""
        at = equals - 1
        while self.tokens[at].text == "]" and self.partner[at] > 0:
            at = self.partner[at] - 1
        return at

    def _has_length(self, equals: int) -> bool:
        return not (self.tokens[equals - 1].text == "]" and self.partner[equals - 1] == equals - 2)

    def _is_needed(self, opening: int) -> bool:
        """Returns whether a list has braces or designators in it: any other one is taken as it is."""
        inside = self.tokens[opening + 1 : self.partner[opening]]
        return any(it.text in ("{", "=") for it in inside)

    def _parts(self, opening: int, path: str) -> list[tuple[str, int, int]] | None:
        """Returns the parts that are not 0; None where one has no designator."""
        found, at, closing = list[tuple[str, int, int]](), opening + 1, self.partner[opening]
        while at < closing:
            end = at
            while end < closing and self.tokens[end].text != ",":
                end = self.partner[end] + 1 if self.partner[end] > end else end + 1
            inner = self._part(at, end, path)
            if inner is None:
                return None
            found += inner
            at = end + 1
        return found

    def _part(self, at: int, end: int, path: str) -> list[tuple[str, int, int]] | None:
        begin = at
        while self.tokens[at].text in (".", "["):
            at = at + 2 if self.tokens[at].text == "." else self.partner[at] + 1
        if at == begin:
            return [] if all(it.text in _ZEROS for it in self.tokens[at:end]) else None
        if self.tokens[at].text != "=" or any(it.text == "..." for it in self.tokens[begin:at]):
            return None
        here = path + "".join(it.text for it in self.tokens[begin:at])
        if self.tokens[at + 1].text == "{":
            return self._parts(at + 1, here)
        # (a null pointer that is cast to a number is 0 too)
        is_zero = all(it.text in _ZEROS | {"uintptr_t", "intptr_t"} for it in self.tokens[at + 1 : end])
        return [] if is_zero else [(here, at + 1, end)]
