"""Variables of a function that have the name of a typedef (C11 6.2.1): the checker takes such a name for a type.

`void empty(list *list)` is C, and common. Each such variable gets another name of the same length that stands nowhere
in the text; what the checker then says is told with the old name.
"""

from __future__ import annotations

import string
from collections.abc import Iterator, Sequence
from dataclasses import dataclass

from ..segments import KEYWORDS, Segment
from ..tokens import Token

_QUALIFIERS = {*"const volatile restrict __const __volatile __volatile__ __restrict __restrict__ _Atomic".split()}
_STORAGE = {*"static extern register auto typedef inline _Thread_local __extension__".split()} | _QUALIFIERS
_TYPE_WORDS = {*"void char short int long signed unsigned _Bool float double __signed__".split()}
_TAGS = {"struct", "union", "enum"}
_STARTS = {";", "{", "}"}


@dataclass(frozen=True)
class Shadow:
    """A variable of such a name, and the tokens from `first` up to `end` in which the name means it."""

    name: str
    first: int
    end: int


class Shadows:
    """Finds such variables in a function."""

    def __init__(self, tokens: Sequence[Token], partner: list[int], types: frozenset[str]) -> None:
        self.tokens, self.partner, self.types = tokens, partner, types

    def of(self, segment: Segment) -> Iterator[Shadow]:
        """Gives those in a function, and the parameters of such names in any declaration."""
        if not self.types & segment.names:
            return
        brace, end = segment.body if segment.is_function else (segment.end, segment.end)
        for opening in self._lists(segment.first, brace):
            is_own = opening == segment.parameters[0]
            for at in self._parameters(opening, self.partner[opening]):
                yield Shadow(self.tokens[at].text, at, end if is_own else self.partner[opening])
        if segment.is_function:
            yield from (Shadow(self.tokens[at].text, at, end) for at in self._declared(segment.parameters[1] + 1, brace))
            yield from self._locals(brace, end)

    def _locals(self, brace: int, end: int) -> Iterator[Shadow]:
        for at in range(brace, end):
            begins = self.tokens[at].text in _STARTS or self.tokens[at].text == "(" and self.tokens[at - 1].text == "for"
            for name_at in self._declared(at + 1, end, just_one=True) if begins else ():
                yield Shadow(self.tokens[name_at].text, name_at, self.block_end(name_at, brace, end))

    def _lists(self, first: int, end: int) -> Iterator[int]:
        """Gives the brackets that may begin a list of parameters: those behind a name, or behind a declarator's bracket."""
        for at in range(first + 1, end):
            before = self.tokens[at - 1]
            if self.tokens[at].text == "(" and self.partner[at] > at and (before.text == ")" or before.is_word and before.text not in KEYWORDS):
                yield at

    def uses(self, it: Shadow) -> Iterator[int]:
        """Gives the tokens that mean the variable: no members, tags or labels."""
        for at in range(it.first, it.end):
            if self.tokens[at].text != it.name or not self.tokens[at].is_word:
                continue
            before, behind = self.tokens[at - 1].text, self.tokens[at + 1].text
            is_label = before == "goto" or before in _STARTS and behind == ":"
            if before not in (".", "->") and before not in _TAGS and not is_label:
                yield at

    def _parameters(self, opening: int, closing: int) -> Iterator[int]:
        """Gives the names of parameters that are types too: a type stands before each."""
        at, has_type = opening + 1, False
        while at < closing:
            token = self.tokens[at]
            if token.text == ",":
                has_type = False
            elif token.text == "(" and has_type and self.tokens[at + 1].text == "*":
                # (a pointer to a function or to an array)
                name_at = self._name(at, closing)
                if name_at is not None and self.tokens[name_at].text in self.types:
                    yield name_at
            elif token.is_word and token.text not in _STORAGE:
                if has_type and token.text in self.types and self.tokens[at - 1].text not in _TAGS:
                    yield at
                has_type = True
            at = self.partner[at] + 1 if self.partner[at] > at else at + 1

    def _declared(self, at: int, end: int, just_one: bool = False) -> Iterator[int]:
        """Gives the names that the declarations from here on declare and that are types too."""
        while at < end:
            behind = self._behind_specifiers(at, end)
            if behind is None:
                return
            at = behind
            while at < end and self.tokens[at].text != ";":
                name_at = self._name(at, end)
                if name_at is not None and self.tokens[name_at].text in self.types:
                    yield name_at
                while at < end and self.tokens[at].text not in (",", ";"):
                    at = self.partner[at] + 1 if self.partner[at] > at else at + 1
                at += self.tokens[at].text == "," if at < end else 0
            at += 1
            if just_one:
                return

    def _behind_specifiers(self, at: int, end: int) -> int | None:
        """Returns where the first declarator begins, or None where no declaration begins here."""
        seen = False
        while at < end:
            text = self.tokens[at].text
            if text in _TAGS and not seen and self.tokens[at + 1].is_word:
                at, seen = at + 2, True
            elif text in _TYPE_WORDS:
                at, seen = at + 1, True
            elif text in _STORAGE:
                at += 1
            elif not seen and text in self.types and self.tokens[at + 1].text not in (";", "=", ",", "[", "->", ".", "("):
                at, seen = at + 1, True
            else:
                break
        return at if seen and at < end else None

    def _name(self, at: int, end: int) -> int | None:
        """Returns the name that a declarator declares: behind stars, qualifiers and brackets."""
        while at < end and self.tokens[at].text in {"*", "("} | _QUALIFIERS:
            at += 1
        return at if at < end and self.tokens[at].is_word and self.tokens[at].text not in KEYWORDS else None

    def block_end(self, at: int, brace: int, end: int) -> int:
        """Returns the end of the innermost block round a token."""
        return min((self.partner[i] for i in range(brace, at) if self.tokens[i].text == "{" and self.partner[i] > at), default=end)


def other_name(name: str, taken: set[str]) -> str | None:
    """Returns a name of the same length that is not taken, or None where there is none to be found soon."""
    letters = string.ascii_uppercase + string.ascii_lowercase + "_" + string.digits
    for at in range(len(name) - 1, -1, -1):
        for it in letters[: 53 if at == 0 else None]:
            made = name[:at] + it + name[at + 1 :]
            if made not in taken and made not in KEYWORDS:
                return made
    return None
