"""Static local variables (C11 6.2.4): each is a variable of the file, with a name that one block alone knows.

The filter declares it so, behind the line before its function, under a name that stands nowhere else.
"""

from __future__ import annotations

from collections.abc import Iterator, Mapping, Sequence
from dataclasses import dataclass

from ..segments import KEYWORDS
from ..tokens import Token

_STARTS = {";", "{", "}"}
_ATTRIBUTES = {"__attribute__", "__attribute"}


@dataclass(frozen=True)
class Static:
    """A declaration: from the word `static` to behind its `;`. Of each name its token, and from where to where its
    initialiser stands."""

    first: int
    end: int
    names: tuple[tuple[int, int, int], ...]


class Statics:
    """Finds them in a function's body."""

    def __init__(self, tokens: Sequence[Token], partner: list[int]) -> None:
        self.tokens, self.partner = tokens, partner

    def of(self, brace: int, end: int) -> Iterator[Static]:
        """Gives those whose declarators are plain, as `*name[2] = { 1 }`, and whose type has no body."""
        for at in range(brace + 1, end):
            if self.tokens[at].text == "static" and self.tokens[at - 1].text in _STARTS:
                found = self._read(at, end)
                if found:
                    yield found

    def is_constant(self, it: Static) -> bool:
        """Returns whether it is a number that never changes: then it may as well be begun anew in each call."""
        name, equals, last = it.names[0]
        words = {token.text for token in self.tokens[it.first : equals]}
        return len(it.names) == 1 and equals < last and "const" in words and not {"*", "[", "struct", "union"} & words

    def text(self, it: Static, other: Mapping[str, str]) -> str:
        """Returns the declaration in one line, with the other names, and with no initialiser but one that gives a length."""
        dropped = set[int]()
        for _, equals, last in it.names:
            has_length = not (self.tokens[equals - 1].text == "]" and self.partner[equals - 1] == equals - 2)
            dropped |= {*range(equals, last)} if has_length else set()
        for at in range(it.first, it.end):
            if self.tokens[at].text in _ATTRIBUTES and self.tokens[at + 1].text == "(":
                dropped |= {*range(at, self.partner[at + 1] + 1)}
        names = {at for at, _, _ in it.names}
        kept = [at for at in range(it.first, it.end) if at not in dropped]
        return " ".join(other[self.tokens[at].text] if at in names else self.tokens[at].text for at in kept)

    def _read(self, first: int, end: int) -> Static | None:
        behind, names, at = self._cut(first, end, ";"), list[tuple[int, int, int]](), first + 1
        while at < behind < end:
            last = self._cut(at, behind, ",")
            equals = self._cut(at, last, "=")
            name = self._name(at, equals)
            if name is None:
                return None
            names.append((name, equals, last))
            at = last + 1
        return Static(first, behind + 1, tuple(names)) if names else None

    def _cut(self, at: int, end: int, mark: str) -> int:
        """Returns where a mark stands outside of brackets, or the end."""
        while at < end and self.tokens[at].text != mark:
            at = self.partner[at] + 1 if self.partner[at] > at else at + 1
        return min(at, end)

    def _name(self, at: int, end: int) -> int | None:
        """Returns the name of a plain declarator: the last one outside of brackets. None of another declarator, and where a
        type has a body."""
        found = None
        while at < end:
            token = self.tokens[at]
            if token.text in _ATTRIBUTES and self.tokens[at + 1].text == "(":
                at = self.partner[at + 1] + 1
                continue
            if token.text in ("(", "{"):
                return None
            if token.is_word and token.text not in KEYWORDS:
                found = at
            at = self.partner[at] + 1 if self.partner[at] > at else at + 1
        return found
