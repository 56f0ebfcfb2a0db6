"""Old-style lists of parameters (C11 6.9.1): `int f(a, b) char *b; {` is `int f(int a, char *b) {`."""

from __future__ import annotations

from collections.abc import Iterator, Sequence
from dataclasses import dataclass

from ..segments import KEYWORDS, Segment
from ..tokens import Token


@dataclass(frozen=True)
class OldParameters:
    """The names between the brackets, the `;` of each declaration behind them, and the declaration of each name that has one."""

    names: list[str]
    ends: list[int]
    declared: dict[str, str]
    # (each declaration has one name)
    is_in_order: bool

    @classmethod
    def read(cls, tokens: Sequence[Token], partner: list[int], segment: Segment) -> OldParameters | None:
        """Reads those of a function; None where it has none, or where something else stands there."""
        opening, closing = segment.parameters
        brace = segment.body[0]
        if closing < 0 or tokens[brace - 1].text != ";":
            return None
        names = [it.text for it in tokens[opening + 1 : closing] if it.is_word]
        declared, ends, first = list[tuple[str, str]](), list[int](), closing + 1
        for end in _outside(tokens, partner, first, brace, ";"):
            declared += _declared(tokens, partner, first, end)
            ends.append(end)
            first = end + 1
        listed = [name for name, _ in declared]
        if not {*listed} <= {*names} or len({*listed}) < len(listed):
            return None
        return cls(names, ends, dict(declared), listed == names and len(ends) == len(names))

    def text(self) -> str:
        """Returns the new list. A name without a declaration is an int, as in C89."""
        return f"( {' , '.join(self.declared.get(name, f'int {name}') for name in self.names)} )"


def _outside(tokens: Sequence[Token], partner: list[int], at: int, end: int, mark: str) -> Iterator[int]:
    """Gives where a mark stands outside of brackets."""
    while at < end:
        if tokens[at].text == mark:
            yield at
        at = partner[at] + 1 if partner[at] > at else at + 1


def _declared(tokens: Sequence[Token], partner: list[int], first: int, end: int) -> Iterator[tuple[str, str]]:
    """Gives the names that `char *a, b[2]` declares, each with a declaration of its own; a name that is none in it is none."""
    cuts = [*_outside(tokens, partner, first, end, ","), end]
    behind = _behind_type(tokens, first, cuts[0])
    words = [it.text for it in tokens[first:behind] if it.text != "register"]
    begin = behind
    for cut in cuts:
        declarator = tokens[begin:cut]
        name = next((it.text for it in declarator if it.is_word and it.text not in KEYWORDS), "")
        yield name, " ".join([*words, *(it.text for it in declarator)])
        begin = cut + 1


def _behind_type(tokens: Sequence[Token], first: int, end: int) -> int:
    """Returns where the first declarator begins: at a star or bracket, else at the last word before its square brackets."""
    at = first
    while at < end and tokens[at].is_word:
        at += 1
    return at if at < end and tokens[at].text in ("*", "(") else at - 1
