"""Types that a function's body declares (C11 6.7.2.1, 6.7.2.2, 6.7.8): the checker takes their bodies at file scope alone.

The filter declares such a type so, behind the line before its function, where none of its names stands outside of the
function and each is declared there once. So no other meaning of a name is hidden, and none is taken for it.
"""

from __future__ import annotations

from collections.abc import Iterator, Sequence
from dataclasses import dataclass

from ..segments import KEYWORDS
from ..tokens import Token

_STARTS, _HEADS = {";", "{", "}"}, {"struct", "union", "enum"}
_BEFORE = {*"const volatile register auto typedef __extension__".split()}


@dataclass(frozen=True)
class BlockType:
    """A declaration that begins with a type with a body: its tokens from `first` up to `end`, the word `struct`, the braces,
    the tag where it has one, and the names that it declares for more than variables."""

    first: int
    head: int
    tag: int | None
    opening: int
    closing: int
    end: int
    names: frozenset[str]
    is_typedef: bool


class BlockTypes:
    """Finds them in a function's body."""

    def __init__(self, tokens: Sequence[Token], partner: list[int]) -> None:
        self.tokens, self.partner = tokens, partner

    def of(self, brace: int, end: int) -> Iterator[BlockType]:
        """Gives those between two braces, outside of other ones, if no length in them is taken of something else."""
        at = brace + 1
        while at < end:
            found = self._at(at, end) if self.tokens[at - 1].text in _STARTS else None
            if found:
                yield found
            at = found.end if found else at + 1

    def _at(self, first: int, end: int) -> BlockType | None:
        head = first
        while self.tokens[head].text in _BEFORE:
            head += 1
        is_typedef = "typedef" in {it.text for it in self.tokens[first:head]}
        if self.tokens[head].text not in _HEADS:
            return self._plain_typedef(first, head, end) if is_typedef else None
        tag = head + 1 if self.tokens[head + 1].is_word else None
        opening = head + 1 if tag is None else tag + 1
        if self.tokens[opening].text != "{" or self.partner[opening] < opening:
            return self._plain_typedef(first, head, end) if is_typedef else None
        closing = self.partner[opening]
        if any(it.text == "sizeof" for it in self.tokens[opening:closing]):
            return None
        behind = self._behind(closing, end)
        names = {self.tokens[tag].text} if tag is not None else set[str]()
        names |= self._inner_names(opening, closing, self.tokens[head].text == "enum")
        names |= self._declared(closing + 1, behind - 1) if is_typedef else set()
        return BlockType(first, head, tag, opening, closing, behind, frozenset(names), is_typedef)

    def _plain_typedef(self, first: int, head: int, end: int) -> BlockType:
        """Returns a typedef of a type without a body."""
        behind = self._behind(head, end)
        words = [at for at in range(head, behind) if self.tokens[at].is_word and self.tokens[at].text not in KEYWORDS]
        names = self._declared(words[0] + 1 if len(words) > 1 else head, behind - 1)
        return BlockType(first, head, None, head, head, behind, frozenset(names), True)

    def _behind(self, at: int, end: int) -> int:
        """Returns the index behind the `;` that ends the declaration."""
        while at < end and self.tokens[at].text != ";":
            at = self.partner[at] + 1 if self.partner[at] > at else at + 1
        return at + 1

    def _inner_names(self, opening: int, closing: int, is_enum: bool) -> set[str]:
        """Returns the tags and enumerators that stand in a body."""
        found, enums = set[str](), [(opening, closing)] if is_enum else []
        for at in range(opening, closing):
            brace = at + 1 if self.tokens[at + 1].text == "{" else at + 2
            if self.tokens[at].text in _HEADS and self.tokens[brace].text == "{":
                found |= {self.tokens[at + 1].text} if brace == at + 2 else set()
                enums += [(brace, self.partner[brace])] if self.tokens[at].text == "enum" else []
        for first, end in enums:
            found |= {self.tokens[at].text for at in range(first + 1, end) if self.tokens[at].is_word and self.tokens[at - 1].text in ("{", ",")}
        return found

    def _declared(self, first: int, end: int) -> set[str]:
        """Returns the words of declarators: of `*a, b[2]` both names."""
        return {it.text for it in self.tokens[first:end] if it.is_word and it.text not in KEYWORDS}

    def text(self, it: BlockType, tag: str) -> str:
        """Returns the declaration that stands before the function: a typedef whole, else the type alone, with this tag."""
        if it.is_typedef:
            return " ".join(token.text for token in self.tokens[it.first : it.end])
        body = " ".join(token.text for token in self.tokens[it.opening : it.closing + 1])
        return f"{self.tokens[it.head].text} {tag} {body} ;"
