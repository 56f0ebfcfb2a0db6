"""Statement expressions (GNU C) whose value is assigned, as `x = ({ T v = a; f(v); v + 1; });`, also in a declaration: they
become `{ T v = a; f(v); x = v + 1; }`. And types that are told by a variable, as `typeof(a)`.
"""

from __future__ import annotations

from collections.abc import Iterator, Mapping, Sequence
from dataclasses import dataclass

from ..segments import KEYWORDS, Segment
from ..tokens import Token

_STARTS = {";", "{", "}"}
_HEADS = {"if", "while", "for", "switch"}
_TYPE_WORDS = {*"void char short int long signed unsigned _Bool float double const volatile struct union enum".split()}
_STORAGE = {"static", "extern", "register", "typedef", "auto", "inline", "_Thread_local"}


@dataclass(frozen=True)
class BlockValue:
    """Tokens: the statement from `first` to behind its `;`, its `=`, the brace, and the last expression of the block."""

    first: int
    end: int
    equals: int
    brace: int
    value: tuple[int, int]
    is_declaration: bool


class BlockValues:
    """Finds them in the tokens of a text."""

    def __init__(self, tokens: Sequence[Token], partner: list[int]) -> None:
        self.tokens, self.partner = tokens, partner

    def of(self, segment: Segment) -> Iterator[BlockValue]:
        """Gives those whose block names nothing of what they are assigned to."""
        for at in range(segment.body[0] + 2, segment.end - 4):
            if [it.text for it in self.tokens[at : at + 3]] == ["=", "(", "{"]:
                found = self._read(at, segment.body[0])
                if found:
                    yield found

    def _read(self, equals: int, floor: int) -> BlockValue | None:
        brace = equals + 2
        closing = self.partner[brace]
        if self.partner[equals + 1] != closing + 1 or self.tokens[closing + 2].text != ";":
            return None
        first = equals
        while first - 1 > floor and self.tokens[first - 1].text not in _STARTS | {"else", "do", ")", ":"}:
            first = self.partner[first - 1] if self.tokens[first - 1].text == "]" and self.partner[first - 1] > 0 else first - 1
        is_body = self.tokens[first - 1].text == ")" and self.tokens[self.partner[first - 1] - 1].text in _HEADS
        value = self.value(brace, closing)
        target = self.tokens[first:equals]
        if not value or not target or self.tokens[first - 1].text == ")" and not is_body or any(it.text in ("(", ",", "=", "++", "--") for it in target):
            return None
        is_declaration = len(target) > 1 and all(it.is_word or it.text == "*" for it in target) and target[0].is_word and target[-1].is_word
        names = {it.text for it in (target[-1:] if is_declaration else target) if it.is_word}
        if names & {it.text for it in self.tokens[brace:closing]}:
            return None
        if target[0].text in _STORAGE or is_declaration and self.tokens[first - 1].text not in _STARTS:
            return None
        return BlockValue(first, closing + 3, equals, brace, value, is_declaration)

    def value(self, brace: int, closing: int) -> tuple[int, int] | None:
        """Returns the last expression of a block; None where there is none, or something stands before it that may be its head."""
        if self.tokens[closing - 1].text != ";":
            return None
        first = closing - 1
        while first - 1 > brace and self.tokens[first - 1].text not in _STARTS:
            first = self.partner[first - 1] if self.tokens[first - 1].text in (")", "]") and self.partner[first - 1] > 0 else first - 1
        words = self.tokens[first : closing - 1]
        is_expression = bool(words) and not any(
            it.text in KEYWORDS - _TYPE_WORDS - {"sizeof"} or it.text in (":", "{") and "?" not in {one.text for one in words} for it in words
        )
        return (first, closing - 1) if is_expression and words[0].text not in _TYPE_WORDS else None

    # ---- types that a variable tells

    def types(self, segment: Segment, of_file: Mapping[str, str]) -> Iterator[tuple[int, int, str]]:
        """Gives each `typeof(name)` of a body by its tokens, with the type as words, where the function declares the name once, or
        the file does and the function does not."""
        for at in range(segment.body[0], segment.end - 4):
            is_one = self.tokens[at].text in ("typeof", "__typeof", "__typeof__") and self.tokens[at + 1].text == "(" and self.partner[at + 1] == at + 3
            found = self._declared(segment, self.tokens[at + 2].text) if is_one else []
            if is_one and not found and self.tokens[at + 2].text in of_file:
                found = [of_file[self.tokens[at + 2].text]]
            if len(found) == 1:
                yield at, at + 4, found[0]

    def of_file(self, segments: Sequence[Segment]) -> dict[str, str]:
        """Returns the types of the variables that a file declares alone, each as words."""
        found = dict[str, str]()
        for it in segments:
            at = it.first
            while at < it.end - 1 and (self.tokens[at].is_word or self.tokens[at].text == "*"):
                at += 1
            words = [token.text for token in self.tokens[it.first : at]]
            is_one = len(words) > 1 and self.tokens[at].text in (";", "=") and not {*words} & (KEYWORDS - _TYPE_WORDS - _STORAGE | {"typedef"})
            if is_one and not it.is_function and words[-1] != "*":
                found[words[-1]] = " ".join(word for word in words[:-1] if word not in _STORAGE)
        return found

    def _declared(self, segment: Segment, name: str) -> list[str]:
        """Returns the types with which a function declares a name, as words."""
        found = list[str]()
        for at in range(segment.parameters[0] + 1, segment.end - 1):
            is_parameter = at < segment.parameters[1]
            if self.tokens[at].text != name or self.tokens[at + 1].text not in ((",", ")") if is_parameter else ("=", ";", ",", "[")):
                continue
            first = at
            while self.tokens[first - 1].is_word and self.tokens[first - 1].text not in KEYWORDS - _TYPE_WORDS - _STORAGE or self.tokens[first - 1].text == "*":
                first -= 1
            words = [it.text for it in self.tokens[first:at] if it.text not in _STORAGE]
            begins = self.tokens[first - 1].text in (("(", ",") if is_parameter else _STARTS)
            if words and words[0] != "*" and begins:
                found.append(" ".join(words) if self.tokens[at + 1].text != "[" else "")
            elif words and not begins:
                found.append("")
        return found
