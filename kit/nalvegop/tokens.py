"""C text as tokens that know their place (C11 6.4), and text that is changed without moving anything in it."""

from __future__ import annotations

import re
from bisect import bisect_right
from collections.abc import Iterator, Sequence
from itertools import accumulate
from typing import NamedTuple

from .verdicts import At

_PARTS = r"""
    | [ \t\v\f\r]+ | \n+ | \\\r?\n
    | (?P<comment>/\*.*?\*/|//[^\n]*)
    | (?P<string>(?:u8|[LuU])?"(?:\\.|[^"\\\n])*")
    | (?P<char>[LuU]?'(?:\\.|[^'\\\n])*')
    | (?P<word>[A-Za-z_$][A-Za-z0-9_$]*)
    | (?P<number>\.?[0-9](?:[eEpP][+-]|[A-Za-z0-9_.])*)
    | (?P<punct>\.\.\.|<<=|>>=|->|\+\+|--|<<|>>|<=|>=|==|!=|&&|\|\||[-+*/%&|^]=|\#\#|.)
    """
_FLAGS = re.VERBOSE | re.DOTALL | re.MULTILINE
# (a line of the preprocessor goes on behind a backslash, and in a comment that it begins)
_TOKEN = re.compile(r"^[ \t]*\#(?:/\*.*?\*/|\\\r?\n|[^\n])*" + _PARTS, _FLAGS)
_TOKEN_OR_COMMENT = re.compile(r"(?!)" + _PARTS, _FLAGS)
_DIRECTIVE = re.compile(r"[ \t]*#[^\n]*")
OPENING, CLOSING = {"(": ")", "[": "]", "{": "}"}, {")", "]", "}"}


class Token(NamedTuple):
    """A token: its text, where it begins in the whole text, and its kind (word, number, string, char, punct; comment)."""

    text: str
    start: int
    kind: str

    @property
    def end(self) -> int:
        return self.start + len(self.text)

    @property
    def is_word(self) -> bool:
        return self.kind == "word"


def tokens_of(text: str) -> Iterator[Token]:
    """Gives the tokens of a text. Comments, white space and lines that begin with # are left out."""
    for found in _TOKEN.finditer(text):
        kind = found.lastgroup
        if kind and kind != "comment":
            yield Token(found[0], found.start(), kind)


def parts_of(text: str) -> Iterator[Token]:
    """Gives tokens and comments of a source, and what stands in lines of the preprocessor too."""
    for found in _TOKEN_OR_COMMENT.finditer(text):
        if found.lastgroup:
            yield Token(found[0], found.start(), found.lastgroup)


def comments_of(text: str) -> Iterator[tuple[int, str]]:
    """Gives the comments of a text, each with the place where it begins."""
    return ((it.start, it.text) for it in parts_of(text) if it.kind == "comment")


def partners(tokens: Sequence[Token]) -> list[int]:
    """Returns for each bracket the index of its other half, and -1 for all else and for a bracket without one."""
    found, open_ones = [-1] * len(tokens), list[int]()
    for at, token in enumerate(tokens):
        if token.kind != "punct":
            continue
        if token.text in OPENING:
            open_ones.append(at)
        elif token.text in CLOSING and open_ones and OPENING[tokens[open_ones[-1]].text] == token.text:
            found[at] = open_ones.pop()
            found[found[at]] = at
    return found


class LineIndex:
    """The lines and columns of a text's bytes."""

    def __init__(self, text: str) -> None:
        lengths = [len(it) + 1 for it in text.split("\n")]
        self._starts = [0, *accumulate(lengths)]

    def line(self, at: int) -> int:
        return bisect_right(self._starts, at)

    def at(self, at: int) -> At:
        line = self.line(at)
        return At(line, at - self._starts[line - 1] + 1)


class Sheet:
    """A text in which parts are written over with spaces or with text of the same length: no byte of it moves."""

    def __init__(self, text: str) -> None:
        self.was = text
        self._pieces: list[tuple[int, int, str]] = []

    def blank(self, start: int, end: int) -> None:
        """Writes spaces from start to end; line feeds and line markers stay."""
        lines = self.was[start:end].split("\n")
        self.put(start, "\n".join(it if number and _DIRECTIVE.fullmatch(it) else " " * len(it) for number, it in enumerate(lines)))

    def put(self, start: int, text: str) -> None:
        """Writes a text over what stands there, which has its line feeds at the same places."""
        end = start + len(text)
        assert "\n" not in text and self.was.find("\n", start, end) < 0 or _breaks(text) == _breaks(self.was[start:end])
        self._pieces.append((start, end, text))

    def stands(self, at: int) -> bool:
        """Returns whether nothing was written over a byte."""
        return not any(start <= at < end for start, end, _ in self._pieces)

    def text(self) -> str:
        """Returns the text with all that was written over it; of two writings over one place the later one counts."""
        # (a character is a byte, so slices of bytes are set: a list of characters takes ten times as long)
        made = bytearray(self.was, "latin-1")
        for start, end, text in self._pieces:
            made[start:end] = text.encode("latin-1")
        assert len(made) == len(self.was)
        return made.decode("latin-1")


def _breaks(text: str) -> list[int]:
    return [at for at, it in enumerate(text) if it == "\n"]
