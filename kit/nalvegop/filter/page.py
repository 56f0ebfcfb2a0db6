"""The page that the steps of the filter write on: a preprocessed text as tokens, what was written over it, and what stands
behind the ends of its lines."""

from __future__ import annotations

from bisect import bisect_right
from dataclasses import dataclass, field
from functools import cached_property

from ..segments import Segment, Unit
from ..tokens import LineIndex, Sheet, Token, tokens_of
from ..verdicts import At
from .names import HEADS, TYPE_WORDS


@dataclass
class Moved:
    """Where what stands in the made text stood before. Of a line in which something was put, each run of columns: where it
    begins, where its first column stood, and whether all of it is told by that place, as what was put there."""

    runs: dict[int, list[tuple[int, At, bool]]] = field(default_factory=dict)

    def told(self, it: At) -> At:
        """Returns the place by which a place of the made text is told."""
        runs = self.runs.get(it.line, [])
        number = bisect_right(runs, it.column, key=lambda run: run[0]) - 1
        if number < 0:
            return it
        begins, at, is_put = runs[number]
        return at if is_put else At(at.line, at.column + it.column - begins)


class Page:
    """A text, and what the steps made of it."""

    def __init__(self, text: str) -> None:
        self.text = text
        self.tokens = [*tokens_of(text)]
        self.unit = Unit(self.tokens)
        self.partner = self.unit.partner
        self._index = LineIndex(text)
        # The tokens that got another name, and that name.
        self.names_at = dict[int, str]()
        # Names that variables got in place of those of typedefs, and names of static variables, each with the old one.
        self.renamed, self.static_names = dict[str, str](), dict[str, str]()
        self.begin()

    def begin(self) -> None:
        """Begins with the text as it was."""
        self.sheet, self.counts, self.tails = Sheet(self.text), dict[str, int](), dict[int, list[str]]()
        # What is put between two bytes of a line, in order: the column before which it stands, the text, and its place.
        self._inserted: dict[int, list[tuple[int, str, At]]] = {}
        self.moved = Moved()
        # Tokens of values in whose places something was put.
        self.settled = set[int]()

    @property
    def other_at(self) -> set[int]:
        """The tokens that got another name."""
        return {*self.names_at}

    def made(self) -> str:
        """Returns what the steps made of the text, and notes in `moved` where what moved stood."""
        lines = self.sheet.text().split("\n")
        for line, pieces in self._inserted.items():
            lines[line - 1] = self._with_inserted(line, lines[line - 1], sorted(pieces, key=lambda it: it[0]))
        return _with_tails("\n".join(it.rstrip(" \t") for it in lines), self.tails)

    def _with_inserted(self, line: int, text: str, pieces: list[tuple[int, str, At]]) -> str:
        runs, made, last = self.moved.runs.setdefault(line, []), "", 0
        for column, more, at in pieces:
            made += text[last : column - 1]
            runs.append((len(made) + 1, at, True))
            made += more
            runs.append((len(made) + 1, At(line, column), False))
            last = column - 1
        return made + text[last:]

    def insert(self, offset: int, text: str, origin: int) -> None:
        """Puts a text before a byte: what stands behind it in the line moves. A path tells it by the place of the token `origin`."""
        at = self._index.at(offset)
        self._inserted.setdefault(at.line, []).append((at.column, text, self.at(origin)))

    def replace(self, first: int, end: int, text: str, origin: int) -> None:
        """Puts a text of any length in place of tokens."""
        self.blank(first, end)
        self.insert(self.tokens[first].start, text, origin)

    def line(self, at: int) -> int:
        return self._index.line(self.tokens[at].start)

    def at(self, at: int) -> At:
        """Returns the line and column of a token."""
        return self._index.at(self.tokens[at].start)

    def blank(self, first: int, end: int) -> None:
        if first < end:
            self.sheet.blank(self.tokens[first].start, self.tokens[end - 1].end)

    def put(self, token: Token, text: str) -> None:
        self.sheet.put(token.start, text.ljust(len(token.text)))

    def stands(self, at: int) -> bool:
        """Returns whether nothing was written over a token."""
        return self.sheet.stands(self.tokens[at].start)

    def named(self, at: int) -> str:
        """Returns the text of a token, or the name that it got."""
        return self.names_at.get(at, self.tokens[at].text)

    def typedef_kind(self, name: str) -> str:
        """Returns whether a typedef names a pointer, by a star before the name, or a number, by words of one; else nothing."""
        for it in self.unit.segments:
            if name in it.declares and self.tokens[it.first].text == "typedef":
                words = [token.text for token in self.tokens[it.first + 1 : it.end - 1]]
                if words[-1:] == [name] and all(one.isidentifier() or one == "*" for one in words):
                    return (
                        "pointer"
                        if words[-2] == "*"
                        else "number"
                        if {*words[:-1]} <= TYPE_WORDS - {"void", "float", "double"}
                        else self.typedef_kind(words[0])
                        if len(words) == 2
                        else ""
                    )
        return ""

    def count(self, step: str) -> None:
        self.counts[step] = self.counts.get(step, 0) + 1

    def has_room_before(self, segment: Segment) -> bool:
        """Returns whether a line ends between what stands before a function and the function: more can stand there."""
        return segment.first > 0 and self.line(segment.first - 1) < self.line(segment.first)

    def is_declared(self, segment: Segment, name: str) -> bool:
        """Declares a function for what is not known before a function, where the text does not have its name."""
        head = HEADS[name]
        if name in self.taken:
            # (this text has been filtered already)
            heads = [it for it in self.unit.segments if name in it.declares]
            return bool(heads) and all(self.text[self.tokens[it.first].start : self.tokens[it.end - 1].end] == head for it in heads)
        if not self.has_room_before(segment):
            return False
        tails = self.tails.setdefault(self.line(segment.first - 1), [])
        if head not in tails:
            tails.append(head)
        return True

    @cached_property
    def taken(self) -> set[str]:
        return {it.text for it in self.tokens if it.is_word}

    @cached_property
    def first_and_last(self) -> dict[str, tuple[int, int]]:
        """The first and the last token with each name."""
        found: dict[str, tuple[int, int]] = {}
        for at, it in enumerate(self.tokens):
            if it.is_word:
                found[it.text] = found.get(it.text, (at,))[0], at
        return found


class Work:
    """What each group of steps has: the page, and what stands on it."""

    def __init__(self, page: Page) -> None:
        self.page, self.tokens, self.partner, self._text = page, page.tokens, page.partner, page.text

    @property
    def _tails(self) -> dict[int, list[str]]:
        return self.page.tails

    def _line(self, at: int) -> int:
        return self.page.line(at)

    def _blank(self, first: int, end: int) -> None:
        self.page.blank(first, end)

    def _put(self, token: Token, text: str) -> None:
        self.page.put(token, text)

    def _count(self, step: str) -> None:
        self.page.count(step)


def _with_tails(text: str, tails: dict[int, list[str]]) -> str:
    """Returns a text with more behind the ends of some lines: nothing else moves."""
    if not tails:
        return text
    lines = text.split("\n")
    for line, more in tails.items():
        lines[line - 1] = " ".join([lines[line - 1], *more])
    return "\n".join(lines)
