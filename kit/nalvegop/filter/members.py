"""Types that the checker does not take: unions, structs without a name in others, bit fields, floating numbers. Each change
is made in the whole file, once the checker has stumbled on one of its kind.

A union becomes a struct: each member has a place of its own, so what is written by one name and read by another is not
followed. The members of a struct or union without a name become members of what it stands in (C11 6.7.2.1). A bit field
becomes a member of its type, and one of one bit without a sign a `_Bool`. A floating number becomes a `long`, and a literal
of one a number that is not known.
"""

from __future__ import annotations

import re

from ..segments import KEYWORDS, Segment
from .names import DISTANCE, TYPE_WORDS
from .page import Page, Work

# The kinds of `saturn_check`, by what is changed.
UNION, NAMELESS, BITS, FLOATS = "union", "anon", "bitfield", "float"
# (`odd` is what the checker says of a literal)
KINDS = frozenset({UNION, NAMELESS, BITS, FLOATS, "odd"})
_FLOAT = re.compile(r"(?:[0-9]*\.[0-9]+|[0-9]+\.?)(?:[eE][+-]?[0-9]+)?[fFlL]?")
_ATTRIBUTES = {"__attribute__", "__attribute"}


class Members(Work):
    """The steps. `wanted`: the kinds that are changed."""

    def __init__(self, page: Page) -> None:
        super().__init__(page)
        self.wanted = set[str]()
        # The functions that the checker passed over for one of these kinds.
        self.functions = dict[str, set[str]]()

    def want(self, kind: str, function: str) -> bool:
        """Notes that the checker passed a function over for a kind. Returns whether that kind is new."""
        kind = FLOATS if kind == "odd" else kind
        self.functions.setdefault(kind, set()).add(function)
        is_new = kind not in self.wanted
        # (a union without a name is a struct without one then)
        self.wanted |= {UNION, NAMELESS} if kind in (UNION, NAMELESS) else {kind}
        return is_new

    def add(self, other: Members) -> None:
        """Adds the functions that another filter of the same file knows of."""
        for kind, functions in other.functions.items():
            self.functions.setdefault(kind, set()).update(functions)

    def declaration(self, segment: Segment) -> None:
        """Changes the types that a declaration has."""
        if not self.wanted:
            return
        if NAMELESS in self.wanted:
            self._nameless(segment.first, segment.end)
        if BITS in self.wanted:
            self._bits(segment.first, segment.end)
        self.words(segment.first, segment.end)

    def body(self, segment: Segment) -> None:
        """Changes the literals of a function, and then its words."""
        for at in range(*segment.body) if FLOATS in self.wanted else ():
            text = self.tokens[at].text
            is_float = self.tokens[at].kind == "number" and not text.isdecimal() and _FLOAT.fullmatch(text) is not None and not text[:-1].isdecimal()
            is_long = text[:-1].isdecimal() and text[-1] == "."
            if (is_float or is_long) and at not in self.page.settled and self.page.stands(at) and self.page.is_declared(segment, DISTANCE):
                self.page.replace(at, at + 1, f"{DISTANCE}()", at)
                self._count("floats")
        self.words(segment.first, segment.end)

    def words(self, first: int, end: int) -> None:
        """`union` becomes `struct`, and `double` `long`, where they are left."""
        for at in range(first, end) if FLOATS in self.wanted else ():
            if self.tokens[at].text in ("float", "double") and at not in self.page.settled and self.page.stands(at):
                self._put(self.tokens[at], "" if self.tokens[at - 1].text == "long" else "long")
                self._count("floats")
        if UNION not in self.wanted:
            return
        for at in range(first, end):
            token = self.tokens[at]
            if token.text == "union" and at not in self.page.settled and self.page.stands(at):
                if self._text[token.end : token.end + 1] in (" ", "\t"):
                    # (it takes the place of the space, and what follows begins behind it)
                    self.page.sheet.put(token.start, "struct")
                    if self.tokens[at + 1].start == token.end + 1 and self.tokens[at + 1].is_word:
                        self.page.insert(token.end + 1, " ", at)
                else:
                    self.page.replace(at, at + 1, "struct ", at)
                self._count("unions")

    def _nameless(self, first: int, end: int) -> None:
        depth = 0
        for at in range(first, end - 2):
            text = self.tokens[at].text
            depth += (text == "{") - (text == "}")
            if text in ("struct", "union") and depth and self.tokens[at + 1].text == "{" and self.partner[at + 1] > at:
                closing = self.partner[at + 1]
                behind = self._behind_attributes(closing + 1)
                if self.tokens[behind].text == ";":
                    self._blank(at, at + 2)
                    self._blank(closing, behind + 1)
                    self.page.settled.add(at)
                    self._count("nameless")

    def _behind_attributes(self, at: int) -> int:
        while self.tokens[at].text in _ATTRIBUTES and self.partner[at + 1] > at:
            at = self.partner[at + 1] + 1
        return at

    def _bits(self, first: int, end: int) -> None:
        """Changes the declarations of members that have widths."""
        at, braces = first, list[int]()
        while at < end:
            text = self.tokens[at].text
            if text == "{":
                braces.append(at)
            elif text == "}" and braces:
                braces.pop()
            elif text == ":" and braces and self._is_of_struct(braces[-1]):
                at = self._widths(at, braces[-1])
            elif text in ("(", "[") and self.partner[at] > at:
                at = self.partner[at]
            at += 1

    def _is_of_struct(self, brace: int) -> bool:
        at = brace - 1
        while self.tokens[at].text == ")" and self.partner[at] > 0 and self.tokens[self.partner[at] - 1].text in _ATTRIBUTES:
            at = self.partner[at] - 2
        return self.tokens[at].text in ("struct", "union") or self.tokens[at - 1].text in ("struct", "union") and self.tokens[at].text not in KEYWORDS

    def _widths(self, colon: int, brace: int) -> int:
        """Changes the declaration round a `:`, and returns its end."""
        first, end = colon, colon
        while first - 1 > brace and self.tokens[first - 1].text not in (";", "}"):
            first -= 1
        while self.tokens[end].text != ";":
            end = self.partner[end] + 1 if self.partner[end] > end else end + 1
        colons = [at for at in range(first, end) if self.tokens[at].text == ":"]
        names = [at for at in colons if self.tokens[at - 1].is_word and self.tokens[at - 1].text not in TYPE_WORDS and at - 1 > first]
        if not names:
            # (one without a name fills a place)
            self._blank(first, end + 1)
            self._count("bit fields")
            return end
        kind = range(first, names[0] - 1)
        for at in colons:
            stop = at
            while self.tokens[stop].text not in (",", ";"):
                stop = self.partner[stop] + 1 if self.partner[stop] > stop else stop + 1
            self._blank(at, stop)
        is_bit = all(self.tokens[at + 1].text == "1" and self.tokens[at + 2].text in (",", ";", "__attribute__") for at in names)
        if is_bit and len(names) == len(colons) and self._has_no_sign(first, names[0] - 1):
            self.page.replace(kind.start, kind.stop, "_Bool ", first)
        self._count("bit fields")
        return end

    def _has_no_sign(self, first: int, end: int) -> bool:
        words = {self.tokens[at].text for at in range(first, end)} - {"const", "volatile", "__extension__"}
        is_fixed = len(words) == 1 and next(iter(words)) in {*"u8 u16 u32 __u8 __u16 __u32 uint8_t uint16_t uint32_t uint bool".split()}
        return is_fixed or "unsigned" in words and words <= {*"unsigned char short int long".split()}
