"""Which names are those of pointers, by their declarations: behind a star, or behind the name of a type that is a pointer,
as `text` of `typedef char *text;`."""

from __future__ import annotations

from collections.abc import Iterator
from functools import cached_property

from .segments import KEYWORDS, Segment, Unit

_TYPE_HEADS = {"struct", "union", "enum"}
_TYPES = {*"char short int long signed unsigned _Bool float double".split()}
_QUALIFIERS = {*"const volatile restrict __const __const__ __volatile __volatile__ __restrict __restrict__".split()}
# What may stand before the star of a declarator, or of an operand; a product has something else there.
_BEFORE = {*", ( ; { } = ! && || ? :".split()}


class FilePointers:
    """The pointers of a file: its variables, and members of any struct."""

    def __init__(self, unit: Unit) -> None:
        self._unit, self._tokens, self._partner, self._types = unit, unit.tokens, unit.partner, unit.typedefs()
        # Names of types that are pointers. (One by the name of another one stands behind it.)
        self._named = set[str]()
        members, of_file = set[str](), set[str]()
        for it in unit.segments:
            if not it.is_function:
                found = [*self._declared(it.first, it.end)]
                members |= {name for name, is_member in found if is_member}
                outside = {name for name, is_member in found if not is_member} & it.declares
                is_typedef = "typedef" in {token.text for token in self._tokens[it.first : it.first + 2]}
                (self._named if is_typedef else of_file).update(outside)
        self.members, self.variables = frozenset(members), frozenset(of_file)

    def is_also_plain(self, name: str) -> bool:
        """Returns whether some struct has a member of this name that is no pointer."""
        return name in self._plain_members

    @cached_property
    def _plain_members(self) -> frozenset[str]:
        """The names of members that are no pointers, rather too many: those of enumerators too."""
        found = set[str]()
        for it in self._unit.segments:
            depth = 0
            for at in range(it.first, it.first if it.is_function else it.end - 1):
                token = self._tokens[at]
                depth += (token.text == "{") - (token.text == "}")
                is_name = depth > 0 and token.is_word and self._tokens[at + 1].text in (";", ",", ":", "=", "}")
                if is_name and not self._is_behind_star(at) and self._tokens[self._behind_qualifiers(at)].text not in self._named:
                    found.add(token.text)
        return frozenset(found)

    def seen_by(self, function: Segment) -> frozenset[str]:
        """Returns the variables that a function sees and that are pointers: its own and the file's."""
        parameters = {token.text for token in self._tokens[function.parameters[0] : function.parameters[1]]}
        own = {name for name, _ in self._declared(function.parameters[0], function.end)}
        return frozenset(own | self.variables - parameters)

    def surely_seen_by(self, function: Segment) -> frozenset[str]:
        """Returns those of them that the function declares as nothing else, as far as words tell."""
        plain = set[str]()
        for at in range(function.parameters[0] + 1, function.end):
            token, before = self._tokens[at], self._tokens[at - 1]
            is_type = before.is_word and (before.text not in KEYWORDS or before.text in _TYPES)
            if token.is_word and is_type and before.text not in self._named:
                plain.add(token.text)
        return self.seen_by(function) - plain

    def _declared(self, first: int, end: int) -> Iterator[tuple[str, bool]]:
        """Gives the names that are declared as pointers between two tokens, and of each whether it stands in braces."""
        depth = 0
        for at in range(first, end):
            token = self._tokens[at]
            depth += (token.text == "{") - (token.text == "}")
            if not token.is_word or token.text in KEYWORDS or at == first:
                continue
            if self._is_behind_star(at):
                yield token.text, depth > 0
            elif self._tokens[self._behind_qualifiers(at)].text in self._named:
                yield from ((name, depth > 0) for name in self._list(at, end))

    def _behind_qualifiers(self, at: int, more: frozenset[str] = frozenset()) -> int:
        """Returns the last token before one that is no qualifier, and none of these."""
        at -= 1
        while at > 0 and self._tokens[at].text in _QUALIFIERS | more:
            at -= 1
        return at

    def _is_behind_star(self, at: int) -> bool:
        """Returns whether the last thing before a name is a star that makes no product."""
        if self._tokens[self._behind_qualifiers(at)].text != "*":
            return False
        before = self._behind_qualifiers(at, frozenset("*"))
        text = self._tokens[before].text
        return text in KEYWORDS | _QUALIFIERS | _BEFORE | self._types or before > 0 and self._tokens[before - 1].text in _TYPE_HEADS

    def _list(self, at: int, end: int) -> Iterator[str]:
        """Gives a name and those behind it that a comma follows: `text a = 0, b;` declares both."""
        while at < end - 1 and self._tokens[at].is_word and self._tokens[at + 1].text in (",", ";", "=", "[", ")", ":"):
            yield self._tokens[at].text
            while at < end - 1 and self._tokens[at].text not in (",", ";", ")"):
                at = self._partner[at] + 1 if self._partner[at] > at else at + 1
            if self._tokens[at].text != ",":
                break
            at += 1


class Pointers:
    """The pointers that a function sees: variables, its own and the file's, and members of any struct."""

    def __init__(self, unit: Unit, function: Segment) -> None:
        of_file = FilePointers(unit)
        self.members, self.variables = of_file.members, of_file.seen_by(function)
