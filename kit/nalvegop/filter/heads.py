"""What is declared before a function, or in its head, in another form: old-style parameters, types in blocks, static local
variables, variables that are named as types; and functions that are passed over."""

from __future__ import annotations

from collections import Counter

from ..segments import Segment
from ..verdicts import At
from .block_types import BlockType, BlockTypes
from .names import CLEANUP_CALL
from .old_parameters import OldParameters
from .page import Page, Work
from .shadows import Shadow, Shadows, other_name
from .statics import Static, Statics


class Heads(Work):
    """The steps."""

    def __init__(self, page: Page) -> None:
        super().__init__(page)
        self._statics = Statics(page.tokens, page.partner)
        self._shadows = Shadows(page.tokens, page.partner, page.unit.typedefs())
        # The names that static variables get, by the token of the old one.
        self._static_at: dict[int, str] = {}
        # The tags that types of bodies get, by the token of the brace.
        self._tags_at: dict[int, str] = {}

    def old_parameters(self, segment: Segment) -> None:
        """`int f(a, b) int a; char *b; {` becomes `int f(      int a, char *b) {`, where the order is the same. Else the list is
        written anew behind the line in which the old one ends."""
        old = OldParameters.read(self.tokens, self.partner, segment)
        if not old:
            return
        opening, closing = segment.parameters
        if old.is_in_order:
            self._blank(opening + 1, closing + 1)
            for at in old.ends:
                self._put(self.tokens[at], ")" if at == old.ends[-1] else ",")
        elif self._line(closing) < self._line(segment.body[0]) and not {*old.names} & self.page.unit.typedefs():
            self._blank(opening, segment.body[0])
            self._tails.setdefault(self._line(closing), []).append(old.text())
        else:
            return
        self._count("knr")

    def to_prototype(self, segment: Segment) -> None:
        """Leaves `int f(int a);` of a function: its callers know its type, and nothing of what it does."""
        opening, closing = segment.body
        self._blank(opening, closing + 1)
        self.page.sheet.put(self.tokens[opening].start, ";")

    def cleanup(self, segment: Segment) -> tuple[str, At] | None:
        """Returns why and where the function is passed over: something of it runs at the end of a scope, which no text
        shows."""
        for at in range(segment.body[0], segment.end):
            text = self.tokens[at].text
            behind = self.tokens[at + 1].text if at + 1 < segment.end else ""
            is_attribute = text in ("__attribute__", "__attribute") and behind == "(" or text == "[" and behind == "["
            if is_attribute and any(it.text in ("cleanup", "__cleanup__") for it in self.tokens[at + 2 : self.partner[at + 1]]):
                return "cleanup", self.page.at(at)
            if text == CLEANUP_CALL:
                return "pthread_cleanup_push", self.page.at(at)
        return None

    def rename_shadows(self, segment: Segment) -> None:
        """Gives a variable with the name of a typedef another name of the same length, which stands nowhere else."""
        for shadow in self._shadows.of(segment):
            if shadow.name not in self.page.renamed:
                other = other_name(shadow.name, self.page.taken | {*self.page.renamed.values(), *self.page.static_names})
                if not other:
                    continue
                self.page.renamed[shadow.name] = other
            for at in self._shadows.uses(shadow):
                self._put(self.tokens[at], self.page.renamed[shadow.name])
                self.page.names_at[at] = self.page.renamed[shadow.name]
            self._count("names")

    def block_types(self, segment: Segment) -> None:
        """Declares a type of the body before the function. In its place stays what it is the type of, if there is something."""
        if not self.page.has_room_before(segment):
            return
        types = BlockTypes(self.tokens, self.partner)
        found = [*types.of(*segment.body)]
        declared, left = Counter(name for it in found for name in it.names), set[str]()
        for it in found:
            words = {token.text for token in self.tokens[it.first : it.end]}
            tag = self.tokens[it.tag].text if it.tag is not None else "" if it.is_typedef else self._tag_in_place(it)
            if tag is None or words & left or any(declared[name] > 1 or not self._stands_only_in(segment, name) for name in it.names):
                left |= it.names
                continue
            self._tails.setdefault(self._line(segment.first - 1), []).append(types.text(it, tag))
            is_alone = it.is_typedef or it.closing + 2 == it.end
            self._blank(it.first if is_alone else it.opening, it.end if is_alone else it.closing + 1)
            if not is_alone and it.tag is None:
                self._put(self.tokens[it.opening], tag)
            self._count("types")

    def _stands_only_in(self, segment: Segment, name: str) -> bool:
        first, last = self.page.first_and_last[name]
        return segment.first <= first and last < segment.end

    def _tag_in_place(self, it: BlockType) -> str | None:
        """Returns a tag for a type without one, of one letter: it stands in place of the brace. None where there is none."""
        if it.opening in self._tags_at or self.tokens[it.head].end == self.tokens[it.opening].start:
            return self._tags_at.get(it.opening)
        tag = other_name("{", self.page.taken | {*self.page.renamed.values(), *self.page.static_names, *self._tags_at.values()})
        if tag:
            self._tags_at[it.opening] = tag
        return tag

    def static_locals(self, segment: Segment) -> None:
        """Declares a static variable before the function, under another name; of a constant number goes the word alone."""
        brace, end = segment.body
        for it in self._statics.of(brace, end):
            if self._statics.is_constant(it):
                self._blank(it.first, it.first + 1)
            elif self.page.has_room_before(segment):
                self._declare_before(segment, it)

    def _declare_before(self, segment: Segment, it: Static) -> None:
        brace, end = segment.body
        other = {self.tokens[at].text: self._static_name(at) for at, _, _ in it.names}
        names = {old: new for old, new in other.items() if new}
        if len(names) < len(it.names):
            return
        self._tails.setdefault(self._line(segment.first - 1), []).append(self._statics.text(it, names))
        for at, _, _ in it.names:
            scope = Shadow(self.tokens[at].text, at, self._shadows.block_end(at, brace, end))
            for use in self._shadows.uses(scope):
                self._put(self.tokens[use], names[scope.name])
                self.page.names_at[use] = names[scope.name]
        self._blank(it.first, it.end)
        self._count("statics")

    def _static_name(self, at: int) -> str | None:
        """Returns the name that the static variable of this token gets in all texts, or None where there is none."""
        if at not in self._static_at:
            other = other_name(self.tokens[at].text, self.page.taken | {*self.page.renamed.values(), *self.page.static_names})
            if not other:
                return None
            self._static_at[at] = other
            self.page.static_names[other] = self.tokens[at].text
        return self._static_at[at]
