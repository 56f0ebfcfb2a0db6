"""What stands for values that the checker does not follow: pointers that are counted from others, casts between pointers and
numbers, sums of these, differences and comparisons of pointers. An object, or a number, that is not known stands there."""

from __future__ import annotations

from collections.abc import Iterator
from functools import cached_property

from ..pointers import FilePointers
from ..segments import Segment
from ..verdicts import At
from .casts import Cast, Casts
from .counted import OFFSET, CountedPointers
from .differences import Difference, Differences
from .names import ADDRESS, DISTANCE, MODEL_HEAD, NUMBER, ORDER, PART, POINTER, STEPPED
from .page import Page, Work
from .sums import Sum, Sums

# What behind a bracket makes an operand of it: a part of a value, or a call.
_MORE = {*". -> [ ( ++ --".split()}
# Calls of gcc's functions that give an address and do nothing.
_HARMLESS = ("__builtin_return_address", "__builtin_frame_address")


class Unknowns(Work):
    """The steps."""

    def __init__(self, page: Page) -> None:
        super().__init__(page)
        # The functions in which an object, or a number, that is not known was put in place of something.
        self.with_parts, self.with_offsets = set[str](), set[str]()
        self.with_pointers, self.with_addresses, self.with_sums, self.with_differences = set[str](), set[str](), set[str](), set[str]()
        self.values, self.casts = CountedPointers(self.tokens, self.partner, MODEL_HEAD), Casts(self.tokens, self.partner)
        self.sums = Sums(self.tokens, self.partner, self.values)
        self.differences = Differences(self.tokens, self.partner, self.values)
        # The places of casts, sums, differences and comparisons that the checker does not take.
        self.refused = set[At]()

    def add(self, other: Unknowns) -> None:
        """Adds the functions in which another filter of the same file put something."""
        self.with_parts |= other.with_parts
        self.with_offsets |= other.with_offsets
        self.with_pointers |= other.with_pointers
        self.with_addresses |= other.with_addresses
        self.with_sums |= other.with_sums
        self.with_differences |= other.with_differences

    def offsets(self, segment: Segment, but: set[int]) -> None:
        """`__builtin_offsetof(T, m)` becomes a number that is not known."""
        for at in range(segment.body[0], segment.end - 1):
            if self.tokens[at].text == OFFSET and at not in but and self.partner[at + 1] > at:
                self._blank(at, self.partner[at + 1] + 1)
                self._put(self.tokens[at], f"{NUMBER}()")
                self.with_offsets.add(segment.function or "")
                self._count("offsets")

    def dropped_values(self, segment: Segment) -> Iterator[tuple[int, int]]:
        """Gives the tokens of `a + n` in `(void)(a + n)`, where nothing happens but that a value is made: so it is with what
        the models drop. A 0 is put there. A run goes on where reading the value would be an error."""
        at = segment.body[0]
        while at < segment.end - 4:
            first, closing = at + 4, self.partner[at + 3]
            is_void = [it.text for it in self.tokens[at:first]] == ["(", "void", ")", "("]
            if is_void and closing > first and self.tokens[closing + 1].text not in _MORE and not self.values.changes(first, closing, (self.values.harmless,)):
                yield first, closing
                at = closing
            at += 1

    def counted_pointers(self, segment: Segment, but: set[int]) -> set[int]:
        """`(char *)p + n` becomes `nv_at( p )`, an object that is not known: so the models do with container_of. Else it is
        arithmetic on pointers, and the function is passed over. Returns the tokens of what is counted by: they are gone."""
        gone = set[int]()
        for it in self.values.of(segment.body[0] + 1, segment.end):
            room = self._text[self.tokens[it.first].start : self.tokens[it.operand - 1].end]
            if len(room) <= len(PART) or "\n" in room or it.first in but:
                continue
            self._blank(it.first, it.operand)
            self.page.sheet.put(self.tokens[it.first].start, f"{PART}(")
            self._blank(it.operator, it.end)
            if not it.is_bracketed:
                self._put(self.tokens[it.operator], ")")
            gone |= {*range(it.operator, it.end)}
            self.with_parts.add(segment.function or "")
            self._count("counted")
        return gone

    def refused_casts(self, segment: Segment, gone: set[int]) -> None:
        """A cast that the checker does not take, and those of the function with the same words: `(T *)n` becomes an object
        that is not known, and `(long)p` a number; `p` goes away to it."""
        if not self.refused:
            return
        found = [it for at in range(*segment.body) if self.tokens[at].text == "(" and (it := self.casts.read(at))]
        refused = [it for it in found if self.page.at(it.first) in self.refused]
        for it in reversed(found):
            # (of casts in one another the inner one comes first)
            is_left = not (gone | self.page.settled) & {*range(it.first, it.end)}
            if is_left and any(self.casts.same(it, one) for one in refused) and self._put_for_cast(it):
                (self.with_pointers if it.is_pointer else self.with_addresses).add(segment.function or "")
                self.page.settled |= {*range(it.first, it.end)}
                self._count("casts")

    def _put_for_cast(self, it: Cast) -> bool:
        """Puts something in place of a cast, if there is room."""
        start, operand = self.tokens[it.first].start, self.tokens[it.operand].start
        end = self.tokens[it.end - 1].end
        if self.values.changes(it.operand, it.end, _HARMLESS) or "\n" in self._text[start:end]:
            return False
        value, at = f"{POINTER}()", start
        if not it.is_pointer:
            # (the operand moves, so nothing may be in it of which a path tells)
            value, inside = f"{ADDRESS}({self._text[operand:end]})", range(it.operand, it.end)
            if self.page.other_at & {*inside} or {self.tokens[token].text for token in inside} & {"?", "&&", "||"}:
                return False
        elif len(value) <= end - operand:
            at = operand
        elif not self.casts.is_free(it):
            return False
        if len(value) > end - at:
            return False
        self.page.sheet.put(at, value.ljust(end - at))
        return True

    def refused_sums(self, segment: Segment, gone: set[int]) -> set[int]:
        """A sum of a pointer and a number that the checker does not take, and others of the function that are like it:
        `*(p + n)` becomes `p[n]`; `p + n` an object that is not known, to which `p` goes away; and `p` becomes that in `p += n`.
        Returns the tokens of which nothing is left."""
        found = [*self.sums.of(segment)] if self.refused else []
        refused = [it for it in found if self.page.at(it.operator) in self.refused]
        if not refused:
            return set()
        words, names, swallowed = {self.sums.words(it) for it in refused}, self.sums.pointers(segment), set[int]()
        for it in found:
            one, (first, last) = self.sums.words(it), it.variable or (it.first, it.operator)
            if one not in words and (len(one) > 1 or one[0] not in names) or gone & {*range(first, last)}:
                continue
            if not gone & {*range(it.operator, it.end)} and self._put_element(it):
                self.page.settled.add(it.operator)
                self._count("sums")
            elif self._put_for_sum(segment, it):
                swallowed |= {*range(it.first, it.end)}
                self.page.settled.add(it.operator)
                self._count("sums")
        return swallowed

    def _put_element(self, it: Sum) -> bool:
        """`*(p + n)` becomes `p[n]`, and `(p + n)->m` becomes `p[n].m`; `*(p - n)` becomes `p[-n]`."""
        kind = self.sums.element(it)
        if not kind:
            return False
        opening = it.first - 1
        if not self.sums.is_in_place(it):
            return self._put_far_element(it, kind)
        self._blank(opening - (kind == "*"), opening + 1)
        self._put(self.tokens[it.operator], "[")
        self._put(self.tokens[it.end], "]")
        if kind == "->":
            self._put(self.tokens[it.end + 1], ".")
        return True

    def _put_far_element(self, it: Sum, kind: str) -> bool:
        """The same where pointer and number have to move: no path may tell a place in them."""
        first, end = (it.first - 2, it.end + 1) if kind == "*" else (it.first - 1, it.end + 2)
        start, stop = self.tokens[first].start, self.tokens[end - 1].end
        inside = range(it.first, it.end)
        if "\n" in self._text[start:stop] or self.page.other_at & {*inside} or {self.tokens[at].text for at in inside} & {"?", "&&", "||"}:
            return False
        pointer, number = ("".join(self._text[self.tokens[a].start : self.tokens[b - 1].end]) for a, b in ((it.first, it.operator), (it.operator, it.end)))
        made = f"{pointer}[{number.removeprefix('+').strip()}]{'.' if kind == '->' else ''}"
        self.page.sheet.put(start, made.ljust(stop - start))
        return True

    def _put_for_sum(self, segment: Segment, it: Sum) -> bool:
        """Puts an object that is not known in place of a sum, if there is room and the name for it is free."""
        start, end = self.tokens[it.first].start, self.tokens[it.end - 1].end
        first, last = it.variable or (it.first, it.operator)
        pointer = self._text[self.tokens[first].start : self.tokens[last - 1].end]
        value = f"{pointer} = {STEPPED}({pointer})" if it.variable else f"{STEPPED}({pointer})"
        # (the operand moves, so nothing may be in it of which a path tells)
        is_plain = not self.page.other_at & {*range(first, last)} and not {token.text for token in self.tokens[first:last]} & {"?", "&&", "||"}
        if "\n" in pointer or not is_plain or not self.sums.is_free(it):
            return False
        is_within = len(value) <= end - start and "\n" not in self._text[start:end]
        rest = [] if is_within else self._rest_of_line(it)
        if rest is None or not self.page.is_declared(segment, STEPPED):
            return False
        if is_within:
            self.page.sheet.put(start, value.ljust(end - start))
        else:
            self._blank(it.first, it.end + len(rest))
            self._tails.setdefault(self._line(it.first), []).append("".join([value, *rest]))
            self.page.settled |= {*range(it.first, it.end + len(rest))}
        self.with_sums.add(segment.function or "")
        return True

    def _rest_of_line(self, it: Sum) -> list[str] | None:
        """Returns what stands behind a sum in its line, if it can be moved with it behind the end: no place of it is told."""
        line = self._line(it.first)
        if line in self._tails:
            return None
        if self._line(it.end) > line:
            return []
        behind = it.end
        while behind < len(self.tokens) and self._line(behind) == line:
            behind += 1
        rest = [token.text for token in self.tokens[it.end : behind]]
        return rest if {*rest} <= {")", ";", ",", "{"} else None

    def refused_differences(self, segment: Segment, gone: set[int]) -> set[int]:
        """Differences of two pointers, `p - q`, become a number that is not known, and their comparisons by order, `p < q`, a
        truth: those that the checker does not take, and in a function with something that it does not take all that surely
        are such. Returns the tokens of which nothing is left."""
        if not any(self.page.at(token) in self.refused for token in range(*segment.body) if self.refused):
            return set()
        swallowed = set[int]()
        variables, members = self.pointers_of(segment)
        sure = frozenset(it for it in members if not self._file_pointers.is_also_plain(it))
        for it in self.differences.of(segment):
            inside = {*range(it.first, it.end)}
            # (a sum in an operand is refused first)
            is_refused = any(self.page.at(token) in self.refused for token in inside)
            is_meant = it.is_order and self.page.at(it.operator) in self.refused or self.differences.is_between(it, variables, members if is_refused else sure)
            if is_meant and not gone & inside and self._put_for_difference(segment, it):
                swallowed |= inside
                self.page.settled.add(it.operator)
                self._count("differences")
        return swallowed

    def pointers_of(self, segment: Segment) -> tuple[frozenset[str], frozenset[str]]:
        """Returns the names that surely are pointers in a function, of variables (with a star before it what a pointer to a
        pointer leads to) and of members."""
        arrays = self._file_arrays
        variables = self._file_pointers.surely_seen_by(segment) | self.differences.arrays(*segment.body) | arrays
        return variables | self.differences.pointers_to_pointers(segment.parameters[0], segment.end), self._file_pointers.members | arrays

    def _put_for_difference(self, segment: Segment, it: Difference) -> bool:
        """Puts a number, or a truth, that is not known in place of a difference or a comparison, if there is room."""
        first, end, name = it.first, it.end, ORDER if it.is_order else DISTANCE
        value, before = f"{name}()", self.tokens[first - 2]
        if self.tokens[end - 1].end - self.tokens[first].start < len(value) and self.partner[first - 1] == end and not before.is_word:
            # (round brackets round it change nothing)
            first, end = first - 1, end + 1
        start, stop = self.tokens[first].start, self.tokens[end - 1].end
        room = self._text[start:stop].partition("\n")[0]
        if len(room) < len(value) or not self.page.is_declared(segment, name):
            return False
        self._blank(first, end)
        self.page.sheet.put(start, value)
        self.with_differences.add(segment.function or "")
        return True

    @cached_property
    def _file_pointers(self) -> FilePointers:
        return FilePointers(self.page.unit)

    @cached_property
    def _file_arrays(self) -> frozenset[str]:
        """The names that are declared as arrays outside of functions, as variables or members."""
        return frozenset[str]().union(*(self.differences.arrays(it.first, it.end, True) for it in self.page.unit.segments if not it.is_function))
