"""What stands for values that the checker does not follow where there is no room in their places, or where they have calls:
what stands behind them in the line moves, and the page notes where it stood.

An assignment as `p = Nv(p)` gives the unknown object a type, and may stand in any operand: so `c && *p++` becomes
`c && (p = Nv(p), Nd())`.
"""

from __future__ import annotations

from ..segments import KEYWORDS, Segment
from .casts import Cast
from .names import ADDRESS, DISTANCE, ORDER, POINTER, STEPPED
from .page import Page, Work
from .steps import Steps
from .sums import Sum
from .unknowns import Unknowns

_ORDERS = {*"< > <= >=".split()}
_SUMS, _STEPS, _ASSIGNED = {"+", "-"}, {"++", "--"}, {"+=", "-="}
_NUMBER_WORDS = {*"char short int long unsigned signed _Bool const volatile register uint8_t int8_t uint16_t int16_t uint32_t int32_t".split()}
_NUMBER_WORDS |= {*"uint64_t int64_t size_t ssize_t u8 u16 u32 u64 s8 s16 s32 s64 __u8 __u16 __u32 __u64 __le16 __le32 __be16 __be32 byte bool".split()}
_ENDS = {*"; , ) ] }".split()}
# What makes a place of a value: it is written, or something behind it is looked at.
_OF_PLACES = {*"= += -= *= /= %= &= |= ^= <<= >>= ++ -- . -> [ (".split()}
# Round these a pointer without a type may stand: runs that look behind it are set aside.
_BEFORE, _BEHIND = {*"? : && || ! = return ( , == !=".split()}, {*"? : && || ; ) , == !=".split()}


class FarValues(Work):
    """The steps."""

    def __init__(self, page: Page, unknowns: Unknowns, steps: Steps) -> None:
        super().__init__(page)
        self._unknowns, self._steps = unknowns, steps
        self._values, self._sums, self._differences = unknowns.values, unknowns.sums, unknowns.differences
        self._dropped, self._swallowed = set[int](), set[int]()

    def refused(self, segment: Segment, gone: set[int], dropped: set[int]) -> set[int]:
        """Takes what the checker does not take and no other step has taken, and what is like it in the function. `dropped`: the
        tokens of values that go. Returns the tokens of which nothing is left."""
        left = [at for at in range(*segment.body) if self._is_refused(at)] if self._unknowns.refused else []
        self._dropped, self._swallowed = dropped, set[int]()
        if not left:
            return set()
        names = self._sums.pointers(segment)
        words = {self._pointer(segment, at) for at in left} - {()}
        for at in range(*segment.body):
            text = self.tokens[at].text
            is_alike = text in _SUMS | _STEPS | _ASSIGNED and self._is_alike(segment, at, words, names)
            if at in gone or at in dropped or at in self.page.settled or not (is_alike or self._is_refused(at)):
                continue
            if self._put_for(segment, at, text, gone):
                self.page.settled.add(at)
                self._count("far values")
        return self._swallowed

    def _is_refused(self, at: int) -> bool:
        return self.page.at(at) in self._unknowns.refused and at not in self.page.settled

    def _is_alike(self, segment: Segment, at: int, words: set[tuple[str, ...]], names: set[str]) -> bool:
        pointer = self._pointer(segment, at)
        return bool(pointer) and (pointer in words or len(pointer) == 1 and pointer[0] in names)

    def _pointer(self, segment: Segment, at: int) -> tuple[str, ...]:
        """Returns the words of the pointer that is counted from, or stepped."""
        first, end = self._stepped(segment, at) if self.tokens[at].text in _STEPS else (self._differences.operand_begins(at, segment.body[0] + 1), at)
        if self.tokens[at].text not in _SUMS | _STEPS | _ASSIGNED:
            return ()
        return tuple(it.text for it in self.tokens[first:end])

    def _put_for(self, segment: Segment, at: int, text: str, gone: set[int]) -> bool:
        if text == "(":
            return self._put_for_cast(segment, at, gone)
        if text in _STEPS:
            return self._put_for_step(segment, at, gone)
        if text in _ASSIGNED:
            return self._put_for_assigned(segment, at, gone)
        if text in _SUMS:
            return self._put_for_difference(segment, at, gone) if self._is_difference(segment, at) else self._put_for_sum(segment, at, gone)
        return text in _ORDERS and self._put_for_order(segment, at, gone)

    # ---- small things

    def _words(self, first: int, end: int) -> str:
        return " ".join(self.page.named(at) for at in range(first, end))

    def _copy(self, offset: int, first: int, end: int) -> None:
        """Puts tokens once more before a byte: each is told by its own place."""
        for at in range(first, end):
            self.page.insert(offset, f"{self.page.named(at)} ", at)

    def _start(self, at: int) -> int:
        return self.tokens[at].start

    def _is_left(self, first: int, end: int, gone: set[int]) -> bool:
        """Returns whether there are tokens, and nothing was put in place of one."""
        inside = {*range(first, end)}
        return first < end and not gone & inside and not self.page.settled & inside

    def _swallow(self, first: int, end: int) -> None:
        self._swallowed |= {*range(first, end)}
        self.page.settled |= {*range(first, end)}

    # ---- sums

    def _put_for_sum(self, segment: Segment, at: int, gone: set[int]) -> bool:
        """`f(x) + n` becomes `Nv(f(x))`, and `*(f(x) + n)` becomes `f(x)[n]`."""
        first, end = self._differences.operand_begins(at, segment.body[0] + 1), at
        while self.tokens[end].text in _SUMS:
            end = self._values.term_end(end + 1)
        it = Sum(first, at, end)
        is_called, inside = self._changes(at, end), {*range(at, end)}
        if not first < at < end - 1 or not self._is_left(at, end, gone) or is_called and (inside & self._dropped or not self._is_only_added(at, end)):
            return False
        kind = self._sums.element(it)
        if kind == "*" and self._differences.ends_operand(first - 3):
            # (a product)
            return False
        if kind:
            return not self._dropped & {*range(first, end)} and self._put_element(it, kind)
        before, behind = self.tokens[first - 1].text, self.tokens[end].text
        is_dropped = [token.text for token in self.tokens[first - 4 : first]] == ["(", "void", ")", "("] and behind == ")"
        is_choice = is_dropped or not self._is_followed(first, end) and before in _BEFORE and behind in _BEHIND
        if not (self._sums.is_free(it) or is_choice) or not self.page.is_declared(segment, STEPPED):
            return False
        if is_called:
            # (what is added is evaluated first)
            self.page.insert(self._start(first), "(", at)
            self._copy(self._start(first), at + 1, end)
            self.page.insert(self._start(first), ", ", at)
        self.page.insert(self._start(first), f"{STEPPED}(", at)
        self._blank(at, end)
        if is_called:
            self.page.insert(self._start(at), "))", at)
        else:
            self._put(self.tokens[at], ")")
        self._swallow(at, end)
        self._unknowns.with_sums.add(segment.function or "")
        return True

    def _is_only_added(self, at: int, end: int) -> bool:
        """Returns whether one product is added, and nothing taken away: what is called there gives a number."""
        return self.tokens[at].text == "+" and self._values.term_end(at + 1) == end

    def _is_followed(self, first: int, end: int) -> bool:
        """Returns whether what round brackets round tokens lead to is looked at, or stepped."""
        while self.tokens[first - 1].text == "(" and self.partner[first - 1] == end:
            first, end = first - 1, end + 1
        return self.tokens[end].text in ("[", ".", "->", "++", "--") or self.tokens[first - 1].text == "*"

    def _put_element(self, it: Sum, kind: str) -> bool:
        opening, closing = it.first - 1, it.end
        is_plain = not self.tokens[it.first].text in ("*", "&", "(")
        if kind == "*":
            self._blank(opening - 1, opening)
        if is_plain:
            self._blank(opening, opening + 1)
        sign = "-" if self.tokens[it.operator].text == "-" else ""
        self.page.replace(it.operator, it.operator + 1, f"{'' if is_plain else ')'}[{sign}", it.operator)
        self._put(self.tokens[closing], "]")
        if kind == "->":
            self._put(self.tokens[closing + 1], ".")
        return True

    def _changes(self, first: int, end: int) -> bool:
        return self._values.changes(first, end, (self._values.harmless,))

    def _put_for_assigned(self, segment: Segment, at: int, gone: set[int]) -> bool:
        """`p += n` becomes `(p = Nv(p))`, and `p += f(x)` becomes `(f(x), p = Nv(p))`."""
        first, end = self._differences.operand_begins(at, segment.body[0] + 1), at + 1
        while self.tokens[end].text not in _ENDS:
            end = self.partner[end] + 1 if self.partner[end] > end else end + 1
        if not self._is_left(first, end, gone | self._dropped) or self._values.changes(first, at) or not self.page.is_declared(segment, STEPPED):
            return False
        pointer, start = self._words(first, at), self._start(first)
        self.page.insert(start, "(", at)
        if self._changes(at + 1, end):
            self._copy(start, at + 1, end)
            self.page.insert(start, ", ", at)
        self.page.replace(at, end, f"= {STEPPED}({pointer}))", at)
        self._swallow(at, end)
        self._unknowns.with_sums.add(segment.function or "")
        return True

    # ---- steps

    def _stepped(self, segment: Segment, at: int) -> tuple[int, int]:
        """Returns the pointer of a step by its tokens."""
        first = self._steps.first(at, segment.body[0])
        return (first, at) if first < at else (at + 1, self._steps.end(at + 1))

    def _put_for_step(self, segment: Segment, at: int, gone: set[int]) -> bool:
        """`*p++` becomes `(p = Nv(p), Nd())` where it is read and surely a number, else `*(p = Nv(p))`, and `p++` becomes
        `(p = Nv(p))`."""
        first, end = self._stepped(segment, at)
        if (
            first >= end
            or not self._is_left(min(first, at), max(end, at + 1), gone)
            or self._values.changes(first, end)
            or not self.page.is_declared(segment, STEPPED)
        ):
            return False
        pointer = self._words(first, end)
        is_read = first < at and self.tokens[first - 1].text == "*" and self.tokens[at + 1].text not in _OF_PLACES
        is_number = is_read and end == first + 1 and self._leads_to_number(segment, self.tokens[first].text) and self.page.is_declared(segment, DISTANCE)
        if is_number:
            self._blank(first - 1, first)
        if first > at:
            self._blank(at, at + 1)
        self.page.insert(self._start(first), f"({pointer} = {STEPPED}(", at)
        closing = f"), {DISTANCE}())" if is_number else "))"
        if first < at:
            self.page.replace(at, at + 1, closing, at)
        else:
            self.page.insert(self.tokens[end - 1].end, closing, at)
        self._unknowns.with_sums.add(segment.function or "")
        return True

    def _leads_to_number(self, segment: Segment, name: str) -> bool:
        """Returns whether a function declares a name once, as a pointer to numbers."""
        found = list[bool]()
        for at in range(segment.parameters[0] + 1, segment.end - 1):
            if self.tokens[at].text == name and self.tokens[at - 1].text == "*" and self.tokens[at + 1].text in (",", ";", "=", ")"):
                first, stops = at, {"(", ","} if at < segment.parameters[1] else {";", "{", "}"}
                while self.tokens[first - 1].text not in stops:
                    first -= 1
                words = [it.text for it in self.tokens[first:at]]
                head = words[: words.index("*")] if "*" in words else []
                is_declared = bool(head) and all(it.isidentifier() for it in head) and (head[0] not in KEYWORDS or head[0] in _NUMBER_WORDS | {"struct"})
                if is_declared:
                    found.append({*head} <= _NUMBER_WORDS and self.tokens[at - 2].text != "*")
        return found == [True]

    # ---- differences and comparisons

    def _is_difference(self, segment: Segment, at: int) -> bool:
        """Returns whether what is taken from a pointer, there or later in the sum, surely is a pointer."""
        variables, members = self._unknowns.pointers_of(segment)
        end = at
        while self.tokens[end].text in _SUMS:
            behind = self._values.term_end(end + 1)
            if self.tokens[end].text == "-" and self._differences.is_pointer(end + 1, behind, variables, members):
                return True
            end = behind
        return False

    def _put_for_difference(self, segment: Segment, at: int, gone: set[int]) -> bool:
        first, end = self._differences.operand_begins(at, segment.body[0] + 1), at
        while self.tokens[end].text in _SUMS:
            end = self._values.term_end(end + 1)
        return self._put_number(segment, first, at, end, DISTANCE, gone)

    def _put_for_order(self, segment: Segment, at: int, gone: set[int]) -> bool:
        it = self._differences.order(at, segment.body[0] + 1)
        return self._put_number(segment, it.first, at, it.end, ORDER, gone)

    def _put_number(self, segment: Segment, first: int, at: int, end: int, name: str, gone: set[int]) -> bool:
        """`p - q` becomes `Nd()`, and `f(x) - q` becomes `(f(x), q, Nd())`."""
        if not first < at < end - 1 or not self._is_left(first, end, gone) or not self.page.is_declared(segment, name):
            return False
        if not self._changes(first, end):
            self.page.replace(first, end, f"{name}()", at)
            self._swallow(first, end)
        elif any(self.tokens[it].text in _SUMS for it in range(at + 1, end)):
            return False
        else:
            self.page.insert(self._start(first), "(", at)
            self.page.replace(at, at + 1, ",", at)
            self.page.insert(self.tokens[end - 1].end, f", {name}())", at)
        self._unknowns.with_differences.add(segment.function or "")
        return True

    # ---- casts

    def _put_for_cast(self, segment: Segment, at: int, gone: set[int]) -> bool:
        """`(T *)n` becomes `(T *)nv_()`, `(T *)f(n)` becomes `(f(n), (T *)nv_())`, and `(int)p` becomes
        `(int)nv_to(p)`."""
        it = self._unknowns.casts.read(at) or self._by_typedef(at)
        if not it or gone & {*range(it.first, it.end)}:
            return False
        start, end = self._start(it.operand), self.tokens[it.end - 1].end
        if not it.is_pointer:
            self.page.insert(start, f"{ADDRESS}(", at)
            self.page.insert(end, ")", at)
            self._unknowns.with_addresses.add(segment.function or "")
            return True
        if not self._changes(it.operand, it.end) and self._is_left(it.first, it.end, gone):
            self.page.replace(it.operand, it.end, f"{POINTER}()", at)
            self._swallow(it.operand, it.end)
        else:
            kind = self._words(it.first, it.operand)
            self._blank(it.first, it.operand)
            self.page.insert(start, "(", at)
            self.page.insert(end, f", {kind}{POINTER}())", at)
        self._unknowns.with_pointers.add(segment.function or "")
        return True

    def _by_typedef(self, at: int) -> Cast | None:
        """Returns the cast to the type that a typedef names."""
        if self.partner[at] != at + 2:
            return None
        kind = self.page.typedef_kind(self.tokens[at + 1].text)
        end = self._unknowns.casts.operand_end(at + 3)
        return Cast(at, at + 3, end, kind == "pointer") if kind and end else None
