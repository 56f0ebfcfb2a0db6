"""Steps of pointers whose value is used (`steps` finds them): they are taken behind the statement, or before it."""

from __future__ import annotations

from ..segments import KEYWORDS, Segment
from .counted import CountedPointers
from .names import DISTANCE, MODEL_HEAD, STEPPED, TYPE_WORDS
from .page import Page, Work
from .steps import Statement, Stepped, Steps
from .sums import Sums
from .unknowns import Unknowns


class StepMoves(Work):
    """The steps."""

    def __init__(self, page: Page, unknowns: Unknowns) -> None:
        super().__init__(page)
        values = CountedPointers(self.tokens, self.partner, MODEL_HEAD)
        self._unknowns, self.steps, self._sums = unknowns, Steps(self.tokens, self.partner, values), Sums(self.tokens, self.partner, values)

    def refused_steps(self, segment: Segment, gone: set[int]) -> None:
        """Steps of pointers whose value is used, of which the checker does not take one, and others like it: in `*p++ = c;` the
        step goes, and behind the statement `p` becomes an object that is not known."""
        found = [*self.steps.of(segment)] if self._unknowns.refused else []
        words, names = {self.steps.words(it) for it in found if self.page.at(it.operator) in self._unknowns.refused}, self._sums.pointers(segment)
        if not words:
            return
        of_statement, waiting = dict[Statement, list[Stepped]](), dict[int, list[Stepped]]()
        for it in found:
            one = self.steps.words(it)
            inside = {*range(min(it.first, it.operator), max(it.end, it.operator + 1))}
            if (one in words or len(one) == 1 and one[0] in names) and not (gone | self.page.other_at) & inside:
                of_statement.setdefault(it.statement, []).append(it)
        for statement, steps in of_statement.items():
            if all(self.steps.is_last(segment, it) for it in steps):
                for it in steps:
                    self._blank(it.operator, it.operator + 1)
                    self.page.settled.add(it.operator)
                    self._count("steps")
            elif not any(it.is_before for it in steps) and not statement.is_test and all(self.steps.may_move(segment, it) for it in steps):
                waiting[statement.end - 1] = steps
        while waiting:
            first = min(waiting)
            self._put_behind(segment, {end: waiting.pop(end) for end in [*waiting] if self._line(end) == self._line(first)}, gone)
        for statement, steps in of_statement.items():
            if statement.is_test or any(it.is_before for it in steps):
                self._put_before(segment, statement, steps, gone)

    def _put_behind(self, segment: Segment, of_line: dict[int, list[Stepped]], gone: set[int]) -> None:
        """Takes the steps of statements that end in one line behind these, at the end of the line: with what else stands behind
        the first of them, if no place of it is told."""
        first = min(of_line)
        line, rest = self._line(first), [at for at in range(first + 1, segment.end) if self._line(at) == self._line(first)]
        braces = {steps[0].statement.first for steps in of_line.values() if steps[0].statement.is_inner}
        opening = self.tokens[of_line[first][0].statement.first].start - 1
        is_room = of_line[first][0].statement.first not in braces or self._text[opening] in " \t"
        # (one that begins behind the first of them moves as a whole, or not at all)
        is_movable = not {*rest} & (gone | self.page.other_at) and all(self.may_move(segment, at) for at in rest)
        if line in self._tails or not is_room or not is_movable or not self.page.is_declared(segment, STEPPED):
            return
        if of_line[first][0].statement.first in braces:
            self.page.sheet.put(opening, "{")
        steps = {it.operator for waiting in of_line.values() for it in waiting}
        for at in steps - {*rest}:
            self._blank(at, at + 1)
        self._blank(first + 1, first + 1 + len(rest))
        moved = list[str]()
        for at in [first, *rest]:
            moved += ["{"] if at in braces and at != first else []
            moved += [self.tokens[at].text] if at != first and at not in steps else []
            pointers = [self._text[self.tokens[it.first].start : self.tokens[it.end - 1].end] for it in of_line.get(at, [])]
            moved += [f"{it} = {STEPPED}({it});" for it in pointers]
            moved += ["}"] if at in of_line and of_line[at][0].statement.is_inner else []
        self._tails.setdefault(line, []).append(" ".join(moved))
        self.page.settled |= {*rest, *steps}
        self._unknowns.with_sums.add(segment.function or "")
        self._count("steps")

    def may_move(self, segment: Segment, at: int) -> bool:
        """Returns whether no path tells the place of a token."""
        token, behind = self.tokens[at], self.tokens[at + 1].text if at + 1 < segment.end else ""
        is_word = token.is_word and token.text not in TYPE_WORDS | {"sizeof"}
        is_call = behind == "(" and (is_word or token.text in (")", "]") and not self.steps.is_cast(at))
        return at < segment.end - 1 and not is_call and not (is_word and token.text in KEYWORDS)

    def _put_before(self, segment: Segment, it: Statement, steps: list[Stepped], gone: set[int]) -> None:
        """`if (*p++ == c)` becomes `if (Nd() == c)`, with the step behind the line before it, and `*--p = c;` becomes `*p = c;` so.
        In the test of a loop, or behind `else`, the step stands before the value, and all of it at the end of the line."""
        is_read = all(step.is_before or self.tokens[step.first - 1].text == "*" for step in steps)
        if not is_read or not all(self.steps.may_move(segment, step) for step in steps):
            return
        values, head = dict[int, str](), self.steps.head(it)
        for step in steps:
            values[step.operator] = ""
            if not step.is_before:
                values |= {at: "" for at in range(step.first - 1, step.end)} | {step.first - 1: f"{DISTANCE}()"}
        pointers = [self._text[self.tokens[step.first].start : self.tokens[step.end - 1].end] for step in steps]
        moves = [f"{pointer} = {STEPPED}({pointer})" for pointer in pointers]
        is_before = head is not None and self._line(head - 1) < self._line(head)
        rest = [at for at in range(it.end, segment.end) if self._line(at) == self._line(it.first)]
        if not is_before and not self._may_move_test(it, rest, gone):
            return
        if not self.page.is_declared(segment, STEPPED) or any(values.values()) and not self.page.is_declared(segment, DISTANCE):
            return
        if head is not None and is_before:
            self._tails.setdefault(self._line(head - 1), []).append("; ".join(moves) + ";")
            for at in values:
                self._blank(at, at + 1)
            for at, value in values.items():
                self.page.sheet.put(self.tokens[at].start, value)
            self.page.settled |= {*values}
        else:
            test = " ".join(values.get(at, self.tokens[at].text) for at in range(it.first, it.end))
            self._blank(it.first, it.end + len(rest))
            self._tails[self._line(it.first)] = [", ".join([*moves, test]) + "".join(self.tokens[at].text for at in rest)]
            self.page.settled |= {*range(it.first, it.end + len(rest))}
        self._unknowns.with_sums.add(segment.function or "")
        self._count("steps")

    def _may_move_test(self, it: Statement, rest: list[int], gone: set[int]) -> bool:
        """Returns whether a test, with what stands behind it in its line, may move behind the end of the line: no path tells a
        place of it."""
        line, inside = self._line(it.first), {*range(it.first, it.end)}
        is_one_line = self._line(it.end) == line and line not in self._tails and {self.tokens[at].text for at in rest} <= {")", ";", ",", "{"}
        return it.is_test and is_one_line and self.steps.is_plain_test(it) and not (gone | self.page.other_at) & inside
