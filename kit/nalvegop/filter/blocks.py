"""Statements in another form: loops that run once, what a void function returns, initialisers with designators, statement
expressions."""

from __future__ import annotations

from functools import cached_property

from ..segments import KEYWORDS, Segment
from .block_values import BlockValues
from .lists import Listed, Lists
from .names import LITERAL
from .page import Page, Work
from .step_moves import StepMoves

_LOOPS = {"for", "while", "do"}


class Blocks(Work):
    """The steps."""

    def __init__(self, page: Page, moves: StepMoves) -> None:
        super().__init__(page)
        self._moves = moves

    def once_loops(self, first: int, end: int) -> None:
        """`do { S } while (0);` becomes `{ S }`, where no break and no continue of S belongs to it."""
        for at in range(first, end - 1):
            if self.tokens[at].text != "do" or self.tokens[at + 1].text != "{":
                continue
            closing = self.partner[at + 1]
            behind = [it.text for it in self.tokens[closing + 1 : closing + 6]]
            if behind[:4] != ["while", "(", "0", ")"] or behind[4:] != [";"] or self._is_left_early(at + 1, closing):
                continue
            self._blank(at, at + 1)
            self._blank(closing + 1, closing + 6)
            self._count("dozero")

    def void_returns(self, segment: Segment) -> None:
        """`return f();` in a function of type void (GNU C) becomes `f();` where the function ends behind it, and `{ f();`
        with `return;}` behind the end of the line where nothing else stands in that line."""
        words = {it.text for it in self.tokens[segment.first : segment.name_at]}
        if "void" not in words or "*" in words:
            return
        for at in range(segment.body[0], segment.end - 3):
            end = self.partner[at + 2] + 1
            if self.tokens[at].text != "return" or self.tokens[at + 2].text != "(" or not self.tokens[at + 1].is_word or self.tokens[end].text != ";":
                continue
            behind = self.tokens[end + 1].text if end + 1 == segment.end - 1 else ""
            if behind == "}" and self.tokens[at - 1].text in (";", "{", "}", "else"):
                self._blank(at, at + 1)
            elif self._line(end + 1) > self._line(end) and self._line(end) not in self._tails:
                self._put(self.tokens[at], "{")
                self._tails.setdefault(self._line(end), []).append("return;}")
            else:
                continue
            self._count("void returns")

    def lists(self, segment: Segment, gone: set[int]) -> None:
        """`T x = { .a = 1 };` becomes `T x = { };` with `x.a = 1;` behind the end of the line, and `*p = (T) { .a = 1 };` a block
        there, where no path tells a place of what moves."""
        for at in Lists(self.tokens, self.partner).empty_texts(segment):
            self._put(self.tokens[at], "{}")
        for it in Lists(self.tokens, self.partner).of(segment):
            line, rest = self._line(it.end - 1), [at for at in range(it.end, segment.end) if self._line(at) == self._line(it.end - 1)]
            values = [at for _, begin, end in it.parts for at in range(begin, end)]
            moved = {*rest, *values, *(() if it.is_declaration else range(*it.target))}
            if line in self._tails or moved & (gone | self.page.other_at | self.page.settled) or not all(self._moves.may_move(segment, at) for at in moved):
                continue
            if not it.is_declaration and LITERAL in self.page.taken:
                continue
            self._put_list(it, line, rest)
            self._count("lists")

    def _put_list(self, it: Listed, line: int, rest: list[int]) -> None:
        target = " ".join(token.text for token in self.tokens[it.target[0] : it.target[1]])
        name = target if it.is_declaration else LITERAL
        made = [f"{name}{path} = {self._moved_text(begin, end)};" for path, begin, end in it.parts]
        if it.cast and not it.is_declaration:
            made = [f"{{ {self._moved_text(it.cast[0] + 1, it.cast[1] - 1)} {name} = {{ }};", *made, f"{target} = {name}; }}"]
            self._blank(it.first, it.end)
        else:
            if it.cast:
                self._blank(*it.cast)
            self._blank(it.opening + 1, self.partner[it.opening])
        if made:
            self._blank(it.end, it.end + len(rest))
            self._tails.setdefault(line, []).append(" ".join([*made, *[self.tokens[at].text for at in rest]]))

    def _moved_text(self, first: int, end: int) -> str:
        return " ".join(token.text for token in self.tokens[first:end])

    def block_values(self, segment: Segment, gone: set[int]) -> set[int]:
        """`x = ({ S; e; });` becomes `{ S; x = e; }`, and `T x = ({ S; e; });` the same behind `T x;`. What is assigned stands behind
        the end of the line, where no path tells a place of what moves. `typeof(a)` becomes the type of the variable.
        Returns the braces of the blocks."""
        values, taken = BlockValues(self.tokens, self.partner), set[int]()
        for first, end, words in values.types(segment, self._types_of_file):
            room = self.tokens[end - 1].end - self.tokens[first].start
            if words and self.page.stands(first):
                if len(words) <= room and self._line(first) == self._line(end - 1):
                    self.page.sheet.put(self.tokens[first].start, words.ljust(room))
                else:
                    self.page.replace(first, end, words, first)
                    self.page.settled |= {*range(first, end)}
                self._count("typeof")
        for it in values.of(segment):
            line, rest = self._line(it.end - 1), [at for at in range(it.end, segment.end) if self._line(at) == self._line(it.end - 1)]
            name = range(it.equals - 1, it.equals) if it.is_declaration else range(it.first, it.equals)
            moved = {*rest, *name, *range(*it.value)}
            if line in self._tails or moved & (gone | self.page.other_at | self.page.settled) or not all(self._moves.may_move(segment, at) for at in moved):
                continue
            made = f"{self._moved_text(name[0], it.equals)} = {self._moved_text(*it.value)};" + " }"
            if it.is_declaration:
                self._put(self.tokens[it.equals], ";")
                self._blank(it.equals + 1, it.brace)
            else:
                self._blank(it.first, it.brace)
            self._blank(it.value[0], it.end + len(rest))
            self._tails.setdefault(line, []).append(" ".join([made, *[self.tokens[at].text for at in rest]]))
            taken.add(it.brace)
            self._count("block values")
        return taken

    @cached_property
    def _types_of_file(self) -> dict[str, str]:
        return BlockValues(self.tokens, self.partner).of_file(self.page.unit.segments)

    def _is_left_early(self, opening: int, closing: int) -> bool:
        """Returns whether a break or continue between these braces belongs to the loop whose body they are."""
        loop_end = switch_end = opening
        for at in range(opening + 1, closing):
            text = self.tokens[at].text
            if text == "{":
                head = self._head(at)
                loop_end = max(loop_end, self.partner[at]) if head in _LOOPS else loop_end
                switch_end = max(switch_end, self.partner[at]) if head == "switch" else switch_end
            elif text == "continue" and at > loop_end or text == "break" and at > max(loop_end, switch_end):
                return True
        return False

    def _head(self, brace: int) -> str:
        """Returns the word of the statement whose body begins with this brace, as `do` or `while`."""
        before = brace - 1
        if self.tokens[before].text == ")" and self.partner[before] > 0:
            before = self.partner[before] - 1
        return self.tokens[before].text

    def statement_expressions(self, first: int, end: int, but: set[int]) -> set[int]:
        """`({ S });` as a whole statement becomes `{ S }`; `({ E1; E2; })` of expressions alone becomes `( E1, E2 )`. Blocks in
        some braces are taken already. Returns the braces of those that it takes."""
        taken = set[int]()
        for at in range(first, end - 2):
            if self.tokens[at].text != "(" or self.tokens[at + 1].text != "{" or self.partner[at] != self.partner[at + 1] + 1 or at + 1 in but:
                continue
            closing = self.partner[at + 1]
            behind = closing + 2
            if self._begins_statement(at) and self.tokens[behind].text == ";":
                self._blank(at, at + 1)
                self._blank(closing + 1, behind + 1)
                self._count("stmtexpr")
                taken.add(at + 1)
            elif self._join_expressions(at + 1, closing):
                taken.add(at + 1)
        return taken

    def _begins_statement(self, at: int) -> bool:
        """Returns whether a statement begins here: behind another one, or behind the head of a loop or of a condition."""
        before = self.tokens[at - 1].text
        return before in (";", "{", "}", "else", "do") or before == ")" and self._head(at) in ("if", "while", "for")

    def _join_expressions(self, opening: int, closing: int) -> bool:
        ends, starts = list[int](), [opening + 1]
        at = opening + 1
        while at < closing:
            if self.tokens[at].text == ";":
                ends.append(at)
                starts.append(at + 1)
            at = self.partner[at] + 1 if self.partner[at] > at else at + 1
        starts = [it for it in starts if it < closing]
        if not ends or ends[-1] != closing - 1 or len(starts) != len(ends):
            return False
        if not all(self._is_expression(start, end) for start, end in zip(starts, ends)):
            return False
        self._blank(opening, opening + 1)
        self._blank(closing, closing + 1)
        for i in ends:
            self._put(self.tokens[i], " " if i == ends[-1] else ",")
        self._count("exprs")
        return True

    def _is_expression(self, first: int, end: int) -> bool:
        """Returns whether these tokens are surely an expression: no word of a statement or type, no two names in a row."""
        inside = self.tokens[first:end]
        if not inside or any(it.text in KEYWORDS and it.text != "sizeof" or it.text in ("{", "}") for it in inside):
            return False
        pairs = zip(inside, inside[1:])
        if any(one.is_word and other.is_word and one.text != "sizeof" for one, other in pairs):
            return False
        # (`a * b;` and `a(b);` may be declarations: only calls, assignments, counts and single names are taken)
        is_product = len(inside) >= 3 and inside[0].is_word and inside[1].text == "*"
        return not is_product
