"""Steps of pointers whose value is used, as `*p++` and `q = p--`, which the checker does not take: where they stand, and
whether the step can be taken behind the whole statement, or before it.

In `*p++ = c;` the `++` goes, and `p` becomes another pointer behind the statement. So what is read or written is what `p`
leads to before the step, as in C. In `*--p = c;` it becomes that before the statement. Between the two nothing may look at
`p`.
"""

from __future__ import annotations

from collections.abc import Iterator, Sequence
from dataclasses import dataclass

from .counted import CountedPointers
from ..segments import KEYWORDS, Segment
from ..tokens import Token

_STEPS = {"++", "--"}
_CONDITIONAL = {"&&", "||", "?"}
_HEADS = {"if", "while", "for", "switch"}
_TESTS = {"if", "while", "switch"}


@dataclass(frozen=True)
class Statement:
    """Tokens of a statement, up to behind its `;`; or those in the round brackets of a test, as of `if (..)`. `is_inner`: it
    is the body of a loop or of a condition, without braces."""

    first: int
    end: int
    is_test: bool
    is_inner: bool = False


@dataclass(frozen=True)
class Stepped:
    """A step: the pointer from `first` up to `end`, its `operator` behind or before it, and the statement in which it stands."""

    first: int
    end: int
    operator: int
    statement: Statement

    @property
    def is_before(self) -> bool:
        """Returns whether the step is taken before the value, as in `*--p`."""
        return self.operator < self.first


class Steps:
    """Finds them in the tokens of a text."""

    def __init__(self, tokens: Sequence[Token], partner: list[int], values: CountedPointers) -> None:
        self.tokens, self.partner, self.values = tokens, partner, values

    def of(self, segment: Segment) -> Iterator[Stepped]:
        """Gives those behind a pointer as `p`, `s->p` or `(*p)`, in a statement or test of which is known where it begins and ends."""
        brace, of_loops = segment.body[0], self._heads_of_loops(segment)
        for at in range(*segment.body):
            if self.tokens[at].text not in _STEPS or at in of_loops:
                continue
            first, end = self.first(at, brace), at
            if first == at:
                first, end = at + 1, self.end(at + 1)
            statement = self._statement(min(first, at), brace) if first < end else None
            if statement and statement.first <= min(first, at) and max(at, end - 1) < statement.end and not self._is_alone(first, end, statement):
                yield Stepped(first, end, at, statement)

    def words(self, it: Stepped) -> tuple[str, ...]:
        """Returns the pointer as its words."""
        return tuple(token.text for token in self.tokens[it.first : it.end])

    def may_move(self, segment: Segment, it: Stepped) -> bool:
        """Returns whether the step may as well be taken behind the statement, or before it: it is taken in any case, nothing else
        in the statement names the pointer, and no call in it may see it."""
        inside, names = range(it.statement.first, it.statement.end), [token.text for token in self.tokens[it.first : it.end] if token.is_word]
        is_returned = self.tokens[it.statement.first].text == "return"
        if is_returned or any(self.tokens[at].text in _CONDITIONAL for at in inside if at < it.operator):
            return False
        outside = [at for at in inside if not it.first <= at < it.end and self.tokens[at].text in names]
        if any(self.tokens[at].text == names[-1] or not self._is_read(at) for at in outside):
            return False
        is_own = it.end == it.first + 1 and self._is_own(segment, self.tokens[it.first].text)
        return is_own or not self._has_call(it.statement)

    def _is_read(self, at: int) -> bool:
        """Returns whether a name is that of a pointer that is followed there, as in `s->n`: then it is not changed."""
        return self.tokens[at + 1].text == "->" and self.tokens[at - 1].text not in ("++", "--", "&", ".", "->")

    def is_last(self, segment: Segment, it: Stepped) -> bool:
        """Returns whether nothing reads the pointer behind the step: a variable of the function, in what it returns."""
        text, inside = self.tokens[it.first].text, range(it.statement.first, it.statement.end)
        is_once = sum(self.tokens[at].text == text for at in inside) == 1 and it.operator == it.first + 1
        return self.tokens[it.statement.first].text == "return" and is_once and self._is_own(segment, text)

    def is_plain_test(self, it: Statement) -> bool:
        """Returns whether nothing happens in a test of which a path tells, and nothing depends on a condition."""
        return not self._has_call(it) and not {token.text for token in self.tokens[it.first : it.end]} & (_CONDITIONAL | {"{", ","})

    # ---- the pointer

    def first(self, operator: int, brace: int) -> int:
        """Returns where the pointer begins that a `++` stands behind; the operator where it is none of a plain form."""
        at = operator
        while at - 1 > brace:
            token = self.tokens[at - 1]
            if token.text == "]" and self.partner[at - 1] > brace and not self.values.changes(self.partner[at - 1], at - 1):
                at = self.partner[at - 1]
                continue
            if token.text == ")" and self.partner[at - 1] > brace and self._is_pointer_to_pointer(self.partner[at - 1], at - 1):
                return self.partner[at - 1]
            if not token.is_word or token.text in KEYWORDS:
                return operator
            at -= 1
            if self.tokens[at - 1].text not in (".", "->"):
                return at
            at -= 1
        return operator

    def end(self, at: int) -> int:
        """Returns where the pointer ends that a `++` stands before: the name alone, or members behind it; where it begins if it
        is none of a plain form."""
        end = at
        while self.tokens[end].is_word and self.tokens[end].text not in KEYWORDS:
            end += 1
            if self.tokens[end].text not in (".", "->"):
                return end if self.tokens[end].text not in ("[", "(", "++", "--") else at
            end += 1
        return at

    def _is_pointer_to_pointer(self, opening: int, closing: int) -> bool:
        """Returns whether the brackets are those of `(*p)`."""
        before = self.tokens[opening - 1]
        is_call = before.is_word and before.text not in KEYWORDS or before.text in (")", "]")
        return closing == opening + 3 and self.tokens[opening + 1].text == "*" and self.tokens[opening + 2].is_word and not is_call

    def _is_own(self, segment: Segment, name: str) -> bool:
        """Returns whether a name is that of a variable of the function that nothing else can change: its address is not taken."""
        body = range(segment.parameters[0], segment.end - 1)
        is_declared = any(self.tokens[at].text == name and self.tokens[at - 1].text == "*" and self._is_declarator(segment, at) for at in body)
        is_pointed_to = any(self.tokens[at].text == "&" and self.tokens[at + 1].text == name for at in body)
        return is_declared and not is_pointed_to

    def _is_declarator(self, segment: Segment, at: int) -> bool:
        """Returns whether a name behind a star is declared there: the words of a type stand before the stars."""
        before = at - 1
        while self.tokens[before].text in ("*", ",") or self.tokens[before].text in ("const", "restrict", "__restrict"):
            before -= 1
        is_static = any(self.tokens[i].text in ("static", "extern") for i in range(max(before - 3, segment.body[0]), before) if at > segment.body[0])
        return self.tokens[before].is_word and self.tokens[before].text not in {"return", "case", "else", "goto", "sizeof", "do"} and not is_static

    # ---- the statement

    def _heads_of_loops(self, segment: Segment) -> set[int]:
        """Returns the tokens in heads as `for (..)`: a `;` in them ends no statement."""
        openings = [at + 1 for at in range(*segment.body) if self.tokens[at].text == "for"]
        return {token for at in openings for token in range(at, self.partner[at])}

    def head(self, it: Statement) -> int | None:
        """Returns the first token of a statement of a block, of an `if` or a `switch` by its test: another one may stand before
        it. None of other statements."""
        first = it.first - 2 if it.is_test else it.first
        is_one = not it.is_test or self.tokens[first].text in ("if", "switch")
        return first if is_one and self.tokens[first - 1].text in (";", "{", "}") else None

    def _statement(self, at: int, brace: int) -> Statement | None:
        """Returns the innermost statement, or test, round a token; None where it is not known."""
        first = at
        while first - 1 > brace:
            before, opening = self.tokens[first - 1].text, self.partner[first - 1]
            if before in (")", "]") and opening >= 0:
                if before == ")" and self.tokens[opening - 1].text in _HEADS:
                    return self._ended(first, is_inner=True)
                first = opening
            elif before == "(" and self.tokens[first - 2].text in _HEADS:
                return Statement(first, self.partner[first - 1], True) if self.tokens[first - 2].text in _TESTS else None
            elif before in (";", "{", "}", "else", "do"):
                is_list = before == "{" and self.tokens[first - 2].text in ("=", ",", "{", ")") and not self._is_block(first - 1)
                return None if is_list else self._ended(first, is_inner=before in ("else", "do"))
            elif before == ":":
                return self._ended(first, is_inner=False) if self._ends_label(first - 1) else None
            else:
                first -= 1
        return self._ended(first, is_inner=False)

    def _is_block(self, opening: int) -> bool:
        """Returns whether a brace begins a block, and no list of values."""
        closing = self.partner[opening - 1]
        return self.tokens[opening - 1].text == "{" or self.tokens[opening - 1].text == ")" and closing > 0 and self.tokens[closing - 1].text in _HEADS

    def _ends_label(self, colon: int) -> bool:
        """Returns whether a `:` ends a label: of `goto`, or of a `switch`."""
        at = colon - 1
        if self.tokens[at].text == "default" or self.tokens[at].is_word and self.tokens[at - 1].text in (";", "{", "}", ":"):
            return True
        while self.tokens[at].text not in (";", "{", "}", "?", "case", ":"):
            at -= 1
        return self.tokens[at].text == "case"

    def _ended(self, first: int, is_inner: bool) -> Statement | None:
        """Returns the statement that begins with a token."""
        at = first
        if self.tokens[at].text in {*_HEADS, "else", "do", "case", "default", "goto"}:
            return None
        while self.tokens[at].text not in (";", "{", "}"):
            at = self.partner[at] + 1 if self.partner[at] > at and self.tokens[at].text in ("(", "[") else at + 1
        return Statement(first, at + 1, False, is_inner) if self.tokens[at].text == ";" else None

    def _is_alone(self, first: int, end: int, it: Statement) -> bool:
        """Returns whether the step is all of the statement: its value is not used."""
        return not it.is_test and end - first + 2 == it.end - it.first

    def _has_call(self, it: Statement) -> bool:
        """Returns whether a statement calls anything."""
        for at in range(it.first, it.end):
            token, behind = self.tokens[at], self.tokens[at + 1].text
            if behind == "(" and (token.is_word and token.text not in KEYWORDS or token.text in (")", "]") and not self.is_cast(at)):
                return True
        return False

    def is_cast(self, closing: int) -> bool:
        """Returns whether a bracket ends the type of a cast, by its words: a star at its end, or words of types alone."""
        inside = [it.text for it in self.tokens[self.partner[closing] + 1 : closing]] if self.partner[closing] >= 0 else []
        return bool(inside) and (inside[-1] == "*" or all(it in KEYWORDS or it.endswith("_t") for it in inside))
