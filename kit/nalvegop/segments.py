"""The segments of a preprocessed file at file scope (C11 6.9), as far as the filter has to know them."""

from __future__ import annotations

from collections.abc import Iterator, Sequence
from dataclasses import dataclass

from .tokens import Token, partners

_TYPE_HEADS = {"struct", "union", "enum"}
KEYWORDS = {
    *"auto break case char const continue default do double else enum extern float for goto if inline int long register".split(),
    *"restrict return short signed sizeof static struct switch typedef union unsigned void volatile while _Alignas".split(),
    *"_Alignof _Atomic _Bool _Complex _Generic _Imaginary _Noreturn _Static_assert _Thread_local asm typeof".split(),
    *"__asm __asm__ __attribute __attribute__ __extension__ __inline __inline__ __const __const__ __volatile".split(),
    *"__volatile__ __restrict __restrict__ __signed __signed__ __typeof __typeof__ __alignof __alignof__".split(),
}
_WITH_BRACKETS = {"__attribute__", "__attribute", "_Alignas", "asm", "__asm", "__asm__", "typeof", "__typeof", "__typeof__"}


@dataclass
class Segment:
    """A segment: its tokens from `first` up to `end`, what it declares and names, and its body where it is a function."""

    first: int
    end: int
    declares: frozenset[str] = frozenset()
    # (tags that it names first, perhaps: `struct s *f(void);` declares the tag where nothing else does)
    mentions: frozenset[str] = frozenset()
    names: frozenset[str] = frozenset()
    function: str | None = None
    # (of a function: its name's token, the brackets of its parameters, and those of its body)
    name_at: int = -1
    parameters: tuple[int, int] = (-1, -1)
    body: tuple[int, int] = (-1, -1)

    @property
    def is_function(self) -> bool:
        return self.function is not None


class Unit:
    """A preprocessed file as tokens and segments."""

    def __init__(self, tokens: Sequence[Token]) -> None:
        self.tokens = tokens
        self.partner = partners(tokens)
        self.segments = [self._read(first, end) for first, end in self._bounds()]

    def _bounds(self) -> list[tuple[int, int]]:
        """Cuts the file behind each `;` outside of brackets and behind each body of a function."""
        found, first, at = list[tuple[int, int]](), 0, 0
        while at < len(self.tokens):
            token = self.tokens[at]
            if token.text in ("(", "[", "{") and token.kind == "punct" and self.partner[at] > at:
                is_body = token.text == "{" and self._begins_body(first, at)
                at = self.partner[at] + 1
                if is_body:
                    found.append((first, at))
                    first = at
                continue
            at += 1
            if token.text == ";" and token.kind == "punct" and not self._is_among_old_parameters(first, at):
                found.append((first, at))
                first = at
        if first < len(self.tokens):
            found.append((first, len(self.tokens)))
        return found

    def _begins_body(self, first: int, brace: int) -> bool:
        """Returns whether the brace begins a function's body: behind `)`, or behind old-style parameters."""
        if brace == first:
            return True
        if self._has_value(first, brace):
            # (a compound literal)
            return False
        at = brace - 1
        while at > first and self.tokens[at].text == ")" and self.partner[at] > first and self.tokens[self.partner[at] - 1].text in _WITH_BRACKETS:
            # (attributes between what they belong to and the brace)
            at = self.partner[at] - 2
        return self.tokens[at].text in (")", ";")

    def _has_value(self, first: int, brace: int) -> bool:
        """Returns whether a `=` stands before a brace, outside of brackets."""
        at = first
        while at < brace and self.tokens[at].text != "=":
            at = self.partner[at] + 1 if self.partner[at] > at else at + 1
        return at < brace

    def _is_among_old_parameters(self, first: int, behind: int) -> bool:
        """Returns whether this `;` ends a declaration of an old-style parameter: `int f(a, b) int a; char *b; {`."""
        head = self._old_head(first)
        if head is None or behind <= head:
            return False
        at, seen = behind, 0
        while at < len(self.tokens) and seen < 100:
            text = self.tokens[at].text
            if text == "{":
                return self.tokens[at - 1].text == ";"
            if text in ("}", "=") or (text in ("(", "[") and self.partner[at] < 0):
                return False
            at, seen = (self.partner[at] + 1 if text in ("(", "[") else at + 1), seen + 1
        return False

    def _old_head(self, first: int) -> int | None:
        """Returns where the declarations of old-style parameters begin: behind `f(a, b)` with a word next, or None."""
        at = first
        while at < len(self.tokens) and self.tokens[at].text not in (";", "{", "=", "("):
            at += 1
        if at >= len(self.tokens) or self.tokens[at].text != "(" or self.partner[at] < 0 or at == first:
            return None
        inside = self.tokens[at + 1 : self.partner[at]]
        listed = [it.text for it in inside]
        is_list = bool(listed) and all(it == "," if i % 2 else inside[i].is_word and it not in KEYWORDS for i, it in enumerate(listed))
        behind = self.partner[at] + 1
        is_next = behind < len(self.tokens) and self.tokens[behind].is_word and not self.tokens[behind].text.startswith("__a")
        return behind if is_list and is_next and self.tokens[at - 1].is_word and self.tokens[at - 1].text not in KEYWORDS else None

    def calls(self, it: Segment) -> Iterator[tuple[str, int]]:
        """Gives the names before round brackets in a body, of functions and of pointers to functions, each with its token;
        for a call as `(*f)(a)` it gives `*`."""
        for at in range(it.body[0], it.end - 1):
            token, behind = self.tokens[at], self.tokens[at + 1].text
            if behind == "(" and token.is_word and token.text not in KEYWORDS:
                yield token.text, at
            elif behind == "(" and token.text == ")" and self.tokens[self.partner[at] + 1].text == "*":
                yield "*", at

    def typedefs(self) -> frozenset[str]:
        """Returns the names that typedefs declare, and not the tags and enumerators in them."""
        found = set[str]()
        for segment in self.segments:
            heads = [it.text for it in self.tokens[segment.first : segment.first + 2]]
            if "typedef" in heads and not segment.is_function:
                found |= self._typedef(segment.first + heads.index("typedef") + 1, segment.end)
        return frozenset(found)

    def _typedef(self, at: int, end: int) -> set[str]:
        found = set[str]()
        while at < end:
            token, behind = self.tokens[at], self.tokens[at + 1].text if at + 1 < end else ""
            if token.text in _TYPE_HEADS:
                at = self._behind_head(at, end)
                continue
            if token.text in _WITH_BRACKETS and behind == "(":
                at = self.partner[at + 1] + 1
                continue
            if token.text == "(" and behind in ("*", "(") and self.partner[at] > at:
                found |= {it.text for it in self.tokens[at : self.partner[at]] if it.is_word and it.text not in KEYWORDS}
            elif token.is_word and token.text not in KEYWORDS and (behind in (";", ",", "[", "(") or behind in _WITH_BRACKETS):
                found.add(token.text)
            at = self.partner[at] + 1 if self.partner[at] > at else at + 1
        return found

    def _read(self, first: int, end: int) -> Segment:
        segment = Segment(first, end)
        segment.names = frozenset(it.text for it in self.tokens[first:end] if it.is_word and it.text not in KEYWORDS)
        last = self.tokens[end - 1]
        if last.text == "}" and self.partner[end - 1] >= first and self._begins_body(first, self.partner[end - 1]):
            self._read_function(segment)
        segment.declares = self._declared(segment)
        heads = range(first, segment.body[0] if segment.is_function else end - 1)
        segment.mentions = (
            frozenset(self.tokens[i + 1].text for i in heads if self.tokens[i].text in _TYPE_HEADS and self.tokens[i + 1].is_word) - segment.declares
        )
        return segment

    def _read_function(self, segment: Segment) -> None:
        body = self.partner[segment.end - 1]
        at = segment.first
        while at < body:
            token = self.tokens[at]
            if token.text in _WITH_BRACKETS and at + 1 < body and self.tokens[at + 1].text == "(":
                at = self.partner[at + 1] + 1
                continue
            if token.text in _TYPE_HEADS:
                at = self._behind_head(at, body)
                continue
            if token.text == "(":
                inner = self._declarator(at) if not self.tokens[at - 1].is_word or self.tokens[at - 1].text in KEYWORDS else at - 1
                if inner is not None and inner >= segment.first and self.tokens[inner].is_word:
                    opening = inner + 1
                    segment.function, segment.name_at = self.tokens[inner].text, inner
                    segment.parameters, segment.body = (opening, self.partner[opening]), (body, segment.end - 1)
                return
            at += 1

    def _declarator(self, at: int) -> int | None:
        """Returns the name in `(*f(int a))(int)` and `(f)(int)`: the last word before a bracket or the end, inside."""
        inside = at + 1
        while inside < self.partner[at]:
            token, behind = self.tokens[inside], self.tokens[inside + 1].text
            if token.is_word and token.text not in KEYWORDS and behind == "(":
                return inside
            inside += 1
        return None

    def _behind_head(self, at: int, end: int) -> int:
        """Returns the index behind `struct tag { .. }` and its kin."""
        at += 1
        while at < end and (self.tokens[at].is_word or self.tokens[at].text == "("):
            is_attribute = self.tokens[at].text in _WITH_BRACKETS
            if self.tokens[at].text == "(":
                if not (at and self.tokens[at - 1].text in _WITH_BRACKETS):
                    return at
                at = self.partner[at] + 1
                continue
            at += 1
            if not is_attribute and not (at < end and self.tokens[at].text in _WITH_BRACKETS):
                break
        if at < end and self.tokens[at].text == "{":
            at = self.partner[at] + 1
        return at

    def _declared(self, segment: Segment) -> frozenset[str]:
        """Returns the names that the segment may declare, rather too many: tags, enumerators, and names outside of
        brackets or in the brackets of a declarator; of a function its own name and tags."""
        found, at = set[str](), segment.first
        end = segment.body[0] if segment.is_function else segment.end
        if segment.function:
            found.add(segment.function)
        while at < end:
            token = self.tokens[at]
            if token.text in _WITH_BRACKETS and at + 1 < end and self.tokens[at + 1].text == "(":
                at = self.partner[at + 1] + 1
            elif token.text in _TYPE_HEADS:
                found |= self._tags(at, end)
                at = self._behind_head(at, end)
            elif token.text == "=":
                at = self._behind_initialiser(at, end)
            elif token.text == "(" and self.partner[at] > at:
                # `(*name)(..)` declares a name inside of the brackets, `name(..)` does not
                is_declarator = (
                    self.tokens[at + 1].text in ("*", "(", "^") or self.partner[at] + 1 < end and self.tokens[self.partner[at] + 1].text in ("(", "[")
                )
                if is_declarator and not segment.is_function:
                    found |= {it.text for it in self.tokens[at : self.partner[at]] if it.is_word and it.text not in KEYWORDS}
                at = self.partner[at] + 1
            elif token.text == "[" and self.partner[at] > at:
                at = self.partner[at] + 1
            else:
                if token.is_word and token.text not in KEYWORDS and not segment.is_function:
                    behind = self.tokens[at + 1].text if at + 1 < len(self.tokens) else ";"
                    if behind in (";", ",", "=", "(", "[", ":") or behind in _WITH_BRACKETS:
                        found.add(token.text)
                at += 1
        return frozenset(found)

    def _behind_initialiser(self, at: int, end: int) -> int:
        while at < end and self.tokens[at].text not in (",", ";"):
            at = self.partner[at] + 1 if self.partner[at] > at else at + 1
        return at

    def _tags(self, at: int, end: int) -> set[str]:
        """Returns the tags that have a body here, or stand alone (`struct s;`), and the enumerators; also those inside."""
        found, behind = set[str](), self._behind_head(at, end)
        for i in range(at, behind):
            if self.tokens[i].text not in _TYPE_HEADS:
                continue
            after = self._behind_head(i, end)
            has_body = self.tokens[after - 1].text == "}"
            is_alone = i == at and after < len(self.tokens) and self.tokens[after].text == ";"
            if not has_body and not is_alone:
                continue
            last = self.partner[after - 1] if has_body else after
            at_tag = i + 1
            while at_tag < last and self.tokens[at_tag].text in _WITH_BRACKETS and self.partner[at_tag + 1] > 0:
                at_tag = self.partner[at_tag + 1] + 1
            found |= {it.text for it in self.tokens[at_tag : at_tag + 1] if it.is_word and it.text not in KEYWORDS}
            if self.tokens[i].text == "enum" and has_body:
                found |= self._enumerators(self.partner[after - 1], after - 1)
        return found

    def _enumerators(self, opening: int, closing: int) -> set[str]:
        found, at, is_first = set[str](), opening + 1, True
        while at < closing:
            if is_first and self.tokens[at].is_word:
                found.add(self.tokens[at].text)
            is_first = self.tokens[at].text == ","
            at = self.partner[at] + 1 if self.partner[at] > at else at + 1
        return found
