"""Words and declarations of gcc that are brought to what C11 has, or that say nothing of a run: attributes, `typeof(int)`, asm,
static assertions, initialisers at file scope."""

from __future__ import annotations

from ..segments import Segment
from .names import ASM, TYPE_WORDS
from .page import Work

_TYPEOF = {"typeof", "__typeof", "__typeof__"}
# Types of the library of at most four bytes.
_SHORT_TYPES = {*"int8_t uint8_t int16_t uint16_t int32_t uint32_t u8 u16 u32 s8 s16 s32 __u8 __u16 __u32 __s8 __s16 __s32".split()}


class Words(Work):
    """The steps."""

    def words(self, first: int, end: int) -> None:
        """Brings words of gcc to what C11 has: each keeps the meaning for the checker."""
        at = first
        while at < end:
            token = self.tokens[at]
            behind = self.tokens[at + 1].text if at + 1 < end else ""
            if token.text in _TYPEOF and behind == "(" and self._is_plain_type(at + 2, self.partner[at + 1]):
                self._blank(at, at + 2)
                self._blank(self.partner[at + 1], self.partner[at + 1] + 1)
                self._count("typeof")
            elif token.text in _TYPEOF and behind == "(" and self._is_cast_to_target(at):
                self._blank(at - 1, self.partner[at - 1] + 1)
                self._count("typeof")
            elif token.text in ("__alignof__", "__alignof", "_Alignof") and behind == "(" and self._is_scalar(at + 2, self.partner[at + 1]):
                self._put(token, "sizeof")
                self._count("alignof")
            elif token.text in ("__func__", "__FUNCTION__", "__PRETTY_FUNCTION__"):
                self._put(token, '""')
                self._count("func")
            elif token.text == "_Atomic":
                self._blank(at, at + 1)
                if behind == "(":
                    self._blank(at + 1, at + 2)
                    self._blank(self.partner[at + 1], self.partner[at + 1] + 1)
                self._count("atomic")
            elif token.text == "__builtin_unreachable":
                self._put(token, "abort")
                self._count("unreachable")
            elif token.text == "[" and behind == "[" and self.partner[at] == self.partner[at + 1] + 1 and self._begins_attribute(at):
                self._blank(at, self.partner[at] + 1)
                self._count("attributes")
            at += 1

    def _begins_attribute(self, at: int) -> bool:
        """Returns whether `[[` begins an attribute of C23, and no index: one stands behind a name or a bracket."""
        before = self.tokens[at - 1] if at else None
        return before is None or before.text in (";", "{", "}", ":", ",", "(", "struct", "union", "enum")

    def _is_cast_to_target(self, at: int) -> bool:
        """Returns whether this `typeof` stands in `x = (typeof(x))y`: an assignment converts to that type in any case (C11 6.5.16)."""
        opening, closing = at - 1, self.partner[at + 1]
        if self.tokens[opening].text != "(" or self.partner[opening] != closing + 1 or self.tokens[opening - 1].text != "=":
            return False
        inside, end = [it.text for it in self.tokens[at + 2 : closing] if it.text not in ("(", ")")], opening - 1
        first = end
        while first > 0 and self.tokens[first - 1].text not in (";", "{", "}", ",", "=", "?", ":", "else", "do") and end - first < 40:
            first -= 1
        target = [it.text for it in self.tokens[first:end] if it.text not in ("(", ")")]
        return target[-len(inside) :] == inside and (len(target) == len(inside) or target[-len(inside) - 1] not in (".", "->", "*", "&"))

    def _is_plain_type(self, first: int, end: int) -> bool:
        """Returns whether these tokens are a type without names other than a tag: words of types, a tag, then `*`."""
        texts = [it.text for it in self.tokens[first:end]]
        while texts and texts[-1] in ("*", "const", "volatile"):
            texts.pop()
        if len(texts) == 2 and texts[0] in ("struct", "union", "enum"):
            return True
        return bool(texts) and all(it in TYPE_WORDS for it in texts)

    def _is_scalar(self, first: int, end: int) -> bool:
        """Returns whether these tokens are a type whose alignment is its size in both models: at most four bytes, or a pointer."""
        texts = [it.text for it in self.tokens[first:end]]
        is_short = all(it in TYPE_WORDS and it not in ("long", "double", "void") for it in texts)
        return bool(texts) and (texts[-1] == "*" or is_short or len(texts) == 1 and texts[0] in _SHORT_TYPES)

    def asm_label(self, first: int, end: int) -> None:
        """Blanks the name that the assembler is to use (`int f(void) __asm__("g");`), and asm at file scope."""
        for at in range(first, end - 1):
            if self.tokens[at].text in ASM:
                opening = next((i for i in range(at + 1, end) if self.tokens[i].text == "("), None)
                if opening is not None and self.partner[opening] > opening:
                    is_alone = at == first
                    self._blank(at, self.partner[opening] + 1)
                    if is_alone:
                        self._blank(first, end)
                    self._count("labels")

    def file_asserts(self, segment: Segment) -> None:
        if self.tokens[segment.first].text == "_Static_assert":
            self._blank(segment.first, segment.end)
            self._count("asserts")
        else:
            self.asserts(segment.first, segment.end)

    def asserts(self, first: int, end: int) -> None:
        """Blanks `_Static_assert(..);` among members and statements: it says nothing of a run."""
        for at in range(first, end - 1):
            if self.tokens[at].text == "_Static_assert" and self.tokens[at + 1].text == "(":
                behind = self.partner[at + 1] + 1
                is_whole = behind < end and self.tokens[behind].text == ";"
                self._blank(at, behind + is_whole)
                self._count("asserts")

    def empty_members(self, first: int, end: int) -> None:
        """Blanks a `;` that follows `{` or `;` in a struct: a member that declares nothing."""
        before, depth = "", 0
        for at in range(first, end):
            text = self.tokens[at].text
            depth += (text == "{") - (text == "}")
            if text == ";" and depth and before in ("{", ";"):
                self._blank(at, at + 1)
                self._count("members")
                continue
            before = text

    def transparent_union(self, segment: Segment) -> None:
        """`typedef union { T *a; U *b; } N __attribute__((__transparent_union__));` becomes `typedef void * N;`: a parameter of such
        a type takes any of these pointers as it is (GNU C)."""
        opening = segment.first + 2
        if [it.text for it in self.tokens[segment.first : opening + 1]] != ["typedef", "union", "{"]:
            return
        closing, members = self.partner[opening], [it.text for it in self.tokens[opening + 1 : self.partner[opening]]]
        words = {it.text for it in self.tokens[closing + 1 : segment.end]}
        if "(" in members or members.count("*") != members.count(";") or not words & {"transparent_union", "__transparent_union__"}:
            return
        start, room = self.tokens[segment.first + 1].start, self._text[self.tokens[segment.first + 1].start : self.tokens[closing].end].partition("\n")[0]
        made = "const void *" if "const" in members else "void *"
        if len(room) < len(made):
            return
        self._blank(segment.first + 1, closing + 1)
        self.page.sheet.put(start, made)
        self._blank(closing + 2, segment.end - 1)
        self._count("unions")

    def initialisers(self, segment: Segment) -> None:
        """Blanks initialisers at file scope: a run begins with any value there. One that gives an array its length stays."""
        first, end = segment.first, segment.end
        if self.tokens[first].text == "typedef" or self.tokens[end - 1].text != ";":
            return
        at = first
        while at < end - 1:
            if self.tokens[at].text == "=":
                behind = at
                while behind < end - 1 and self.tokens[behind].text != ",":
                    behind = self.partner[behind] + 1 if self.partner[behind] > behind else behind + 1
                length = self._length(at) if self._has_no_length(at) else 0
                if length:
                    self.page.insert(self.tokens[at - 1].start, str(length), at - 1)
                if length is not None:
                    self._blank(at, behind)
                    self._count("initials")
                at = behind
            else:
                at = self.partner[at] + 1 if self.partner[at] > at else at + 1

    def _length(self, equals: int) -> int | None:
        """Returns how many elements an array has by its list, whose elements are lists themselves; None where it is not known."""
        opening, count, is_next = equals + 1, 0, True
        if self.tokens[opening].text != "{" or self.tokens[equals - 1].text != "]" or self.partner[equals - 1] != equals - 2:
            return None
        at = opening + 1
        while at < self.partner[opening]:
            if is_next and self.tokens[at].text != "{":
                return None
            count, is_next = count + is_next, self.tokens[at].text == ","
            at = self.partner[at] + 1 if self.partner[at] > at else at + 1
        return count or None

    def _has_no_length(self, equals: int) -> bool:
        """Returns whether the declarator before this `=` has empty square brackets."""
        at = equals - 1
        while at > 0 and self.tokens[at].text in ("]", ")"):
            if self.tokens[at].text == "]" and self.partner[at] == at - 1:
                return True
            at = self.partner[at] - 1
        return False

    def asm_statements(self, first: int, end: int) -> None:
        """Blanks `asm(..);` without outputs: no value of the run comes from it. What it does to memory is lost."""
        at = first
        while at < end:
            if self.tokens[at].text in ASM:
                opening = at + 1
                while self.tokens[opening].text in ("volatile", "__volatile__", "__volatile", "inline", "__inline", "__inline__"):
                    opening += 1
                if self.tokens[opening].text == "(" and not self._has_outputs(opening):
                    behind = self.partner[opening] + 1
                    self._blank(at, behind)
                    self._count("labels")
                    at = behind
                    continue
            at += 1

    def _has_outputs(self, opening: int) -> bool:
        """Returns whether something stands between the first and the second colon."""
        inside = self.tokens[opening + 1 : self.partner[opening]]
        colons = [i for i, it in enumerate(inside) if it.text == ":"]
        if not colons:
            return False
        second = colons[1] if len(colons) > 1 else len(inside)
        return second > colons[0] + 1
