"""Why functions are passed over, in words that a user of C knows."""

from __future__ import annotations

from dataclasses import dataclass

from .lines import Place
from .verdicts import Skip

_UNSUPPORTED = {
    "float": "floating point",
    "wide": "long long",
    "valist": "va_list",
    "odd": "a literal of a form that is not read",
    "union": "a member of a union",
    "bitfield": "a bit field",
    "anon": "a member of a struct without a name",
    "arith": "pointer arithmetic",
    "order": "pointers compared by order",
    "cast": "a cast between a pointer and a number",
    "struct": "a struct as a value",
    "static": "a static local variable",
    "vla": "an array of variable length",
    "init": "an initialiser with designators or braces",
    "goto": "a goto backward or into a block",
    "variadic": "parameters with ...",
    "call": "realloc or setjmp",
}
_ILLTYPED = {
    "name": "a name without a declaration that was read",
    "field": "a member without a declaration that was read",
    "label": "a goto without a label",
    "operand": "operands whose types do not fit",
    "lvalue": "an assignment to what is no variable",
    "call": "a call that does not fit the function's type",
    "return": "a result that does not fit the function's type",
    "constant": "a constant that is none or does not fit",
    "incomplete": "a type that is not complete",
    "again": "a name that is declared again",
}
_LIMIT = {"params": "too many parameters", "nodes": "too large", "locations": "too many variables and members"}
_OWN = {
    "cleanup": "the attribute cleanup",
    "pthread_cleanup_push": "pthread_cleanup_push",
    "grammar": "syntax that is not read",
}


@dataclass(frozen=True)
class Reason:
    """Why a function is passed over: the words of `saturn_check`, or of the filter, and the place of what it stumbles on.
    `guess`: what it may be, where the words are of no help."""

    words: str
    place: Place | None = None
    guess: str = ""

    @property
    def text(self) -> str:
        """Returns the reason in plain words: what the function has."""
        first, _, second = self.words.partition(" ")
        table = {"unsupported": _UNSUPPORTED, "illtyped": _ILLTYPED, "limit": _LIMIT}.get(first, _OWN)
        text = table.get(second or first, self.words)
        return f"{text} (perhaps {self.guess})" if self.guess else text


def words_of(skip: Skip) -> str:
    return f"{skip.reason} {skip.kind}".rstrip()
