"""What in a function is not read, where the checker says no more than that its syntax is not: a guess, by its tokens."""

from __future__ import annotations

from collections.abc import Callable, Sequence

from .tokens import Token

_TYPES = {"struct", "union", "enum"}
_WORDS = {
    **dict.fromkeys(("asm", "__asm", "__asm__"), "asm with outputs"),
    **dict.fromkeys(("typeof", "__typeof", "__typeof__"), "typeof of an expression"),
    "_Generic": "_Generic",
    "__label__": "a label of a block",
    "__builtin_va_arg": "va_arg",
    "__builtin_types_compatible_p": "__builtin_types_compatible_p",
    "__builtin_choose_expr": "__builtin_choose_expr",
    "__int128": "numbers of 128 bits",
}


def unread(tokens: Sequence[Token], partner: list[int], first: int, end: int) -> tuple[str, int] | None:
    """Returns what is not read between two tokens, and where it stands; None where nothing is known."""
    for at in range(first, end - 2):
        text, behind = tokens[at].text, tokens[at + 1].text
        if text in _WORDS and tokens[at].is_word:
            return _WORDS[text], at
        for what, is_so in _FORMS.items():
            if is_so(tokens, partner, at, text, behind):
                return what, at
    return None


def _is_type_in_block(tokens: Sequence[Token], partner: list[int], at: int, text: str, behind: str) -> bool:
    return text in _TYPES and "{" in (behind, tokens[at + 2].text if tokens[at + 1].is_word else "")


def _is_compound_literal(tokens: Sequence[Token], partner: list[int], at: int, text: str, behind: str) -> bool:
    # (behind a word stands the head of a statement, as `if (a) {`)
    opening = partner[at] if text == ")" and behind == "{" else -1
    return opening > 0 and tokens[opening + 1].is_word and not tokens[opening - 1].is_word


_FORMS: dict[str, Callable[[Sequence[Token], list[int], int, str, str], bool]] = {
    "a statement expression": lambda tokens, partner, at, text, behind: (text, behind) == ("(", "{"),
    "?: without a second operand": lambda tokens, partner, at, text, behind: (text, behind) == ("?", ":"),
    "a range of cases": lambda tokens, partner, at, text, behind: text == "..." and behind != ")",
    "a label as a value": lambda tokens, partner, at, text, behind: (text, behind) == ("goto", "*"),
    "a type that is declared in a block": _is_type_in_block,
    "a compound literal": _is_compound_literal,
}
