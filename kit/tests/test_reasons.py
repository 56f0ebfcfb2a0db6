"""What is not read in a function, by its tokens."""

from __future__ import annotations

import unittest

from nalvegop.segments import Unit
from nalvegop.reasons import Reason
from nalvegop.tokens import tokens_of
from nalvegop.unread import unread


def found_in(text: str) -> tuple[str, str] | None:
    """Returns what is found in a function, and the text from there on."""
    unit = Unit([*tokens_of(text)])
    it = next(one for one in unit.segments if one.is_function)
    found = unread(unit.tokens, unit.partner, it.body[0], it.end)
    return (found[0], text[unit.tokens[found[1]].start :].split()[0]) if found else None


class Guesses(unittest.TestCase):
    def test_what_is_found(self) -> None:
        for inside, what in (
            ("a = ({ int b = a; b; });", ("a statement expression", "({")),
            ("enum { A, B } state = A;", ("a type that is declared in a block", "enum")),
            ("a++; union u { int a; } u;", ("a type that is declared in a block", "union")),
            ("a = g((struct s){ 1, 2 });", ("a compound literal", "){")),
            ("if (a) { b = (t){ 1, 2 }; }", ("a compound literal", "){")),
            ("a = a ?: 3;", ("?: without a second operand", "?:")),
            ("switch (a) { case 1 ... 3: a++; }", ("a range of cases", "...")),
            ('asm("" : "=r"(a));', ("asm with outputs", 'asm(""')),
            ("typeof(a) b = a;", ("typeof of an expression", "typeof(a)")),
        ):
            self.assertEqual(found_in(f"int f(int a) {{ {inside} return a; }}"), what)

    def test_what_is_not_found(self) -> None:
        for inside in (
            "struct s s = { 1 }; if (a) { g(s.asm_); }",
            "while (a) { a = (int)a; }",
            "g((struct s *)0); do { a--; } while (a);",
            "switch (a) { default: ; }",
        ):
            self.assertIsNone(found_in(f"int f(int a) {{ {inside} return a; }}"), inside)

    def test_it_is_told_as_a_guess(self) -> None:
        self.assertEqual(Reason("grammar", None, "va_arg").text, "syntax that is not read (perhaps va_arg)")
        self.assertEqual(Reason("grammar").text, "syntax that is not read")


if __name__ == "__main__":
    unittest.main()
