"""Statement expressions whose value is returned, or a part of a value, and `?:` without a second operand: what the filter
makes of them."""

from __future__ import annotations

import unittest

from nalvegop.filter import Filter
from nalvegop.tokens import tokens_of
from nalvegop.verdicts import At
from tests.support import refused_at

_HEAD = "int g(int); struct s { int a; }; int *k(int);\nint *h(struct s *s, int *p, int n)\n{\n"


class FarBlocks(unittest.TestCase):
    def check(self, body: str, after: str) -> None:
        """Compares a body with what the filter leaves of it, with no regard to spaces; what moved is told by its old place."""
        it = Filter(f"{_HEAD}{body}\n}}\n", lambda line: True)
        made = it.run()
        lines, old = made.text.split("\n"), it.page.text.split("\n")
        self.assertEqual("".join("".join(lines[3:-2]).split()), "".join(after.split()), body)
        for number in range(4, len(lines) - 1):
            for token in tokens_of(lines[number - 1]):
                at = made.moved.told(At(number, token.start + 1))
                stood = old[at.line - 1][at.column - 1 :]
                is_told = stood.startswith((token.text, "?", "return"))
                self.assertTrue(is_told or not token.is_word or at.column > len(old[at.line - 1]), (body, token.text, at))

    def test_blocks(self) -> None:
        for before, after in {
            "return ({ int b = g(n); p + b; });": "{ int b = g(n); return (p + b); }",
            "if (n) return (int *)({ int *b = k(n); b; });": "if (n) { int *b = k(n); return (int *) (b); }",
            "n = ({ int b = 1; g(b); });": "{ int b = 1; n = (g(b)); }",
            "n = ({ int b = 1; b; }) + 1;": "{ int b = 1; n = (b) + 1; }",
            "n += ({ int b = n; g(b); });": "{ int b = n; n += (g(b)); }",
            "int c = ({ int b = 1; g(b); }); g(c);": "int c ; { int b = 1; c = (g(b)); } g(c);",
            "s->a = ({ int b = 1; g(b); });": "{ int b = 1; s -> a = (g(b)); }",
        }.items():
            self.check(before, after)

    def test_conditions(self) -> None:
        for before, after in {
            "n = s->a ?: 1;": "n = s->a ? s->a : 1;",
            "g(n ?: s->a ?: 2);": "g(n ? n : s->a ? s->a : 2);",
            "n = g(n) ?: 1;": "n = g(n) ; if (!(n)) n = 1;",
            "int c = g(n) ?: s->a;": "int c = g(n) ; if (!(c)) c = s->a;",
            "return k(n) ?: p;": "{ int * Nr = k(n) ; return Nr ? Nr : p; }",
        }.items():
            self.check(before, after)

    def test_jumps_to_labels_before_them(self) -> None:
        for before, after in {
            "again: n++; if (g(n)) @goto again; return p;": "again: n++; if (g(n)) abort(); return p;",
            "if (n) goto out; { again: n++; } if (g(n)) @goto again; if (n) goto again; out: return p;": (
                "if (n) goto out; { again: n++; } if (g(n)) abort(); if (n) abort(); out: return p;"
            ),
            "if (n) @goto in; if (g(n)) { in: n++; } return p;": "if (n) goto in; if (g(n)) { in: n++; } return p;",
        }.items():
            it = refused_at(f"unsigned long nv_to(const void *); void *nv_(void);\n{_HEAD}{before}\n}}\n")
            self.assertEqual("".join(it.run().text.split("\n")[4].split()), "".join(after.split()))

    def test_what_stays(self) -> None:
        for body in (
            "n = ({ int n = 1; n; });",
            "s->a = ({ int b = 1; s = s + 0; b; });",
            "n = n && ({ int b = 1; g(b); });",
            "g(({ int b = 1; b; }));",
            "for (n = ({ int b = 1; g(b); }); n; n--) g(n);",
            "p[({ int b = 1; g(b); })] = 1;",
            "p[g(n)] = ({ int b = 1; b; });",
            "n = ({ int b = 1; if (b) n++; });",
            "if (n) n = g(n) ?: 1;",
            "g(g(n) ?: 1);",
        ):
            self.check(body, body)


if __name__ == "__main__":
    unittest.main()
