"""Initialisers with designators and compound literals: what is put in their places."""

from __future__ import annotations

import unittest

from nalvegop.filter import Filter

_HEAD = """\
struct in { int c; char *d; }; struct s { int a; struct in in; int e[3]; char *q; }; int g(int);
int h(struct s *s, struct s *t, int n)
{
"""


class Lists(unittest.TestCase):
    def check(self, body: str, after: str) -> None:
        """Compares the lines of a body with those behind the filter."""
        text = f"{_HEAD}{body}\n}}\n"
        lines = Filter(text, lambda line: True).run().text.split("\n")[3:-2]
        self.assertEqual([" ".join(line.split()) for line in lines], [" ".join(line.split()) for line in after.split("\n")], body)

    def test_declarations(self) -> None:
        for before, after in {
            "struct s x = { .a = 1 };": "struct s x = { }; x.a = 1;",
            "struct s x = { .a = n + 1, .in = { .c = 2, .d = 0 }, };": "struct s x = { }; x.a = n + 1; x.in.c = 2;",
            "const struct s x = {\n .in.c = 1,\n .e[2] = n\n}; n++;": "const struct s x = {\n\n\n}; x.in.c = 1; x.e[2] = n; n ++ ;",
            "int x[3] = { [1] = n };": "int x[3] = { }; x[1] = n;",
            "struct s x = { .a = n ? 1 : 2 };": "struct s x = { }; x.a = n ? 1 : 2;",
            "struct s x = { 0, { 0 } };": "struct s x = { };",
            "struct in x[2] = { { 0 }, { 0 } };": "struct in x[2] = { };",
            "struct s x = (struct s) { .a = 1 };": "struct s x = { }; x.a = 1;",
            'char x[4] = "";': "char x[4] = {};",
            "struct s x = { .a = (int)(n + 1), .q = ((void *)0), .e[0] = (uintptr_t)(((void *)0)) };": "struct s x = { }; x.a = ( int ) ( n + 1 );",
        }.items():
            self.check(before, after)

    def test_literals_that_are_assigned(self) -> None:
        for before, after in {
            "*s = (struct s) { .a = 1 };": "{ struct s Nl = { }; Nl.a = 1; * s = Nl; }",
            "s->in = (struct in){\n .c = n,\n};": "\n\n{ struct in Nl = { }; Nl.c = n; s -> in = Nl; }",
            "if (n)\n *s = (struct s) { 0 };\nelse\n n++;": "if (n)\n{ struct s Nl = { }; * s = Nl; }\nelse\n n++;",
        }.items():
            self.check(before, after)

    def test_what_stays(self) -> None:
        for body in (
            "struct s x = { 0 };",
            "int x[3] = { 1, 2 };",
            "struct s x = { 1, { 2 } };",
            "struct s x = { .a = g(1) };",
            "int x[] = { [1] = 2 };",
            "struct s x = { .a = 1 }, y;",
            "struct s x = { .a = 1 }; g(1);",
            "*s = (struct s) { .a = g(1) };",
            "return ((struct s) { .a = 1 }).a;",
            "s[g(1)] = (struct s) { .a = 1 };",
            'char x[] = "";',
            "int x[9] = { [1 ... 3] = 2 };",
        ):
            self.check(body, body)


if __name__ == "__main__":
    unittest.main()
