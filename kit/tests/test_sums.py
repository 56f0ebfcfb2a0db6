"""Sums of a pointer and a number: what is put in place of those that the checker does not take."""

from __future__ import annotations

import unittest

from nalvegop.filter import Filter
from nalvegop.verdicts import At
from tests.support import refused_at

_HEAD = """\
unsigned long nv_to(const void *); void *nv_(void); unsigned long nalvegop_ulong(void); int g(const void *, ...);
struct s { char *m; struct s *next[4]; int n; };
void h(struct s *s, char *p, const char *q, int n, char **r)
{
"""
_DECLARED = "void *Nv(const void *);"


def of(body: str, more: str = "") -> Filter:
    """Returns the filter of a function with this body, in which a sum is refused where an `@` stands."""
    return refused_at(f"{_HEAD}{body}\n}}\n{more}")


class Sums(unittest.TestCase):
    def check(self, body: str, after: str, is_unknown: bool) -> None:
        """Compares the lines of a body with those behind the filter, which moves no line."""
        it = of(body)
        lines = it.run().text.split("\n")
        self.assertEqual([" ".join(line.split()) for line in lines[4:-2]], [" ".join(line.split()) for line in after.split("\n")], body)
        self.assertEqual(lines[1].endswith(_DECLARED), is_unknown, body)
        self.assertEqual(it.unknowns.with_sums, {"h"} if is_unknown else set(), body)

    def test_elements(self) -> None:
        for before, after in {
            "n = *(p @+ n);": "n = p [ n];",
            "n = n * *(p @+ n * 2);": "n = n * p [ n * 2];",
            "n = (s @+ 1)->n;": "n = s [ 1]. n;",
            "n = -(s @+ n)->next[1]->n;": "n = - s [ n]. next[1]->n;",
            "*(s->m @+ n) = 1;": "s->m [ n] = 1;",
            "n = *(p @- n);": "n = p[- n] ;",
            "n = *(p@-n);": "n = p[-n] ;",
            "n = *(p @- s->n - 1);": "n = p[- s->n - 1] ;",
            "n = *(p @+ n - 1) + 2;": "n = p[n - 1] + 2;",
            "n = (s @- 1)->n;": "n = s[- 1]. n;",
        }.items():
            self.check(before, after, False)
            self.assertEqual(len(of(before).run().text.split("\n")[4]), len(before) - 1)

    def test_unknown_objects(self) -> None:
        for before, after in {
            "g(p @+ n);": "g(Nv(p));",
            "g(n, p @+ 1, n);": "g(n, Nv(p), n);",
            "((void)(n), (p @+ n));": "((void)(0), (Nv(p)));",
            "q = ((p @+ n));": "q = ((Nv(p)));",
            "p = s->m @+ n - 1;": "p = Nv(s->m) ;",
            "p = q @- n;": "p = Nv(q);",
            "p = (char *)(s->next[n] @+ 1);": "p = (char *)(Nv(s->next[n]));",
            "if (q == p @+ n) g(0);": "if (q == Nv(p)) g(0);",
            "return p @+ nalvegop_ulong();": "return Nv(p) ;",
        }.items():
            self.check(before, after, True)

    def test_what_has_no_room_stands_behind_the_line(self) -> None:
        for before, after in {
            "g(p@+n);": "g( Nv(p));",
            "g(g(0), p@+n,\n  n);": "g(g(0), Nv(p),\n n);",
            "p = p @+\n  n * 4;": "p = Nv(p)\n ;",
            "p @+= n;": "p = Nv(p);",
            "s->m @-= 3;": "s->m = Nv(s->m);",
            "p@++;": "p = Nv(p);",
            "@--p;": "p = Nv(p);",
            "@++*r;": "*r = Nv(*r);",
            "(*r)@++;": "(*r) = Nv((*r));",
            "*r @+= n;": "*r = Nv(*r);",
            "for (; n; n--, (*r)@++)\n  g(p);": "for (; n; n--, (*r) = Nv((*r)))\n g(p);",
            "if (n)\n  p@++;\nelse\n  p@--;": "if (n)\n p = Nv(p);\nelse\n p = Nv(p);",
            "for (n = 0; n < 3; n++, p@++) {\n}": "for (n = 0; n < 3; n++, p = Nv(p)){\n}",
            "for (; n < 3; p @+= 2)\n  g(p);": "for (; n < 3; p = Nv(p))\n g(p);",
            "p @+= ((void)(p), nalvegop_ulong())\n  + 1;": "p = Nv(p)\n ;",
        }.items():
            self.check(before, after, True)

    def test_sums_that_are_alike_are_taken_too(self) -> None:
        self.check("g(p @+ n); g(q + n, n + n);\ng(s->m + n);\nn++;", "g(Nv(p)); g(Nv(q), n + n);\ng(s->m + n);\nn++;", True)
        self.check("g(s->m @+ n); g(s->m + 1);", "g(Nv(s->m)); g(Nv(s->m));", True)

    def test_a_factor_is_no_pointer(self) -> None:
        self.check("int i; g(p @+ n * i, n * i); i = n * n;\nn++; g(i + 1);", "int i; g(Nv(p) , n * i); i = n * n;\nn++; g(i + 1);", True)
        self.check("int *i, k = 1, *j; g(p @+ n);\ng(i + 1); g(j + 1); g(k + 1);", "int *i, k = 1, *j; g(Nv(p));\ng(Nv(i)); g(Nv(j)); g(k + 1);", True)

    def test_sums_that_stay(self) -> None:
        for body in (
            "g((p @+ n)[1]);",
            "n = (int)(s @+ n)->n;",
            "n = ((p @+ n))[1];",
            "n = p @-  g(q);",
            "n = n * (p @- s->next[1]->n);",
            "*(p @+ n)++;",
        ):
            self.check(body, body.replace("@", ""), False)

    def test_a_text_that_has_the_name(self) -> None:
        for more in ("int Nv;", "void *Nv(int);", "void k(void) { int Nv; }"):
            self.assertIn("g(p + n);", of("g(p @+ n);", more).run().text)
        self.assertIn("n =   p [ n];", of("n = *(p @+ n);", "int Nv;").run().text)

    def test_a_function_in_the_last_line(self) -> None:
        text = "unsigned long nv_to(const void *); void *nv_(void);\nvoid h(char *p, int n) { p@+=n; }"
        self.assertIn("(p= Nv(p))", refused_at(text).run().text.replace("p = ", "p= "))

    def test_what_is_filtered_once_more(self) -> None:
        text = of("g(p @+ n);\ng(*q + *s->m + 1);").run().text
        more = Filter(text.replace("*q + *s->m + 1", "q + 2"), lambda line: True)
        more.refuse([At(6, 5)])
        self.assertIn("g(Nv(q));", more.run().text)
        self.assertEqual(more.run().text.count(_DECLARED), 1)


if __name__ == "__main__":
    unittest.main()
