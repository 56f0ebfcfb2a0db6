"""Steps of pointers whose value is used: what is put in place of those that the checker does not take."""

from __future__ import annotations

import unittest

from nalvegop.filter import Filter
from tests.support import refused_at

_HEAD = """\
unsigned long nv_to(const void *); void *nv_(void); unsigned long nalvegop_ulong(void); int g(const void *, ...);
struct s { char *m; struct s *next; int n; }; char *top;
int h(struct s *s, char *p, char *q, char **pp, int n)
{
"""


def of(body: str) -> Filter:
    """Returns the filter of a function with this body, in which a step is refused where an `@` stands."""
    return refused_at(f"{_HEAD}{body}\n}}\n")


class Steps(unittest.TestCase):
    def check(self, body: str, after: str, is_unknown: bool = True) -> None:
        """Compares the lines of a body with those behind the filter. What stood there stays where it stood, but for what moves
        behind the end of its line."""
        it = of(body)
        lines = it.run().text.split("\n")[4:-2]
        self.assertEqual([" ".join(line.split()) for line in lines], [" ".join(line.split()) for line in after.split("\n")], body)
        self.assertEqual(it.unknowns.with_sums, {"h"} if is_unknown else set(), body)

    def test_behind_the_statement(self) -> None:
        for before, after in {
            "*p@++ = n;": "*p = n; p = Nv(p);",
            "n = *p@++ * 2;": "n = *p * 2; p = Nv(p);",
            "*p@++ = *q++;": "*p = *q ; p = Nv(p); q = Nv(q);",
            "int c = *p@--, d = 1;": "int c = *p , d = 1; p = Nv(p);",
            "q = p@++;": "q = p ; p = Nv(p);",
            "g(*p@++, n);": "g(*p , n); p = Nv(p);",
            "n = *s->m@++;": "n = *s->m ; s->m = Nv(s->m);",
            "s->n = *s->next->m@++;": "s->n = *s->next->m ; s->next->m = Nv(s->next->m);",
            "n = *(*pp)@++;": "n = *(*pp) ; (*pp) = Nv((*pp));",
            "n = *top@++;": "n = *top ; top = Nv(top);",
            "*p@++ = n ? 1 : 2;": "*p = n ? 1 : 2; p = Nv(p);",
            "case 1: *p@++ = 2;": "case 1: *p = 2; p = Nv(p);",
            "n = *p@++\n  + 1;": "n = *p\n + 1; p = Nv(p);",
        }.items():
            self.check(before, after)

    def test_where_no_braces_are(self) -> None:
        for before, after in {
            "while (n--)\n  *p@++ = *q++;": "while (n--)\n {*p = *q ; p = Nv(p); q = Nv(q); }",
            "if (n)\n *p@++ = 1;\nelse\n *p++ = 2;": "if (n)\n{*p = 1; p = Nv(p); }\nelse\n{*p = 2; p = Nv(p); }",
            "if (n) *p@++ = 1;": "if (n){*p = 1; p = Nv(p); }",
            "do *p@++ = 1;\nwhile (n--);": "do{*p = 1; p = Nv(p); }\nwhile (n--);",
        }.items():
            self.check(before, after)

    def test_what_else_stands_in_the_line(self) -> None:
        for before, after in {
            "{ *p@++ = n; n++; }": "{ *p = n; p = Nv(p); n ++ ; }",
            "*p@++ = 1; *p++ = 2; n = n\n + 1;": "*p = 1; p = Nv(p); * p = 2 ; p = Nv(p); n = n\n + 1;",
            "for (; n; n--) { *p@++ = 1; }": "for (; n; n--) { *p = 1; p = Nv(p); }",
        }.items():
            self.check(before, after)

    def test_in_a_test(self) -> None:
        for before, after in {
            "n = 1;\nif (*p@++ == 2 && n) return 1;": "n = 1; p = Nv(p);\nif (Nd() == 2 && n) return 1;",
            "n = 1;\nswitch (*p@++) { }": "n = 1; p = Nv(p);\nswitch (Nd()) { }",
            "while (*p@++ != 3)\n n++;": "while ( p = Nv(p), Nd() != 3)\n n++;",
            "while ((n = *p@++) != *q++) {\n}": "while ( p = Nv(p), q = Nv(q), ( n = Nd() ) != Nd() ){\n}",
            "do {\n} while (*p@++);": "do {\n} while ( p = Nv(p), Nd() );",
            "if (n)\n n = 1;\nelse if (*p@++)\n n = 2;": "if (n)\n n = 1;\nelse if ( p = Nv(p), Nd() )\n n = 2;",
        }.items():
            self.check(before, after)

    def test_steps_before_the_value(self) -> None:
        for before, after in {
            "n = 1;\n*@--p = 3;": "n = 1; p = Nv(p);\n* p = 3;",
            "n = 1;\nif (*@++s->m != 2) return 1;": "n = 1; s->m = Nv(s->m);\nif (* s->m != 2) return 1;",
            "n = 1;\nq = @--p;": "n = 1; p = Nv(p);\nq = p;",
            "while (*@++p)\n n++;": "while ( p = Nv(p), * p)\n n++;",
            "n = 1;\n*@--p = *--q;": "n = 1; p = Nv(p); q = Nv(q);\n* p = * q;",
        }.items():
            self.check(before, after)

    def test_in_what_is_returned(self) -> None:
        for before, after in {"return *p@++;": "return *p ;", "if (n && g(q)) return *p@++ + g(q);": "if (n && g(q)) return *p + g(q);"}.items():
            self.check(before, after, is_unknown=False)

    def test_what_stays(self) -> None:
        for body in ("n = *g(p)->m@++;",):
            self.check(body, body.replace("@", ""), is_unknown=False)

    def test_numbers_stay(self) -> None:
        self.check("*p@++ = n++;\np[n++] = 1;", "*p = n++; p = Nv(p);\np[n++] = 1;")


if __name__ == "__main__":
    unittest.main()
