"""Differences of pointers and comparisons by their order: what is put in place of those that the checker does not take."""

from __future__ import annotations

import unittest

from nalvegop.filter import Filter
from nalvegop.verdicts import At
from tests.support import refused_at

_HEAD = """\
unsigned long nv_to(const void *); void *nv_(void); unsigned long nalvegop_ulong(void); int g(const void *, ...);
struct s { char *m, *end; struct s *next[4]; int n; char text[8]; }; char *top, all[4];
void h(struct s *s, char *p, const char *q, int n)
{
"""
_NUMBER, _TRUTH = "long Nd(void);", "_Bool Nb(void);"


def of(body: str, more: str = "") -> Filter:
    """Returns the filter of a function with this body, in which something is refused where an `@` stands."""
    return refused_at(f"{_HEAD}{body}\n}}\n{more}")


class Differences(unittest.TestCase):
    def check(self, body: str, after: str, *heads: str) -> None:
        """Compares the lines of a body with those behind the filter, which moves nothing."""
        it = of(body)
        lines, was = it.run().text.split("\n"), body.replace("@", "").split("\n")
        self.assertEqual([" ".join(line.split()) for line in lines[4:-2]], [" ".join(line.split()) for line in after.split("\n")], body)
        self.assertEqual([head for head in (_NUMBER, _TRUTH) if head in lines[1]], [*heads], body)
        self.assertEqual(it.unknowns.with_differences, {"h"} if heads else set(), body)
        for new, old in zip(lines[4:-2], was, strict=True):
            self.assertEqual(new.endswith(";"), old.endswith(";"))
            self.assertLessEqual(len(new), len(old))

    def test_differences(self) -> None:
        for before, after in {
            "n = p @- q;": "n = Nd() ;",
            "n = p @- s->m + 1;": "n = Nd() + 1;",
            "n = s->end @- s->m;": "n = Nd() ;",
            "n = s->next[n]->m @- s->text;": "n = Nd() ;",
            "n = s->m @- s->next[n]->m;": "n = Nd() ;",
            "n = p @- &s->text[2];": "n = Nd() ;",
            "n = p @- (const char *)s;": "n = Nd() ;",
            "n = p @- top;": "n = Nd() ;",
            "char **r; n = p @- *r;": "char **r; n = Nd() ;",
            "char *const *r; n = p @- *r;": "char *const *r; n = Nd() ;",
            "n = 4 * (p@-q) - n;": "n = 4 * Nd() - n;",
            "n = n - (int)(p @- q);": "n = n - (int)(Nd() );",
            "n = n > (long)((p @- q) + 1);": "n = n > (long)((Nd() ) + 1);",
            "n = (p @- q) < n;": "n = (Nd() ) < n;",
            "n = p @- q < n && n < q - p;": "n = Nd() < n && n < Nd() ;",
            "g(p, (int)(p @- all), n);": "g(p, (int)(Nd() ), n);",
            "n = (p + 1) @- (q + 2);": "n = Nd() ;",
            "if (top @-\n  q) n = 1;": "if (Nd()\n ) n = 1;",
            "char *e; char b[4]; n = e @- b;": "char *e; char b[4]; n = Nd() ;",
        }.items():
            self.check(before, after, _NUMBER)

    def test_comparisons(self) -> None:
        for before, after in {
            "if (p @< q) n = 1;": "if (Nb() ) n = 1;",
            "while (n && p @>= q) n--;": "while (n && Nb() ) n--;",
            "n = p @<= s->end - 1 ? 1 : 2;": "n = Nb() ? 1 : 2;",
            "if (p @+ n < q - 2 || n < 3) n = 1;": "if (Nb() || n < 3) n = 1;",
            "return p @> &s->text[n & 3] & 1;": "return Nb() & 1;",
            "n = !(p @< q);": "n = !(Nb() );",
            "for (; p @< q;) g(p);": "for (; Nb() ;) g(p);",
        }.items():
            self.check(before, after, _TRUTH)

    def test_those_that_are_alike_are_taken_too(self) -> None:
        self.check(
            "n = p @- q; n = p - s->m; n = q - p;\nif (p < q) n = n - 1 < 3;", "n = Nd() ; n = Nd() ; n = Nd() ;\nif (Nb() ) n = n - 1 < 3;", _NUMBER, _TRUTH
        )
        self.check("if (s->m @< s->end)\n  n = n < 4 && s->m < q;", "if (Nb() )\n n = n < 4 && Nb() ;", _TRUTH)

    def test_what_stays(self) -> None:
        for body in (
            "n = p @- g(q);",
            "p @= 0; n = n - (int)p; n = n < sizeof p; n = n < !p; n = n - p[1]; n = n - s->n;",
        ):
            self.check(body, body.replace("@", ""))

    def test_a_name_of_a_pointer_that_is_none_here(self) -> None:
        # (the parameter `top` is no pointer: then the text is as it was)
        text = "unsigned long nv_to(void); void *nv_(void); char *top;\nvoid h(char *p, int top)\n{\np = p @- top;\n}\n"
        self.assertNotIn("Nd", refused_at(text).run().text)

    def test_a_text_that_has_the_name(self) -> None:
        for more in ("int Nd;", "long Nd(int);"):
            self.assertIn("n = p - q;", of("n = p @- q;", more).run().text)

    def test_what_is_filtered_once_more(self) -> None:
        text = of("n = p @- q;\nn = s->end - s->m;").run().text
        again = Filter(text, lambda line: True)
        self.assertEqual(again.run().text, text)
        again.refuse([At(6, 12)])
        self.assertIn("n = Nd()         ;".rstrip(" ;"), again.run().text.split("\n")[5])
        self.assertEqual(again.run().text.count(_NUMBER), 1)


if __name__ == "__main__":
    unittest.main()
