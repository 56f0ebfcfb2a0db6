"""What stands for values that the checker does not follow where things have to move in their line, and the places by which
what moved is told."""

from __future__ import annotations

import unittest

from nalvegop.filter import PUT
from nalvegop.tokens import tokens_of
from nalvegop.verdicts import At
from tests.support import refused_at

_HEAD = """\
unsigned long nv_to(const void *); void *nv_(void); unsigned long nalvegop_ulong(void); int g(const void *, ...); void *f(void *);
typedef void *handle; typedef unsigned long word; struct s { char *m; struct s *next[4]; int n; }; char *top;
int h(struct s *s, char *p, const char *q, char **r, int n, word w)
{
"""


class FarValues(unittest.TestCase):
    def check(self, body: str, after: str) -> None:
        """Compares a body, in which something is refused where an `@` stands, with what the filter leaves. Words that were there
        are told by their old places."""
        before = f"{_HEAD}{body}\n}}\n"
        it = refused_at(before)
        made = it.run()
        lines, old = made.text.split("\n"), it.page.text.split("\n")
        self.assertEqual(" ".join(" ".join(lines[4:-2]).split()), after, body)
        self.assertEqual(len(lines), len(old))
        for number in range(5, len(lines) - 1):
            for token in tokens_of(lines[number - 1]):
                at = made.moved.told(At(number, token.start + 1))
                stood = old[at.line - 1][at.column - 1 :]
                if at.column > len(old[at.line - 1]):
                    # (behind the ends of lines nothing stands of which a path tells)
                    break
                # (what was put there is told by the place of an operator)
                is_put = token.text in PUT or stood[:1] in ("+", "-", "<", "(", "=", ">")
                self.assertTrue(stood.startswith(token.text) or is_put or not token.is_word, (body, token.text, at))

    def test_steps(self) -> None:
        for before, after in {
            "n = 1; *@--p = 3;": "n = 1; * (p = Nv(p)) = 3;",
            "return *@--p;": "return * (p = Nv(p));",
            "n = n && *p@++;": "n = n && (p = Nv(p), Nd()) ;",
            "n = n ? *p@++ : 1;": "n = n ? (p = Nv(p), Nd()) : 1;",
            "g(*s->m@++);": "g(*(s -> m = Nv(s->m)) );",
            "g(*top@++);": "g(*(top = Nv(top)) );",
            "g(&p); g(*p@++);": "g(&p); g( (p = Nv(p), Nd()) );",
            "g(*r@++);": "g(*r ); r = Nv(r);",
            "n = n && *r@++;": "n = n && *(r = Nv(r)) ;",
            "s = f(s), n = *s->m@++;": "s = f(s), n = *(s -> m = Nv(s->m)) ;",
            "*p@++ = n; g(q);": "*(p = Nv(p)) = n; g(q);",
            "while (n || *p@++)\n n++;": "while (n || (p = Nv(p), Nd()) ) n++;",
            "for (; *p@++;)\n n++;": "for (; (p = Nv(p), Nd()) ;) n++;",
            "int a[] = { *p@++, 1 };": "int a[] = { (p = Nv(p), Nd()) , 1 };",
            "if (p@++)\n  n = 1;": "if ((p = Nv(p)) ) n = 1;",
        }.items():
            self.check(before, after)

    def test_sums(self) -> None:
        for before, after in {
            "g(f(s) @+ n);": "g(Nv(f(s) ) );",
            "p = f(s) @- 1; n = g(p);": "p = Nv(f(s) ) ; n = g(p);",
            "if (p @+ n == q) n = 1;": "if (Nv(p ) == q) n = 1;",
            "p = n ? p @+ n : p;": "p = n ? Nv(p ) : p;",
            "g(p @+ g(q));": "g((g ( q ) , Nv(p )) );",
            "g(*(s->next[n++] @+ n));": "g( s->next[n++] [ n]);",
            "n = *(*r @- n);": "n = (*r )[- n];",
            "if ((p @+= n) == q) n = 1;": "if (((p = Nv(p)) ) == q) n = 1;",
            "if ((p @+= g(q)) == q) n = 1;": "if (((g ( q ) , p = Nv(p)) ) == q) n = 1;",
        }.items():
            self.check(before, after)

    def test_differences_and_comparisons(self) -> None:
        for before, after in {
            "n = p@-q;": "n = Nd() ;",
            "n = ((s)->m @- (s)->next[1]->m);": "n = (Nd() );",
            "n = g(p) @- q;": "n = (g(p) , q, Nd());",
            "if (p @< (q = s->m)) n = 1;": "if ((p , (q = s->m), Nb())) n = 1;",
        }.items():
            self.check(before, after)

    def test_casts(self) -> None:
        for before, after in {
            "g(@(void *)g(p, 1), 2);": "g( (g(p, 1), ( void * )nv_()), 2);",
            "g(@(handle)n, 2);": "g((handle)nv_() , 2);",
            "n = n + (@(long)s);": "n = n + ((long)nv_to(s));",
            "w = @(word)s;": "w = (word)nv_to(s);",
            "w = @(unsigned long)(@(void *)(@(void *)w));": "w = (unsigned long)nv_to(((void *)nv_() ));",
            "w = @(long)f(s);": "w = (long)nv_to(f(s));",
        }.items():
            self.check(before, after)

    def test_what_stays(self) -> None:
        for body in (
            "g((p @+ n)[1]);",
            "n = ((p @+ n))[1];",
            "*(p @+ n)++;",
            "n = p @- g(q);",
            "n = n * (p @- s->next[1]->n);",
            "n = *g(p)->m@++;",
            "n = 1;\n*@--p[1] = 2;",
            "g(@(other)n, 2);",
        ):
            self.check(body, " ".join(body.replace("@", "").split()))


if __name__ == "__main__":
    unittest.main()
