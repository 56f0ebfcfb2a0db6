"""Statement expressions whose value is assigned: what is put in their places."""

from __future__ import annotations

import unittest

from nalvegop.filter import Filter

_HEAD = """\
struct s { int a; int *b; }; int g(int); static struct s *all = 0;
int h(struct s *s, const char *t, int n, unsigned k)
{
"""


class BlockValues(unittest.TestCase):
    def check(self, body: str, after: str) -> None:
        """Compares the lines of a body with those behind the filter."""
        text = f"{_HEAD}{body}\n}}\n"
        lines = Filter(text, lambda line: True).run().text.split("\n")[3:-2]
        self.assertEqual([" ".join(line.split()) for line in lines], [" ".join(line.split()) for line in after.split("\n")], body)

    def test_what_is_assigned(self) -> None:
        for before, after in {
            "n = ({ int b = g(1); g(b); b + 1; });": "{ int b = g(1); g(b); n = b + 1; }",
            "int c = ({ int b = g(1); b; });": "int c ; { int b = g(1); c = b; }",
            "s->a = ({ int b; do { b = g(1); } while (b == n); b; }); n++;": "{ int b; do { b = g(1); } while (b == n); s -> a = b; } n ++ ;",
            "if (n)\n k = ({ int b = 1; b > 2 ? b : 2; });\nelse\n k = 0;": "if (n)\n { int b = 1; k = b > 2 ? b : 2; }\nelse\n k = 0;",
            "n = ({ g(1); k; });": "{ g(1); n = k; }",
            "n = ({ int b = ({ g(1); k; }); b; });": "{ int b = ( g(1), k ); n = b; }",
            "n = ({\n  int b = 1;\n  b;\n});": "{\n int b = 1;\n\nn = b; }",
        }.items():
            self.check(before, after)

    def test_types_of_variables(self) -> None:
        for before, after in {
            "n = ({ typeof(k) b = k; b; });": "{ unsigned b = k; n = b; }",
            "const char *e = ({ __typeof__(t) b = t; b; });": "const char *e ; { const char * b = t; e = b; }",
            "typeof(t) b = t;": "const char * b = t;",
            "typeof(all) b = all;": "struct s * b = all;",
            "struct s *e = ({ __typeof__(s) b = s; b; });": "struct s *e ; { struct s * b = s; e = b; }",
        }.items():
            self.check(before, after)
        for same in ("int b[2]; typeof(b) c;", "{ char b; } { int b; typeof(b) c; }", "int b, c; typeof(c) d;", "typeof(g) *b;"):
            self.check(same, same)

    def test_what_stays(self) -> None:
        for body in (
            "n = ({ int n = 1; n; });",
            "s->a = ({ int b = 1; s = s + 0; b; });",
            "int c = ({ int b = 1; b; }), d;",
            "n = ({ int b = 1; if (b) n++; });",
            "n = ({ int b; });",
            "g(n = ({ int b = 1; b; }));",
        ):
            self.check(body, body)


if __name__ == "__main__":
    unittest.main()
