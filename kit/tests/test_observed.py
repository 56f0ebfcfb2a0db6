"""Observers: where they stand, and what they tell of a run."""

from __future__ import annotations

import unittest

from nalvegop.observed import Observers, Values
from nalvegop.pointers import Pointers
from nalvegop.segments import Unit
from nalvegop.tokens import tokens_of
from nalvegop.verdicts import At, Event, Run
from tests.support import folder, nalvegop, needs_checker

_SOURCE = """\
struct dev { int open, kind; char *name; };
int f(struct dev *dev, int n, char *p)
{
  char *q = malloc(4);
  n = g(n);
  dev->kind = g(1);
  if (dev->open && dev->kind == 3 && !dev->name)
    n = g(2);
  else
    n = g(3);
  return n;
}
"""


class Places(unittest.TestCase):
    def added(self, source: str, with_numbers: bool = True) -> list[str]:
        """Returns what is put behind each line."""
        lines = [*zip(Observers(source, "f", with_numbers).text.split("\n"), source.split("\n"), strict=True)]
        self.assertEqual([line for made, line in lines if not made.startswith(line)], [])
        return [made[len(line) :].strip() for made, line in lines]

    def body(self, *lines: str) -> list[str]:
        """Returns what is put behind these lines of a body."""
        return self.added("\n".join(["int f(void)", "{ int a, b, *p; struct s *s, t[2];", *lines, "}"]))[2:-1]

    def test_at_entry_and_behind_calls(self) -> None:
        entry = "if (dev) ; switch (n) { } if (p) ; if (dev) if (dev->open) ; if (dev) switch (dev->kind) { } if (dev) if (dev->name) ;"
        calls = ["if (q) ;", "switch (n) { }", "if (dev->kind) ;"]
        self.assertEqual(self.added(_SOURCE), ["", "", entry, *calls, *[""] * 7])

    def test_without_numbers(self) -> None:
        self.assertNotIn("switch", Observers(_SOURCE, "f", False).text)

    def test_only_where_a_statement_stands_in_a_block_and_ends_its_line(self) -> None:
        for line in ("if (a) a = g();", "while (a) a = g();", "for (;;) a = g();", "if (a) b = 1; else a = g();", "case 1: a = g();", "out: a = g();"):
            self.assertEqual(self.body(line), [""], line)
        self.assertEqual(self.body("a = g(); b = 1;", "if (a) { a = g(); }", "do a = g();", "while (a);"), ["", "", "", ""])
        self.assertEqual(self.body("if (a) {", "a = g();", "} else {", "b = g();", "}"), ["", "switch (a) { }", "", "switch (b) { }", ""])

    def test_only_what_a_call_alone_gives(self) -> None:
        for line in (
            "a = g() + 1;",
            "a = -g();",
            "a = *g();",
            "a = (b, g());",
            "a += g();",
            "t[1] = g();",
            "*p = g();",
            "return g();",
            "g();",
            "int c = g(), d;",
        ):
            self.assertEqual(self.body(line), [""], line)
        for line, put in {"a = (int)(g(b));": "switch (a) { }", "p = (int *)malloc(4);": "if (p) ;", "s->p = h(a, (b));": "if (s->p) ;"}.items():
            self.assertEqual(self.body(line), [put], line)

    def test_only_members_that_are_tested_as_they_are(self) -> None:
        for test in ("&dev->open", "g(dev->open)", "dev->open + 1", "dev->kind[1]", "other->open", "x.dev->open"):
            self.assertEqual(self.added(f"int f(struct dev *dev)\n{{\nif ({test}) ;\n}}")[1], "if (dev) ;", test)

    def test_a_function_that_is_not_there(self) -> None:
        self.assertEqual(Observers("int f(void);\n", "f", True).text, "int f(void);\n")


class Declared(unittest.TestCase):
    def pointers(self, text: str) -> Pointers:
        unit = Unit([*tokens_of(text)])
        return Pointers(unit, next(it for it in unit.segments if it.function == "f"))

    def variables(self, text: str) -> str:
        return " ".join(sorted(self.pointers(text).variables))

    def test_behind_stars(self) -> None:
        self.assertEqual(self.variables("int f(int a, char *b, const int *const c, struct s *d, t *e, char **g) { }"), "b c d g")
        self.assertEqual(self.variables("typedef int t; int f(t *a, t b) { int c = 1, *d; t *e; return *b; }"), "a b d e")

    def test_products_declare_nothing(self) -> None:
        self.assertEqual(self.variables("int f(int a, int b) { int c = a * b; c = 2 * b; c = (a) * b; c = a[1] * b; return a * c; }"), "")

    def test_types_that_are_pointers(self) -> None:
        types = "typedef char *text; typedef const text other; typedef int (*call)(int *n); typedef struct s { text m; int *k, o; } s, *sp; "
        self.assertEqual(self.variables(types + "int f(text a, int n, other const b, call c, sp d, s e) { text g = 0, h[2], i; n = 1; }"), "a b c d g h i")
        self.assertEqual(self.pointers(types + "int f(void) { }").members, {"m", "k"})

    def test_variables_of_the_file_and_names_of_others(self) -> None:
        self.assertEqual(self.variables("int *a, b, *c; struct s { int *d; }; int g(int *e); int f(int c) { }"), "a")


class Telling(unittest.TestCase):
    def test_what_observers_tell_of_the_same_run_alone(self) -> None:
        source = "int f(int n, char *p)\n{\n  n = g(n);\n  return n;\n}\n"
        observers = Observers(source, "f", True)
        self.assertEqual(observers.text.split("\n")[1], "{ switch (n) { } if (p) ;")
        events = [Event(At(3, 7), "call", "g"), Event(At(4, 3), "return")]
        told = [Event(At(2, 3), "switch", "-3"), Event(At(2, 18), "if", "0"), events[0], Event(At(3, 13), "switch", "7"), events[1]]
        self.assertEqual(observers.values(Run("d", events), Run("d", told)), Values({"n": "-3", "p": "null"}, {0: "7"}))
        self.assertIsNone(observers.values(Run("d", events), Run("c", told)))
        self.assertIsNone(observers.values(Run("d", events[:1]), Run("d", told)))

    @needs_checker
    def test_numbers_beside_a_pointer_by_its_type(self) -> None:
        source = "#include <stdlib.h>\ntypedef char *text;\nint f(text t, int n)\n{\n\tchar *p = malloc(1);\n\tif (t && n == 7)\n\t\treturn 1;\n\tfree(p);\n\treturn 0;\n}\n"
        with folder(a__c=source) as room:
            said = nalvegop("check", "a.c", at=room).stdout
            self.assertIn("a.c:5:12: note: a run where 't' is not null and 'n' is 7 at entry:\n", said)

    @needs_checker
    def test_a_pointer_by_its_type_is_no_number(self) -> None:
        source = "#include <stdlib.h>\ntypedef char *text;\nint other(void);\nint f(text t)\n{\n\tchar *p = malloc(1);\n\tif (t)\n\t\treturn 1;\n\tfree(p);\n\treturn 0;\n}\n"
        with folder(a__c=source) as room:
            said = nalvegop("check", "a.c", at=room).stdout
            self.assertIn("a.c:6:12: note: a run where 't' is not null at entry:\n", said)
            self.assertIn("a.c:6:12: note: (1) 'malloc' is called and does not give null\n", said)


if __name__ == "__main__":
    unittest.main()
