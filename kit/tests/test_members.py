"""Members of unions, of structs without a name, and bit fields: what the filter leaves of them once one of their kind was
not taken."""

from __future__ import annotations

import unittest

from nalvegop.filter import Filter
from nalvegop.verdicts import At

_HEAD = "unsigned long nv_to(const void *); void *nv_(void);\n"


def left(text: str, *kinds: str) -> tuple[str, Filter]:
    it = Filter(_HEAD + text, lambda line: True)
    assert it.refuse_members([(kind, "h") for kind in kinds]) == bool(kinds)
    made = it.run().text
    return " ".join(made.split("\n", 1)[1].split()), it


class Members(unittest.TestCase):
    def check(self, text: str, after: str, *kinds: str) -> None:
        self.assertEqual(left(text, *kinds)[0], after, text)

    def test_unions(self) -> None:
        text = "union u { int a; char *b; }; int h(union u *p) { return sizeof(union u) + p->a; }"
        after = "struct u { int a; char *b; }; int h(struct u *p) { return sizeof(struct u) + p->a; }"
        self.check(text, after, "union")
        self.check(text, text)
        self.check(text, text, "bitfield")

    def test_places_behind_a_union_that_moves(self) -> None:
        _, it = left("union u { int a; };\nint h(union u *p) { return p->a; }", "union")
        line, old = it.run().text.split("\n")[2], "int h(union u *p) { return p->a; }"
        for word in ("u", "p", "return", "a"):
            at = it.page.moved.told(At(3, line.rindex(word) + 1))
            self.assertEqual(at, At(3, old.rindex(word) + 1), word)

    def test_members_without_a_name(self) -> None:
        text = "struct s { int k; union { struct { int a, b; }; char *t; }; struct { int d; } n; }; int h(struct s *p) { return p->a; }"
        self.check(text, "struct s { int k; int a, b; char *t; struct { int d; } n; }; int h(struct s *p) { return p->a; }", "anon")
        text = "struct s { struct { int a; } __attribute__((packed)); }; int h(struct s *p) { return p->a; }"
        self.check(text, "struct s { int a; }; int h(struct s *p) { return p->a; }", "anon")

    def test_bit_fields(self) -> None:
        for before, after in {
            "unsigned a : 1, b : 1;": "_Bool a , b ;",
            "unsigned a : 2, b : 1;": "unsigned a , b ;",
            "int a : 1; u8 b : 1; int : 0; long c;": "int a ; _Bool b ; long c;",
            "unsigned : 3; unsigned a : (1 + 2);": "unsigned a ;",
        }.items():
            self.check(
                f"typedef unsigned char u8; struct s {{ {before} }}; int h(struct s *p, u8 n) {{ return n ? p->a : 1; }}",
                f"typedef unsigned char u8; struct s {{ {after} }}; int h(struct s *p, u8 n) {{ return n ? p->a : 1; }}",
                "bitfield",
            )

    def test_floating_numbers(self) -> None:
        text = "struct s { double d; long double e; }; float g(double);\nint h(struct s *p, int n) { p->d = 1.5e3; return n * .5f < 2. + (float)n + 0x1f + 12L + 1e-3; }"
        after = (
            "struct s { long d; long e; }; long Nd(void); int h(struct s *p, int n) { p->d = Nd() ; return n * Nd() < Nd() + (long )n + 0x1f + 12L + Nd() ; }"
        )
        self.check(text, after, "odd")
        self.check(text, " ".join(text.replace("float g(double);", "").split()), "bitfield")

    def test_who_is_known_to_have_them(self) -> None:
        it = Filter(_HEAD + "union u { int a; }; int h(union u *p) { return p->a; }", lambda line: True)
        self.assertTrue(it.refuse_members([("union", "h")]))
        self.assertFalse(it.refuse_members([("union", "k")]))
        self.assertEqual(it.members.functions, {"union": {"h", "k"}})

    def test_without_models_they_stay(self) -> None:
        it = Filter("union u { int a; }; int h(union u *p) { return p->a; }", lambda line: True)
        self.assertFalse(it.refuse_members([("union", "h")]))


if __name__ == "__main__":
    unittest.main()
