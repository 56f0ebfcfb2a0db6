"""The filter: what it blanks, what it keeps, and that nothing moves where there is room."""

from __future__ import annotations

import re
import subprocess
import time
import unittest
from collections.abc import Callable

from nalvegop.filter import Filter, Filtered
from nalvegop.lines import LineMap, SourceFiles
from nalvegop.tokens import tokens_of
from nalvegop.verdicts import At
from tests.support import folder


def filtered(text: str, is_all_own: bool = True) -> Filtered:
    line_map = LineMap(text, "unit.c", SourceFiles())
    return Filter(text, (lambda line: True) if is_all_own else line_map.is_own).run()


def squeezed(text: str) -> str:
    """Returns the text with one space for each row of white space."""
    return re.sub(r"\s+", " ", text).strip()


# What the filter writes in place of something else.
_WRITTEN = {",", ")", "(", ";", "0", "sizeof", '""', "abort", "void", "*", "const", "nv_at", "nv_to", "nv_", "nalvegop_ulong"}


def moved(made: str, before: str) -> list[str]:
    """Returns the tokens that do not stand where they stood."""
    if made.count("\n") != before.count("\n"):
        return ["line feeds"]
    lines = [*zip(made.split("\n"), before.split("\n"))]
    return [it.text for new, old in lines for it in tokens_of(new) if not old.startswith(it.text, it.start) and it.text not in _WRITTEN]


class Steps(unittest.TestCase):
    def becomes(self, before: str, after: str) -> None:
        made = filtered(before).text
        self.assertEqual(squeezed(made), after)
        self.assertEqual(moved(made, before), [])

    def tightly(self, before: str, after: str) -> None:
        """As `becomes`, with no regard to spaces."""
        made = filtered(before).text
        self.assertEqual(re.sub(r"\s+", "", made), re.sub(r"\s+", "", after))
        self.assertEqual(moved(made, before), [])

    def test_old_parameters(self) -> None:
        self.becomes("int f(a, b)\n int a;\n char *b;\n{ return a; }", "int f( int a, char *b) { return a; }")

    def behind_lines(self, before: str, *after: str) -> None:
        """As `becomes`, line by line: more may stand in all lines but the last one. A tag is new."""
        made = filtered(before).text.split("\n")
        self.assertEqual([squeezed(it) for it in made], [*after])
        self.assertEqual([it for it in moved(made[-1], before.split("\n")[-1]) if it != "A"], [])

    def test_old_parameters_in_another_order(self) -> None:
        new = "int f ( int a , char * * b , struct s * c , int d , int ( * e ) ( int ) )"
        self.behind_lines("int f(a, b, c, d, e)\n char **b; register struct s *c;\n int (*e)(int), a;\n{ return a; }", new, "", "", "{ return a; }")
        self.behind_lines("long f(a, b)\n unsigned char a[2], b;\n{ return b; }", "long f ( unsigned char a [ 2 ] , unsigned char b )", "", "{ return b; }")

    def test_old_parameters_that_stay(self) -> None:
        for text in (
            "int f(a, b) char *b; int a; { return a; }",
            "int f(a, b)\n char *b; char *c;\n{ return 1; }",
            "int f(a, b)\n char *b; int b;\n{ return 1; }",
        ):
            self.assertEqual(squeezed(filtered(text).text), squeezed(text))
        self.assertNotIn("knr", filtered("typedef int t; int f(a, t)\n int t, a;\n{ return t; }").counts)

    def test_loops_that_run_once(self) -> None:
        self.becomes("void f(int a) { do { a++; } while (0); }", "void f(int a) { { a++; } }")
        self.becomes("void f(int a) { if (a) do { a++; } while (0); else a--; }", "void f(int a) { if (a) { a++; } else a--; }")

    def test_what_a_void_function_returns(self) -> None:
        self.becomes("void g(void); void f(int a) { if (a) g(); return g(); }", "void g(void); void f(int a) { if (a) g(); g(); }")
        within = filtered("void g(void);\nvoid f(int a) {\nif (a) return g();\na++;\n}\n").text
        self.assertEqual(within, "void g(void);\nvoid f(int a) {\nif (a) {      g(); return;}\na++;\n}\n")
        for same in (
            "void g(void); void f(int a) { while (a) return g(); }",
            "int g(void); int f(int a) { return g(); }",
            "int *g(void); void *f(int a) { return g(); }",
        ):
            self.becomes(same, same)

    def test_loops_that_are_left_stay(self) -> None:
        for inside in ("if (a) break; a++;", "if (a) continue; a++;", "switch (a) { default: continue; }"):
            text = f"void f(int a) {{ do {{ {inside} }} while (0); }}"
            self.becomes(text, text)

    def test_a_break_of_an_inner_loop_does_not_count(self) -> None:
        self.becomes("void f(int a) { do { while (a) { break; } } while (0); }", "void f(int a) { { while (a) { break; } } }")
        self.becomes("void f(int a) { do { switch (a) { case 1: break; } } while (0); }", "void f(int a) { { switch (a) { case 1: break; } } }")

    def test_statement_expressions(self) -> None:
        self.becomes("void f(int a) { ({ int b = a; g(b); }); }", "void f(int a) { { int b = a; g(b); } }")
        self.becomes("void f(int a) { while (h(a)) ({ int b = a; g(b); }); }", "void f(int a) { while (h(a)) { int b = a; g(b); } }")
        self.becomes(
            "void f(int a) { if (a) ({ int b = a; g(b); }); else ({ int b = 0; g(b); }); }",
            "void f(int a) { if (a) { int b = a; g(b); } else { int b = 0; g(b); } }",
        )
        self.becomes("int f(int a) { return ({ g(a); a; }); }", "int f(int a) { return ( g(a), a ); }")

    def test_transparent_unions(self) -> None:
        text = "struct a; struct b; typedef union { struct a *x; struct b *y; } arg __attribute__ ((__transparent_union__)); int g(arg p); int f(struct a *x) { return g(x); }"
        self.becomes(text, "struct a; struct b; typedef void * arg ; int g(arg p); int f(struct a *x) { return g(x); }")
        const = "struct a; typedef union { const struct a *x; } arg __attribute__ ((transparent_union)); int f(arg x) { return 1; }"
        self.becomes(const, "struct a; typedef const void * arg ; int f(arg x) { return 1; }")
        for same in (
            "typedef union { char *x; } arg; int f(arg x) { return 1; }",
            "typedef union { int x; } arg __attribute__ ((__transparent_union__)); int f(arg x) { return 1; }",
        ):
            self.becomes(same, same)

    def test_asm(self) -> None:
        self.becomes('int f(void) __asm__("g"); int h(void) { return f(); }', "int f(void) ; int h(void) { return f(); }")
        self.becomes('void f(void) { __asm__ volatile ("nop" ::: "memory"); }', "void f(void) { ; }")
        text = 'int f(int a) { asm("nop" : "=r"(a)); return a; }'
        self.becomes(text, text)

    def test_asserts_and_empty_members(self) -> None:
        self.becomes(
            'struct s { int a; ; int b; _Static_assert(1, "x"); }; int f(struct s *p) { _Static_assert(1, "y"); return p->a; }',
            "struct s { int a; int b; }; int f(struct s *p) { return p->a; }",
        )

    def test_initialisers_at_file_scope(self) -> None:
        self.becomes("static int a = 1, b[2] = { 1, 2 }; int f(void) { return a + b[0]; }", "static int a , b[2] ; int f(void) { return a + b[0]; }")

    def test_a_compound_literal_is_no_body(self) -> None:
        text = "struct s { int n; }; static struct s a = (struct s) { .n = 1, }, b; int f(void) { return a.n; }"
        self.becomes(text, "struct s { int n; }; static struct s a , b; int f(void) { return a.n; }")

    def test_initialisers_that_give_a_length_stay(self) -> None:
        text = "static int a[] = { 1, 2 }; int f(void) { return sizeof a; }"
        self.becomes(text, text)
        text = "static struct s { int n, m[2]; } a[] = { { 1, { 2 } }, { f(1, 2) }, }, *p = a; int f(void) { return sizeof a; }"
        self.assertEqual(squeezed(filtered(text).text), "static struct s { int n, m[2]; } a[2] , *p ; int f(void) { return sizeof a; }")

    def test_words_of_gcc(self) -> None:
        self.becomes("typeof(int) a; int f(void) { return a; }", "int a; int f(void) { return a; }")
        self.becomes("int f(int a) { typeof(+a) b = a; return b; }", "int f(int a) { typeof(+a) b = a; return b; }")
        self.becomes("void f(int *a, int **b) { *b = (typeof(*b))(a); (a) = (__typeof__((a)))*b; }", "void f(int *a, int **b) { *b = (a); (a) = *b; }")
        for text in ("void f(int *a, struct s **b) { b[0]->c = (typeof(b[1]->c))(a); }", "void f(int a, struct s *b) { b->d = (typeof(b->a))1; }"):
            self.becomes(text, text)
        self.becomes("unsigned long f(void) { return __alignof__(int); }", "unsigned long f(void) { return sizeof (int); }")
        self.becomes("void f(void) { g(__func__); }", 'void f(void) { g("" ); }')
        self.becomes("_Atomic int a; int f(void) { return a; }", "int a; int f(void) { return a; }")
        self.becomes("_Atomic(int) a; int f(void) { return a; }", "int a; int f(void) { return a; }")

    def renamed(self, before: str, after: str) -> None:
        made = filtered(before)
        self.assertEqual(squeezed(made.text), after)
        for new, old in made.renamed.items():
            self.assertEqual((len(new), before.count(new)), (len(old), 0))
            self.assertEqual(re.sub(rf"\b{new}\b", old, squeezed(made.text)), squeezed(before))

    def test_the_object_round_a_member(self) -> None:
        part = "void *nv_at(const void *); unsigned long nalvegop_ulong(void); struct s { int a, b; }; "
        cases = {
            "struct s *f(int *p) { return ((struct s *)((char *)p - __builtin_offsetof(struct s, b))); }": "struct s *f(int *p) { return ((struct s *)(nv_at(p ) )); }",
            "struct s *f(int *p) { return (struct s *)((const char *)(&p[1]) - __builtin_offsetof (struct s, b)); }": "struct s *f(int *p) { return (struct s *)(nv_at( (&p[1]) ) ); }",
            "struct s *f(struct s *p) { return (void *)((char *)p->q[2].r - __builtin_offsetof(struct s, b)); }": "struct s *f(struct s *p) { return (void *)(nv_at(p->q[2].r ) ); }",
        }
        for before, after in cases.items():
            self.tightly(part + before, part + after)
            self.becomes("struct s { int a, b; }; " + before, "struct s { int a, b; }; " + before)

    def test_offsets_of_members(self) -> None:
        part = "void *nv_at(const void *); unsigned long nalvegop_ulong(void); struct s { int a, b; }; "
        self.becomes(
            part + "long f(int p) { return p - __builtin_offsetof(struct s, b) * sizeof(struct s); }",
            part + "long f(int p) { return p - nalvegop_ulong() * sizeof(struct s); }",
        )
        text = "struct s a[__builtin_offsetof(struct s, b)]; int f(void) { return a[0].b; }"
        self.becomes(part + text, part + text)
        text = "struct s { int a, b; }; long f(int p) { return p - __builtin_offsetof(struct s, b); }"
        self.becomes(text, text)

    def test_pointers_that_are_counted_from_bytes(self) -> None:
        part = "void *nv_at(const void *); unsigned long nalvegop_ulong(void); "
        for before, after in (
            ("(char*)p + n", "nv_at(p )"),
            ("(void *)(p) + n * sizeof(int) - 1, n", "nv_at((p) ) , n"),
            ("(u8 *)p->q[n + 1].r + (n + 2) / 3 + (n ? 8 : 0)", "nv_at(p->q[n + 1].r )"),
            ("(((char*)&((p)->data)) + (((p)->flags & 2) ? 8 : 0))", "(nv_at( &((p)->data)) )"),
            ("(char *)&p->q - (size_t)n == p", "nv_at( &p->q ) == p"),
            ("(char *)p + nalvegop_int()", "nv_at( p )"),
            ("(char *)((char *)p + 1) + (n - 2)", "nv_at( (nv_at( p ) ) )"),
            ("(struct t *)((uintptr_t)(p) - (uintptr_t)8)", "(struct t *)(nv_at((p) ) )"),
            ("(char *)((unsigned long)p->q + n)", "(char *)(nv_at( p->q ) )"),
        ):
            self.tightly(f"{part}void f(struct s *p, int n) {{ g({before}); }}", f"{part}void f(struct s *p, int n) {{ g({after}); }}")

    def test_what_is_no_counted_pointer_stays(self) -> None:
        part = "void *nv_at(const void *); unsigned long nalvegop_ulong(void); "
        for text in (
            "*(char *)p + n",
            "(struct t *)(char *)p + n",
            "(char *)p - (char *)q",
            "(uintptr_t)p - 8",
            "((uintptr_t)p - 8)",
            "(long)((uintptr_t)p - 8)",
            "(struct t *)((uintptr_t)p - 8 - q)",
            "h((uintptr_t)p - 8)",
            "(struct t *)((int)p - 8)",
            "(char *)p - q",
            "(char *)p + n - q",
            "(char *)p + n++",
            "(char *)p + (n = 2)",
            "(char *)p + n()",
            "(char *)p + (*n)(1)",
            "q - (char *)p + n",
            "sizeof(char *) + n",
            "h((char *)p) + n",
            "(int *)p + n",
            "(u8*)p + n",
            "-(char *)p + n",
            "*((char *)p + n)",
            "((char *)p + n)[1]",
        ):
            self.becomes(f"{part}void f(struct s *p, char *q, int n) {{ g({text}); }}", f"{part}void f(struct s *p, char *q, int n) {{ g({text}); }}")

    def test_values_that_are_dropped(self) -> None:
        cases = {
            "(void)(a + n);": "(void)(0);",
            "(void)(*a), f(n);": "(void)(0), f(n);",
            "((void)(f(n)), (void)((char *)a + n));": "((void)(f(n)), (void)(0));",
            "(void)(n = 1); (void)(n++); (void)((void)(a), n);": "(void)(n = 1); (void)(n++); (void)(0);",
            "(void)(a)->m; (void)(a)[n]; (void)(g)(n); (void)a;": "(void)(a)->m; (void)(a)[n]; (void)(g)(n); (void)a;",
        }
        head = "void *nv_at(const void *); unsigned long nalvegop_ulong(void); "
        for before, after in cases.items():
            self.tightly(f"{head}void h(int *a, int n) {{ {before} }}", f"{head}void h(int *a, int n) {{ {after} }}")

    def refused(self, body: str, *columns: int) -> str:
        """Returns the body, which begins a line, of a function in which the casts at these columns are not taken."""
        heads = "unsigned long nv_to(const void *); void *nv_(void); int g(void *, long);\n", "void h(struct s *s, unsigned long n)\n{\n"
        it = Filter(f"{heads[0]}struct s {{ unsigned long m; }};\n{heads[1]}{body}\n}}\n", lambda line: True)
        self.assertTrue(it.refuse([At(5, column) for column in columns]))
        self.assertFalse(it.refuse([At(5, columns[0])]))
        made = it.run().text
        self.assertEqual([] if "nv_to(" in made.split("\n")[4] else moved(made, it.page.text), [])
        line = squeezed(made.split("\n")[4])
        self.assertEqual(it.unknowns.with_pointers | it.unknowns.with_addresses, set() if line == squeezed(body) else {"h"})
        self.assertEqual("h" in it.unknowns.with_addresses, "nv_to(" in line)
        return line

    def test_casts_that_are_not_taken(self) -> None:
        for body, made in {
            "struct s *t = (struct s *)s->m;": "struct s *t = nv_() ;",
            "void *t = (void *)n;": "void *t = nv_() ;",
            "struct s *t = 0; t = n ? (struct s *)((n + 1)) : 0;": "struct s *t = 0; t = n ? (struct s *)nv_() : 0;",
            "unsigned long k = (unsigned long)&s->m & 3;": "unsigned long k = nv_to(&s->m) & 3;",
            "g((void *)(unsigned long)n, 1);": "g((void *)nv_() , 1);",
            "g((void *)(long)__builtin_return_address(0), 1);": "g((void *)nv_() , 1);",
            "return (long)s->p[2].q;": "return (long)nv_to(s->p[2].q);",
            "return (unsigned)s->p[2].q;": "return nv_to(s->p[2].q) ;",
        }.items():
            column = next(it for it in range(1, 40) if body[it - 1 :].startswith(("(struct", "(void", "(unsigned", "(long")))
            self.assertEqual(self.refused(body, column), made, body)

    def test_casts_with_the_same_words_are_taken_too(self) -> None:
        self.assertEqual(self.refused("g((void *)n, 1); g((void *)n, 2); g((void *)s, 3);", 3), "g(nv_() , 1); g(nv_() , 2); g((void *)s, 3);")

    def test_casts_that_stay(self) -> None:
        for body in ("g((other)n, 2);",):
            column = next(it for it in range(1, 40) if body[it - 1 :].startswith(("(struct", "(void", "(other", "(int", "(long", "(unsigned")))
            self.assertEqual(self.refused(body, column), squeezed(body), body)

    def test_static_locals(self) -> None:
        before = 'typedef int t;\nint f(t a)\n{\n  static int calls = 1, b[2];\n  if (a) { static char *calls[] = { "x" }; g(calls); }\n  return calls++ + b[0];\n}\n'
        made = filtered(before)
        lines = made.text.split("\n")
        self.assertEqual(lines[0], 'typedef int t; static int callA , A [ 2 ] ; static char * callB [ ] = { "x" } ;')
        self.assertEqual([squeezed(it) for it in lines[3:6]], ["", "if (a) { g(callB); }", "return callA++ + A[0];"])
        self.assertEqual(made.renamed, {"callA": "calls", "A": "b", "callB": "calls"})
        self.assertEqual([it for it in moved("\n".join(["", *lines[1:]]), before) if it not in made.renamed], [])

    def test_types_in_blocks(self) -> None:
        for inside, before, left in (
            ("struct s { int a; } v, *p;", "struct s { int a ; } ;", "struct s v, *p;"),
            ("struct s { int a; }; struct s v;", "struct s { int a ; } ;", "struct s v;"),
            ("const struct { int a; } v = { 1 };", "struct A { int a ; } ;", "const struct A v = { 1 };"),
            ("union { int a; char b; } u;", "union A { int a ; char b ; } ;", "union A u;"),
            ("enum { ONE, TWO = 3 }; g(TWO);", "enum A { ONE , TWO = 3 } ;", "g(TWO);"),
            ("typedef struct { int a; } t, *p; t v;", "typedef struct { int a ; } t , * p ;", "t v;"),
            ("typedef char t; t v;", "typedef char t ;", "t v;"),
            ("if (n) { struct s { int a; } v; g(&v); }", "struct s { int a ; } ;", "if (n) { struct s v; g(&v); }"),
        ):
            self.behind_lines(f"int n;\nint f(void)\n{{ {inside} return n; }}", f"int n; {before}", "int f(void)", f"{{ {left} return n; }}")

    def test_types_in_blocks_that_stay(self) -> None:
        other = "int s, ONE;\n"
        for inside in (
            "struct s { int a; } v;",
            "enum { ONE } v;",
            "typedef int s; s v;",
            "struct t { char a[sizeof(n)]; } v;",
            "static struct t { int a; } v;",
            "struct{ int a; } v;",
            "{ struct t { int a; } v; } { struct t { int b; } v; }",
            "struct s { int a; }; typedef struct s t; t v;",
            "struct s { int a; }; struct t { struct s b; } v;",
        ):
            text = f"{other}int f(int n)\n{{ {inside} return n; }}\nint h(void)\n{{ return s + ONE; }}"
            self.assertEqual(squeezed(filtered(text).text), squeezed(text))
        text = "int n; int f(void) { struct s { int a; } v; return n; }"
        self.becomes(text, text)

    def test_static_locals_of_two_functions(self) -> None:
        made = filtered("int a;\nint f(void)\n{ static int n; return n++; }\nint g(void)\n{ static int n; return n++ + a; }")
        self.assertEqual(made.text.split("\n")[:3], ["int a; static int A ;", "int f(void)", "{               return A++; } static int B ;"])
        self.assertEqual(made.text.split("\n")[4], "{               return B++ + a; }")

    def test_static_locals_that_never_change(self) -> None:
        self.becomes("int f(int a) { static const int most = 3; return a < most; }", "int f(int a) { const int most = 3; return a < most; }")

    def test_static_locals_that_stay(self) -> None:
        for inside in ("static int (*go)(int);", "static struct { int a; } s;", "static enum { A, B } e;"):
            text = f"int a;\nint f(void) {{ {inside} return a; }}"
            self.becomes(text, squeezed(text))
        # (no line ends between what stands before and the function)
        for text in ("int a; int f(void) { static int n; return a + n++; }", "int f(void) { static int n; return n++; }"):
            self.becomes(text, text)

    def test_variables_that_are_named_as_types(self) -> None:
        types = "typedef struct list { struct list *list; } list; "
        self.renamed(types + "void f(list *list) { list->list = 0; g(list); }", types + "void f(list *lisA) { lisA->list = 0; g(lisA); }")
        self.renamed(
            types + "int f(const list *a, list *const list) { return a == list; }", types + "int f(const list *a, list *const lisA) { return a == lisA; }"
        )
        self.renamed(types + "void f(void) { struct list *list; list = h(); }", types + "void f(void) { struct list *lisA; lisA = h(); }")
        self.renamed(
            types + "void f(void) { { int a, list[2] = { 1 }; list[0] = a; } list *b = h(); g(b); }",
            types + "void f(void) { { int a, lisA[2] = { 1 }; lisA[0] = a; } list *b = h(); g(b); }",
        )
        self.renamed(
            types + "void f(void) { for (list *list = h(); list; list = list->list) g(list); }",
            types + "void f(void) { for (list *lisA = h(); lisA; lisA = lisA->list) g(lisA); }",
        )

    def test_parameters_of_declarations_that_are_named_as_types(self) -> None:
        types = "typedef struct list { int a; } list; "
        self.renamed(
            types + "int g(list *list, int a); int f(struct list *b) { return g(b, 1); }",
            types + "int g(list *lisA, int a); int f(struct list *b) { return g(b, 1); }",
        )
        self.renamed(
            types + "struct c { list *list; void (*go)(list *list); }; int f(struct c *p) { p->go(p->list); return 1; }",
            types + "struct c { list *list; void (*go)(list *lisA); }; int f(struct c *p) { p->go(p->list); return 1; }",
        )
        self.renamed(
            types + "int f(int (*list)(int), struct list *b) { return list(b->a); }", types + "int f(int (*lisA)(int), struct list *b) { return lisA(b->a); }"
        )

    def test_what_is_not_named_as_a_type_stays(self) -> None:
        types = "typedef struct list { int tag; } list; typedef int (*call)(list *); "
        for text in (
            "list *f(list *a) { list *b = a; return (list *)b; }",
            "int f(call a, list *b) { return a(b) * sizeof(list); }",
            "void f(list *tag) { goto list; list: g(tag); }",
            "int f(int (*a)(const list), list *b) { return a(*b); }",
        ):
            self.assertEqual(filtered(types + text).renamed, {}, text)

    def test_a_new_name_stands_nowhere_else(self) -> None:
        made = filtered("typedef int t; typedef int A; typedef int B; int f(t t) { return t; }")
        self.assertEqual(made.renamed, {"C": "t"})

    def test_attributes_of_c23(self) -> None:
        self.becomes(
            "[[nodiscard]] int f(int a) { switch (a) { case 1: a++; [[fallthrough]]; default: g(a); } return a; }",
            "int f(int a) { switch (a) { case 1: a++; ; default: g(a); } return a; }",
        )
        text = "int f(int *a, int *b) { return a[b[0]]; }"
        self.becomes(text, text)

    def test_line_markers_stay(self) -> None:
        text = '# 1 "a.h" 1\nstruct unused {\n# 3 "a.h"\n int a;\n};\n# 1 "a.c" 2\nint f(void) { return 1; }\n'
        made = filtered(text).text
        self.assertNotIn("unused", made)
        self.assertEqual(re.findall(r"# .*", made), re.findall(r"# .*", text))


class WhatStays(unittest.TestCase):
    HEADER = '# 1 "a.c"\n# 1 "a.h" 1\n'
    BACK = '# 2 "a.c" 2\n'

    def kept(self, header: str, own: str) -> str:
        return squeezed(re.sub(r"#.*", "", filtered(self.HEADER + header + "\n" + self.BACK + own, is_all_own=False).text))

    def test_functions_of_headers_that_are_reached_stay(self) -> None:
        header = "static inline int one(void) { return 1; } static inline int two(void) { return one(); } static inline int three(void) { return 3; }"
        self.assertEqual(
            self.kept(header, "int f(void) { return two(); }"),
            "static inline int one(void) { return 1; } static inline int two(void) { return one(); } int f(void) { return two(); }",
        )

    def test_a_used_static_function_below_stays(self) -> None:
        own = "static int later(void); int f(void) { return later(); } static int later(void) { return 2; }"
        self.assertEqual(self.kept("", own), own)

    def test_types_that_are_used_stay(self) -> None:
        header = "typedef int word; typedef void (fn_t)(word); typedef word (*pf)(fn_t *); struct s { pf p; }; enum { ONE, TWO }; enum e { THREE }; union u { int a; }; typedef int never;"
        self.assertEqual(
            self.kept(header, "int f(struct s *s, union u *u) { return TWO + u->a; }"),
            "typedef int word; typedef void (fn_t)(word); typedef word (*pf)(fn_t *); struct s { pf p; }; enum { ONE, TWO }; union u { int a; }; int f(struct s *s, union u *u) { return TWO + u->a; }",
        )

    def test_tags_behind_attributes_stay(self) -> None:
        header = "struct __attribute__((packed)) s { int a; } __attribute__((aligned(4))); struct t { struct s s; } t;"
        self.assertEqual(
            self.kept(header, "int f(struct s *s) { return s->a; }"),
            "struct __attribute__((packed)) s { int a; } __attribute__((aligned(4))); int f(struct s *s) { return s->a; }",
        )

    def test_a_function_that_the_file_defines_again(self) -> None:
        self.assertEqual(self.kept("extern inline int f(void) { return 1; }", "int f(void) { return 2; }"), "int f(void) { return 2; }")

    def test_bodies_of_built_in_names_go(self) -> None:
        self.assertEqual(
            self.kept("static inline void spin_lock(int *l) { deep(l); } static inline void deep(int *l) { *l = 1; }", "void f(int *l) { spin_lock(l); }"),
            "static inline void spin_lock(int *l) ; void f(int *l) { spin_lock(l); }",
        )

    def test_what_is_left_compiles_as_before(self) -> None:
        source = "#include <stdio.h>\n#include <stdlib.h>\n#include <string.h>\n#include <pthread.h>\n#include <errno.h>\nstatic pthread_mutex_t m;\nint f(const char *s, FILE *o) { pthread_mutex_lock(&m); errno = 0; fprintf(o, s); return strtol(s, NULL, 0) + strlen(s); }\n"
        with folder(unit__c=source) as room:
            text = subprocess.run(["gcc", "-E", "unit.c"], cwd=room, capture_output=True, text=True, check=True).stdout
            line_map = LineMap(text, "unit.c", SourceFiles(room))
            made = Filter(text, line_map.is_own).run().text
            said = subprocess.run(
                ["gcc", "-fpreprocessed", "-fsyntax-only", "-Werror=implicit-function-declaration", "-x", "cpp-output", "-"],
                input=made,
                cwd=room,
                capture_output=True,
                text=True,
                check=False,
            )
            self.assertEqual((said.returncode, said.stderr.count("error")), (0, 0), said.stderr)
            self.assertEqual(moved(made, text), [])
            self.assertLess(len(squeezed(made)), len(squeezed(text)) / 4)


class Time(unittest.TestCase):
    """Four times the text takes four times as long, and not sixteen times."""

    def seconds(self, text: str) -> float:
        begun = time.process_time()
        filtered(text)
        return time.process_time() - begun

    def test_it_is_linear(self) -> None:
        shapes = [
            "static int f%d(struct s *p) { do { if (p->a) { g(p); } } while (0); return ({ g(p); p->a; }); }\n",
            "typedef struct { int a, b[2]; } t%d;\n",
            "int old%d(a, b) int a; char *b; { return a; }\n",
            'extern int v%d __asm__("w");      \n\n',
        ]
        for shape in shapes:
            self.is_linear(lambda count: "".join(shape % number for number in range(count)), 400)
        for block in (
            "if (a) break; ",
            "do { if (a) continue; } while (0); ",
            "while (a) { switch (a) { case 1: break; } } ",
            "while (a) { break; } ",
            "({ g(a); a; }); ",
        ):
            self.is_linear(lambda count: f"void f(int a) {{ do {{ {block * count} }} while (0); }}", 400)
        self.is_linear(lambda count: f"int a; {' ' * 100 * count} int b;\n", 1_000)

    def is_linear(self, text: Callable[[int], str], count: int) -> None:
        small, large = text(count), text(4 * count)
        times = [(min(self.seconds(small) for _ in range(3)), self.seconds(large)) for _ in range(2)]
        self.assertLess(min(one / max(other, 0.005) for other, one in times), 9, small[:100])


class PassedOver(unittest.TestCase):
    def test_cleanup(self) -> None:
        made = filtered("void f(void) { int *p __attribute__((cleanup(g))) = 0; }\nvoid h(void) { f(); }")
        self.assertEqual(made.passed_over, {"f": ("cleanup", At(1, 23))})
        self.assertEqual(squeezed(made.text), "void f(void) ; void h(void) { f(); }")

    def test_a_call_of_the_model_of_cleanup_push(self) -> None:
        made = filtered("void f(void) { nalvegop_cleanup_push((g), (p)); }")
        self.assertEqual(made.passed_over, {"f": ("pthread_cleanup_push", At(1, 16))})

    def test_cleanup_as_an_attribute_of_c23(self) -> None:
        self.assertEqual([*filtered("void f(void) { [[gnu::cleanup(g)]] int *p = 0; int a[b[0]]; }").passed_over], ["f"])
        self.assertEqual([*filtered("int b[2]; int f(int cleanup, int *a) { return a[b[cleanup]]; }").passed_over], [])

    def test_other_attributes_do_not_count(self) -> None:
        self.assertEqual(filtered("void f(void) { int cleanup __attribute__((unused)) = 0; }").passed_over, {})

    def test_some_functions_alone(self) -> None:
        text = "static int a(void) { return 1; } int b(void) { return a(); } int c(void) { return b(); }"
        made = Filter(text, lambda line: True).run(only=["c"], without=["b"])
        self.assertEqual(squeezed(made.text), "int b(void) ; int c(void) { return b(); }")


if __name__ == "__main__":
    unittest.main()
