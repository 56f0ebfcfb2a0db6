"""What is missing in the answers on functions that call others of which nothing is known."""

from __future__ import annotations

import json
import unittest

from nalvegop.filter import Filter
from nalvegop.lines import Place
from nalvegop.missing import Missing, Unknown
from tests.support import folder, nalvegop, told_by

_TEXT = """\
void free(void *p); void kfree(void *p) { spin_lock(&all); }
void locks(struct s *p) { if (mutex_lock(&p->m)) locks(p); }
void deeper(struct s *p) { locks(p); p->q = malloc(1); unknown(p); }
void tries(struct s *p) { while (!spin_trylock(&p->l)) spin_unlock(&p->l); kfree(p); }
void reads(struct s *p) { p->f = free; }
void turns(struct s *p) { enter(p); reads(p); }
void f(struct s *p) { known(p); reads(p); use(locks); (p->locks)(p); sizeof(p); f(p); }
void g(struct s *p)
{ deeper(p); locks(p);
  tries(p); deeper(p); turns(p); }
"""
_UNKNOWN = {"locks": "is A", "deeper": "is B", "tries": "is C", "reads": "is D", "turns": "is E", "f": "is F", "unknown": "is G"}


def told(caller: str, *lost: str, operations: str = "", why: dict[str, str] = _UNKNOWN) -> list[tuple[str, str, str]]:
    """Returns the callees, what is said of each, and where it is called."""
    unknown = Unknown(Filter(_TEXT, lambda line: True), frozenset(operations.split()), why.get, lambda at: Place("a.c", at.line, at.column))
    found = [*unknown.called_by(caller, lost)]
    assert all(it.caller == caller for it in found)
    return [(it.callee, it.note.removesuffix(": what it does is missing here"), str(it.place)) for it in found]


class Calls(unittest.TestCase):
    def test_each_pair_once_with_what_it_does(self) -> None:
        self.assertEqual(
            told("g"),
            [
                ("deeper", "is B and locks and allocates", "a.c:9:3"),
                ("locks", "is A and locks", "a.c:9:14"),
                ("tries", "is C and tries to lock, unlocks and frees", "a.c:10:3"),
            ],
        )

    def test_names_alone_and_functions_that_do_nothing_are_no_calls(self) -> None:
        self.assertEqual(told("f"), [])

    def test_operations_stand_in_place_of_locks(self) -> None:
        self.assertEqual(told("g", operations="enter")[1:], [("tries", "is C and frees", "a.c:10:3"), ("turns", "is E and calls 'enter'", "a.c:10:24")])

    def test_what_was_left_out_for_want_of_time(self) -> None:
        self.assertEqual(told("g", "locks", "known", why={}), [("locks", "is not followed for want of time and locks", "a.c:9:14")])

    def test_a_caller_without_a_body(self) -> None:
        self.assertEqual(told("unknown"), [])

    def test_its_words(self) -> None:
        it = Missing("f", "g", "had no answer in time", ("locks", "frees"), Place("a.c", 1, 2))
        self.assertEqual(it.text, "'f' calls 'g', which had no answer in time and locks and frees: what it does is missing here")


_SOURCE = "int m;\nstatic void take(void) { spin_lock(&m); }\n" + "".join(f"void f{it}(void) {{ take(); }}\n" for it in range(12))
# (stands for the checker: of `take` it does not take the body, and in `f1` it finds that the lock is taken twice)
_PROGRAM = """
at = lines.index("int m;") + 1
skipped = {"reason": "unsupported", "kind": "arith", "place": place(at + 1, 26)}
functions.append({"name": "take", "place": place(at + 1, 13), "skipped": skipped})
for number in range(12):
    events = [call(at + 3, 17, "take"), event(at + 3, 24, "error")]
    report = {"kind": "inner", "path": {"text": "m"}, "runs": [{"choice": "0", "location": "m", "events": events}]}
    function(f"f{number}", at + 2 + number, 6, [], [], [report] if number == 1 else [])
"""
_NOTE = "a.c:{}:{}: note: 'f{}' calls 'take', which was not analysed (pointer arithmetic) and locks: what it does is missing here"


class Shown(unittest.TestCase):
    def said(self, *words: str) -> tuple[str, list[str]]:
        with folder(a__c=_SOURCE) as room:
            said = nalvegop("check", "--models", "none", *words, "a.c", at=room, checker=told_by(room, _PROGRAM))
        self.assertEqual(said.returncode, 1)
        return said.stdout, said.stderr.splitlines()

    def test_ten_lines_and_how_many_more(self) -> None:
        every = [_NOTE.format(3 + it, 17 if it < 10 else 18, it) for it in range(12)]
        shown, lines = self.said()
        self.assertEqual(lines[:-1], [*every[:10], "nalvegop: and 2 more such calls (--verbose shows all)"])
        self.assertTrue(lines[-1].startswith("nalvegop: 1 finding"))
        step = "note: (1) 'take' is called; it was not analysed (pointer arithmetic) and locks: what it does is missing here"
        self.assertEqual(sum(step in it for it in shown.splitlines()), 1)
        self.assertEqual([it for it in self.said("--verbose")[1] if "note:" in it], every)

    def test_in_other_forms(self) -> None:
        file = json.loads(self.said("--format", "json")[0])["files"][0]
        self.assertEqual(len(file["missing"]), 12)
        text = _NOTE.format(14, 18, 11).partition("note: ")[2]
        whole = {"caller": "f11", "callee": "take", "file": "a.c", "line": 14, "column": 18, "does": ["locks"], "text": text}
        self.assertEqual(file["missing"][-1], whole)
        log = json.loads(self.said("--format", "sarif")[0])["runs"][0]["invocations"][0]["toolExecutionNotifications"]
        self.assertEqual([it["level"] for it in log], ["note"] * 12)
        self.assertEqual(log[-1]["message"]["text"], text)
        self.assertEqual(log[-1]["locations"][0]["physicalLocation"]["region"], {"startLine": 14, "startColumn": 18})
        page = self.said("--format", "html")[0]
        self.assertIn("a.c:14:18: &#x27;f11&#x27; calls &#x27;take&#x27;", page)

    def test_rows_and_the_story_of_a_finding(self) -> None:
        with folder(a__c=_SOURCE) as room:
            for words in (("rows", "a.c", "f1"), ("explain", "a.c:4")):
                said = nalvegop(words[0], "--models", "none", *words[1:], at=room, checker=told_by(room, _PROGRAM))
                self.assertIn("  it calls 'take', which was not analysed (pointer arithmetic) and locks: what it does is missing here\n", said.stdout)


if __name__ == "__main__":
    unittest.main()
