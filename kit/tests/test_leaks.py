"""Leaks that may be none: which functions are doubted, and when another run is shown."""

from __future__ import annotations

import unittest

from nalvegop.filter import Filter
from nalvegop.leaks import Leaks
from nalvegop.verdicts import At, Event, Function, Report, Run

_TEXT = """\
void free(void *p); void unknown(struct s *p); void nalvegop_use(const void *p);
void frees(struct s *p) { if (p) { free(p->q); } }
void deeper(struct s *p) { frees(p); }
void gives(struct s *p) { unknown(p); }
void by_pointer(struct s *p) { (*p->go)(p); }
void reads(struct s *p) { (void)(p->q); nalvegop_use(p); free_of_charge = sizeof(p); }
void again(struct s *p) { reads(p); again(p); }
"""
_AT = At(9, 3)


def leak(*calls: str, at: At = _AT) -> Report:
    """Returns a leak of memory that comes from `malloc`, with the calls behind that on its path."""
    events = [Event(At(8, 1), "call", "frees"), Event(at, "call", "malloc"), *(Event(At(10 + i, 1), "call", it) for i, it in enumerate(calls))]
    return Report("leak", "", at, [Run("none", events)])


def caller(*reports: Report) -> Function:
    return Function("f", At(7, 1), reports=[*reports])


class Doubts(unittest.TestCase):
    def setUp(self) -> None:
        self.asked = list[set[str]]()
        self.answers = list[Function | None]()

    def ask(self, name: str, unknown: set[str]) -> Function | None:
        self.assertEqual(name, "f")
        self.asked.append({*unknown})
        return self.answers.pop(0)

    def told(self, *reports: Report, unknown: str = "") -> list[tuple[Report, list[str]]]:
        leaks = Leaks(Filter(_TEXT, lambda line: True), lambda name: name.startswith("nalvegop_"), self.ask)
        return [*leaks.told(caller(*reports), {*unknown.split()})]

    def test_what_may_free_or_give_away(self) -> None:
        for name in ("frees", "deeper", "gives", "by_pointer"):
            self.answers = [caller()]
            self.assertEqual(self.told(leak("reads", name)), [(leak("reads", name), [name])])

    def test_what_does_not(self) -> None:
        for report in (leak(), leak("reads", "again", "unknown", "malloc"), Report("inner", "x", None, leak("frees").runs)):
            self.assertEqual(self.told(report), [(report, [])])
        self.assertEqual(self.told(leak("frees"), unknown="frees"), [(leak("frees"), [])])
        self.assertEqual(self.asked, [])

    def test_a_run_that_is_sure_is_shown(self) -> None:
        self.answers = [caller(leak("frees", at=At(1, 1)), leak("gives")), caller(leak("reads"))]
        self.assertEqual(self.told(leak("frees")), [(leak("reads"), [])])
        self.assertEqual(self.asked, [{"frees"}, {"frees", "gives"}])

    def test_where_no_run_is_sure_the_first_one_is_shown(self) -> None:
        cases: list[list[Function | None]] = [[None], [caller()], [caller(leak("gives")), caller(leak("frees", at=At(1, 1)))]]
        for answers in cases:
            self.answers = [*answers]
            self.assertEqual(self.told(leak("frees", "deeper")), [(leak("frees", "deeper"), ["frees", "deeper"])])


if __name__ == "__main__":
    unittest.main()
