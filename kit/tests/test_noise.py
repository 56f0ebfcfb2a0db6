"""What is not shown: baselines and comments."""

from __future__ import annotations

import json
import os
import unittest

from nalvegop.findings import Finding
from nalvegop.lines import Place, SourceFiles
from nalvegop.noise import BadBaseline, Baseline, Comments
from tests.support import folder


def finding(line: int, known_by: str = "a") -> Finding:
    return Finding("leak", "f", Place("a.c", line, 1), "lost", [], known_by)


class Baselines(unittest.TestCase):
    def test_a_second_finding_of_the_same_kind_is_shown(self) -> None:
        with folder() as room:
            path = os.path.join(room, "base.json")
            file = os.path.join(room, "a.c")
            Baseline(path).write([(file, finding(1))])
            read = Baseline.read(path)
            self.assertEqual([read.takes(file, finding(it)) for it in (9, 10)], [True, False])

    def test_lines_do_not_count_but_files_and_kinds_do(self) -> None:
        with folder() as room:
            path = os.path.join(room, "base.json")
            Baseline(path).write([(os.path.join(room, "a.c"), finding(1)), (os.path.join(room, "a.c"), finding(2, "b"))])
            read = Baseline.read(path)
            self.assertFalse(read.takes(os.path.join(room, "b.c"), finding(1)))
            self.assertFalse(read.takes(os.path.join(room, "a.c"), finding(1, "c")))
            self.assertTrue(read.takes(os.path.join(room, "a.c"), finding(7, "b")))

    def test_what_is_no_baseline(self) -> None:
        with folder(one__json="{", two__json='{"format": "x"}', three__json=json.dumps({"format": "nalvegop baseline", "findings": [1]})) as room:
            for name in ("one.json", "two.json", "three.json", "four.json"):
                with self.assertRaises(BadBaseline):
                    Baseline.read(os.path.join(room, name))


class InComments(unittest.TestCase):
    SOURCE = """\
int a; /* nalvegop: ok on its line */
int b;
/* nalvegop: ok for
   the line below */
int c;
int d; // nalvegop: ok and so
/* nalvegop: ok */
int e;
char *f = "/* nalvegop: ok in a string */";
"""

    def test_which_lines_are_ok(self) -> None:
        with folder(a__c=self.SOURCE) as room:
            comments = Comments(SourceFiles(room))
            self.assertEqual([it for it in range(1, 11) if comments.reason("a.c", it)], [1, 3, 4, 5, 6])
            self.assertEqual(comments.reason("a.c", 1), "on its line")

    def test_a_comment_at_the_function_hides_all_in_it(self) -> None:
        with folder(a__c=self.SOURCE) as room:
            comments = Comments(SourceFiles(room))
            self.assertTrue(comments.hides(finding(9), 5))
            self.assertFalse(comments.hides(finding(9), 8))


if __name__ == "__main__":
    unittest.main()
