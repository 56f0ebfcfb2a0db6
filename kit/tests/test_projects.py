"""Small projects, each with bugs that are known and code that is right, beside what the command says of them.

`python3 -m tests.test_projects --write` writes the expected texts anew, to be read before they are committed.
"""

from __future__ import annotations

import os
import shutil
import sys
import tempfile
import unittest

from tests.support import PROJECTS, nalvegop, needs_checker

_WORDS = {"machine": ["--machine", "file_handle.machine"], "rcu": ["--machine", "rcu"], "header": ["--headers"]}


def said_of(name: str) -> str:
    """Returns what the command says of a project: standard output, standard error, status."""
    with tempfile.TemporaryDirectory(prefix="nalvegop-test-") as room:
        at = os.path.join(room, name)
        shutil.copytree(os.path.join(PROJECTS, name), at)
        said = nalvegop("check", "-p", ".", "--verbose", *_WORDS.get(name, []), at=at)
    return f"{said.stdout}{said.stderr}status {said.returncode}\n"


def names() -> list[str]:
    return sorted(os.listdir(PROJECTS))


class Projects(unittest.TestCase):
    maxDiff = None

    @needs_checker
    def test_each(self) -> None:
        self.assertGreaterEqual(len(names()), 10)
        for name in names():
            with self.subTest(name), open(os.path.join(PROJECTS, name, "expected.txt"), encoding="utf-8") as it:
                self.assertEqual(said_of(name), it.read())


if __name__ == "__main__":
    if sys.argv[1:] == ["--write"]:
        for project in names():
            made = said_of(project)
            with open(os.path.join(PROJECTS, project, "expected.txt"), "w", encoding="utf-8") as out:
                out.write(made)
    else:
        unittest.main()
