"""The documents beside the code: options, kinds, statuses and examples."""

from __future__ import annotations

import argparse
import os
import re
import unittest

from nalvegop.command import Status, parser
from nalvegop.findings import KINDS
from nalvegop.machines import FOLDERS
from tests.support import PROJECTS, TOP

_OPTION = re.compile(r"(?<![\w`-]-)(?<![\w-])--?[a-z][a-z-]*\b")


def text_of(*names: str) -> str:
    with open(os.path.join(TOP, *names), encoding="utf-8") as it:
        return it.read()


def options() -> set[str]:
    """Returns the options of all verbs."""
    verbs = next(it for it in parser()._actions if isinstance(it, argparse._SubParsersAction))
    every = [action for verb in verbs.choices.values() for action in verb._actions]
    return {word for action in every for word in action.option_strings} - {"-h", "--help"}


class Documents(unittest.TestCase):
    def test_the_man_page_has_every_option_and_no_other(self) -> None:
        page = text_of("docs", "nalvegop.1").replace("\\-", "-").replace("\\fB", " ").replace("\\fR", " ")
        named = set(_OPTION.findall(page))
        self.assertEqual(options() - named, set())
        self.assertEqual(named - options() - {"--"}, set())

    def test_the_guide_has_every_option_that_takes_part_in_a_task(self) -> None:
        page = text_of("docs", "USE.md") + text_of("docs", "MODELS.md")
        self.assertEqual({it for it in options() if f"`{it}" not in page and f" {it}" not in page}, set())

    def test_kinds_and_statuses(self) -> None:
        guide, man = text_of("docs", "USE.md"), text_of("docs", "nalvegop.1")
        for kind in KINDS:
            self.assertIn(f"**`{kind}`**", guide)
            self.assertIn(kind, man)
        for status in (Status.CLEAN, Status.FOUND, Status.NOT_ALL, Status.WORDS):
            self.assertRegex(guide, rf"(?m)^\| {int(status)} \|")

    def test_every_machine_is_named(self) -> None:
        page = text_of("docs", "MODELS.md")
        names = [it.removesuffix(".machine") for folder in FOLDERS for it in os.listdir(folder)]
        self.assertEqual([it for it in names if it != "lock" and f"`{it}`" not in page], [])

    def test_examples_are_what_is_said_of_the_projects(self) -> None:
        said = set[str]()
        for name in os.listdir(PROJECTS):
            said |= set(text_of("kit", "tests", "projects", name, "expected.txt").split("\n"))
        for page in ("README.md", os.path.join("docs", "USE.md")):
            shown = re.findall(r"(?m)^[\w/]+\.[ch]:\d+:\d+: .*$", text_of(page))
            self.assertTrue(shown, page)
            self.assertEqual([it for it in shown if it not in said], [], page)


if __name__ == "__main__":
    unittest.main()
