"""The models: each macro evaluates an argument at most once, and the headers stand beside the real ones."""

from __future__ import annotations

import os
import re
import subprocess
import unittest

from nalvegop.preprocess import MODELS, model_names
from tests.support import TOP, folder

# Names of variables, which these loops count, as those that they stand for do.
_LOOPS = re.compile(r"h?list_for_each\w*")


def _macros() -> list[tuple[str, list[str], str]]:
    """Returns the macros with parameters of all models: name, parameters, text."""
    found = []
    for at, _, names in os.walk(MODELS):
        for name in names:
            with open(os.path.join(at, name), encoding="utf-8") as it:
                text = it.read().replace("\\\n", " ")
            for it_ in re.finditer(r"^#define (\w+)\(([^)]*)\)[ \t]*(.*)", text, re.MULTILINE):
                found.append((it_[1], [one.strip() for one in it_[2].split(",") if one.strip()], it_[3]))
    return found


class Macros(unittest.TestCase):
    def test_no_argument_is_evaluated_twice(self) -> None:
        for name, parameters, text in _macros():
            if _LOOPS.fullmatch(name):
                continue
            # (the operand of sizeof is not evaluated)
            bare = re.sub(r"sizeof\([^()]*(\([^()]*\)[^()]*)*\)", "", text)
            for it in parameters:
                word = "__VA_ARGS__" if it == "..." else it
                self.assertLessEqual(len(re.findall(rf"(?<!\.)(?<!->)\b{word}\b", bare)), 1, f"{name}: {it}")

    def test_every_model_stands_in_the_page(self) -> None:
        with open(os.path.join(TOP, "docs", "MODELS.md"), encoding="utf-8") as it:
            page = it.read()
        # (a family of `pr_err_once` and its kin stands there by its first and last)
        family = re.compile(r"(pr|dev)_\w+_(ratelimited|once)")
        named = set(re.findall(r"\w+", page))
        lacking = sorted(name for name in model_names() if name not in named and not family.fullmatch(name))
        self.assertEqual(lacking, [])

    def test_the_headers_of_the_c_library_compile(self) -> None:
        source = "#define _GNU_SOURCE\n" + "".join(f"#include <{it}>\n" for it in sorted(os.listdir(os.path.join(MODELS, "libc"))))
        source += 'int f(char *s, FILE *o, void **p) { assert(s); errno = 0; strcpy(s, "a"); fprintf(o, "%s", s); return posix_memalign(p, 8, 8) + strcmp(s, s) + (asprintf(&s, "a") < 0); }\n'
        for compiler in ("gcc", "clang"):
            with folder(a__c=source) as room:
                words = [compiler, "-isystem", os.path.join(MODELS, "libc"), "-fsyntax-only", "-Wall", "-Wno-unused", "a.c"]
                said = subprocess.run(words, cwd=room, capture_output=True, text=True, check=False)
                self.assertEqual((said.returncode, said.stderr), (0, ""), compiler)

    def test_the_header_of_linux_preprocesses_without_a_kernel(self) -> None:
        said = subprocess.run(
            ["gcc", "-nostdinc", "-I.", "-include", os.path.join(MODELS, "linux.h"), "-E", "-x", "c", os.devnull], capture_output=True, text=True, check=False
        )
        self.assertEqual((said.returncode, said.stderr), (0, ""))


if __name__ == "__main__":
    unittest.main()
