"""The compilation database, and the flags that are kept."""

from __future__ import annotations

import json
import os
import unittest

from nalvegop.compilations import BadDatabase, kept_flags, of_flags, read_database
from nalvegop.preprocess import Models, NotPreprocessed, fitting_models, preprocessed, width_model
from tests.support import folder


class Flags(unittest.TestCase):
    def test_output_warnings_and_dependencies_go(self) -> None:
        words = "-c -o x.o -Wall -Werror=format -g3 -MD -MF x.d -MT x.o -MFy.d -MQy -Wp,-MMD,z.d -save-temps -pipe a.c b.o -lm -L /lib -Wl,-z,now -u f".split()
        self.assertEqual(kept_flags(words), [])

    def test_words_in_a_file(self) -> None:
        with folder(more__rsp="-DA='b c' -o x.o @other.rsp", other__rsp="-DB @more.rsp", a__c="int x;\n") as room:
            database = json.dumps([{"directory": room, "file": "a.c", "arguments": ["gcc", "@more.rsp", "@missing", "a.c"]}])
            with open(os.path.join(room, "db.json"), "w", encoding="utf-8") as it:
                it.write(database)
            flags = read_database(os.path.join(room, "db.json"))[0].flags
            self.assertEqual(flags[:3], ("-DA=b c", "-DB", "-DA=b c"))
            self.assertEqual({*flags}, {"-DA=b c", "-DB"})

    def test_what_changes_the_text_stays(self) -> None:
        words = [
            "-I",
            "a b",
            "-Ic",
            "-D",
            "X=-c",
            '-DY="a b"',
            "-UZ",
            "-isystem",
            "d",
            "-include",
            "e.h",
            "-std=gnu11",
            "-m32",
            "-O2",
            "-fshort-enums",
            "-x",
            "c",
            "-nostdinc",
            "-Wp,-DA=1",
        ]
        self.assertEqual(kept_flags([*words, "-c", "f.c"]), words)

    def test_the_first_word_may_name_the_compiler(self) -> None:
        self.assertEqual(of_flags(["a.c"], ["clang", "-DX"])[0].compiler, "clang")
        self.assertEqual(of_flags(["a.c"], ["-DX"])[0].flags, ("-DX",))


class Database(unittest.TestCase):
    def read(self, value: object) -> list[tuple[str, str, tuple[str, ...]]]:
        with folder(compile_commands__json=json.dumps(value)) as room:
            return [(it.compiler, os.path.relpath(it.path, room), it.flags) for it in read_database(os.path.join(room, "compile_commands.json"))]

    def test_arguments_and_commands(self) -> None:
        entries = [
            {"directory": ".", "file": "a.c", "arguments": ["ccache", "gcc", "-DA", "-c", "a.c"]},
            {"directory": "sub", "file": "../it's.c", "command": 'cc \'-DX="a b"\' -c "../it\'s.c"'},
            {"directory": ".", "file": "b.cc", "arguments": ["g++", "b.cc"]},
            {"directory": ".", "file": "a.c", "arguments": ["gcc", "-DSECOND", "a.c"]},
        ]
        self.assertEqual(self.read(entries), [("gcc", "a.c", ("-DA",)), ("cc", "it's.c", ('-DX="a b"',))])

    def test_what_is_no_database(self) -> None:
        for value in ({}, [1], [{"file": "a.c"}], {"a": 1}):
            if value != {}:
                with self.assertRaises(BadDatabase):
                    self.read(value)
        with self.assertRaises(BadDatabase):
            read_database("/nonexistent/compile_commands.json")


class Preprocessing(unittest.TestCase):
    def test_a_compiler_that_is_not_there_is_named(self) -> None:
        with folder(a__c="int x;\n") as room:
            it = of_flags([os.path.join(room, "a.c")], ["no-such-compiler"])[0]
            with self.assertRaisesRegex(NotPreprocessed, "there is no compiler no-such-compiler"):
                preprocessed(it, Models("none"), 10)

    def test_a_file_that_does_not_preprocess(self) -> None:
        with folder(a__c='#include "missing.h"\n') as room:
            with self.assertRaisesRegex(NotPreprocessed, "missing.h"):
                preprocessed(of_flags([os.path.join(room, "a.c")], ["gcc"])[0], Models("none"), 10)

    def test_widths(self) -> None:
        with folder(a__c="int x;\n") as room:
            file = os.path.join(room, "a.c")
            self.assertEqual(width_model(of_flags([file], ["gcc"])[0]), "lp64")
            self.assertEqual(width_model(of_flags([file], ["gcc", "-m32"])[0]), "ilp32")
            self.assertEqual(width_model(of_flags([file], ["gcc", "-fno-PIE", "-mcmodel=kernel", "-DX=("])[0]), "lp64")

    def test_models_that_fit(self) -> None:
        with folder(k__c="#include <linux/slab.h>\n", u__c="#include <stdio.h>\n#include <linux/if.h>\n", n__c="int x;\n") as room:
            cases: list[tuple[str, list[str]]] = [("k.c", []), ("u.c", []), ("n.c", []), ("n.c", ["-D__KERNEL__"])]
            fits = [fitting_models(of_flags([os.path.join(room, it)], flags)[0]) for it, flags in cases]
        self.assertEqual(fits, ["linux", "libc", "libc", "linux"])


if __name__ == "__main__":
    unittest.main()
