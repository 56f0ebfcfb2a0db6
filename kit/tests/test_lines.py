"""Places: those of preprocessed text in the source, beside the places of gcc's own diagnostics."""

from __future__ import annotations

import os
import re
import subprocess
import unittest

from nalvegop.lines import LineMap, SourceFiles
from tests.support import folder

_SOURCE = """\
#define TWO(a, b) do { a; before(); b; } while (0)
#define NOTHING
#define CALL inner_%d()
#include "header.h"
void f(int   x)
{
\tmark_1();   /* a comment */ mark_2(x  +  1);
\tTWO(x = 1,
\t    mark_14()); mark_3();
\tTWO(x = 1, /* of two
\t\tlines */ x = 2);
\tmark_4(); NOTHING mark_5();
    if (x) mark_6(  "a  b" , x); else  mark_7();
\tx = MACRO(x) + mark_8() + MACRO(MACRO(x)) + mark_9();
#if 0
\tmark_never();
#endif
\tmark_12("\u00e9\u20ac"); mark_13();
\tmark_10(); \\
\tmark_11();
}
"""
_HEADER = "#define MACRO(x) ((x) +\\\n (x))\n\n"


class Places(unittest.TestCase):
    def marks(self, compiler: str) -> tuple[dict[str, tuple[int, int]], dict[str, tuple[int, int]]]:
        """Returns the places of the marks by the map, and by the compiler's own diagnostics."""
        with folder(source__c=_SOURCE, header__h=_HEADER) as room:
            words = ["-std=gnu89", "source.c"]
            text = subprocess.run([compiler, "-E", *words], cwd=room, capture_output=True, encoding="latin-1", check=True).stdout
            bytes_of = ["-fdiagnostics-column-unit=byte"] if compiler == "gcc" else []
            said = subprocess.run(
                [compiler, *bytes_of, "-fsyntax-only", "-Wimplicit-function-declaration", *words], cwd=room, capture_output=True, text=True, check=False
            ).stderr
            line_map = LineMap(text, "source.c", SourceFiles(room))
            found = {}
            for number, line in enumerate(text.split("\n"), 1):
                for it in re.finditer(r"\bmark_\d+", line):
                    place = line_map.place(number, it.start() + 1)
                    self.assertEqual(place.file, "source.c")
                    found[it[0]] = place.line, place.column
        told = {it[3]: (int(it[1]), int(it[2])) for it in re.finditer(r"source\.c:(\d+):(\d+): warning:[^\n]*[‘'](mark_\d+)[’']", said)}
        return found, told

    def test_places_are_those_of_gcc(self) -> None:
        found, told = self.marks("gcc")
        self.assertEqual(len(told), 14)
        self.assertEqual(found, told)

    def test_places_are_those_of_clang(self) -> None:
        if subprocess.run(["sh", "-c", "command -v clang"], capture_output=True, check=False).returncode:
            self.skipTest("there is no clang")
        found, told = self.marks("clang")
        self.assertEqual(found, told)

    def test_a_call_in_a_macro_has_the_place_of_its_name(self) -> None:
        with folder(source__c="#define LOCK(l) take(l)\nvoid f(int a)\n{\n  a++;  LOCK( a );\n}\n") as room:
            text = subprocess.run(["gcc", "-E", "source.c"], cwd=room, capture_output=True, text=True, check=True).stdout
            line_map = LineMap(text, "source.c", SourceFiles(room))
            number, line = next((i, it) for i, it in enumerate(text.split("\n"), 1) if "take" in it)
            self.assertEqual(str(line_map.place(number, line.index("take") + 1)), "source.c:4:9")

    def test_names_with_escapes(self) -> None:
        line_map = LineMap('# 7 "a \\"b\\\\.c"\nint x;\n', "?", SourceFiles(os.curdir))
        self.assertEqual(line_map.source_line(2), ('a "b\\.c', 7))

    def test_a_text_without_markers_is_its_own_source(self) -> None:
        line_map = LineMap("int x;\nint y;\n", "plain.c", SourceFiles(os.curdir))
        self.assertEqual(str(line_map.place(2, 5)), "plain.c:2:5")

    def test_headers_are_not_the_files_own(self) -> None:
        line_map = LineMap('# 1 "a.c"\nint a;\n# 1 "a.h" 1\nint b;\n# 2 "a.c" 2\nint c;\n', "a.c", SourceFiles(os.curdir))
        self.assertEqual([line_map.is_own(it) for it in (2, 4, 6)], [True, False, True])


if __name__ == "__main__":
    unittest.main()
