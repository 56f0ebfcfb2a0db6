"""The command: statuses, forms of output, limits of time."""

from __future__ import annotations

import json
import os
import pty
import re
import signal
import subprocess
import sys
import time
import unittest
from collections.abc import Callable
from typing import TypeVar

from nalvegop.findings import Finding, one_of_each_array
from nalvegop.lines import Place
from nalvegop.show_html import coloured
from tests.support import COMMAND, EMPTY, folder, nalvegop, needs_checker, program, told_by

_NOTHING = f"echo '{EMPTY}'"
# (`--seconds` counts a processor)
_FOREVER = "while :; do :; done"
_LOST = "#include <stdlib.h>\nvoid lost(void)\n{\n\tvoid *p = malloc(1);\n}\n"


_Found = TypeVar("_Found")


def wait_for(ask: Callable[[], _Found | None]) -> _Found:
    """Returns the first answer that counts, within five minutes: the machine may be slow."""
    end = time.monotonic() + 300
    while not (found := ask()):
        if time.monotonic() > end:
            raise AssertionError("it did not come in time")
        time.sleep(0.05)
    return found


def lines_of(path: str) -> list[str]:
    try:
        with open(path, encoding="utf-8") as it:
            return it.read().split()
    except FileNotFoundError:
        return []


class Statuses(unittest.TestCase):
    def test_words(self) -> None:
        bad = "", "check", "check --depth 9 a.c", "check --format xml a.c", "check --update-baseline a.c", "explain a.c", "explain 1", "what"
        for words in (it.split() for it in bad):
            with folder(a__c="int x;\n") as room:
                said = nalvegop(*words, at=room, checker=program(room, _NOTHING))
                self.assertEqual((said.returncode, said.stdout), (3, ""), words)
                self.assertTrue(said.stderr)

    def test_nothing_found(self) -> None:
        with folder(a__c="int x;\n") as room:
            self.assertEqual(nalvegop("check", "a.c", at=room, checker=program(room, _NOTHING)).returncode, 0)

    def test_a_file_that_is_not_there(self) -> None:
        with folder(a__c="int x;\n") as room:
            said = nalvegop("check", "a.c", "b.c", at=room, checker=program(room, _NOTHING))
            self.assertEqual(said.returncode, 2)
            self.assertIn("b.c: not analysed", said.stderr)

    def test_a_compiler_that_is_not_there(self) -> None:
        with folder(a__c="int x;\n") as room:
            said = nalvegop("check", "a.c", "--", "no-such-cc", "-DX", at=room, checker=program(room, _NOTHING))
            self.assertEqual(said.returncode, 2)
            self.assertIn("there is no compiler no-such-cc", said.stderr)

    def test_a_program_that_is_refused_memory_or_refuses(self) -> None:
        for text, why in (
            ("exit 6", "memory was refused"),
            ('echo "saturn_check: unit.c:1:2: lexical" >&2; exit 2', "unit.c:1:2: lexical"),
            ("kill -SEGV $$", "signal 11"),
            ("kill -KILL $$", "signal 9"),
            ("echo what", "is not JSON"),
            ('echo \'{"format": "nalvegop verdicts", "version": 2}\'', "this kit reads 'nalvegop verdicts', version 1"),
        ):
            with folder(a__c="int x;\n") as room:
                said = nalvegop("check", "a.c", at=room, checker=program(room, text))
                self.assertEqual(said.returncode, 2, text)
                self.assertIn(why, said.stderr)

    def test_a_file_that_takes_too_long_is_named_and_the_others_go_on(self) -> None:
        slow = f"grep -q slow unit.c && {_FOREVER}; {_NOTHING}"
        with folder(a__c="int slow(void) { return 1; }\n", b__c="int quick(void) { return 1; }\n") as room:
            said = nalvegop("check", "--seconds", "3", "a.c", "b.c", at=room, checker=program(room, slow))
            self.assertEqual(said.returncode, 2)
            self.assertIn("a.c: no answer in time: slow", said.stderr)
            self.assertNotIn("b.c:", said.stderr)

    def test_a_slow_function_leaves_time_to_the_others(self) -> None:
        source = "int slow(void) { return 1; }\n" + "".join(f"int f{it}(void) {{ return 1; }}\n" for it in range(3))
        text = f"grep -q slow unit.c && {_FOREVER}; {_NOTHING}"
        with folder(a__c=source) as room:
            said = nalvegop("check", "--seconds", "9", "--format", "json", "a.c", at=room, checker=program(room, text))
            self.assertEqual(json.loads(said.stdout)["files"][0]["late"], ["slow"])

    def test_a_function_that_is_slow_with_what_it_calls_is_answered_without(self) -> None:
        source = "int m;\nint helper(int n) { spin_unlock(&m); return n; }\nint caller(int n)\n{ spin_lock(&m);\n  helper(n);\n  spin_lock(&m); return 0; }\n"
        # (stands for the checker: it never ends on a text with both bodies; lines are counted from that of `int m;`)
        text = """
at, has_body = lines.index("int m;") + 1, "int helper(int n) {" in text
if any(it.startswith("{") for it in lines):
    while has_body:
        pass
    row = {"entry": [True], "before": {"state": "U"}, "result": "none", "after": "error"}
    events = [call(at + 3, 3, "spin_lock"), call(at + 4, 3, "helper"), call(at + 5, 3, "spin_lock"), event(at + 5, 3, "error")]
    report = {"kind": "double", "path": {"text": "m"}, "runs": [{"choice": "0", "location": "m", "events": events}]}
    function("caller", at + 2, 5, ["n"], [{"item": "state", "path": {"text": "m"}, "rows": [row]}], [report])
if has_body:
    function("helper", at + 1, 5, ["n"])
"""
        with folder(a__c=source) as room:
            words = "check", "--seconds", "12", "--models", "none", "a.c"
            said = nalvegop("check", "--format", "json", *words[1:], at=room, checker=told_by(room, text))
            file = json.loads(said.stdout)["files"][0]
            self.assertEqual((said.returncode, file["late"], file["analysed"]), (1, [], ["helper", "caller"]))
            self.assertEqual(file["without_calls"], [{"function": "caller", "calls": ["helper"]}])
            self.assertEqual(file["findings"][0]["unsure"], ["what 'helper' does is not followed"])
            said = nalvegop(*words, "--strict", at=room, checker=told_by(room, text))
            self.assertEqual(said.returncode, 2)
            self.assertIn("a.c: without what they call, for want of time: caller\n", said.stderr)
            self.assertIn("2 functions analysed in 1 file, 1 of them without what they call, for want of time", said.stderr)

    def test_a_leak_that_may_be_none_is_looked_for_once_more(self) -> None:
        source = "int m;\nvoid clear(int **p) { free(*p); m = 1; }\nvoid f(void)\n{ int *q;\n  q = malloc(4);\n  clear(&q); }\n"
        # (stands for the checker: it refuses the text in which `clear` has no body)
        text = """
if "free(*p)" not in text:
    sys.exit(2)
at = lines.index("int m;") + 1
events = [call(at + 4, 7, "malloc"), call(at + 5, 3, "clear"), event(at + 5, 14, "end")]
ends = {"item": "end", "rows": [{"entry": [], "before": None, "result": "none", "after": None}]}
function("clear", at + 1, 6, ["p"])
function("f", at + 2, 6, [], [ends], [{"kind": "leak", "place": place(at + 4, 7), "runs": [{"choice": "0", "location": "", "events": events}]}])
"""
        with folder(a__c=source) as room:
            said = nalvegop("check", "--models", "none", "--format", "json", "a.c", at=room, checker=told_by(room, text))
            file = json.loads(said.stdout)["files"][0]
            self.assertEqual((said.returncode, file["failure"]), (1, None))
            self.assertEqual(file["findings"][0]["unsure"], ["'clear' may have freed it or given it away"])

    def test_a_function_of_which_nothing_is_said_is_named(self) -> None:
        with folder(a__c="int f(void) { return 1; }\n") as room:
            said = nalvegop("check", "--verbose", "--strict", "a.c", at=room, checker=program(room, _NOTHING))
            self.assertEqual(said.returncode, 2)
            self.assertIn("a.c:1:5: 'f' is passed over: syntax that is not read\n", said.stderr)

    def test_many_functions_without_an_answer_are_not_all_named(self) -> None:
        source = "".join(f"int f{it}(void) {{ return 1; }}\n" for it in range(9))
        slow = _FOREVER
        with folder(a__c=source) as room:
            said = nalvegop("check", "--seconds", "2", "a.c", at=room, checker=program(room, slow))
            self.assertIn("a.c: no answer in time: f0, f1, f2, f3, f4 and 4 more (--verbose names all)", said.stderr)
            said = nalvegop("check", "--seconds", "2", "--verbose", "a.c", at=room, checker=program(room, slow))
            self.assertIn("f7, f8\n", said.stderr)
            self.assertEqual(nalvegop("explain", "--seconds", "2", "a.c:1", at=room, checker=program(room, slow)).returncode, 2)

    def test_files_side_by_side_are_shown_in_their_order(self) -> None:
        late = f"grep -q first unit.c && sleep 1; {_NOTHING}"
        with folder(a__c="int first(void) { return 1; }\n", b__c="int x;\n", c__c="int y;\n") as room:
            said = nalvegop("check", "-j", "3", "--format", "json", "a.c", "b.c", "c.c", at=room, checker=program(room, late))
            self.assertEqual([it["file"] for it in json.loads(said.stdout)["files"]], ["a.c", "b.c", "c.c"])

    def test_what_runs_is_ended_with_the_command(self) -> None:
        slow = 'echo $$ >>"$PIDS"; exec sleep 300'
        for number, jobs in ((signal.SIGTERM, "1"), (signal.SIGTERM, "2"), (signal.SIGINT, "2")):
            with folder(a__c="int f(void) { return 1; }\n", b__c="int f(void) { return 1; }\n") as room:
                pids = os.path.join(room, "pids")
                env = {**os.environ, "NALVEGOP_CHECKER": program(room, slow), "PIDS": pids}
                with subprocess.Popen([sys.executable, "-B", COMMAND, "check", "-j", jobs, "a.c", "b.c"], cwd=room, env=env, stderr=subprocess.DEVNULL) as it:
                    begun = wait_for(lambda: lines_of(pids) if len(lines_of(pids)) >= int(jobs) else None)
                    it.send_signal(number)
                    self.assertEqual(it.wait(300), 130)
                self.assertTrue(wait_for(lambda: not any(os.path.exists(f"/proc/{pid}") for pid in begun)), (number, jobs))

    def test_a_line_on_a_terminal_says_how_many_files_are_done(self) -> None:
        with folder(a__c="int x;\n", b__c="int y;\n") as room:
            ours, theirs = pty.openpty()
            env = {**os.environ, "NALVEGOP_CHECKER": program(room, _NOTHING)}
            with subprocess.Popen([sys.executable, "-B", COMMAND, "check", "a.c", "b.c"], cwd=room, env=env, stdout=subprocess.DEVNULL, stderr=theirs) as it:
                os.close(theirs)
                it.wait(60)
            shown = os.read(ours, 10_000).decode()
            os.close(ours)
            self.assertIn("\rnalvegop: 1 of 2 files", shown)
            said = nalvegop("check", "a.c", "b.c", at=room, checker=program(room, _NOTHING))
            self.assertNotIn("of 2 files", said.stderr)

    def test_a_database_that_lacks_a_file(self) -> None:
        with folder(
            a__c="int x;\n", b__c="int x;\n", compile_commands__json=json.dumps([{"directory": ".", "file": "a.c", "arguments": ["gcc", "a.c"]}])
        ) as room:
            checker = program(room, _NOTHING)
            self.assertEqual(nalvegop("check", "-p", ".", at=room, checker=checker).returncode, 0)
            said = nalvegop("check", "-p", "compile_commands.json", "b.c", at=room, checker=checker)
            self.assertEqual(said.returncode, 2)
            self.assertIn("b.c", said.stderr)
            self.assertEqual(nalvegop("check", "-p", "missing.json", at=room, checker=checker).returncode, 2)

    def test_as_the_checker_of_the_kernels_make(self) -> None:
        echo = f'grep -q "int given" unit.c || exit 6; {_NOTHING}'
        with folder(a__c="NAME int f(void) { return given; }\n") as room:
            said = nalvegop(
                "sparse",
                "-D__linux__",
                "--arch=i386",
                "-mlittle-endian",
                "-Wbitwise",
                "-DNAME=extern int given;",
                "-I.",
                "a.c",
                at=room,
                checker=program(room, echo),
            )
            self.assertEqual((said.returncode, said.stdout), (0, ""))
            self.assertNotIn("not analysed", said.stderr)
            self.assertEqual(nalvegop("sparse", "-DX", at=room, checker=program(room, echo)).returncode, 3)
            words = "sparse", "--format", "json", "--output", "found.json", "--", "-DNAME=extern int given;", "--arch=i386", "a.c"
            self.assertEqual(nalvegop(*words, at=room, checker=program(room, echo)).returncode, 0)
            with open(os.path.join(room, "found.json"), encoding="utf-8") as it:
                self.assertEqual([(one["file"], one["failure"]) for one in json.load(it)["files"]], [("a.c", None)])
            self.assertEqual(nalvegop("sparse", "--depth", "9", "--", "a.c", at=room, checker=program(room, echo)).returncode, 3)

    @needs_checker
    def test_findings_and_strictness(self) -> None:
        with folder(a__c=_LOST, b__c="int f(int n, ...) { return n; }\n") as room:
            self.assertEqual(nalvegop("check", "a.c", at=room).returncode, 1)
            self.assertEqual(nalvegop("check", "--only", "double", "a.c", at=room).returncode, 0)
            self.assertEqual(nalvegop("check", "b.c", at=room).returncode, 0)
            self.assertEqual(nalvegop("check", "--strict", "b.c", at=room).returncode, 2)

    @needs_checker
    def test_baseline(self) -> None:
        with folder(a__c=_LOST) as room:
            self.assertEqual(nalvegop("check", "--baseline", "base.json", "--update-baseline", "a.c", at=room).returncode, 0)
            said = nalvegop("check", "--baseline", "base.json", "a.c", at=room)
            self.assertEqual((said.returncode, said.stdout), (0, ""))
            self.assertIn("1 finding known by the baseline", said.stderr)
            with open(os.path.join(room, "a.c"), "w", encoding="utf-8") as it:
                it.write("\n\n" + _LOST + _LOST.replace("lost", "also"))
            said = nalvegop("check", "--baseline", "base.json", "a.c", at=room)
            self.assertEqual(said.returncode, 1)
            self.assertEqual(re.findall(r"warning.*'(\w+)' ends \[leak\]", said.stdout), ["also"])


class Forms(unittest.TestCase):
    @needs_checker
    def test_json_and_html(self) -> None:
        with folder(a__c=_LOST) as room:
            value = json.loads(nalvegop("check", "--format", "json", "a.c", at=room).stdout)
            self.assertEqual(value["files"][0]["findings"][0]["line"], 4)
            said = nalvegop("check", "--format", "html", "--output", "out.html", "a.c", at=room)
            self.assertEqual((said.returncode, said.stdout), (1, ""))
            with open(os.path.join(room, "out.html"), encoding="utf-8") as it:
                page = it.read()
            self.assertIn('<span class="word">void</span> *p = malloc(<span class="number">1</span>);', page)
            self.assertNotRegex(page, r"(src|href)=\"(?!#)")

    def test_all_elements_of_an_array_are_one_finding(self) -> None:
        def made(about: str, line: int = 1, kind: str = "double") -> Finding:
            return Finding(kind, "f", Place("a.c", line, 1), about, [], about=about)

        given = [made("a[1]"), made("a[2]"), made("b"), made("b"), made("a[1]", 2), made("a[3]"), made("a[4]", 1, "ambiguous"), made("a[1].b[2]")]
        self.assertEqual([it.message for it in one_of_each_array(given)], ["a[1]; the same of 2 more elements", "b", "b", "a[1]", "a[4]", "a[1].b[2]"])

    def test_coloured_source(self) -> None:
        made = coloured(["int a; /* of <two>", 'lines */ char *s = "\u00c3\u00a9 & //";', "#if 1 // rest"])
        self.assertEqual(made[0], '<span class="word">int</span> a; <span class="comment">/* of &lt;two&gt;</span>')
        self.assertEqual(
            made[1], '<span class="comment">lines */</span> <span class="word">char</span> *s = <span class="string">&quot;\u00e9 &amp; //&quot;</span>;'
        )
        self.assertEqual(made[2], '#<span class="word">if</span> <span class="number">1</span> <span class="comment">// rest</span>')

    @needs_checker
    def test_a_name_that_is_no_text(self) -> None:
        with folder() as room:
            name = os.fsdecode(b"a\xff 'b'.c")
            with open(os.path.join(room, name), "w", encoding="utf-8") as it:
                it.write(_LOST)
            for form in ("gcc", "json", "html", "sarif"):
                said = nalvegop("check", "--format", form, name, at=room)
                self.assertEqual((said.returncode, "Traceback" in said.stderr), (1, False), said.stderr)
            self.assertIn("a%FF%20%27b%27.c", said.stdout)

    @needs_checker
    def test_colours_of_a_terminal(self) -> None:
        with folder(a__c=_LOST) as room:
            plain = nalvegop("check", "a.c", at=room).stdout
            self.assertNotIn("\033", plain)
            self.assertEqual(nalvegop("check", "--color", "never", "a.c", at=room).stdout, plain)
            said = nalvegop("check", "--color", "always", "a.c", at=room).stdout
            self.assertIn("\033[1ma.c:4:12:\033[m \033[1;35mwarning:\033[m ", said)
            self.assertEqual(re.sub(r"\033\[[\d;]*m", "", said), plain)

    @needs_checker
    def test_explain_and_rows(self) -> None:
        with folder(a__c=_LOST) as room:
            said = nalvegop("explain", "a.c:4", at=room)
            self.assertEqual(said.returncode, 1)
            self.assertIn("it can end", said.stdout)
            self.assertEqual(nalvegop("explain", "a.c:1", at=room).returncode, 0)
            nalvegop("check", "--format", "json", "--output", "found.json", "a.c", at=room)
            self.assertEqual(nalvegop("explain", "1", "--from", "found.json", at=room).stdout, said.stdout)
            self.assertEqual(nalvegop("explain", "2", "--from", "found.json", at=room).returncode, 3)
            said = nalvegop("rows", "a.c", "lost", at=room)
            self.assertEqual(said.stdout, "lost:\n  how it ends\n    gives\n    nothing\n")
            self.assertEqual(nalvegop("rows", "a.c", "other", at=room).returncode, 2)


if __name__ == "__main__":
    unittest.main()
