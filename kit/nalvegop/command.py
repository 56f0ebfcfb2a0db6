"""The command `nalvegop`."""

from __future__ import annotations

import argparse
import enum
import io
import json
import os
import sys
from collections.abc import Callable, Iterable, Iterator
from typing import NoReturn

from . import VERSION
from .check import FileResult, Options, check_file
from .side_by_side import checked_files
from .checker import Checker, NotChecked, find_program
from .compilations import BadDatabase, Compilation, chosen, of_flags, read_database
from .findings import KINDS
from .lines import SourceFiles
from .machines import find_machine
from .noise import BadBaseline, Baseline
from .processes import ENDING
from .rows import rows_text, story
from .show_gcc import Colours, lines_of
from .show_html import page
from .show_json import as_json
from .show_sarif import sarif
from .totals import summary


class Status(enum.IntEnum):
    """What the command ends with."""

    CLEAN = 0
    FOUND = 1
    NOT_ALL = 2
    WORDS = 3
    INTERRUPTED = 130


# Flags that the kernel's make has for sparse, and that no compiler knows. (The compiler is in CC, which make exports.)
_SPARSE_ALONE = ("--arch=", "-mlittle-endian", "-mbig-endian")
# How many of the functions without an answer are named, if not all are to be.
_SHOWN_NAMES = 5
# How many calls of functions that were not analysed are shown, if not all are to be.
_SHOWN_CALLS = 10
_STATUSES = (
    "status: 0 nothing found; 1 findings; 2 some file, or some function in time, was not analysed, with findings or without; 3 the words are not of this form"
)


class _Parser(argparse.ArgumentParser):
    """As argparse has it, but with the status of bad words."""

    def error(self, message: str) -> NoReturn:
        self.print_usage(sys.stderr)
        print(f"{self.prog}: {message}", file=sys.stderr)
        raise SystemExit(Status.WORDS)


def parser() -> argparse.ArgumentParser:
    top = _Parser(prog="nalvegop", description="Finds lost memory, and locks that are taken twice or left in an unknown state, in C.", epilog=_STATUSES)
    top.add_argument("--version", action="version", version=f"nalvegop {VERSION}")
    verbs = top.add_subparsers(dest="verb", required=True, metavar="VERB")
    verbs.add_parser("sparse", help="check the file among the words that the kernel's make hands to CHECK, behind options of check and --; status 0")
    check = verbs.add_parser(
        "check", help="check files, or a whole project", epilog=f"{_STATUSES}. Behind -- stand the compiler, if it is not cc, and its flags."
    )
    check.add_argument("files", nargs="*", metavar="FILE", help="files to check; all of the database where none is named")
    _common(check)
    check.add_argument("--format", choices=("gcc", "sarif", "json", "html"), default="gcc", help="the form of what is shown (gcc)")
    check.add_argument("--output", metavar="FILE", help="write there, and not to standard output")
    check.add_argument("--color", choices=("auto", "always", "never"), default="auto", help="colours in the form gcc: auto, on a terminal alone (auto)")
    check.add_argument("--only", action="append", choices=[*KINDS], default=[], help="show findings of this kind alone; may be given again")
    check.add_argument("--baseline", metavar="FILE", help="do not show the findings in this file")
    check.add_argument("--update-baseline", action="store_true", help="write the findings to the file of --baseline, and end with status 0")
    check.add_argument("--strict", action="store_true", help="status 2 also where a function was passed over, or answered without what it calls")
    check.add_argument("--verbose", action="store_true", help="name each function that was passed over, and what is unknown to its callers")
    check.add_argument("--keep-texts", metavar="FOLDER", help="write the texts that were checked into this folder")
    explain = verbs.add_parser("explain", help="tell the whole story of the findings at a line, or of one by its number")
    explain.add_argument("place", metavar="FILE:LINE|NUMBER", help="a number counts the findings of --from, from 1, as the page of --format html does")
    explain.add_argument("--from", dest="source", metavar="FILE", help="what check --format json wrote")
    _common(explain)
    rows = verbs.add_parser("rows", help="show what functions do, as a table")
    rows.add_argument("file", metavar="FILE")
    rows.add_argument("function", nargs="?", metavar="FUNCTION")
    _common(rows)
    return top


def _common(it: argparse.ArgumentParser) -> None:
    it.add_argument("-p", dest="database", metavar="DATABASE", help="compile_commands.json, or the folder where it stands")
    it.add_argument("-j", dest="jobs", type=_number(1, 256), default=1, metavar="N", help="files at a time (1)")
    it.add_argument("--seconds", type=_number(1, 86_400), default=60, help="the seconds of a processor that a file may take (60); by the clock ten times that")
    it.add_argument("--models", choices=("linux", "libc", "none"), help="macros that stand for a library's; by default what fits the file's includes")
    it.add_argument("--model", action="append", default=[], metavar="FILE", help="a header of your own to put in front; may be given again")
    it.add_argument(
        "--machine", metavar="FILE|NAME", help="states and operations in place of locks; irq, preempt, rcu, file_handle and others come with the kit"
    )
    it.add_argument("--depth", type=_number(1, 8), default=2, help="turns of a loop (2)")
    it.add_argument("--reach", type=_number(1, 4), default=2, help="pointers that lead to objects at entry (2)")
    it.add_argument("--headers", action="store_true", help="show functions of headers too")
    it.add_argument("--unproved", action="store_true", help="compile saturn_check from its sources, once, and prove nothing")


def _number(low: int, high: int) -> Callable[[str], int]:
    """Returns what reads a number from one to another one."""

    def read(word: str) -> int:
        if not word.isdecimal() or not low <= int(word) <= high:
            raise argparse.ArgumentTypeError(f"{word!r} is no number from {low} to {high}")
        return int(word)

    return read


class Trouble(Exception):
    """Nothing can be checked: the text says why, and the number is the status."""

    def __init__(self, text: str, status: Status) -> None:
        super().__init__(text)
        self.status = status


def _as_check(words: list[str]) -> list[str]:
    """Returns the words of `check` for those that the kernel's make hands to sparse: flags, and a file among them. Before
    them, and before --, may stand options of `check`."""
    cut = words.index("--") if "--" in words else -1
    options, words = words[: max(cut, 0)], words[cut + 1 :]
    files = [it for it in words if it.endswith(".c") and not it.startswith("-")]
    if not files:
        raise Trouble("sparse: no file is among the words", Status.WORDS)
    flags = [it for it in words if it != files[-1] and not it.startswith(_SPARSE_ALONE)]
    return ["check", "--models", "linux", *options, files[-1], "--", *flags]


def main(words: list[str]) -> int:
    for stream in (sys.stdout, sys.stderr):
        if isinstance(stream, io.TextIOWrapper):
            # (a name of a file may be of any bytes)
            stream.reconfigure(errors="surrogateescape")
    if words[:1] == ["sparse"]:
        # (make ends where its checker has another status than 0)
        try:
            return 0 if main(_as_check(words[1:])) in (Status.CLEAN, Status.FOUND, Status.NOT_ALL) else Status.WORDS
        except Trouble as trouble:
            print(f"nalvegop: {trouble}", file=sys.stderr)
            return trouble.status
    cut = words.index("--") if "--" in words else len(words)
    flags = words[cut + 1 :]
    it = parser().parse_args(words[:cut])
    ENDING.listen()
    try:
        if it.verb == "check":
            return _check(it, flags)
        return _explain(it, flags) if it.verb == "explain" else _rows(it, flags)
    except Trouble as trouble:
        print(f"nalvegop: {trouble}", file=sys.stderr)
        return trouble.status
    except KeyboardInterrupt:
        return Status.INTERRUPTED


# ---- check


def _check(it: argparse.Namespace, flags: list[str]) -> int:
    if it.update_baseline and not it.baseline:
        raise Trouble("--update-baseline needs --baseline FILE", Status.WORDS)
    options = _options(it)
    compilations, unknown = _compilations(it, it.files, flags)
    results = [*_results(compilations, options, it.jobs), *(FileResult(name, "the database has no entry for it") for name in unknown)]
    if it.keep_texts:
        _keep_texts(results, it.keep_texts)
    known = _without_noise(results, it)
    _name_failures(results, it.verbose)
    status = _status(results, it.strict)
    if it.update_baseline:
        status = Status.NOT_ALL if status == Status.NOT_ALL else Status.CLEAN
    _show(results, it, status)
    _name_missing(results, it.verbose)
    print(f"nalvegop: {summary(results, known)}", file=sys.stderr)
    return status


def _options(it: argparse.Namespace) -> Options:
    machine = find_machine(it.machine) if it.machine else None
    lacking = [*([it.machine] if it.machine and not machine else []), *(name for name in it.model if not os.path.isfile(name))]
    if lacking:
        raise Trouble(f"{lacking[0]}: there is no such file", Status.NOT_ALL)
    try:
        checker = Checker(find_program(it.unproved), it.depth, it.reach, machine)
    except NotChecked as why:
        raise Trouble(str(why), Status.NOT_ALL) from why
    return Options(checker, it.seconds, it.models, tuple(it.model), it.headers)


def _compilations(it: argparse.Namespace, files: list[str], flags: list[str]) -> tuple[list[Compilation], list[str]]:
    if not it.database:
        if not files:
            raise Trouble("name a file, or a database with -p", Status.WORDS)
        return of_flags(files, flags), []
    path = os.path.join(it.database, "compile_commands.json") if os.path.isdir(it.database) else it.database
    try:
        listed = read_database(path)
    except BadDatabase as why:
        raise Trouble(str(why), Status.NOT_ALL) from why
    found, unknown = chosen(listed, files) if files else (listed, [])
    if not found and not unknown:
        raise Trouble(f"{path} lists no C file", Status.NOT_ALL)
    more = tuple(flags)
    return [Compilation(one.file, one.folder, one.compiler, (*one.flags, *more)) for one in found], unknown


def _results(compilations: list[Compilation], options: Options, jobs: int) -> list[FileResult]:
    """Checks the files, some at a time, and keeps their order. A line on the terminal says how many are done."""
    is_shown = sys.stderr.isatty() and len(compilations) > 1
    found = list[FileResult]()
    for result in checked_files(compilations, options, jobs):
        found.append(result)
        if is_shown:
            print(f"\rnalvegop: {len(found)} of {len(compilations)} files", end="", file=sys.stderr, flush=True)
    if is_shown:
        print("\r\033[K", end="", file=sys.stderr)
    return found


def _without_noise(results: list[FileResult], it: argparse.Namespace) -> int:
    """Takes out what is not to be shown, and returns how many findings the baseline knew."""
    for result in results:
        result.findings = [one for one in result.findings if not it.only or one.kind in it.only]
    if not it.baseline:
        return 0
    if it.update_baseline:
        try:
            Baseline(it.baseline).write((one.place.file, one) for result in results for one in result.findings)
        except OSError as error:
            raise Trouble(f"{it.baseline}: {error.strerror}", Status.NOT_ALL) from error
    try:
        baseline = Baseline.read(it.baseline)
    except BadBaseline as why:
        raise Trouble(str(why), Status.NOT_ALL) from why
    known = 0
    for result in results:
        new = [one for one in result.findings if not baseline.takes(one.place.file, one)]
        known += len(result.findings) - len(new)
        result.findings = new
    return known


def _name_failures(results: list[FileResult], is_verbose: bool) -> None:
    for it in results:
        if it.failure:
            print(f"nalvegop: {it.file}: not analysed: {it.failure}", file=sys.stderr)
        if it.late:
            print(f"nalvegop: {it.file}: no answer in time: {_listed(it.late, is_verbose)}", file=sys.stderr)
        if it.without_calls:
            print(f"nalvegop: {it.file}: without what they call, for want of time: {_listed([*it.without_calls], is_verbose)}", file=sys.stderr)
        if is_verbose:
            for name, why in it.passed_over.items():
                print(f"nalvegop: {why.place or it.places.get(name) or it.file}: '{name}' is passed over: {why.text}", file=sys.stderr)


def _name_missing(results: list[FileResult], is_verbose: bool) -> None:
    """Says which calls are missing in the answers."""
    every = [one for it in results for one in it.missing]
    shown = every if is_verbose else every[:_SHOWN_CALLS]
    for one in shown:
        print(f"{one.place}: note: {one.text}", file=sys.stderr)
    if len(shown) < len(every):
        print(f"nalvegop: and {len(every) - len(shown)} more such calls (--verbose shows all)", file=sys.stderr)


def _listed(names: list[str], is_verbose: bool) -> str:
    """Returns the names, or where there are many the first of them and how many more there are."""
    shown = names if is_verbose or len(names) <= _SHOWN_NAMES + 1 else names[:_SHOWN_NAMES]
    more = f" and {len(names) - len(shown)} more (--verbose names all)" if len(shown) < len(names) else ""
    return ", ".join(shown) + more


def _status(results: list[FileResult], is_strict: bool) -> int:
    lacks = any(it.failure or it.late or (is_strict and (it.passed_over or it.without_calls)) for it in results)
    return Status.NOT_ALL if lacks else Status.FOUND if any(it.findings for it in results) else Status.CLEAN


def _show(results: list[FileResult], it: argparse.Namespace, status: int) -> None:
    files = SourceFiles()
    made = io.StringIO()
    if it.format == "gcc":
        for result in results:
            for line in lines_of(result.findings, files, Colours(_is_coloured(it))):
                print(line, file=made)
    elif it.format == "html":
        made.write(page(results, files, status))
    else:
        json.dump(sarif(results, status) if it.format == "sarif" else as_json(results, status), made, indent=1, ensure_ascii=True)
        made.write("\n")
    try:
        if it.output:
            with open(it.output, "w", encoding="utf-8", errors="surrogateescape") as out:
                out.write(made.getvalue())
        else:
            sys.stdout.write(made.getvalue())
            sys.stdout.flush()
    except BrokenPipeError:
        # (whoever read the output has enough of it)
        os.dup2(os.open(os.devnull, os.O_WRONLY), 1)
    except OSError as error:
        raise Trouble(f"{it.output or 'standard output'}: {error.strerror}", Status.NOT_ALL) from error


def _is_coloured(it: argparse.Namespace) -> bool:
    """Returns whether the lines have colours: where they are wanted, or by themselves on a terminal (https://no-color.org)."""
    is_terminal = not it.output and sys.stdout.isatty() and os.environ.get("TERM", "dumb") != "dumb" and not os.environ.get("NO_COLOR")
    return it.color == "always" or it.color == "auto" and is_terminal


def _keep_texts(results: Iterable[FileResult], folder: str) -> None:
    try:
        os.makedirs(folder, exist_ok=True)
        for it in results:
            with open(os.path.join(folder, it.file.replace(os.sep, "__") + ".i"), "w", encoding="latin-1", newline="\n") as out:
                out.write(it.text)
    except OSError as error:
        raise Trouble(f"{error.filename}: {error.strerror}", Status.NOT_ALL) from error


# ---- explain and rows


def _one_file(it: argparse.Namespace, name: str, flags: list[str]) -> FileResult:
    compilations, unknown = _compilations(it, [name], flags)
    if unknown:
        raise Trouble(f"{name}: the database has no entry for it", Status.NOT_ALL)
    result = check_file(compilations[0], _options(it))
    if result.failure:
        raise Trouble(f"{result.file}: not analysed: {result.failure}", Status.NOT_ALL)
    return result


def _explain(it: argparse.Namespace, flags: list[str]) -> int:
    if it.place.isdigit():
        return _explain_number(int(it.place), it.source)
    name, _, line = it.place.rpartition(":")
    if not name or not line.isdigit():
        raise Trouble("the place is FILE:LINE", Status.WORDS)
    result = _one_file(it, name, flags)
    found = [one for one in result.findings if one.place.line == int(line) and os.path.realpath(one.place.file) == os.path.realpath(name)]
    _name_failures([result], False)
    if not found:
        print(f"nalvegop: there is no finding at {it.place}", file=sys.stderr)
        return _status([result], False) if result.late else Status.CLEAN
    _print(text for one in found for text in story(one, result))
    return Status.FOUND


def _explain_number(number: int, source: str | None) -> int:
    if not source:
        raise Trouble("a number needs --from FILE, which check --format json wrote", Status.WORDS)
    try:
        with open(source, encoding="utf-8") as file:
            found = [finding for one in json.load(file)["files"] for finding in one["findings"]]
        stories = [[str(line) for line in finding["story"]] for finding in found]
    except (OSError, ValueError, KeyError, TypeError) as error:
        raise Trouble(f"{source}: {getattr(error, 'strerror', None) or repr(error)}", Status.NOT_ALL) from error
    if not 0 < number <= len(stories):
        raise Trouble(f"{source} has {len(stories)} findings", Status.WORDS)
    _print(stories[number - 1])
    return Status.FOUND


def _rows(it: argparse.Namespace, flags: list[str]) -> int:
    result = _one_file(it, it.file, flags)
    functions = [one for one in result.functions if it.function in (None, one.name)]
    if not functions:
        raise Trouble(f"{it.file} has no function {it.function} of which something is known", Status.NOT_ALL)
    _print(text for one in functions for text in rows_text(one, result))
    return Status.CLEAN


def _print(lines: Iterable[str]) -> None:
    for line in lines:
        print(line)
