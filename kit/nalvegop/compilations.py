"""Which files are checked, and how each is compiled: clang's JSON compilation database, or flags of the command line.

https://clang.llvm.org/docs/JSONCompilationDatabase.html
"""

from __future__ import annotations

import json
import os
import shlex
from dataclasses import dataclass


@dataclass(frozen=True)
class Compilation:
    """A file as its project compiles it: the folder in which the compiler runs, and its words without the file."""

    file: str
    folder: str
    compiler: str
    flags: tuple[str, ...]

    @property
    def path(self) -> str:
        return os.path.normpath(os.path.join(self.folder, self.file))


class BadDatabase(ValueError):
    """The compilation database cannot be read, or is not of its form."""


# Flags that say what is made of the file, where it goes, or what is printed: alone, with a word behind, and as heads.
_DROPPED = {*"-c -S -E -w -pipe -v -P -C -CC -fsyntax-only -save-temps --compile".split()}
_DROPPED_WITH_WORD = {*"-o -MF -MT -MQ -MJ -dumpdir -dumpbase --output -Xlinker -Xassembler -L -l -aux-info -T -u -z -e".split()}
_DROPPED_HEADS = ("-W", "-M", "-g", "-save-temps=", "-fdiagnostics", "-fno-diagnostics", "-l", "-L", "-d", "-o")
# Flags that stay with the word behind.
_WITH_WORD = {
    *"-D -U -I -B -A -x -isystem -iquote -idirafter -include -include-pch -imacros -iprefix -iwithprefix -iwithprefixbefore".split(),
    *"-iwithsysroot -isysroot --sysroot -target --param -Xpreprocessor -Xclang -arch -mllvm".split(),
}
_C_ENDINGS = (".c", ".i")
# How many files of words are read: one that names itself has an end so.
_MOST_FILES = 2_000


def kept_flags(words: list[str]) -> list[str]:
    """Returns the flags that change what the preprocessor gives: all but those of output, warnings and dependencies."""
    kept, at = list[str](), 0
    while at < len(words):
        word = words[at]
        at += 1
        if word in _DROPPED_WITH_WORD:
            at += 1
        elif word in _WITH_WORD:
            kept += words[at - 1 : at + 1]
            at += 1
        elif word.startswith("-Wp,") and "-M" not in word:
            kept.append(word)
        elif word in _DROPPED or word.startswith(_DROPPED_HEADS):
            pass
        elif word.startswith("-") and word != "--":
            # (what begins otherwise is a file to compile or to link)
            kept.append(word)
    return kept


def _expanded(words: list[str], folder: str) -> list[str]:
    """Returns the words with those of a file in place of its name (`@FILE`), as gcc and clang do; else `-o` may hide there."""
    found, waiting, files = list[str](), words[::-1], 0
    while waiting:
        word = waiting.pop()
        inside = _words_of_file(os.path.join(folder, word[1:])) if word.startswith("@") and files < _MOST_FILES else None
        if inside is None:
            found.append(word)
        else:
            waiting += inside[::-1]
            files += 1
    return found


def _words_of_file(path: str) -> list[str] | None:
    try:
        with open(path, encoding="utf-8", errors="surrogateescape") as it:
            return shlex.split(it.read())
    except (OSError, ValueError):
        return None


def read_database(path: str) -> list[Compilation]:
    """Returns the compilations of C files that a database lists, the first of each file."""
    try:
        with open(path, encoding="utf-8") as it:
            entries = json.load(it)
        found: dict[str, Compilation] = {}
        for entry in entries:
            words = entry["arguments"] if "arguments" in entry else shlex.split(entry["command"])
            folder = os.path.join(os.path.dirname(os.path.abspath(path)), entry["directory"])
            file = entry["file"]
            if not words or not file.endswith(_C_ENDINGS):
                continue
            made = Compilation(file, folder, *_compiler_and_flags([str(it) for it in words], folder))
            found.setdefault(os.path.realpath(made.path), made)
        return [*found.values()]
    except (OSError, ValueError, KeyError, TypeError, AttributeError) as error:
        raise BadDatabase(f"{path}: {getattr(error, 'strerror', None) or repr(error)}") from error


_LAUNCHERS = {"ccache", "distcc", "sccache", "icecc"}


def _compiler_and_flags(words: list[str], folder: str) -> tuple[str, tuple[str, ...]]:
    if os.path.basename(words[0]) in _LAUNCHERS and len(words) > 1:
        words = words[1:]
    return words[0], tuple(kept_flags(_expanded(words[1:], folder)))


def of_flags(files: list[str], words: list[str]) -> list[Compilation]:
    """Returns the compilations of files by flags of the command line; the first word may name the compiler."""
    compiler = os.environ.get("CC") or "cc"
    if words and not words[0].startswith("-"):
        compiler, words = words[0], words[1:]
    head = shlex.split(compiler)
    flags = tuple(kept_flags(_expanded([*head[1:], *words], os.curdir)))
    return [Compilation(it, os.getcwd(), head[0], flags) for it in files]


def chosen(listed: list[Compilation], files: list[str]) -> tuple[list[Compilation], list[str]]:
    """Returns the listed compilations of these files, in their order, and the files that are not listed."""
    by_path = {os.path.realpath(it.path): it for it in listed}
    found = [by_path.get(os.path.realpath(it)) for it in files]
    return [it for it in found if it], [name for name, it in zip(files, found) if not it]
