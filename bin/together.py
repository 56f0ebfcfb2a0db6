"""`bin/try-edits --together`: many wrong bodies of one crate are tried in one check.

The proof of a function reads the contracts of the others and never their bodies. So edits that change different
functions, and nothing but bodies, are made together on one copy of the crate, and one `rt check --only` asks for these
functions alone: what lies below is loaded once. Edits that change the same function come in another round, over what
the first one kept. So do those that change anything else than bodies, each by itself.

What is said of an edit rests on the lines of the functions that it changes:

refused      the check names a goal of such a function that is open, or an answer of its proof that does not fit
lost         it says nothing but that a proof names what the edit took away: the edit has to be written anew
bad          the edit cannot be applied, or does not compile
LET THROUGH  all of its functions are proved
no verdict   none of these: the prover met a limit of its own, or the check did not end

A function that calls one that is not proved is not proved either. Where nothing else is said of it, its edit is tried
again without those that were settled.
"""

from __future__ import annotations

import os
import re
import shutil
import subprocess
from collections.abc import Iterator
from dataclasses import dataclass, field

# Where the check says that something is wrong: the file, the line, and what.
PLACE = re.compile(r"(?:note: )?(?:\./)?((?:src|proofs|specs)/\S+?):(\d+):(\d+): (.*)")
WRONG = re.compile(r"\berror\b|is not proved")
# Of a proof that names what is not there, and of what cites that proof.
GONE = re.compile(r"has no field|is not in scope|has no `|was not admitted")
# The compiler's own errors.
COMPILES_NOT = re.compile(r"\berror\[[\w-]+\]")
# What it says of each function.
FUNCTION = re.compile(r"fn (\S+): (proved|not proved|no proof|could not tell)(.*)")
RESTS = re.compile(r"[:;] it calls ")
HEAD = re.compile(r"( *)(?:pub(?:\([a-z]+\))? )?(?:const )?(?:unsafe )?fn (\w+)")
IMPL = re.compile(r"( *)impl\b(?:<.*?>)? (.*?) *\{?$")


@dataclass
class Function:
    """A function of a file: its lines (the first one is that of its `fn`), and where its body begins."""

    name: str
    first: int
    body: int
    last: int
    cycle: str = ""

    @property
    def unit(self) -> str:
        """What is proved as one: the functions of a cycle have one proof."""
        return f"+{self.cycle}" if self.cycle else self.name


@dataclass
class Edit:
    name: str
    # the new texts of the files that it changes, by their paths
    pairs: list[tuple[str, str, str]] = field(default_factory=list)
    functions: list[tuple[str, Function]] = field(default_factory=list)
    bodies_alone: bool = True
    said: str = ""

    @property
    def units(self) -> set[str]:
        return {it.unit for _, it in self.functions}


def bare(words: str) -> str:
    """A type's name as the check writes it in a function's path: without its parameters and its path."""
    return words.partition("<")[0].split("::")[-1].strip()


def functions_of(path: str, text: str) -> list[Function]:
    """Returns the functions of a file that `rt fmt` has laid out."""
    lines, found = text.split("\n"), list[Function]()
    module = path.removeprefix("src/").removesuffix(".rt").removesuffix("/mod").replace("/", "::")
    module = "" if module in ("lib", "main") else module
    owner, inside, cycle = "", -1, ""
    for at, line in enumerate(lines):
        impl = IMPL.match(line)
        if impl:
            trait, _, of = impl[2].partition(" for ")
            owner, inside = bare(of) + re.sub(r"\W", "", trait) if of else bare(trait), len(impl[1])
        elif inside >= 0 and line == " " * inside + "}":
            owner, inside = "", -1
        marked = re.match(r" *#\[.*\bcycle\((\w+)\)", line)
        cycle = marked[1] if marked else cycle
        head = HEAD.match(line)
        if not head or found and at <= found[-1].last:
            continue
        indent, body, last = head[1], -1, at
        for last in range(at, len(lines)):
            it = lines[last]
            if body < 0 and (it in (f"{indent}{{", f"{indent}{{}}") or it.startswith((indent + "fn", indent + "pub", indent + ")", indent + "const", indent + "unsafe")) and it.endswith(("{", "}"))):
                body = last
                if it.endswith("}"):
                    break
            elif body < 0 and (it.endswith(";") and (last == at or it.startswith(f"{indent})")) or last > at and it and not it.startswith((indent + " ", indent + ")", indent + "where"))):
                break
            elif body >= 0 and it == f"{indent}}}":
                break
        path_of = f"{owner}::{head[2]}" if owner else "::".join(it for it in (module, head[2]) if it)
        found.append(Function(path_of, at + 1, body + 1, last + 1, cycle))
        cycle = ""
    return found


def read_edit(file: str, crate: str) -> Edit:
    """Returns the edit, which is `bad` where it cannot be applied to the crate's files."""
    edit, path, old = Edit(os.path.basename(file)), "", ""
    texts = dict[str, str]()
    with open(file, encoding="utf-8") as lines:
        for line in lines.read().split("\n"):
            if line.startswith("file: "):
                path = line[len("file: ") :].strip()
            elif line.startswith("old: "):
                old = line[len("old: ") :]
            elif line.startswith("new:"):
                new = line[len("new:") :].removeprefix(" ")
                if path not in texts:
                    with open(f"{crate}/{path}", encoding="utf-8") as it:
                        texts[path] = it.read()
                count = texts[path].count(old) if old else 0
                if count != 1:
                    edit.said = f"bad: an old text stands in {path} {count} times, and not once"
                    return edit
                place(edit, path, texts[path], texts[path].index(old), old)
                texts[path] = texts[path].replace(old, new)
                edit.pairs.append((path, old, new))
    return edit


def place(edit: Edit, path: str, text: str, at: int, old: str) -> None:
    """Notes which function the pair changes."""
    line = text.count("\n", 0, at) + 1
    functions = functions_of(path, text) if path.startswith("src/") else []
    of = next((it for it in functions if it.first <= line <= it.last), None)
    if of is None or not of.body or line < of.body or line == of.body and of.body != of.first:
        edit.bodies_alone = False
    if of is not None and (path, of) not in edit.functions:
        edit.functions.append((path, of))


def rounds_of(edits: list[Edit]) -> Iterator[list[Edit]]:
    """Returns the edits in rounds, in each of which no two change what has one proof."""
    left = [it for it in edits if not it.said]
    # (a change of more than bodies is checked with the whole crate, and best over what is kept)
    left.sort(key=lambda it: not it.bodies_alone)
    while left:
        taken, units = list[Edit](), set[str]()
        for edit in left:
            if not taken or edit.bodies_alone and taken[0].bodies_alone and not edit.units & units:
                taken.append(edit)
                units |= edit.units
        left = [it for it in left if it not in taken]
        yield taken


def is_in(name: str, said: str) -> bool:
    """Whether a function that the check names is this one. At the root of the crate it has no module before it."""
    return said.endswith(f"::{name}") and ("::" in name or said.count("::") == 1)


def is_of(function: Function, path: str, at: str, line: int) -> bool:
    """Whether a place is in a function's code or in its proof."""
    own = function.name.replace("::", "/")
    module, slash, last = own.rpartition("/")
    # (a function that calls itself has a folder as a cycle has)
    folders = [f"+{function.cycle}"] if function.cycle else [own, f"{module}{slash}+{last}"]
    in_proof = at.startswith("proofs/") and any(at.startswith(f"proofs/{it}/") or f"/{it}/" in at and ("/" in it or "+" in it) for it in folders)
    return in_proof or at == path and function.first <= line <= function.last


def places(lines: list[str], edit: Edit) -> list[tuple[str, str]]:
    """Returns what the check says of the edit's functions and of their proofs: the place, and what is wrong there."""
    found = list[tuple[str, str]]()
    for line in lines:
        at = PLACE.match(line)
        if at and WRONG.search(at[4]) and (not edit.bodies_alone or any(is_of(of, path, at[1], int(at[2])) for path, of in edit.functions)):
            found.append((f"{at[1]}:{at[2]}", at[4]))
    return found


def verdict(lines: list[str], edit: Edit) -> str:
    """Returns what the check says of an edit, or nothing where it says only that what is called is not proved. An edit
    that changes more than bodies is held against every function."""
    said = {it[1]: (it[2], it[3]) for it in map(FUNCTION.match, lines) if it}
    found = [next((it for name, it in said.items() if is_in(of.name, name)), ("not named", "")) for _, of in edit.functions]
    found = found if edit.bodies_alone else [*said.values()]
    words = {word for word, _ in found} - {"proved"}
    if found and not words:
        return "LET THROUGH"
    if words & {"not proved", "no proof"}:
        open_goals = [it[1] for it in (re.search(r"did not prove `([^`]+)`", why) for _, why in found) if it]
        if open_goals:
            return f"refused: {open_goals[0]} (no answer, and none is found)"
        wrong = places(lines, edit)
        goals = [it for it in wrong if not (it[0].startswith("proofs/") and GONE.search(it[1]))]
        if wrong:
            at, why = (goals or wrong)[0]
            named = re.search(r"`([^`]+)`", why)
            return f"{'refused' if goals else 'lost'}: {named[1] if named else why} ({at})"
        if all(word == "proved" or RESTS.match(why) for word, why in found):
            return ""
    return f"no verdict: {', '.join(sorted(words)) or 'the check names no function'}"


def check(folder: str, edits: list[Edit]) -> list[str]:
    """Makes the edits in the crate's folder, checks what they change, takes them back, and returns what the check said."""
    were = dict[str, str]()
    words = ["rt", "check", *(["--jobs", os.environ["RT_JOBS"]] if os.environ.get("RT_JOBS", "").isdigit() else [])]
    if edits[0].bodies_alone:
        words += [word for name in sorted({of.name for edit in edits for _, of in edit.functions}) for word in ("--only", name)]
    try:
        for path, old, new in [pair for edit in edits for pair in edit.pairs]:
            with open(f"{folder}/{path}", encoding="utf-8") as it:
                text = it.read()
            were.setdefault(path, text)
            with open(f"{folder}/{path}", "w", encoding="utf-8") as it:
                it.write(text.replace(old, new))
        ran = subprocess.run(words, cwd=folder, stdin=subprocess.DEVNULL, stdout=subprocess.PIPE, stderr=subprocess.STDOUT, text=True, errors="replace", check=False)
    finally:
        for path, text in were.items():
            with open(f"{folder}/{path}", "w", encoding="utf-8") as it:
                it.write(text)
    return ran.stdout.split("\n")


def tell(name: str, edit: Edit, said: str) -> None:
    edit.said = said
    print(f"{name}/{edit.name}: {said}"[:240], flush=True)


def try_round(name: str, folder: str, edits: list[Edit], log: str | None) -> None:
    """Tries edits in one check; and once more those of which it says nothing, since others do not compile or are refused."""
    left = edits
    while left:
        lines = check(folder, left)
        if log:
            with open(log, "a", encoding="utf-8") as it:
                it.write("\n".join([f"== {name}: {' '.join(edit.name for edit in left)}", *lines, ""]))
        broken = [it for it in lines if COMPILES_NOT.search(it)]
        for edit in left:
            here = [why for _, why in places(broken, edit)] or broken * (len(left) == 1)
            said = f"bad: {here[0]}" if here else "" if broken else verdict(lines, edit)
            if said:
                tell(name, edit, said)
        if all(not it.said for it in left):
            for edit in left:
                tell(name, edit, f"no verdict: {broken[0] if broken else 'what it calls is not proved'}")
        left = [it for it in left if not it.said]


def try_crate(name: str, top: str, files: list[str], log: str | None = None) -> list[str]:
    """Tries the edits in the copy at `top`, prints a line for each, and returns the verdicts."""
    folder = f"{top}/crates/{name}"
    edits = [read_edit(it, folder) for it in files]
    for edit in edits:
        if edit.said:
            tell(name, edit, edit.said)
    for taken in rounds_of(edits):
        try_round(name, folder, taken, log)
    shutil.rmtree(f"{folder}/out/incremental", ignore_errors=True)
    return [it.said for it in edits]
