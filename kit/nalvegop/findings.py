"""Findings: reports of `saturn_check` in the source's places and in words that a user of C knows."""

from __future__ import annotations

import hashlib
import re
from collections import Counter
from collections.abc import Mapping, Sequence
from dataclasses import dataclass, field

from .filter import PUT
from .lines import LineMap, Place, SourceFiles, decoded
from .observed import Values
from .preprocess import model_names
from .segments import KEYWORDS
from .tokens import OPENING, partners, tokens_of
from .verdicts import At, Event, Function, Report, Row, Run

KINDS = {
    "double": "an operation on a lock, or on another thing with states, is an error whatever its state is at entry",
    "ambiguous": "one result of a function comes with two states of a lock, so no caller can know which it is",
    "inner": "an operation on a lock that callers do not know is an error, for example of a local one",
    "leak": "memory that was allocated is neither freed, nor given to anyone, when the function ends",
}
# The object that models/linux.h gives to operations without an argument, and what there stands for container_of.
PROCESSOR, OBJECT = "nalvegop_cpu", "nalvegop_object"
_LOCKS = {"spin_lock", "mutex_lock", "pthread_mutex_lock"}
_UNLOCKS = {"spin_unlock", "mutex_unlock", "pthread_mutex_unlock"}


@dataclass(frozen=True)
class Step:
    """One step of a path: its place, and what happens there."""

    place: Place
    text: str


@dataclass
class Path:
    """A run that shows a finding. `head` says how it differs from the others, where there are several, and with which values
    it begins: of those, `entry` has what conditions on the path test."""

    head: str
    steps: list[Step]
    choice: str
    entry: dict[str, str] = field(default_factory=dict)


@dataclass
class Finding:
    kind: str
    function: str
    place: Place
    message: str
    paths: list[Path]
    # What it is known by, in a baseline: no line numbers are in it.
    known_by: str = ""
    # Why it may be false.
    marks: list[str] = field(default_factory=list)
    # The location's text as the checker has it.
    about: str = ""
    # What its paths call.
    calls: frozenset[str] = frozenset()

    @property
    def text(self) -> str:
        """Returns the message, and why it may be false."""
        return self.message + (f" (this may be false: {'; '.join(self.marks)})" if self.marks else "")


# A condition with this is of what a variable leads to, or of what a call gives.
_LOOKS_BEHIND = re.compile(r"[*.\[&]|->|\w\s*\(")
# An operator of two operands, and no address.
_BITWISE = re.compile(r"(?<=[\w)\]])\s*&{1,2}\s*")
_ELEMENT = re.compile(r"\[\d+\]")


def one_of_each_array(findings: list[Finding]) -> list[Finding]:
    """Returns the findings with one for all elements of an array of which the same is found; its message counts the others."""
    found, more = dict[tuple[object, ...], Finding](), Counter[tuple[object, ...]]()
    for number, it in enumerate(findings):
        key = (it.kind, it.function, it.place, _ELEMENT.sub("[]", it.about)) if _ELEMENT.search(it.about) else (number,)
        more[key] += key in found
        found.setdefault(key, it)
    for key, it in found.items():
        if more[key]:
            it.message += f"; the same of {more[key]} more element{'s' if more[key] > 1 else ''}"
    return [*found.values()]


def pretty(text: str) -> str:
    """Returns the location's text as C has it: `(*p).m` is `p->m`."""
    return "the processor" if text == PROCESSOR else re.sub(r"\(\*([A-Za-z_]\w*)\)\.", r"\1->", text)


class Teller:
    """Tells findings of one file: over its preprocessed text, and the source's files."""

    def __init__(self, text: str, line_map: LineMap, files: SourceFiles, machine: str | None, functions: list[Function]) -> None:
        self.lines, self.map, self.files, self.machine = text.split("\n"), line_map, files, machine
        # For each function the states in which its callers get an error from it.
        self._errs_in = {it.name: {row.before for item in it.items if item.what == "state" for row in item.rows if row.after == "!"} for it in functions}

    def place(self, at: At) -> Place:
        return self.map.place(at.line, at.column)

    def finding(self, function: Function, report: Report, values: Sequence[Values], notes: Mapping[str, str]) -> Finding:
        """Tells a report; `values`: what is known of each of its runs; `notes`: what is to be said where a function is called."""
        paths = [self._path(function, report, number, values[number], notes) for number in range(len(report.runs))]
        place = self._main_place(function, report)
        made = Finding(report.kind, function.name, place, self._message(function, report), paths)
        made.known_by, made.about = self._known_by(function, report), report.about
        made.calls = frozenset(it.word for run in report.runs for it in run.events if it.kind == "call")
        if _ELEMENT.search(report.about):
            made.marks.append("which element of an array an index means is not told apart")
        made.marks += [f"it depends on the value of '{name}', which callers know" for name in self._deciding(function, report)]
        return made

    def _deciding(self, function: Function, report: Report) -> list[str]:
        """Returns the parameters by whose values the two runs of a report part: rows only say of each whether it is 0."""
        if report.kind == "leak" or len(report.runs) != 2:
            return []
        ways = [{it.at: it.word for it in reversed(run.events) if it.kind in ("if", "switch")} for run in report.runs]
        parts = [at for at, word in ways[0].items() if ways[1].get(at, word) != word]
        texts = [it for it in (_BITWISE.sub(" | ", self._condition_text(at)) for at in parts) if not _LOOKS_BEHIND.search(it)]
        # (a name in capitals is that of a macro, or of a constant)
        names = [{one for one in re.findall(r"[A-Za-z_]\w*", it) if not one.isupper()} for it in texts]
        return sorted({name for one in names if one <= {*function.entry} for name in one})

    def _main_place(self, function: Function, report: Report) -> Place:
        if report.kind == "leak" and report.at:
            return self.place(report.at)
        if report.kind == "ambiguous":
            return self.place(function.at)
        errors = [it for run in report.runs for it in run.events if it.kind == "error"]
        return self.place(errors[0].at if errors else function.at)

    # ---- words

    def _message(self, function: Function, report: Report) -> str:
        about = self._named(report.about)
        if report.kind == "leak":
            how = self._callee_at(report.runs[0], report.at) if report.at and report.runs else None
            return f"memory that {_quoted(how) if how else 'the call'} gives here is lost when '{function.name}' ends"
        given = self._given(function, report)
        if report.kind == "ambiguous":
            rows = self._ambiguous_rows(function, report)
            # (mostly it is not locked at entry, which goes without saying)
            held = ", if it is locked at entry" if rows and rows[0].before == "L" and not self.machine else ""
            return f"callers of '{function.name}' cannot know the state in which it leaves {about}: {self._two_states(function, report)}{held}{given}"
        return f"{about} {self._error(report.runs[0])}{given}"

    def _given(self, function: Function, report: Report) -> str:
        """Says for which entry bits a `double` or `ambiguous` report is: those of the first rows that make it. The
        parameter from which the location is reached is left out: it is not null in any of its rows."""
        rows = self._double_rows(function, report) if report.kind == "double" else self._ambiguous_rows(function, report)
        root = re.search(r"[A-Za-z_]\w*", report.about)
        if not rows:
            return ""
        bits, all_bits = rows[0].entry, self._bits(function, report)
        said = [
            f"'{name}' {function.is_or_not(name, bits[i])}"
            for i, name in enumerate(function.entry)
            if not (root and root[0] == name) and bits[:i] + ("0" if bits[i] == "1" else "1") + bits[i + 1 :] not in all_bits
        ]
        return f", where {' and '.join(said)}" if said else ""

    def _bits(self, function: Function, report: Report) -> set[str]:
        """Returns all entry bits for which a report of this kind could stand: what differs among them is not named."""
        rows = _rows_about(function, report)
        if report.kind == "double":
            return {it.entry for it in rows if sum(one.entry == it.entry and one.after == "!" for one in rows) == len(report.runs)}
        ends = [(it.entry, it.before, it.result) for it in rows if it.after != "!"]
        return {entry for entry, before, result in ends if ends.count((entry, before, result)) > 1}

    def _double_rows(self, function: Function, report: Report) -> list[Row]:
        """Returns the error rows of the first entry bits from which each state has one."""
        rows = _rows_about(function, report)
        errors = [it for it in rows if it.after == "!"]
        for one in errors:
            same = [it for it in errors if it.entry == one.entry]
            if len(same) == len(report.runs):
                return same
        return []

    def _named(self, about: str) -> str:
        """Returns a location in quotes; an object that a call gave has the place of that call."""
        found = re.search(r"call@(\d+):(\d+)", about)
        if not found:
            return pretty(about) if about == PROCESSOR else f"'{pretty(about)}'"
        at = At(int(found[1]), int(found[2]))
        word = self._source_word(at)
        line = self.place(at).line
        given = f"what {_quoted(word) if word else 'the call'} gave in line {line}"
        here = re.match(r"([A-Za-z_]\w*)?(\s*\()?", self.lines[at.line - 1][at.column - 1 :])
        if here and (not word or here[1] == word and not here[2]):
            # (there is no macro and no call: the filter has put an unknown object there)
            given = f"what the pointer computed in line {line} points to"
        before, rest = about[: found.start()], about[found.end() :]
        if before.strip("(*") or ")" in rest:
            return f"'{pretty(before + 'it' + rest)}', where it is {given},"
        member = rest.removeprefix("->").removeprefix(".")
        return f"'{member}' of {given}" if member else given

    def _error(self, run: Run) -> str:
        """Says what goes wrong at the end of a run: the last call before the error is the operation, or leads to it."""
        calls = [it for it in run.events if it.kind == "call"]
        last = calls[-1].word if calls else ""
        shown = self._called(calls[-1]) if calls else ""
        if self.machine:
            return f"is in a state in which '{shown}' is an error"
        if last in _LOCKS:
            return "is locked twice"
        if last in _UNLOCKS:
            return "is unlocked, but is not locked"
        states = self._errs_in.get(last, set())
        if states == {"L"}:
            return f"is locked twice: '{shown}' locks it again"
        if states == {"U"}:
            return f"is unlocked by '{shown}', but is not locked"
        return f"is locked or unlocked by '{shown}' in a state in which that is an error"

    def _source_word(self, at: At) -> str:
        """Returns the name that stands at a place in the source: of a function, or of the macro that gave its call."""
        place = self.place(at)
        found = re.match(r"[A-Za-z_]\w*", self.files.line(place.file, place.line)[place.column - 1 :])
        return found[0] if found and found[0] not in KEYWORDS else ""

    def _called(self, it: Event) -> str:
        """Returns the name of what is called. For a macro of the models that is the macro's, which the user knows."""
        word = self._source_word(it.at)
        return word if word in model_names() else it.word

    def _call(self, it: Event) -> str:
        if it.word == "*":
            return "a function is called through a pointer"
        name, word = self._called(it), self._source_word(it.at)
        is_macro = word not in ("", name) and re.search(rf"\b{re.escape(name)}\b", self.lines[it.at.line - 1]) is not None
        return f"'{name}' is called by the macro '{word}'" if is_macro else f"'{name}' is called"

    def _two_states(self, function: Function, report: Report) -> str:
        states = sorted({it.after for it in self._ambiguous_rows(function, report) if it.after})
        return " or ".join(_state(it) for it in states) if len(states) == 2 else "there are two"

    def _ambiguous_rows(self, function: Function, report: Report) -> list[Row]:
        """Returns the first two rows that differ in the state behind alone: those that the report speaks of."""
        rows = [it for it in _rows_about(function, report) if it.after != "!"]
        for one in rows:
            same = [it for it in rows if (it.entry, it.before, it.result) == (one.entry, one.before, one.result)]
            if len(same) > 1:
                return same[:2]
        return []

    def _callee_at(self, run: Run, at: At) -> str | None:
        return next((self._called(it) for it in run.events if it.kind == "call" and it.at == at), None)

    # ---- paths

    def _path(self, function: Function, report: Report, number: int, values: Values, notes: Mapping[str, str]) -> Path:
        run = report.runs[number]
        steps = list[Step]()
        for at, it in enumerate(run.events):
            # (what the filter puts in place of a pointer or of a number is no call of the source's)
            if it.kind != "call" or self._called(it) not in PUT:
                gave = _gives(values.gave[at]) if at in values.gave and it.word not in PUT | {OBJECT} else ""
                note = f"; it {notes[it.word]}" if it.kind == "call" and it.word in notes else ""
                steps.append(Step(self.place(it.at), self._step(function, report, run, it) + gave + note))
        entry = self._tested(run, values)
        return Path(self._head(function, report, number, entry), steps, run.choice, entry)

    def _head(self, function: Function, report: Report, number: int, entry: dict[str, str]) -> str:
        """Says how a run differs from the others of its report, and with what it begins."""
        begins = [f"'{name}' is {value}" for name, value in entry.items()]
        if report.kind == "double" and len(report.runs) > 1:
            rows = self._double_rows(function, report)
            state = rows[number].before if number < len(rows) else None
            return f"if {_listed([f'{self._named(report.about)} is {_state(state)}', *begins])} at entry"
        where = f"where {_listed(begins)} at entry" if begins else ""
        if report.kind == "ambiguous":
            rows = self._ambiguous_rows(function, report)
            head = f"a run that leaves it {_state(rows[number].after)}" if len(rows) > number else f"run {number + 1}"
            return f"{head}, {where}" if where else head
        return f"a run {where}" if where else ""

    def _tested(self, run: Run, values: Values) -> dict[str, str]:
        """Returns the values at entry of what conditions on the path test."""
        texts = [re.sub(r"\s", "", self._condition_text(it.at)) for it in run.events if it.kind in ("if", "loop", "switch")]
        # (`*p` tests what p points to, and not p)
        tests = {name: re.compile(rf"(?<![\w.>])(?<!^\*)(?<![^\w)\]]\*){re.escape(name)}(?![\w.]|->)") for name in values.entry}
        return {name: value for name, value in values.entry.items() if any(tests[name].search(it) for it in texts)}

    def _step(self, function: Function, report: Report, run: Run, it: Event) -> str:
        if it.kind == "call":
            return self._call(it)
        if it.kind in ("if", "loop"):
            condition = self._condition(it.at)
            if it.kind == "if":
                return f"{condition} is {'true' if it.holds else 'false'}"
            return f"the loop goes on: {condition} is true" if it.holds else f"the loop ends: {condition} is false"
        if it.kind == "switch":
            return f"{self._condition(it.at)} is {it.word}"
        if it.kind == "goto":
            return f"goes to '{it.word}'"
        if it.kind == "error":
            return f"here {self._named(it.word)} {self._error(run)}"
        ends = "returns" if it.kind == "return" else "ends"
        return f"'{function.name}' {ends}" + (": the memory is lost here" if report.kind == "leak" else "")

    def _condition(self, at: At) -> str:
        inside = self._condition_text(at)
        return f"'{inside}'" if inside else "the condition"

    def _condition_text(self, at: At) -> str:
        """Returns the text of the condition in the brackets behind `if`, `while`, `switch` or `for`, as the source has it."""
        place = self.place(at)
        source = self.files.line(place.file, place.line)
        here = self.lines[at.line - 1][at.column - 1 :]
        word = re.match(r"\w+", here)
        starts = word is not None and re.match(rf"{word[0]}\b", source[place.column - 1 :]) is not None
        lines = self.files.lines(place.file)[place.line - 1 : place.line + 20] if starts else self.lines[at.line - 1 : at.line + 20]
        column = place.column if starts else at.column
        text = "\n".join([lines[0][column - 1 :], *lines[1:]]) if lines else ""
        return decoded(_bracketed(text, word[0] if word else ""))

    # ---- what it is known by

    def _known_by(self, function: Function, report: Report) -> str:
        """Returns what a finding is known by: kind, function, location's text and the shape of its paths; no lines."""
        names = {(it.at.line, it.at.column): it.word for run in report.runs for it in run.events if it.kind == "call"}
        about = re.sub(r"call@(\d+):(\d+)", lambda it: f"call@{names.get((int(it[1]), int(it[2])), '')}", report.about)
        about = _ELEMENT.sub("[]", about)
        if report.at:
            about = names.get((report.at.line, report.at.column), "")
        shape = [[(it.kind, "" if it.kind == "error" else it.word) for it in run.events] for run in report.runs]
        return hashlib.sha256(repr((report.kind, function.name, about, shape)).encode()).hexdigest()[:24]


def _rows_about(function: Function, report: Report) -> list[Row]:
    """Returns the rows of the location that the report speaks of."""
    found = list[Row]()
    for it in function.items:
        if it.what == "state" and it.name == report.about:
            found = it.rows
            break
    return found


def _state(name: str | None) -> str:
    return {"U": "unlocked", "L": "locked", None: "unknown"}.get(name, f"'{name}'")


def _gives(value: str) -> str:
    """Returns the end of a step: what a call gives."""
    return f" and does not give {value.removeprefix('not ')}" if value.startswith("not ") else f" and gives {value}"


def _listed(texts: list[str]) -> str:
    return " and ".join([", ".join(texts[:-1]), texts[-1]] if len(texts) > 1 else texts)


def _quoted(name: str) -> str:
    return f"'{name}'"


def _bracketed(text: str, word: str) -> str:
    """Returns what stands in the first brackets of a text, in one line, cut where it is long. Of `for` the middle part;
    of `do` what stands behind the `while` of its end."""
    tokens = [*tokens_of(text)]
    pair = partners(tokens)
    at = 0
    if word == "do":
        body = pair[1] if len(tokens) > 1 and tokens[1].text == "{" else -1
        if body < 0 or body + 1 >= len(tokens) or tokens[body + 1].text != "while":
            return ""
        at = body + 1
    at += 1
    if at >= len(tokens) or tokens[at].text not in OPENING or pair[at] < 0:
        return ""
    first, end = at + 1, pair[at]
    if word == "for":
        cuts = [i for i in range(first, end) if tokens[i].text == ";"]
        if len(cuts) != 2 or cuts[1] == cuts[0] + 1:
            return ""
        first, end = cuts[0] + 1, cuts[1]
    if first >= end:
        return ""
    inside = " ".join(text[tokens[first].start : tokens[end - 1].end].split())
    return inside if len(inside) <= 80 else inside[:77] + "..."
