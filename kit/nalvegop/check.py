"""The check of one file: preprocessed, filtered, checked, and told in the source's places."""

from __future__ import annotations

import os
import re
from collections.abc import Mapping
from dataclasses import dataclass, field
from functools import cached_property

from .checker import Checker, NotChecked, OutOfMemory, OutOfTime
from .compilations import Compilation
from .filter import ADDRESS, DISTANCE, KINDS, MODEL_HEAD, NUMBER, ORDER, PART, POINTER, PUT, STEPPED, Filter, Filtered
from .findings import OBJECT, Finding, Step, Teller, one_of_each_array
from .leaks import Leaks
from .lines import LineMap, Place, SourceFiles
from .machines import operations
from .missing import Missing, Unknown
from .noise import Comments
from .observed import Observers, Values
from .preprocess import Models, NotPreprocessed, fitting_models, preprocessed, width_model
from .processes import Allowance
from .reasons import Reason, words_of
from .segments import Segment
from .unread import unread
from .verdicts import At, Function, NotVerdicts, Report, Skip, Told, Verdicts

# Calls that change a lock: a report on a path with a function of which nothing is known, and that has one, may be false.
_ON_LOCKS = {
    *"spin_lock spin_unlock spin_trylock mutex_lock mutex_unlock mutex_trylock".split(),
    *"pthread_mutex_lock pthread_mutex_unlock pthread_mutex_trylock".split(),
}
# Functions of the models that give an object without saying which: where one is called on a path a finding may be false.
_CONTAINER = "container_of gives another object each time"
_COUNTED = "arithmetic on a pointer gives another object each time"
_SUM = "what a pointer and a number add up to is not known"
_DIFFERENCE = "how far pointers lie apart, and in which order, is not known"
_OFFSET = "the number that offsetof gives is not known"
_POINTER = "a pointer made of a number leads to another object each time"
_ADDRESS = "the number of a pointer is not known"
_MEMBERS = {
    "union": "the members of a union are taken for those of a struct",
    "anon": "the members of a union are taken for those of a struct",
    "bitfield": "the width of a bit field is not followed",
    "float": "floating numbers are taken for integers",
}
# How often a text is checked once more, with something in place of casts that the checker did not take.
_MOST_CASTS = 10
_UNSURE = {OBJECT: _CONTAINER, "nalvegop_entry": "which entries a list has is not known"}


@dataclass(frozen=True)
class Options:
    """How files are checked."""

    checker: Checker
    seconds: float = 60
    models: str | None = None
    more_models: tuple[str, ...] = ()
    headers: bool = False


@dataclass
class FileResult:
    """What is known of a file. `failure` says why nothing is."""

    file: str
    failure: str | None = None
    models: str = "none"
    findings: list[Finding] = field(default_factory=list)
    hidden: int = 0
    functions: list[Function] = field(default_factory=list)
    places: dict[str, Place] = field(default_factory=dict)
    passed_over: dict[str, Reason] = field(default_factory=dict)
    late: list[str] = field(default_factory=list)
    # Functions that had an answer in time only with nothing known of those that they call, and which those are.
    without_calls: dict[str, list[str]] = field(default_factory=dict)
    # Calls of functions of which nothing is known, and that do something by their text.
    missing: list[Missing] = field(default_factory=list)
    text: str = ""

    @property
    def analysed(self) -> list[Function]:
        return [it for it in self.functions if not it.skip]


class FileCheck:
    """One check of a file."""

    def __init__(self, it: Compilation, options: Options) -> None:
        self.it, self.options = it, options
        self.files = SourceFiles(it.folder)
        self.result = FileResult(shown(it.folder, it.file))
        self.time = Allowance(options.seconds)
        # Of functions that were checked for themselves: what was unknown then.
        self._unknown_to: dict[str, set[str]] = {}
        self._observed: dict[str, tuple[Observers, Function] | None] = {}
        # Where something is told that stands at a place of the text that is left.
        self._told_of_text: Told = lambda at: at

    def run(self) -> FileResult:
        try:
            self._run()
        except (NotPreprocessed, NotChecked, NotVerdicts) as why:
            self.result.failure = str(why)
        except Exception as fault:
            # (a fault of the kit on one file does not keep the others from being checked)
            self.result.failure = f"a fault of nalvegop itself: {fault!r}"
        return self.result

    def _left(self) -> float:
        return max(self.time.left, 0.1)

    def _run(self) -> None:
        name = self.options.models or fitting_models(self.it)
        self.result.models = name
        machine = self.options.checker.machine
        text = preprocessed(self.it, Models(name, self.options.more_models, machine is not None), self._left())
        self.line_map = line_map = LineMap(text, self.it.file, self.files)
        model = width_model(self.it)
        self.operations = operations(machine) if machine else frozenset[str]()
        self.filter = Filter(text, line_map.is_own, self.operations)
        filtered = self.filter.run()
        self.renamed, self.model = filtered.renamed, model
        self.result.text, self._told_of_text = filtered.text, filtered.moved.told
        self.result.passed_over = {name: Reason(why, self._place(at)) for name, (why, at) in filtered.passed_over.items()}
        verdicts = self._verdicts(filtered)
        self._tell(verdicts, Teller(text, line_map, self.files, self.options.checker.machine, verdicts.functions), line_map)

    # ---- in limited time

    @cached_property
    def _one_by_one(self) -> Filter:
        """Filters single functions, over the text that is left: the raw one is many times as long."""
        return Filter(self.result.text, self.line_map.is_own, self.operations)

    def _verdicts(self, filtered: Filtered) -> Verdicts:
        """Checks the whole file in a third of the time. Where that does not end, each function is checked for itself,
        callees first; one without a whole answer in time is unknown to the others from there on."""
        try:
            return self._whole(filtered)
        except (OutOfTime, OutOfMemory):
            names = callees_first(self._one_by_one.own_functions())
            if not names:
                raise
        found, unknown = Verdicts(), set[str]()
        for number, name in enumerate(names):
            verdicts = self._of_one(name, unknown, len(names) - number)
            found.functions += [it for it in verdicts.functions if it.name == name] if verdicts else []
            if not verdicts:
                self.result.late.append(name)
        order = {name: number for number, name in enumerate(filtered.functions)}
        found.functions.sort(key=lambda it: order.get(it.name, 0))
        self.result.late.sort(key=lambda it: order.get(it, 0))
        return found

    def _whole(self, filtered: Filtered) -> Verdicts:
        """Checks the whole file, and once more where something can be put in place of what the checker did not take. That is put
        into the text that is left, as the raw one is many times as long."""
        told, again = filtered.moved.told, None
        for _ in range(_MOST_CASTS):
            verdicts = self.options.checker.check(filtered.text, self.model, max(self._left() / 3, 1), self.renamed, self._told_of_text)
            if not again and (_refused(verdicts) or _of_kinds(verdicts)):
                again = Filter(self.result.text, self.line_map.is_own, self.operations)
            if not again or not self._is_refused(again, verdicts):
                break
            before, filtered = filtered, again.run()
            if filtered.text == before.text:
                break
            self.result.text, self._told_of_text = filtered.text, _one_after_another(told, filtered.moved.told)
            self._note(again)
        return verdicts

    def _note(self, it: Filter) -> None:
        """Notes in which functions another filter of the file put something."""
        self.filter.unknowns.add(it.unknowns)
        self.filter.members.add(it.members)

    def _of_one(self, name: str, unknown: set[str], waiting: int) -> Verdicts | None:
        """Returns the verdicts of a text with one function and all that it calls; where there is no answer in time, of
        it with prototypes of these, and then it joins the unknown ones. The lesser answer comes first: it is quick."""
        called = self._one_by_one.called(name)
        alone = self._answer(name, called, waiting)
        if alone and any(it.name == name and it.skip for it in alone.functions):
            return alone
        whole = alone
        if alone and called - unknown:
            whole = self._answer(name, unknown, waiting)
        lost = called & unknown if whole else called
        if alone and lost:
            # (the models' own functions have the name of their macro, and a head; none of them leaves a lock in another state)
            self.result.without_calls[name] = sorted(it.removeprefix(MODEL_HEAD) for it in lost)
        if not whole:
            unknown.add(name)
        self._unknown_to[name] = {*unknown} if whole and whole is not alone else called
        return whole or alone

    def _answer(self, name: str, unknown: set[str], waiting: int) -> Verdicts | None:
        """Returns the verdicts of a text with one function and what it calls, but for bodies of the unknown ones; None
        where there are none in its time or memory."""
        found: Verdicts | None = None
        for _ in range(_MOST_CASTS):
            if self.time.is_over:
                break
            filtered = self._one_by_one.run(only=[name], without=unknown)
            found = self._checked(filtered.text, waiting, self._told(filtered))
            self._note(self._one_by_one)
            if not found or not self._is_refused(self._one_by_one, found):
                break
        return found

    def _is_refused(self, it: Filter, verdicts: Verdicts) -> bool:
        """Hands to a filter what the checker did not take of the text that it made last. Returns whether something can be put in
        place of that."""
        is_known = not it.refuse_members(_of_kinds(verdicts))
        return it.refuse(_refused(verdicts)) or not is_known

    def _told(self, filtered: Filtered) -> Told:
        """Returns where something is told that stands at a place of what was made of the text that is left."""
        return _one_after_another(self._told_of_text, filtered.moved.told)

    def _checked(self, text: str, waiting: int, told: Told) -> Verdicts | None:
        try:
            return self.options.checker.check(text, self.model, self._share(waiting), self.renamed, told)
        except (OutOfTime, OutOfMemory):
            return None

    def _values(self, function: Function, report: Report) -> list[Values]:
        """Returns what each run of a report begins with and what its calls give, as far as that can be told."""
        if function.name not in self._observed:
            self._observed[function.name] = self._look(function.name)
        found = self._observed[function.name]
        seen = next((it for it in found[1].reports if (it.kind, it.about, it.at) == (report.kind, report.about, report.at)), None) if found else None
        if not found or not seen or len(seen.runs) != len(report.runs):
            return [Values() for _ in report.runs]
        return [found[0].values(run, other) or Values() for run, other in zip(report.runs, seen.runs)]

    def _look(self, name: str) -> tuple[Observers, Function] | None:
        """Checks a function with statements in it that tell values; None where there is no answer."""
        for with_numbers in (True, False):
            if self.time.is_over:
                return None
            filtered = self._one_by_one.run(only=[name], without=self._unknown_to.get(name, ()))
            observers = Observers(filtered.text, name, with_numbers, self._told(filtered))
            try:
                verdicts = self._checked(observers.text, 1, self._told(filtered))
            except (NotChecked, NotVerdicts):
                return None
            found = next((it for it in verdicts.functions if it.name == name and not it.skip), None) if verdicts else None
            if found:
                return observers, found
        return None

    def _with_unknown(self, name: str, unknown: set[str]) -> Function | None:
        """Returns what is known of one function where those in `unknown` are so, or None where there is no answer."""
        try:
            verdicts = self._answer(name, unknown, 1)
        except (NotChecked, NotVerdicts):
            return None
        return next((it for it in verdicts.functions if it.name == name), None) if verdicts else None

    def _share(self, waiting: int) -> float:
        """Returns the seconds for the next of so many functions: most need little, so it may take twice its part."""
        return min(self._left(), max(self.options.seconds / 10, 1), max(2 * self._left() / waiting, 0.5))

    # ---- in the source's places

    def _tell(self, verdicts: Verdicts, teller: Teller, line_map: LineMap) -> None:
        comments = Comments(self.files)
        leaks = Leaks(self.filter, self._is_model, self._with_unknown)
        self._name_lost(verdicts)
        unknown, by_name = self._unknown(verdicts), {it.name: it for it in verdicts.functions}
        for function in verdicts.functions:
            if function.name in self.result.passed_over:
                continue
            if not line_map.is_own(function.at.line) and not self.options.headers:
                continue
            self.result.functions.append(function)
            place = teller.place(function.at)
            self.result.places[function.name] = self._shown(place)
            if function.skip:
                self.result.passed_over[function.name] = self._reason(function.name, function.skip)
            names = self._segments[function.name].names if function.name in self._segments else frozenset[str]()
            lost = self._lost_calls(function.name, names, verdicts) if function.reports else {}
            missing = [] if function.skip else [*unknown.called_by(function.name, self.result.without_calls.get(function.name, []))]
            self.result.missing += missing
            told = [self._finding(teller, function, report, lost, doubts, missing) for report, doubts in leaks.told(function, {*lost})]
            for finding, report in zip(told, function.reports):
                finding.marks += [] if self.operations else _left_as_they_were(report, by_name)
            for finding in one_of_each_array(told):
                finding.marks += self._unsure(finding)
                if comments.hides(finding, place.line):
                    self.result.hidden += 1
                    continue
                self.result.findings.append(self._with_shown_places(finding))
        self.result.findings.sort(key=lambda it: it.place)

    def _reason(self, name: str, skip: Skip) -> Reason:
        """Returns why a function is passed over. Of syntax the checker says where the body begins, so what it may be is sought."""
        it = self._left_segments.get(name) if skip.reason == "grammar" else None
        found = unread(self._one_by_one.tokens, self._one_by_one.partner, it.body[0], it.end) if it else None
        if found:
            return Reason(words_of(skip), self._place(self._told_of_text(self._one_by_one.at(found[1]))), found[0])
        return Reason(words_of(skip), self._place(skip.at) if skip.at else None)

    @cached_property
    def _left_segments(self) -> dict[str, Segment]:
        return {it.function: it for it in self._one_by_one.unit.segments if it.function}

    def _name_lost(self, verdicts: Verdicts) -> None:
        """Names the file's functions of which nothing is said: the checker did not take their heads for those of functions."""
        known = {it.name for it in verdicts.functions} | {*self.result.passed_over} | {*self.result.late}
        for it in self.filter.own_functions():
            if it.function and it.function not in known:
                self.result.passed_over[it.function] = Reason("grammar", self._place(self.filter.at(it.name_at)))

    def _unsure(self, finding: Finding) -> list[str]:
        """Returns what its paths have of which only a part is known, and by which the finding may be false."""
        found, left = {why for name, why in _UNSURE.items() if name in finding.calls}, self.filter.unknowns
        found |= {_MEMBERS[kind] for kind, functions in self.filter.members.functions.items() if finding.function in functions}
        for functions, put, why in (
            (left.with_sums, {STEPPED}, _SUM),
            (left.with_differences, {DISTANCE, ORDER}, _DIFFERENCE),
            (left.with_offsets, {NUMBER}, _OFFSET),
            (left.with_addresses, {ADDRESS}, _ADDRESS),
            (left.with_pointers if finding.kind == "inner" else (), {POINTER}, _POINTER),
            (left.with_parts if finding.kind == "inner" and not found else (), {PART}, _COUNTED),
        ):
            if finding.function in functions and put & finding.calls:
                found.add(why)
        return sorted(found)

    def _is_model(self, name: str) -> bool:
        """Returns whether a name is that of a function of the models, or of an operation: all that counts of it is known."""
        return name.startswith(MODEL_HEAD) or name in PUT | self.operations

    def _finding(
        self, teller: Teller, function: Function, report: Report, lost: Mapping[str, frozenset[str]], doubts: list[str], missing: list[Missing]
    ) -> Finding:
        """Tells a report. One on a lock may be false where a call on its path may lock or unlock, and is not followed; a
        leak where one may have freed the memory."""
        made = teller.finding(function, report, self._values(function, report), {it.callee: it.note for it in missing})
        if doubts:
            made.marks.append(f"{' or '.join(map(repr, doubts))} may have freed it or given it away")
        on_path = sorted(name for name in made.calls & lost.keys() if lost[name] & (self.operations or _ON_LOCKS))
        if on_path and report.kind != "leak":
            made.marks.append(f"what {' and '.join(map(repr, on_path))} {'does' if len(on_path) == 1 else 'do'} is not followed")
        return made

    def _lost_calls(self, name: str, names: frozenset[str], verdicts: Verdicts) -> dict[str, frozenset[str]]:
        """Returns the functions with bodies that a function calls and of which nothing is known, each with all names that
        stand in its text or in those of functions that it calls."""
        unknown = {it.name for it in verdicts.functions if it.skip} | {*self.result.passed_over} | {*self.result.late}
        found = (names & unknown | {*self.result.without_calls.get(name, [])}) - {name}
        return {it: self._reached_names(it) for it in found if it in self._segments}

    def _reached_names(self, name: str) -> frozenset[str]:
        found, work = set[str](), [name]
        while work:
            new = self._segments[work.pop()].names - found
            found |= new
            work += [it for it in new if it in self._segments]
        return frozenset(found)

    @cached_property
    def _segments(self) -> dict[str, Segment]:
        return {it.function: it for it in self.filter.unit.segments if it.function}

    def _unknown(self, verdicts: Verdicts) -> Unknown:
        skips, late = {it.name: it.skip for it in verdicts.functions if it.skip}, {*self.result.late}

        def why(name: str) -> str | None:
            if name in late:
                return "had no answer in time"
            reason = self.result.passed_over.get(name) or (self._reason(name, skips[name]) if name in skips else None)
            return f"was not analysed ({reason.text})" if reason else None

        return Unknown(self.filter, self.operations, why, self._place)

    def _place(self, at: At) -> Place:
        return self._shown(self.line_map.place(at.line, at.column))

    def _shown(self, place: Place) -> Place:
        return Place(shown(self.it.folder, place.file), place.line, place.column)

    def _with_shown_places(self, finding: Finding) -> Finding:
        finding.place = self._shown(finding.place)
        for path in finding.paths:
            path.steps = [Step(self._shown(step.place), step.text) for step in path.steps]
        return finding


def _one_after_another(last: Told, first: Told) -> Told:
    return lambda at: last(first(at))


def _of_kinds(verdicts: Verdicts) -> list[tuple[str, str]]:
    """Returns the kinds of types for which functions were passed over, with these."""
    skips = [(it.skip, it.name) for it in verdicts.functions if it.skip]
    return [(skip.kind, name) for skip, name in skips if skip.reason == "unsupported" and skip.kind in KINDS]


def _left_as_they_were(report: Report, functions: Mapping[str, Function]) -> list[str]:
    """Says of a lock that callers do not know that an earlier call may leave it as it was: by a row that begins with it locked
    the path ends in an error, and whether it is locked then is not known."""
    if report.kind != "inner":
        return []
    member, found = re.split(r"[.>]", report.about)[-1], set[str]()
    for run in report.runs:
        calls = [it.word for it in run.events if it.kind == "call"]
        if not _ON_LOCKS & {*calls[:-1]}:
            items = [(name, item) for name in calls[:-1] if name in functions for item in functions[name].items if item.what == "state"]
            same = [(name, item) for name, item in items if re.split(r"[.>]", item.name)[-1] == member]
            found |= {name for name, item in same if any((row.before, row.after) == ("L", "L") for row in item.rows)}
    return [f"'{name}' may leave it as it was, and whether it is locked then is not known" for name in sorted(found)]


def _refused(verdicts: Verdicts) -> list[At]:
    """Returns the places, in the text that was checked, of casts between pointers and numbers, of sums of these, of pointers
    that are compared by their order, and of jumps, for which functions were passed over."""
    skips = [it.skip for it in verdicts.functions if it.skip]
    return [it.stands or it.at for it in skips if it.reason == "unsupported" and it.kind in ("cast", "arith", "order", "goto") and it.at]


def callees_first(functions: list[Segment]) -> list[str]:
    """Returns the names of functions so that one that is called comes before its callers, where no cycle forbids it."""
    own = {it.function: it for it in functions if it.function}
    calls = {name: [it for it in own if it in one.names and it != name] for name, one in own.items()}
    done, entered = dict[str, None](), set[str]()
    for first in own:
        work = [first]
        while work:
            name = work[-1]
            waiting = [] if name in done else [it for it in calls[name] if it not in entered and it not in done]
            entered.add(name)
            if waiting:
                work.append(waiting[0])
            else:
                done[work.pop()] = None
    return [*done]


def shown(folder: str, name: str) -> str:
    """Returns a file's name as it is shown: from the current folder where it lies below that, else whole."""
    path = os.path.normpath(os.path.join(folder, name))
    inside = os.path.relpath(path)
    return path if inside.startswith("..") else inside


def check_file(it: Compilation, options: Options) -> FileResult:
    return FileCheck(it, options).run()
