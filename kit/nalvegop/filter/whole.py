"""The filter as a whole: which declarations and functions are left, and the steps in their order."""

from __future__ import annotations

from collections.abc import Callable, Iterable
from dataclasses import dataclass, field
from functools import cached_property

from ..segments import KEYWORDS, Segment
from ..verdicts import At
from .blocks import Blocks
from .far_blocks import FarBlocks
from .far_values import FarValues
from .heads import Heads
from .members import Members
from .names import ADDRESS, BUILT_IN, NUMBER, PART, POINTER, PUT
from .page import Moved, Page
from .step_moves import StepMoves
from .unknowns import Unknowns
from .words import Words


@dataclass
class Filtered:
    """The text for the checker, the file's own functions in their order, and those that were passed over, with why."""

    text: str
    functions: list[str] = field(default_factory=list)
    passed_over: dict[str, tuple[str, At]] = field(default_factory=dict)
    counts: dict[str, int] = field(default_factory=dict)
    # Names that variables got, each with the old one.
    renamed: dict[str, str] = field(default_factory=dict)
    # Where what moved in its line stood before.
    moved: Moved = field(default_factory=Moved)


IsOwn = Callable[[int], bool]


class Filter:
    """One run of the filter over a text. `is_own` says of a line whether it stands in the file itself."""

    def __init__(self, text: str, is_own: IsOwn, operations: frozenset[str] = frozenset()) -> None:
        """`operations`: those of a machine, which have a meaning of their own as the built-in names have."""
        self._fixed = BUILT_IN | operations
        self.page = page = Page(text)
        self.tokens, self.unit, self.partner, self.at = page.tokens, page.unit, page.partner, page.at
        self._is_own = is_own
        # (it is declared by the models; without them there is none)
        declared = frozenset[str]().union(*(it.declares for it in page.unit.segments))
        self._has_part, self._has_pointer = {PART, NUMBER} <= declared, {ADDRESS, POINTER} <= declared
        self.passed_over: dict[str, tuple[str, At]] = {}
        self._words, self._heads, self.unknowns, self.members = Words(page), Heads(page), Unknowns(page), Members(page)
        self._moves = StepMoves(page, self.unknowns)
        self._far = FarValues(page, self.unknowns, self._moves.steps)
        self._blocks, self._far_blocks = Blocks(page, self._moves), FarBlocks(page, self.unknowns)

    def own_functions(self) -> list[Segment]:
        return [it for it in self.page.unit.segments if it.is_function and self._is_own(self.page.line(it.name_at))]

    def called(self, name: str) -> set[str]:
        """Returns the other functions with bodies, of headers too, that a function calls, by names."""
        names = frozenset[str]().union(*(it.names for it in self.own_functions() if it.function == name))
        return {it.function for it in self.page.unit.segments if it.function in names and it.function not in self._fixed | {name}}

    def refuse(self, places: Iterable[At]) -> bool:
        """Notes casts between pointers and numbers, sums of these, differences of pointers and their comparisons by order that
        the checker does not take, by their places in what was made last. Returns whether that is new, and there may be
        something to put in their places."""
        new = {*map(self.page.moved.told, places)} - self.unknowns.refused
        self.unknowns.refused |= new
        return self._has_pointer and bool(new)

    def refuse_members(self, kinds: Iterable[tuple[str, str]]) -> bool:
        """Notes of which kinds members are that the checker does not take, each with its function. Returns whether one is new."""
        return self._has_pointer and any([self.members.want(kind, function) for kind, function in kinds])

    def run(self, only: Iterable[str] | None = None, without: Iterable[str] = ()) -> Filtered:
        """Filters. With `only`, the own functions of these names keep their bodies, and so do those that they call; the
        bodies of the functions in `without` become prototypes."""
        self.page.begin()
        self.passed_over = {}
        own, cut = self.own_functions(), set(without)
        wanted = {it.function for it in own} if only is None else {*only}
        roots = [it for it in own if it.function in wanted]
        kept = self._needed(roots, cut)
        for segment in self.page.unit.segments:
            if id(segment) not in kept:
                self.page.blank(segment.first, segment.end)
                self.page.count("functions" if segment.is_function else "segments")
        for segment in self.page.unit.segments:
            if id(segment) in kept:
                self._mend(segment, segment.function in cut)
        names = [it.function or "" for it in own if id(it) in kept]
        renamed = {**self.page.static_names, **{new: old for old, new in self.page.renamed.items()}}
        return Filtered(self.page.made(), names, self.passed_over, self.page.counts, renamed, self.page.moved)

    def _needed(self, roots: list[Segment], without: set[str]) -> set[int]:
        """Returns the segments that the roots need, by names and transitively."""
        kept, work, keeps_whole = set[int](), [*roots], {id(it) for it in roots if it.function not in without}
        while work:
            segment = work.pop()
            if id(segment) in kept:
                continue
            kept.add(id(segment))
            is_cut = segment.function in without or segment.function in self._fixed
            names = self._head_names(segment) if is_cut and id(segment) not in keeps_whole else segment.names
            for name in {*names, *PUT}:
                work += [it for it in self._by_name.get(name, []) if id(it) not in kept]
        return kept

    @cached_property
    def _by_name(self) -> dict[str, list[Segment]]:
        """The segments that declare a name, and else the one that mentions it first."""
        twice = {it.function for it in self.own_functions()}
        found: dict[str, list[Segment]] = {}
        for segment in self.page.unit.segments:
            if segment.is_function and segment.function in twice and not self._is_own(self.page.line(segment.name_at)):
                # the file defines this function of a header again
                continue
            for name in segment.declares:
                found.setdefault(name, []).append(segment)
        for segment in self.page.unit.segments:
            for name in segment.mentions:
                found.setdefault(name, [segment])
        return found

    def _head_names(self, segment: Segment) -> frozenset[str]:
        """Returns the names outside of a function's body."""
        inside = self.tokens[segment.first : segment.body[0]]
        return frozenset(it.text for it in inside if it.is_word and it.text not in KEYWORDS)

    def _mend(self, segment: Segment, is_without: bool) -> None:
        words, heads = self._words, self._heads
        if not segment.is_function:
            words.asm_label(segment.first, segment.end)
            words.file_asserts(segment)
            words.initialisers(segment)
            words.words(segment.first, segment.end)
            heads.rename_shadows(segment)
            words.empty_members(segment.first, segment.end)
            words.transparent_union(segment)
            self.members.declaration(segment)
            return
        heads.old_parameters(segment)
        why = heads.cleanup(segment)
        if why and segment.function:
            self.passed_over[segment.function] = why
        is_fixed = segment.function in self._fixed and not self._is_own(self.page.line(segment.name_at))
        if why or is_without or is_fixed:
            heads.to_prototype(segment)
            self.members.words(segment.first, segment.body[0])
            return
        words.words(segment.first, segment.end)
        heads.rename_shadows(segment)
        heads.block_types(segment)
        heads.static_locals(segment)
        self._mend_body(segment)
        self.members.body(segment)

    def _mend_body(self, segment: Segment) -> None:
        unknowns, blocks = self.unknowns, self._blocks
        dropped = [*unknowns.dropped_values(segment)]
        gone = {token for first, end in dropped for token in range(first, end)}
        if self._has_part:
            gone |= unknowns.counted_pointers(segment, gone)
            unknowns.offsets(segment, gone)
        if self._has_pointer:
            unknowns.refused_casts(segment, gone)
            swallowed = unknowns.refused_differences(segment, gone)
            swallowed |= unknowns.refused_sums(segment, gone | swallowed)
            self._moves.refused_steps(segment, gone | swallowed)
            in_dropped = {token for first, end in dropped for token in range(first, end)}
            swallowed |= self._far.refused(segment, (gone | swallowed) - in_dropped, in_dropped)
            dropped = [it for it in dropped if it[0] not in swallowed]
        self._words.asserts(segment.body[0], segment.end)
        self._words.asm_statements(segment.body[0], segment.end)
        blocks.once_loops(segment.body[0], segment.end)
        blocks.void_returns(segment)
        blocks.lists(segment, gone)
        taken = blocks.block_values(segment, gone)
        taken |= blocks.statement_expressions(segment.body[0], segment.end, taken)
        self._far_blocks.statement_expressions(segment, taken)
        self._far_blocks.conditions(segment)
        self._far_blocks.backward_jumps(segment)
        for first, end in dropped:
            self.page.blank(first, end)
            self.page.put(self.tokens[first], "0")
            self.page.count("dropped")
