"""Files checked side by side, each in a process of its own: the filter is Python, and threads would take turns."""

from __future__ import annotations

import multiprocessing
from collections.abc import Iterator
from multiprocessing.connection import Connection, wait
from multiprocessing.process import BaseProcess

from .check import FileResult, Options, check_file, shown
from .compilations import Compilation
from .processes import ENDING


def checked_files(compilations: list[Compilation], options: Options, jobs: int) -> Iterator[FileResult]:
    """Gives what is known of each file, in order, and checks so many at a time."""
    if min(jobs, len(compilations)) > 1:
        yield from _Processes(compilations, options).results(jobs)
    else:
        for it in compilations:
            yield check_file(it, options)


class _Processes:
    """The processes that check files, each with the end of the pipe on which it tells what it found."""

    def __init__(self, compilations: list[Compilation], options: Options) -> None:
        self.compilations, self.options = compilations, options
        self.fork = multiprocessing.get_context("fork")
        self.running: dict[Connection, tuple[int, BaseProcess]] = {}

    def results(self, jobs: int) -> Iterator[FileResult]:
        done = dict[int, FileResult]()
        started = given = 0
        try:
            while given < len(self.compilations):
                while started < len(self.compilations) and len(self.running) < jobs:
                    self._start(started)
                    started += 1
                done |= self._told()
                while given in done:
                    yield done.pop(given)
                    given += 1
        finally:
            # (where the user ends the command, the programs that run for it are ended too)
            with ENDING.put_off():
                for _, process in self.running.values():
                    process.terminate()
                for _, process in self.running.values():
                    process.join()

    def _start(self, number: int) -> None:
        here, there = self.fork.Pipe(duplex=False)
        process = self.fork.Process(target=_work, args=(there, self.compilations[number], self.options))
        with ENDING.put_off():
            process.start()
            self.running[here] = number, process
        there.close()

    def _told(self) -> dict[int, FileResult]:
        """Waits for some file, and returns what is known of those that are done."""
        found = dict[int, FileResult]()
        for here in wait([*self.running]):
            assert isinstance(here, Connection)
            number, process = self.running.pop(here)
            it = self.compilations[number]
            try:
                found[number] = here.recv()
            except EOFError:
                process.join()
                found[number] = FileResult(shown(it.folder, it.file), f"a fault of nalvegop itself: its process ended with {process.exitcode}")
            here.close()
            process.join()
        return found


def _work(there: Connection, it: Compilation, options: Options) -> None:
    # (it was started while signals wait)
    try:
        with ENDING.let_in():
            there.send(check_file(it, options))
    except KeyboardInterrupt:
        pass
