"""Runs a program for a limited time, and ends it with all that it started; also where a signal ends the command.

Time is that of a processor, so that a busy machine gives the same answers; by the clock all may take `CLOCK` times as
long.
"""

from __future__ import annotations

import math
import os
import resource
import signal
import subprocess
import time
from collections.abc import Iterator, Sequence
from contextlib import contextmanager, suppress
from types import FrameType


class Ending:
    """The signals that end the command, each by a KeyboardInterrupt.

    A signal may come just when a program was started and nothing knows its number yet: then that program would be left
    behind. So a signal waits while something is started or ended. A second one changes nothing."""

    def __init__(self) -> None:
        self._waits = self._has_come = self._is_told = False

    def listen(self) -> None:
        """From here on these signals are handled so."""
        for it in (signal.SIGINT, signal.SIGTERM):
            signal.signal(it, self._handle)

    def _handle(self, number: int, frame: FrameType | None) -> None:
        self._has_come = True
        self._tell()

    def _tell(self) -> None:
        if self._has_come and not self._waits and not self._is_told:
            self._is_told = True
            raise KeyboardInterrupt

    @contextmanager
    def put_off(self) -> Iterator[None]:
        """A signal waits until this ends."""
        before, self._waits = self._waits, True
        try:
            yield
        finally:
            self._waits = before
        self._tell()

    @contextmanager
    def let_in(self) -> Iterator[None]:
        """Within `put_off`: a signal ends what is done here, also one that has come already."""
        try:
            self._waits = False
            self._tell()
            yield
        finally:
            self._waits = True


ENDING = Ending()


CLOCK = 10


class Allowance:
    """Seconds of a processor that may be used from here on, by this process and by the programs that it ran."""

    def __init__(self, seconds: float) -> None:
        self._end, self._clock_end = _used() + seconds, time.monotonic() + CLOCK * seconds

    @property
    def left(self) -> float:
        """Returns the seconds that are left: no more than the clock leaves, of which each may take `CLOCK`."""
        return min(self._end - _used(), (self._clock_end - time.monotonic()) / CLOCK)

    @property
    def is_over(self) -> bool:
        return self.left <= 0


def _used() -> float:
    """Returns the seconds of a processor that this process and the programs that it waited for have used."""
    return sum(os.times()[:4])


def _limit(number: int, seconds: int) -> int:
    """Lets a program use so many seconds of a processor, or fewer where the user has a limit, and returns how many."""
    bound = resource.prlimit(number, resource.RLIMIT_CPU)[1]
    most = seconds if bound == resource.RLIM_INFINITY else min(seconds, bound)
    # (with one number for both limits it is killed: the signal of the first one would have its memory written to a file)
    resource.prlimit(number, resource.RLIMIT_CPU, (most, most))
    return most


def is_by_limit(used: float, most: float) -> bool:
    """Returns whether a program that was killed had used up its time: on a busy machine the system counts up to some
    percent less than it limits by."""
    return used > 0.8 * most - 0.1


def ran(words: Sequence[str], folder: str, seconds: float) -> subprocess.CompletedProcess[bytes]:
    """Runs a program in a folder. subprocess.TimeoutExpired where it has not ended after so many seconds of a processor,
    counted in whole ones, or `CLOCK` times as many by the clock."""
    most, before = max(math.ceil(seconds), 1), _used()
    with ENDING.put_off():
        with subprocess.Popen(words, cwd=folder, stdin=subprocess.DEVNULL, stdout=subprocess.PIPE, stderr=subprocess.PIPE, start_new_session=True) as it:
            try:
                most = _limit(it.pid, most)
                with ENDING.let_in():
                    out, err = it.communicate(timeout=CLOCK * seconds)
            except BaseException:
                # (what it started may hold the pipes open; behind a KeyboardInterrupt Popen itself waits for a quarter of a second)
                with suppress(ProcessLookupError):
                    os.killpg(it.pid, signal.SIGKILL)
                it.wait()
                raise
    if it.returncode == -signal.SIGKILL and is_by_limit(_used() - before, most):
        raise subprocess.TimeoutExpired(words, seconds, out, err)
    return subprocess.CompletedProcess(words, it.returncode, out, err)
