"""Programs that are run: they end in their time, and with a signal that ends the command, whenever it comes."""

from __future__ import annotations

import os
import signal
import subprocess
import time
import unittest
from typing import Any
from unittest import mock

from nalvegop.processes import Allowance, Ending, is_by_limit, ran

_SIGNALS = (signal.SIGINT, signal.SIGTERM)


def state_of(number: int) -> str:
    """Returns the state of a process as /proc has it: Z and X of one that has ended."""
    try:
        with open(f"/proc/{number}/stat", encoding="utf-8") as it:
            return it.read().rpartition(")")[2].split()[0]
    except FileNotFoundError:
        return "gone"


class Programs(unittest.TestCase):
    def setUp(self) -> None:
        self.begun = list[int]()
        self.ending = Ending()
        for number, handler in [(it, signal.getsignal(it)) for it in _SIGNALS]:
            self.addCleanup(signal.signal, number, handler)
        self.enterContext(mock.patch("nalvegop.processes.ENDING", self.ending))

    def ran_with(self, before: int | None, after: int | None) -> subprocess.CompletedProcess[bytes]:
        """Runs a program for up to 20 seconds, with a signal just before it begins or just after, when only Popen knows it."""
        begun = self.begun

        class Started(subprocess.Popen[bytes]):
            def __init__(self, *words: Any, **how: Any) -> None:
                if before:
                    os.kill(os.getpid(), before)
                super().__init__(*words, **how)
                begun.append(self.pid)
                if after:
                    os.kill(os.getpid(), after)

        with mock.patch("subprocess.Popen", Started):
            return ran(["sleep", "20"], ".", 20)

    def test_a_signal_while_a_program_starts_ends_it(self) -> None:
        for number in _SIGNALS:
            for before, after in ((number, None), (None, number), (number, number)):
                self.ending.__init__()  # type: ignore[misc]
                self.ending.listen()
                with self.assertRaises(KeyboardInterrupt):
                    self.ran_with(before, after)
                self.assertEqual([state_of(it) for it in self.begun], ["gone"], (number, before, after))
                self.begun.clear()

    def test_what_a_program_started_is_ended_too(self) -> None:
        with self.assertRaises(subprocess.TimeoutExpired) as caught:
            ran(["sh", "-c", "sleep 300 & echo $!; wait"], ".", 0.5)
        number = int(caught.exception.stdout or b"0")
        self.assertGreater(number, 0)
        # (where the machine is busy it ends a little later, and whoever takes it over may not have seen it yet)
        end = time.monotonic() + 60
        while state_of(number) not in ("Z", "X", "gone") and time.monotonic() < end:
            time.sleep(0.05)
        self.assertIn(state_of(number), ("Z", "X", "gone"))

    def test_a_program_has_its_seconds_of_a_processor(self) -> None:
        self.assertEqual(ran(["sleep", "2"], ".", 1).returncode, 0)
        with mock.patch("nalvegop.processes.CLOCK", 1000), self.assertRaises(subprocess.TimeoutExpired) as caught:
            ran(["sh", "-c", "echo begun; while :; do :; done"], ".", 0.5)
        self.assertEqual((caught.exception.stdout, caught.exception.timeout), (b"begun\n", 0.5))

    def test_a_program_that_waits_is_ended_by_the_clock(self) -> None:
        begun = time.monotonic()
        with self.assertRaises(subprocess.TimeoutExpired):
            ran(["sleep", "300"], ".", 0.2)
        self.assertGreaterEqual(time.monotonic() - begun, 2)

    def test_a_program_that_is_killed_has_had_time(self) -> None:
        self.assertEqual(ran(["sh", "-c", "kill -KILL $$"], ".", 1).returncode, -signal.SIGKILL)

    def test_what_killed_a_program(self) -> None:
        # (2.91 of 3 seconds were counted on a busy machine)
        for used, most, is_limit in ((2.91, 3, True), (38.5, 40, True), (1.0, 1, True), (0.2, 3, False), (20, 40, False)):
            self.assertIs(is_by_limit(used, most), is_limit)

    def test_what_is_left_counts_a_processor(self) -> None:
        given = Allowance(100)
        time.sleep(0.5)
        self.assertGreater(given.left, 99.8)
        ran(["sh", "-c", "n=0; while [ $n -lt 100000 ]; do n=$((n + 1)); done"], ".", 50)
        self.assertLess(given.left, 99.97)
        self.assertFalse(given.is_over)
        self.assertTrue(Allowance(0).is_over)

    def test_a_signal_waits_and_comes_once(self) -> None:
        self.ending.listen()
        with self.assertRaises(KeyboardInterrupt):
            with self.ending.put_off():
                os.kill(os.getpid(), signal.SIGTERM)
                self.begun.append(1)
        self.assertEqual(self.begun, [1])
        os.kill(os.getpid(), signal.SIGTERM)
        with self.ending.put_off():
            os.kill(os.getpid(), signal.SIGINT)

    def test_a_program_that_is_not_there_lets_signals_in_again(self) -> None:
        self.ending.listen()
        with self.assertRaises(FileNotFoundError):
            ran(["/nonexistent/program"], ".", 5)
        with self.assertRaises(KeyboardInterrupt):
            os.kill(os.getpid(), signal.SIGTERM)


if __name__ == "__main__":
    unittest.main()
