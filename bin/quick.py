"""`bin/test --quick`: every test and every stored run of the repository, unproved; and the tests of kit/.

What was compiled of the same text is kept (crates/NAME/out/kept), so a second call takes seconds for what did not change.
Standard output has a line for each crate, and as the last one 'N passed, M failed, NOT PROVED'. Status 0 where all
passed, else 1; 70 where the kit is missing.
"""

from __future__ import annotations

import os
import shutil
import subprocess
import sys
import tempfile
import time
from concurrent.futures import ThreadPoolExecutor

import programs

# What the compiler takes for one program, in bytes.
ROOM = 3_000_000_000


def bytes_of(path: str) -> bytes | None:
    try:
        with open(path, "rb") as it:
            return it.read()
    except OSError:
        return None


def run_tests(name: str) -> str:
    """Runs a crate's tests and returns what failed, or nothing."""
    runner = f"{programs.kit()[1].KIT}/bin/rattle-test"
    with tempfile.TemporaryDirectory(prefix="nalvegop-") as room:
        ran = subprocess.run([runner, "--seconds", "60", programs.unproved_tests(name)], cwd=room, stdin=subprocess.DEVNULL, capture_output=True, text=True, errors="replace", check=False)
    return f"status {ran.returncode}\n{ran.stdout}{ran.stderr}" if ran.returncode else ""


def run_stored(name: str) -> str:
    """Runs a program on the run that is stored beside its sources, and returns what is other than it should be."""
    folder, program = f"{programs.TOP}/crates/{name}", programs.unproved(name)
    words = (bytes_of(f"{folder}/args") or b"").decode(errors="surrogateescape").splitlines()
    status = int(bytes_of(f"{folder}/status") or b"0")
    with tempfile.TemporaryDirectory(prefix="nalvegop-") as room:
        if os.path.isdir(f"{folder}/data"):
            shutil.copytree(f"{folder}/data", room, dirs_exist_ok=True)
        try:
            ran = subprocess.run([program, *words], cwd=room, input=bytes_of(f"{folder}/stdin") or b"", capture_output=True, timeout=120, check=False)
        except subprocess.TimeoutExpired:
            return "it had not ended after 120 seconds"
    if ran.returncode != status:
        return f"status {ran.returncode}, not {status}\n{ran.stderr.decode(errors='replace')}"
    return "" if ran.stdout == (bytes_of(f"{folder}/stdout") or b"") else "standard output is not what the file stdout has"


def run_kit() -> str:
    """Runs the tests of kit/, and mypy and black where they are there, and returns what they said where one fails."""
    commands = [[sys.executable, "-B", "-m", "unittest", "discover", "-s", "tests", "-t", "."]]
    if shutil.which("mypy"):
        commands.append(["mypy"])
    if shutil.which("black"):
        commands.append(["black", "--check", "--quiet", "."])
    bad = ""
    for words in commands:
        ran = subprocess.run(words, cwd=f"{programs.TOP}/kit", stdin=subprocess.DEVNULL, capture_output=True, text=True, errors="replace", check=False)
        bad += ran.stdout + ran.stderr if ran.returncode else ""
    return bad


def lanes() -> int:
    """Returns how many crates are compiled at a time: as many as there are processors, and memory for them."""
    with open("/proc/meminfo", encoding="utf-8") as lines:
        free = next((int(it.split()[1]) * 1024 for it in lines if it.startswith("MemAvailable:")), 0)
    return max(1, min(len(os.sched_getaffinity(0)), free // ROOM))


def main(names: list[str]) -> int:
    try:
        crates = programs.crates_of_kit()
    except programs.NoProgram as why:
        programs.stop("bin/test", str(why))
    lacking = [it for it in names if it not in crates]
    if lacking:
        programs.stop("bin/test", f"crates.txt lists no crate {lacking[0]}")
    chosen = [it for it in crates.values() if not names or it.name in names]
    work = [(it.name, "tests", run_tests) for it in chosen if it.has_tests()]
    work += [(it.name, "stored run", run_stored) for it in chosen if it.is_program]
    passed = failed = 0

    def one(name: str, what: str, run: object) -> tuple[str, str, str, float]:
        begun = time.time()
        try:
            bad = run(name)  # type: ignore[operator]
        except programs.NoProgram as why:
            bad = str(why)
        return name, what, bad, time.time() - begun

    with ThreadPoolExecutor(lanes()) as pool:
        for name, what, bad, took in pool.map(lambda it: one(*it), work):
            print(f"{name}: {what} {'FAILED: ' + bad.rstrip() if bad else 'passed'} ({took:.0f} s)", flush=True)
            passed, failed = passed + (not bad), failed + bool(bad)
    if not names and os.path.isdir(f"{programs.TOP}/kit"):
        bad = run_kit()
        print(f"kit: tests {'FAILED' if bad else 'passed'}\n{bad}".rstrip(), flush=True)
        passed, failed = passed + (not bad), failed + bool(bad)
    print(f"{passed} passed, {failed} failed, NOT PROVED")
    return 1 if failed else 0
