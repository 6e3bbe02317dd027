"""What runs of a program cost: their processor time, and the instructions of their own."""

import os
import re
import shutil
import subprocess
import sys
import tempfile


def figures(program, *words):
    """What one run printed, as numbers, its processor time in seconds, and its peak memory in MB."""
    with tempfile.TemporaryFile() as out:
        child = subprocess.Popen([program, *map(str, words)], stdout=out)
        _, status, usage = os.wait4(child.pid, 0)
        out.seek(0)
        numbers = [int(word) for word in out.read().split()]
    if status or not numbers:
        sys.exit(f"a run with {words} came to nothing")
    return numbers, usage.ru_utime + usage.ru_stime, usage.ru_maxrss / 1024


def instructions(words, given=None, folder=None):
    """The instructions of one run outside the system, by `perf`, or by `valgrind` where the processor doesn't count them; None
    where neither does. What the run prints is lost."""
    for count in (by_perf, by_callgrind):
        found = count(words, {"input": given, "cwd": folder, "stdout": subprocess.DEVNULL, "stderr": subprocess.PIPE})
        if found:
            return found
    return None


def by_perf(words, how):
    """As the processor counts them: `perf` writes a number, or that there is none."""
    if not shutil.which("perf"):
        return None
    with tempfile.NamedTemporaryFile("r") as told:
        subprocess.run(["perf", "stat", "-x,", "-o", told.name, "-e", "instructions:u", "--", *words], check=False, **how)
        found = re.search(r"^(\d+),[^\n]*instructions", told.read(), re.MULTILINE)
    return int(found.group(1)) if found else None


def by_callgrind(words, how):
    """As `callgrind` counts them, which takes some fifty times as long as the run."""
    if not shutil.which("valgrind"):
        return None
    tool = ["valgrind", "--tool=callgrind", "--callgrind-out-file=/dev/null"]
    said = subprocess.run([*tool, *words], check=False, **how).stderr.decode(errors="replace")
    found = re.search(r"Collected : (\d+)", said)
    return int(found.group(1)) if found else None
