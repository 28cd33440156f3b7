"""What the scripts here measure of a program that opens a text: seconds, peak memory, instructions, and how they grow."""

import math
import os
import pathlib
import re
import select
import signal
import subprocess
import sys
import tempfile
import time

TOP = pathlib.Path(__file__).resolve().parent.parent
SCRATCH = TOP / ".build" / "bench"

# GNU time, since Python's own process would count into the peak memory of one that it starts.
MEMORY_METER = "/usr/bin/time"


def checked(words, script=b""):
    """Runs a command with this script as its input; a status other than 0 ends the benchmark."""
    run = subprocess.run(words, input=script, capture_output=True, check=False)
    if run.returncode != 0:
        sys.exit(f"{sys.argv[0]}: {' '.join(words)}: status {run.returncode}: {run.stderr.decode(errors='replace')}")
    return run


def timed(words, output, limit):
    """One run of a command with its output to that file: its seconds, its peak memory in KiB and its status; the status is None, and
    the memory 0, where it was stopped after the limit. What it starts is stopped too."""
    with tempfile.NamedTemporaryFile("r", encoding="ascii") as report, open(output, "wb") as out:
        start = time.monotonic()
        run = subprocess.Popen(
            [MEMORY_METER, "-f", "%M", "-o", report.name, *words],
            stdin=subprocess.DEVNULL, stdout=out, stderr=subprocess.DEVNULL, start_new_session=True,
        )
        # Popen.wait looks now and then alone where it has a limit.
        watch = os.pidfd_open(run.pid)
        ended = select.select([watch], [], [], limit)[0]
        seconds = time.monotonic() - start
        os.close(watch)
        if not ended:
            os.killpg(run.pid, signal.SIGKILL)
        status = run.wait()
        return (seconds, int(report.read().split()[-1]), status) if ended else (seconds, 0, None)


def least(words, output, limit, in_all, check):
    """The least seconds of runs of a command that take so many in all, and its peak memory in KiB. Each program has as long as the others to
    meet a moment without disturbance. The seconds of a run that was stopped after the limit, and no memory. `check` is given each run's status."""
    best, memory, spent = math.inf, 0, 0
    while spent < in_all:
        seconds, peak, status = timed(words, output, limit)
        if status is None:
            return seconds, None
        check(status)
        best, memory, spent = min(seconds, best), max(memory, peak), spent + seconds
    return best, memory


def open_once(program, path, script=b""):
    """One run with this script: its seconds, and its peak memory in KiB."""
    with tempfile.NamedTemporaryFile("r", encoding="ascii") as report:
        start = time.monotonic()
        checked([MEMORY_METER, "-f", "%M", "-o", report.name, program, str(path)], script)
        return time.monotonic() - start, int(report.read().split()[-1])


def open_often(program, path, rounds, script=b""):
    """The least seconds and the greatest peak memory in KiB over the rounds."""
    runs = [open_once(program, path, script) for _ in range(rounds)]
    return min(run[0] for run in runs), max(run[1] for run in runs)


def instructions(program, path, script=b""):
    """How many instructions one run with this script takes."""
    words = ["valgrind", "--tool=callgrind", f"--callgrind-out-file={SCRATCH}/callgrind.out", program, str(path)]
    report = checked(words, script).stderr.decode(errors="replace")
    return int(re.search(r"refs:\s+([\d,]+)", report).group(1).replace(",", ""))


def power(size, value, before):
    """By which power of the size a value grew."""
    return f"{math.log(value / before[1]) / math.log(size / before[0]):.2f}" if before else "–"
