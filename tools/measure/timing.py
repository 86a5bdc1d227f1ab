"""What runs of programs take."""
import dataclasses
import os
import resource
import subprocess
import sys
import time

GNU_TIME = "/usr/bin/time"
MEGABYTE = 1_000_000


@dataclasses.dataclass
class Timed:
    """The seconds that a run took by the clock, and of processors, its own and the system's; what it told; and the
    memory that it took at the most, in bytes."""

    seconds: float
    used: float
    told: bytes
    memory: int


def used():
    """The processor seconds of all runs so far, their own and the system's."""
    ran = resource.getrusage(resource.RUSAGE_CHILDREN)
    return ran.ru_utime + ran.ru_stime


def timed(words, given=os.devnull, folder=None, out=subprocess.PIPE):
    """A run of a command over a file, in a folder. Ends the tool where the command doesn't end well."""
    with open(given, "rb") as source:
        start, before = time.perf_counter(), used()
        ran = subprocess.run(
            [GNU_TIME, "-f", "%M", *words], cwd=folder, stdin=source, stdout=out, stderr=subprocess.PIPE
        )
        seconds, taken = time.perf_counter() - start, used() - before
    if ran.returncode:
        sys.exit(f"{words} ended with {ran.returncode}: {ran.stderr.decode(errors='replace')[-200:]}")
    return Timed(seconds, taken, ran.stdout, int(ran.stderr.split()[-1]) * 1024)


def least(runs, run):
    """The least of the seconds that some runs take."""
    times = []
    for _ in range(runs):
        start = time.perf_counter()
        run()
        times.append(time.perf_counter() - start)
    return min(times)


def least_over(runs, words, given):
    """The least of the seconds that some runs of a command over a file take; what it tells is passed over."""

    def run():
        with open(given, "rb") as source:
            subprocess.run(words, stdin=source, stdout=subprocess.DEVNULL, check=True)

    return least(runs, run)
