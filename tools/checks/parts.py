"""Parts of the tests, each of which is run in a process of its own: one after the other, or some side by side."""
import os
import signal
import sys
import tempfile
import traceback

from checks.log_runs import Checks
from tool_words import taken


class Part:
    """A part: its name, and what makes its checks."""

    def __init__(self, name, make):
        self.name, self.make = name, make


class Running:
    """A part that was started."""

    def __init__(self, part, tool):
        self.part, self.told, self.counts = part, tempfile.TemporaryFile(), tempfile.TemporaryFile()
        sys.stdout.flush()
        self.process = os.fork()
        if not self.process:
            self.make(tool)

    def make(self, tool):
        """Makes the checks, in the process that was started for them, and ends it."""
        checks = Checks(tool)
        os.dup2(self.told.fileno(), sys.stdout.fileno())
        os.dup2(self.told.fileno(), sys.stderr.fileno())
        try:
            self.part.make(checks)
            self.counts.write(f"{checks.count} {checks.failed}".encode())
            self.counts.flush()
        except BaseException:
            traceback.print_exc()
        finally:
            sys.stdout.flush()
            sys.stderr.flush()
            os._exit(0)

    def ended(self, seconds):
        """Prints what it told. The answer is how many checks there were, and how many failed: one where it didn't come
        to its end."""
        self.told.seek(0)
        self.counts.seek(0)
        sys.stdout.buffer.write(self.told.read())
        sys.stdout.flush()
        counts = [int(count) for count in self.counts.read().split()]
        self.told.close()
        self.counts.close()
        return self.part.name, *(counts or (1, 1)), seconds


def run(parts, jobs, tool):
    """Runs parts, so many at a time, and yields the name of each in their order, how many checks it made, how many
    failed, and how many seconds of a processor it took."""
    left, running, seconds = list(parts), [], {}
    # So that what runs is ended where the tool is, too, and leaves nothing behind.
    signal.signal(signal.SIGTERM, lambda *_: sys.exit(143))
    try:
        while left or running:
            while left and len(running) - len(seconds) < jobs:
                running.append(Running(left.pop(0), tool))
            while running and running[0].process in seconds:
                first = running.pop(0)
                yield first.ended(seconds.pop(first.process))
            if len(running) > len(seconds):
                process, _, used = os.wait4(-1, 0)
                seconds[process] = used.ru_utime + used.ru_stime
    finally:
        for part in running:
            if part.process not in seconds:
                os.kill(part.process, signal.SIGTERM)


def choice(given):
    """Takes `-k WORD` and `--jobs N` from the words of a tool: what chooses among parts, those whose names have the
    word in them, and how many are run at a time."""
    word, jobs = taken(given, "-k", ""), taken(given, "--jobs", "1")
    if not jobs.isdigit() or int(jobs) < 1:
        sys.exit(f"`{jobs}`, behind --jobs, is no number of parts")

    def chosen(parts):
        found = [part for part in parts if word in part.name]
        if not found:
            sys.exit(f"no part has `{word}` in its name; they are: {', '.join(part.name for part in parts)}")
        return found

    return chosen, int(jobs)
