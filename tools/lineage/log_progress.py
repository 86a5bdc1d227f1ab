"""How far a run of the program is in the log, which it reads from the first block on: shown on a terminal."""
import contextlib
import os

from lineage.log_file import LOG_FILE
from lineage.progress import Progress
from lineage.saying import say

MEGABYTE = 1_000_000


def shown(process):
    """A progress that shows how much of the log a process has read."""
    size = 0
    with contextlib.suppress(OSError):
        size = os.stat(LOG_FILE).st_size
    return Progress(lambda: text(process, size), say)


def text(process, size):
    """How far a process is that reads a log of this size; nothing where it has read all, or that isn't known."""
    with contextlib.suppress(OSError, StopIteration), open(f"/proc/{process}/io", "rb") as counts:
        read = int(next(line for line in counts if line.startswith(b"rchar:")).split()[1])
        if read < size:
            of = f"{read / MEGABYTE:.1f} of {size / MEGABYTE:.1f} MB"
            return f"read {of} of {LOG_FILE}, {100 * read // size} percent"
    return None
