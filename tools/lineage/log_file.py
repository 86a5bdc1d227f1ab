"""The file of the log: its name, and how it begins (docs/log.md)."""
import os
import stat

LOG_FILE = "chain.log"
# So much of a file is looked at to know what it is.
FIRST_BYTES = 4_096
# What a crash leaves of a log that is being made has at most a head: two gates and the magic.
HEAD_BYTES = 9


def first_bytes():
    """How many bytes the log has, and the first of them; none where it is no file that can be read."""
    try:
        # So that opening a pipe doesn't wait.
        log = os.open(LOG_FILE, os.O_RDONLY | os.O_NONBLOCK)
        with os.fdopen(log, "rb") as file:
            found = os.fstat(log)
            if stat.S_ISREG(found.st_mode):
                return found.st_size, file.read(FIRST_BYTES)
    except OSError:
        pass
    return 0, b""


def is_zeroed():
    """Whether the log begins with a zero, so that it stands for no block and a command that changes it writes over
    it, and yet has more than a crash leaves of a log that is being made."""
    size, first = first_bytes()
    return size > HEAD_BYTES and first[:1] == b"\0"
