"""Runs a program with its calls of the disk and of its streams told, where some of them may be made to
fail; tools/checks/disk_calls.c stands between.
"""
import dataclasses
import fcntl
import os
import resource
import signal
import struct
import subprocess
import tempfile

from c_builds import built_library
from checks.limits import by_clock, limited, status_of
from checks.log_runs import LOG, environment

# How many seconds of a processor a run may take.
RUN_LIMIT = 60
SYNCS = ("fsync", "fdatasync")
# Flags of `open`.
CREATE = 0o100
NEW = 0o200
TRUNCATE = 0o1000
# What `flock` is asked for: a lock that nobody else may have, and an answer at once.
LOCK = fcntl.LOCK_EX | fcntl.LOCK_NB


@dataclasses.dataclass
class Call:
    """A call: its name, what it touched, where and of how many bytes, and what it answered. Of `open`, `at` has the
    flags, and `size` the mode; of `flock`, `at` has what is asked."""

    name: str
    what: str
    at: int
    size: int
    result: int

    def moves_bytes(self):
        return self.name in ("pread", "pwrite", "read", "write")

    def takes_bytes(self):
        return self.name in ("pwrite", "write")

    def changes(self):
        """Whether it may change what the disk holds or is sure to hold, or what was told."""
        return self.takes_bytes() or self.name in SYNCS or self.name == "ftruncate"


@dataclasses.dataclass
class Ran:
    """What a run told, its exit status, the calls that it made, the log after it, and what the disk is sure to
    hold then, where that was asked for; how many requests for memory there were, none where a signal ended it; how
    much of the input it has read; what the log held that was opened, where another program changed it; and the names
    of the files in the folder."""

    told: str
    status: object
    calls: list
    log: object
    disk: object = None
    requests: object = None
    read: object = None
    kept: object = None
    names: object = None


def build(folder):
    """What stands between, built by the C compiler."""
    return built_library("checks/disk_calls.c", folder)


def read_call(line):
    """A line of CALLS_FILE as a call."""
    _, name, what, at, size, result = line.split()
    return Call(name, what, int(at, 8 if name == "open" else 10), int(size), int(result))


@dataclasses.dataclass
class Disk:
    """What the disk is sure to hold of the log: whether its folder names it, and the bytes that were synced; and
    the writes since, each an offset and bytes."""

    is_named: bool
    writes: list
    synced: bytes

    @staticmethod
    def read(spelled):
        """The disk that tools/checks/disk_calls.c has spelled."""
        writes, at = [], 2
        for _ in range(spelled[1]):
            offset, size = struct.unpack_from("=II", spelled, at)
            writes.append((offset, spelled[at + 8 : at + 8 + size]))
            at += 8 + size
        return Disk(spelled[0] == 1, writes, spelled[at:])

    @staticmethod
    def of(log):
        """The disk, spelled, where all of a log is synced; none stands for no log."""
        return bytes(2) if log is None else b"\1\0" + log


class Watched:
    """A program that is run so, each run for so many seconds of a processor at most."""

    def __init__(self, program, shim, limit=RUN_LIMIT):
        self.program = program
        self.shim = shim
        self.limit = limit

    def run(self, words, source=b"", log=None, **settings):
        """Runs words over an input and a log, as bytes, or none where there is no such file; the settings are those of
        `run_over`."""
        with tempfile.TemporaryDirectory() as folder:
            put(os.path.join(folder, LOG), log)
            return self.run_over(folder, words, source, **settings)

    def run_over(
        self, ledger, words, source=b"", file_limit=None, is_ignored=True, other=None, disk=None, **settings
    ):
        """Runs words over an input, as bytes, in a folder. FAIL, TIMES, ERROR, SHORT, NOTHING, NO_MEMORY, NO_MORE,
        NO_RANDOM, BEFORE, CHANGE, BACK, KILL and LOG are settings of tools/checks/disk_calls.c; `other` are the bytes of CALLS_OTHER, and
        `disk` those of CALLS_DISK. With `file_limit`, the greatest size of a file, no calls are told, and the
        signal that comes where a write is past it is ignored, or not."""
        with tempfile.TemporaryDirectory() as folder, tempfile.TemporaryFile() as given:
            settings = {f"CALLS_{name}": str(setting) for name, setting in settings.items()}
            calls = os.path.join(folder, "calls")
            settings["CALLS_REQUESTS"] = os.path.join(folder, "requests")
            # The limit would be that of this file too.
            if file_limit is None:
                settings["CALLS_FILE"] = calls
            settings["CALLS_OTHER"] = os.path.join(folder, "other")
            settings["CALLS_KEPT"] = os.path.join(folder, "kept")
            put(settings["CALLS_OTHER"], other)
            if disk is not None:
                settings["CALLS_DISK"] = os.path.join(folder, "disk")
                put(settings["CALLS_DISK"], disk)
            put(calls, b"")
            given.write(source)
            given.seek(0)
            told, status = self.run_in(ledger, words, given, settings, lambda: limit_files(file_limit, is_ignored))
            with open(calls) as lines:
                calls = [read_call(line) for line in lines]
            requests = get(settings["CALLS_REQUESTS"])
            log, disk = get(os.path.join(ledger, LOG)), get(os.path.join(folder, "disk"))
            requests = int(requests) if requests else None
            kept = get(settings["CALLS_KEPT"])
            return Ran(told, status, calls, log, disk, requests, offset_of(given), kept, os.listdir(ledger))

    def run_plain(self, words, source=b"", log=None):
        """What a run tells with nothing between, its exit status, and the log after it."""
        with tempfile.TemporaryDirectory() as folder:
            put(os.path.join(folder, LOG), log)
            words = [self.program, *words.split()]
            ran = subprocess.run(
                words, cwd=folder, input=source, stdout=subprocess.PIPE, check=False, env=environment(),
                **limited(RUN_LIMIT),
            )
            return ran.stdout.decode("latin-1"), ran.returncode, get(os.path.join(folder, LOG))

    def run_in(self, folder, words, source, settings, prepare):
        """What a run in a folder tells, and its exit status; its process is prepared first."""
        try:
            ran = subprocess.run(
                [self.program, *words.split()],
                cwd=folder,
                stdin=source,
                stdout=subprocess.PIPE,
                stderr=subprocess.DEVNULL,
                env={**environment(), **settings, "LD_PRELOAD": self.shim},
                **limited(self.limit, prepare),
            )
        except subprocess.TimeoutExpired:
            return "", f"none within {by_clock(self.limit)} seconds"
        return ran.stdout.decode("latin-1"), status_of(ran, self.limit)


def offset_of(file):
    """Where the next byte of a file is read, also by another process that has it open."""
    return os.lseek(file.fileno(), 0, os.SEEK_CUR)


def limit_files(size, is_ignored):
    """Lets no file of this process grow past a size: a write past it fails, and a signal comes, which ends the process
    where it isn't ignored. No file is made of what its memory held then."""
    if size is not None:
        signal.signal(signal.SIGXFSZ, signal.SIG_IGN if is_ignored else signal.SIG_DFL)
        resource.setrlimit(resource.RLIMIT_CORE, (0, 0))
        resource.setrlimit(resource.RLIMIT_FSIZE, (size, size))


def put(path, content):
    if content is not None:
        with open(path, "wb") as file:
            file.write(content)


def get(path):
    if not os.path.exists(path):
        return None
    with open(path, "rb") as file:
        return file.read()
