"""Runs a program over many cases, each within limits of time and memory; tools/checks/fork_server.c starts them."""
import dataclasses
import os
import signal
import struct
import subprocess
import sys
import tempfile

from c_builds import built_library

MAX_WORDS = 16
KIBIBYTE = 1024
NO_LOG = 2**32 - 1
SAME = 2**32 - 2
# Where the folders of logs are: in memory, where the system has such a place.
IN_MEMORY = "/dev/shm"


@dataclasses.dataclass
class Case:
    """Words, as bytes; an input; the log, or none where there is no such file; and how many bytes of memory
    the program may have."""

    words: list
    source: bytes
    log: object
    memory: int


@dataclasses.dataclass
class Result:
    """The exit status, or the name of a signal; what was printed; how much of the input was read; the log; and
    the greatest memory in bytes."""

    status: object
    told: bytes
    read: int
    log: object
    peak: int


def number(of):
    return struct.pack("=I", of)


def piece(of):
    return number(len(of)) + of


def spelled(case):
    """A case as tools/checks/fork_server.c reads it."""
    parts = [number(len(case.words)), *map(piece, case.words), piece(case.source)]
    parts.append(number(NO_LOG) if case.log is None else piece(case.log))
    parts.append(number(case.memory // KIBIBYTE))
    return b"".join(parts)


def status_of(waited):
    """The exit status, or the name of the signal that ended it."""
    code = os.waitstatus_to_exitcode(waited)
    return code if code >= 0 else signal.Signals(-code).name


def folder_in_memory():
    return tempfile.TemporaryDirectory(dir=IN_MEMORY if os.path.isdir(IN_MEMORY) else None)


def build(folder):
    """What is loaded before the program, built by the C compiler."""
    return built_library("checks/fork_server.c", folder)


class Server:
    """A program that waits before its `main` for cases, in a folder of its own."""

    def __init__(self, program, shim, seconds):
        self.folder = folder_in_memory()
        cases, self.cases = os.pipe()
        results, given = os.pipe()
        settings = {"SERVER_CASES": str(cases), "SERVER_RESULTS": str(given), "SERVER_SECONDS": str(seconds)}
        self.process = subprocess.Popen(
            [program, *["-"] * MAX_WORDS],
            cwd=self.folder.name,
            stdin=subprocess.DEVNULL,
            stdout=subprocess.DEVNULL,
            pass_fds=[cases, given],
            env={**os.environ, **settings, "LD_PRELOAD": shim},
        )
        os.close(cases)
        os.close(given)
        self.results = os.fdopen(results, "rb")

    def run(self, cases):
        """The results of cases, in their order."""
        batch = number(len(cases)) + b"".join(map(spelled, cases))
        while batch:
            batch = batch[os.write(self.cases, batch) :]
        return [self.result(case) for case in cases]

    def number(self):
        field = self.results.read(4)
        if len(field) < 4:
            sys.exit("fork_server: the server has ended")
        return struct.unpack("=I", field)[0]

    def result(self, case):
        status, peak, read = self.number(), self.number(), self.number()
        told = self.results.read(self.number())
        size = self.number()
        log = case.log if size == SAME else None if size == NO_LOG else self.results.read(size)
        return Result(status_of(status), told, read, log, peak * KIBIBYTE)

    def end(self):
        os.close(self.cases)
        self.results.close()
        self.process.wait()
        self.folder.cleanup()
