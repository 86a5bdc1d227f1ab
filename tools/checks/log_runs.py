"""What the tools that run the built program over a log have in common.

They leave out what the roots of blocks are, which tools/cases/log_cases.py shows: each digit is read as 0.
"""
import os
import re
import select
import subprocess

from cases import block_files
from cases.block_files import sets
from cases.log_cases import FIRST_GATE, HEAD, MARK, OPEN
from checks.limits import by_clock, limited

LOG = "chain.log"
# The name of the scratch file, and the variable that names its folder; else that is the present one.
SCRATCH = "chain.scratch"
SCRATCH_FOLDER = "TMPDIR"
# How many seconds of a processor a run may take, and how long a line is waited for.
RUN_LIMIT = 600
LINE_LIMIT = by_clock(60)
# What stands for a root that is left out.
NO_ROOT = bytes(32).hex()


def environment(**settings):
    """What a run finds in its environment: that of the tool with further settings, and no folder for the scratch file
    but one that they name."""
    kept = {name: value for name, value in os.environ.items() if name != SCRATCH_FOLDER}
    return {**kept, **settings}


def plain_chain(count):
    """The block file of a chain of one Set each, and the lines that `append` tells of its blocks, but
    for the roots."""
    blocks = [[sets(f"raw/{n}", n, [f"raw/{n - 1}"] if n else [])] for n in range(count)]
    lines = [f"block {n} rows 1 status 0 root {NO_ROOT}\n" for n in range(count)]
    return block_files.block_file(blocks), lines


def without_roots(told):
    """What was told, with each digit of a root as 0."""
    return re.sub("(?<= root )[0-9a-f]+", lambda digits: "0" * len(digits[0]), told)


def known_lines(count):
    return [f"known {n}\n" for n in range(count)]


def read_log(folder):
    """What the log of a folder holds; nothing where there is none."""
    path = os.path.join(folder, LOG)
    if not os.path.exists(path):
        return b""
    with open(path, "rb") as file:
        return file.read()


def store(program, folder, file, command="append"):
    """Runs a command that stores blocks over the bytes of a file: what it told, and its exit status."""
    streams = {"input": file, "stdout": subprocess.PIPE}
    ran = subprocess.run([program, command], cwd=folder, env=environment(), **limited(RUN_LIMIT), **streams)
    return without_roots(ran.stdout.decode("ascii")), ran.returncode


def start_storing(program, folder, source, command="append"):
    """Starts a command that stores blocks over a source; what it tells is read line by line."""
    streams = {"stdin": source, "stdout": subprocess.PIPE}
    return subprocess.Popen([program, command], cwd=folder, bufsize=0, env=environment(), **streams)


def read_line(process):
    """The next line that is told, or what there is of it at the end, or after a while."""
    line = b""
    while not line.endswith(b"\n") and select.select([process.stdout], [], [], LINE_LIMIT)[0]:
        byte = process.stdout.read(1)
        if not byte:
            break
        line += byte
    return without_roots(line.decode("ascii"))


def ask(program, folder, *words):
    """Runs a question: what it told, and its exit status."""
    ran = subprocess.run(
        [program, *words],
        cwd=folder,
        stdin=subprocess.DEVNULL,
        stdout=subprocess.PIPE,
        env=environment(),
        **limited(RUN_LIMIT),
    )
    return ran.stdout.decode("ascii"), ran.returncode


class Checks:
    """Comparisons of what is with what must be, and how many failed."""

    def __init__(self, tool):
        self.tool = tool
        self.count = self.failed = 0

    def same(self, what, given, wanted):
        self.count += 1
        if given != wanted:
            self.failed += 1
            print(f"{self.tool}: {what}: {given!r:.300}, not {wanted!r:.300}")

    def holds(self, what, is_so):
        self.same(what, is_so, True)

    def end(self):
        """The exit status of the tool."""
        print(f"{self.tool}: {self.count} checks, {self.failed} failed")
        return 1 if self.failed or not self.count else 0


def held_records(image):
    """The records of a log, up to the closed gate, each with its length; none where there is no log yet."""
    records, gate = [], FIRST_GATE
    if not image.startswith(HEAD):
        return records
    while image[gate : gate + 1] == OPEN:
        size = 4 + int.from_bytes(image[gate + 1 : gate + 5], "big")
        records.append(image[gate + 1 : gate + 1 + size])
        gate += 1 + size
    return records


def held_frames(image):
    """The frames of the blocks among them."""
    return [record for record in held_records(image) if record != MARK]


def is_marked(image):
    return MARK in held_records(image)
