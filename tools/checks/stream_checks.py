"""Streams that don't wait: pipes of which a call fails where it would have to, as a parent may hand them down.

The program then waits by itself, and takes little of a processor meanwhile. What it reads, prints and stores is what it
is over others.
"""
import fcntl
import os
import struct
import subprocess
import tempfile
import termios
import time

from cases.generated_chain import Generated
from cases.log_cases import DONE, log_of
from checks.append_pairs import until
from checks.disk_calls import get
from checks.edge_calls import FOLLOWED, FRAMES, LINES, QUESTION
from checks.log_runs import LINE_LIMIT, LOG, environment
from checks.program_cases import RECALL_FILE, USED

# The words of commands that take the three blocks, what they tell of them, and whether they store them.
TAKING = [
    ("append", "".join(LINES), True),
    ("follow", "".join(LINES) + FOLLOWED, True),
    (f"scan {QUESTION} 2", USED, False),
]
# How many blocks a long chain has, and its seed: its block file and the lines of its blocks are longer than a pipe.
LONG = 200, 7
# The least bytes that the system has for a pipe, and how many are read of it at once.
PIPE_BYTES = 4_096
READ_BYTES = 1_000
# For how long a run is left to wait, in seconds, how much of that it may take of a processor, and after how many times
# that it must have come to wait.
WAIT = 0.5
SHARE = 0.2
WAITS = 40
TICKS = os.sysconf("SC_CLK_TCK")


def pipe_of(least=False, waits=(True, True)):
    """The two ends of a pipe; `waits` says of each whether a call of it waits."""
    ends = os.pipe()
    if least:
        fcntl.fcntl(ends[1], fcntl.F_SETPIPE_SZ, PIPE_BYTES)
    for end, does_wait in zip(ends, waits):
        os.set_blocking(end, does_wait)
    return ends


def unread(end):
    """How many bytes of a pipe are not read yet."""
    return struct.unpack("i", fcntl.ioctl(end, termios.FIONREAD, bytes(4)))[0]


def start(watched, folder, words, source, sink):
    """Starts a program over two streams, which are closed here."""
    words = [watched.program, *words.split()]
    running = subprocess.Popen(words, cwd=folder, stdin=source, stdout=sink, env=environment())
    for stream in (source, sink):
        os.close(stream)
    return running


def seconds_of(running):
    """How many seconds of a processor a program has taken, whose status wasn't asked for since it ended."""
    with open(f"/proc/{running.pid}/stat", encoding="ascii", errors="replace") as file:
        user, system = file.read().rpartition(")")[2].split()[11:13]
    return (int(user) + int(system)) / TICKS


def is_waiting(running, end):
    """Whether a program that runs moves no byte of its pipe for a while, and takes little of a processor."""
    seconds, count = seconds_of(running), unread(end)
    time.sleep(WAIT)
    return seconds_of(running) - seconds <= SHARE * WAIT and unread(end) == count


def waits(checks, running, end, name):
    """A program goes on, and comes to where it has nothing to do."""
    is_idle = any(running.poll() is None and is_waiting(running, end) for _ in range(WAITS))
    checks.same(f"whether it has ended, {name}", running.poll(), None)
    checks.holds(f"it waits, {name}", is_idle)


def ended(running):
    """The status of a program that is to end; it is killed where it doesn't."""
    try:
        return running.wait(LINE_LIMIT)
    except subprocess.TimeoutExpired:
        running.kill()
        return running.wait()


def input_that_does_not_wait(checks, watched):
    """Blocks come bit by bit, each in two parts, and are taken as they come."""
    for words, told, stores in TAKING:
        name = f"{words} over a pipe that doesn't wait"
        with tempfile.TemporaryDirectory() as folder, tempfile.TemporaryFile() as output:
            source, end = pipe_of(waits=(False, True))
            running = start(watched, folder, words, source, os.dup(output.fileno()))
            waits(checks, running, end, name)
            for frame in FRAMES:
                for part in (frame[:2], frame[2:]):
                    if running.poll() is None:
                        os.write(end, part)
                        until(lambda: not unread(end) or running.poll() is not None)
            waits(checks, running, end, name)
            os.close(end)
            status = ended(running)
            output.seek(0)
            checks.same(name, (output.read().decode("latin-1"), status), (told, DONE))
            checks.same(f"log of {name}", get(os.path.join(folder, LOG)), log_of(RECALL_FILE) if stores else None)


def output_that_does_not_wait(checks, watched):
    """What is told fills the pipe, and is read bit by bit; all of it comes."""
    made = Generated(*LONG).file
    plain = watched.run_plain("append", made)
    for words, source, told, log in [
        (f"gen {LONG[0]} {LONG[1]}", b"", made, None),
        ("append", made, plain[0].encode("latin-1"), log_of(made)),
    ]:
        name = f"{words} into a pipe that doesn't wait"
        checks.holds(f"more is told than a pipe holds, {name}", len(told) > PIPE_BYTES)
        with tempfile.TemporaryDirectory() as folder, tempfile.TemporaryFile() as given:
            given.write(source)
            given.seek(0)
            end, sink = pipe_of(least=True, waits=(True, False))
            running = start(watched, folder, words, os.dup(given.fileno()), sink)
            # What is written at once may be more than there is room for.
            until(lambda: unread(end) >= PIPE_BYTES // 2 or running.poll() is not None)
            waits(checks, running, end, name)
            with open(end, "rb", buffering=0) as pipe:
                given = b"".join(iter(lambda: pipe.read(READ_BYTES), b""))
            checks.same(name, (given, ended(running)), (told, DONE))
            checks.same(f"log of {name}", get(os.path.join(folder, LOG)), log)
