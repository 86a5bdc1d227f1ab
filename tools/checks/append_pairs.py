"""Two appends of different chains to one log, which run at the same time; and an append and an upgrade.

Each is given its frames by a pipe, and neither is given the last of them before both have begun, which is seen by
that they read, or have ended. The log is then the chain of the one that ends with status 0, whole, and what that told
is what an append of the chain alone tells; the other ends with status 4, and has told nothing.
"""
import contextlib
import fcntl
import itertools
import os
import struct
import subprocess
import tempfile
import termios
import time

from cases.block_files import block_file, sets
from cases.log_cases import DISK_FAULT, DONE, REFUSED, frames_of, log_of, upgraded
from checks.disk_calls import get, put
from checks.log_runs import LINE_LIMIT, LOG, environment, known_lines, plain_chain, without_roots

# How many blocks each chain has, and how many of them stand in a log that is there before.
BLOCKS = 12
HELD = 3
# How many bytes are given before both have begun: some of a frame, the first frame, and almost all.
GIVEN_FIRST = [2, 80, 900]
ROUNDS_IN_GATE = 6
PERIOD = 0.001


def two_chains(first):
    """Two block files that begin with the same blocks, and what `append` tells of the blocks of each, but for the
    roots."""
    chain, lines = plain_chain(BLOCKS)
    blocks = [[sets(f"raw/{at}", at, [f"raw/{at - 1}"] if at else [])] for at in range(first)]
    blocks += [[sets(f"raw/{at}", at + 1_000, [f"raw/{at - 1}"] if at else [])] for at in range(first, BLOCKS)]
    return (chain, block_file(blocks)), lines


def start(program, folder, words="append"):
    streams = {"stdin": subprocess.PIPE, "stdout": subprocess.PIPE, "cwd": folder, "env": environment()}
    return subprocess.Popen([program, words], **streams)


def give(running, source):
    """Gives a program some bytes, where it still takes any."""
    with contextlib.suppress(BrokenPipeError):
        running.stdin.write(source)
        running.stdin.flush()


def has_begun(running):
    """Whether a program has read what it was given, or has ended."""
    waiting = fcntl.ioctl(running.stdin, termios.FIONREAD, bytes(4))
    return struct.unpack("i", waiting) == (0,) or running.poll() is not None


def until(is_so):
    """Waits until something is so, or for as long as a line is waited for."""
    last = time.monotonic() + LINE_LIMIT
    while not is_so() and time.monotonic() < last:
        time.sleep(PERIOD)


def wait_for(running):
    until(lambda: has_begun(running))


def close(running):
    with contextlib.suppress(BrokenPipeError):
        running.stdin.close()


def answer(running):
    """What a program tells that was given all, but for the roots, and its status."""
    with running.stdout:
        told = running.stdout.read()
    return without_roots(told.decode("latin-1")), running.wait(LINE_LIMIT)


def pair(checks, program, held, given):
    """Two appends onto a log of so many blocks, each with so many bytes given before both run; which of them stored."""
    files, lines = two_chains(held)
    lines = known_lines(held) + lines[held:]
    with tempfile.TemporaryDirectory() as folder:
        before = log_of(b"".join(frames_of(files[0])[:held])) if held else None
        put(os.path.join(folder, LOG), before)
        both = [start(program, folder) for _ in files]
        for running, file in zip(both, files):
            give(running, file[:given])
        for running in both:
            wait_for(running)
        for running, file in zip(both, files):
            give(running, file[given:])
            close(running)
        answers = [answer(running) for running in both]
        name = f"two appends onto {held} blocks, {given} bytes of which are given first"
        stored = [status == DONE for _, status in answers]
        alone, other = ("".join(lines), DONE), ("", DISK_FAULT)
        checks.same(name, sorted(answers), sorted([alone, other]))
        wanted = [log_of(file) for file, is_stored in zip(files, stored) if is_stored]
        checks.same(f"log after {name}", [get(os.path.join(folder, LOG))], wanted)
        checks.same(f"files after {name}", os.listdir(folder), [LOG])
        return stored


def pairs(checks, program, times):
    """So many pairs, with and without a log before; how often each of the two was the one that stored."""
    rounds = itertools.cycle(itertools.product([0, HELD], GIVEN_FIRST))
    stored = [pair(checks, program, held, given) for held, given in itertools.islice(rounds, times)]
    return [sum(column) for column in zip(*stored)]


def beside_upgrade(checks, program, held):
    """An append onto a log of so many blocks, and an upgrade that is started at the same time, and ends before the
    append was given all: either it stores nothing and tells nothing, since the log is locked, or it marks the log. Then
    the append stores nothing: it ends since the log is locked or was made meanwhile, or it has the mark before it."""
    (file, _), lines = two_chains(held)
    frames, known = frames_of(file), known_lines(held)
    first = b"".join(frames[:held])
    refused = f"refused frame {held} version 2\n"
    with tempfile.TemporaryDirectory() as folder:
        put(os.path.join(folder, LOG), log_of(first) if held else None)
        appending, upgrading = start(program, folder), start(program, folder, "upgrade")
        give(appending, file[: GIVEN_FIRST[0]])
        close(upgrading)
        done = answer(upgrading)
        wait_for(appending)
        give(appending, file[GIVEN_FIRST[0] :])
        close(appending)
        ended, name = answer(appending), f"an append onto {held} blocks and an upgrade"
        log = get(os.path.join(folder, LOG))
        allowed = [
            (("", DISK_FAULT), ("".join(known + lines[held:]), DONE), log_of(file)),
            ((upgraded(held), DONE), ("", DISK_FAULT), log_of(first, b"")),
            ((upgraded(held), DONE), ("".join(known) + refused, REFUSED), log_of(first, b"")),
        ]
        checks.holds(f"{name}: {done}, {ended}", (done, ended, log) in allowed)
        checks.same(f"files after {name}", os.listdir(folder), [LOG])
        return done[1] == DONE


def upgrades_beside(checks, program, times):
    """So many such pairs, with and without a log before; how often the upgrade was the one that wrote."""
    rounds = itertools.islice(itertools.cycle([0, HELD]), times)
    return sum(beside_upgrade(checks, program, held) for held in rounds)


def pairs_in_gate(checks, watched):
    pairs(checks, watched.program, ROUNDS_IN_GATE)
    upgrades_beside(checks, watched.program, ROUNDS_IN_GATE)
