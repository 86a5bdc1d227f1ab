"""The lock of the log, which a command that changes it holds from before its first read to its end, and a log that
another program removes, replaces, cuts or extends meanwhile.

What is expected was written from docs/log.md.
"""
import contextlib
import fcntl
import itertools
import os
import subprocess
import tempfile

from cases.log_cases import DISK_FAULT, DONE, SET_LOG, log_of, upgraded
from checks.append_pairs import wait_for
from checks.disk_calls import get, put
from checks.edge_calls import CHANGING, FOUND, FRAMES, LINES, MARKED_LOG, changes, steps
from checks.log_runs import (
    LINE_LIMIT, LOG, ask, held_frames, is_marked, known_lines, read_line, start_storing, store, without_roots,
)
from checks.program_cases import EXPOSE, RAW_A_PROOF, RECALL_FILE, RECALL_LOG, RECALL_ROOTS, SET_LIGHT, USED

# How many bytes of a frame are part of it.
PART = 2
PLAIN_LINES = list(map(without_roots, LINES))
# The commands that take blocks.
STORING = ["append", "follow"]
# Questions over the log of three blocks, and what they tell.
QUESTIONS = [
    ("fwd raw/part/p1", USED),
    ("hist raw/lot/l1", "block 1 tx 0 int 120\n"),
    ("root 1", f"root 1 {RECALL_ROOTS[1]}\n"),
]


@contextlib.contextmanager
def folder_of(log):
    """A folder with a log, or with none."""
    with tempfile.TemporaryDirectory() as folder:
        put(os.path.join(folder, LOG), log)
        yield folder


def is_locked(folder):
    """Whether somebody holds the lock of the log; so not where there is none. It takes the lock for an instant where
    nobody does, so it is asked while no `append` may be about to."""
    with contextlib.suppress(FileNotFoundError), open(os.path.join(folder, LOG), "rb") as file:
        try:
            fcntl.flock(file, fcntl.LOCK_EX | fcntl.LOCK_NB)
        except BlockingIOError:
            return True
    return False


@contextlib.contextmanager
def running_append(watched, folder, command="append"):
    """An `append`, or a `follow`, whose input is a pipe that stays open; it is killed at the end, where it runs
    still."""
    running = start_storing(watched.program, folder, subprocess.PIPE, command)
    try:
        yield running
    finally:
        running.kill()
        running.wait()
        running.stdout.close()
        with contextlib.suppress(BrokenPipeError):
            running.stdin.close()


def give(running, frame):
    """Gives a frame; the line that is told of it."""
    running.stdin.write(frame)
    return read_line(running)


def end(running):
    """Ends the input; what is told then, and the status."""
    running.stdin.close()
    told = without_roots(running.stdout.read().decode("latin-1"))
    return told, running.wait(LINE_LIMIT)


# ---- the lock


def lock_of_another(checks, watched):
    """Where another program holds the lock, also one that shares it, a command that changes the log ends before it has
    read, written or told anything; questions are answered."""
    for kind in [fcntl.LOCK_EX, fcntl.LOCK_SH]:
        with folder_of(RECALL_LOG) as folder, open(os.path.join(folder, LOG), "rb") as file:
            fcntl.flock(file, kind)
            for words, source in [(words, RECALL_FILE) for words in CHANGING] + [("append", b"")]:
                ran = watched.run_over(folder, words, source)
                name = f"{words} over a log whose lock {kind} another program holds"
                checks.same(name, (ran.told, ran.status, ran.log), ("", DISK_FAULT, RECALL_LOG))
                checks.same(f"calls of {name}", steps(ran.calls), FOUND[: FOUND.index("lock") + 1])
                checks.same(f"input of {name}", ran.read, 0)
            for words, told in QUESTIONS:
                checks.same(f"{words} meanwhile", ask(watched.program, folder, *words.split()), (told, DONE))
    with folder_of(SET_LOG) as folder, open(os.path.join(folder, LOG), "rb") as file:
        fcntl.flock(file, fcntl.LOCK_EX)
        proof = RAW_A_PROOF.decode("ascii")
        checks.same("prove meanwhile", ask(watched.program, folder, *"prove hist raw/a 0 0".split()), (proof, DONE))
        ran = watched.run_over(folder, EXPOSE.decode("ascii"), RAW_A_PROOF)
        checks.same("expose meanwhile", (ran.told, ran.status), ("no clash\n", DONE))
        told = "block 0 ancestors 0\n", DONE
        checks.same("trace meanwhile", ask(watched.program, folder, *"trace raw/a 0".split()), told)
        told = "versions 1\nblock 0 tx 0 int 5\n", DONE
        checks.same("range meanwhile", ask(watched.program, folder, *"range raw/a 0 0".split()), told)
        ran = watched.run_over(folder, "light make")
        checks.same("light make meanwhile", (ran.told, ran.status), (SET_LIGHT.decode("latin-1"), DONE))


def lock_of_a_run(checks, watched):
    """`append` holds the lock until it ends, also by a kill, over a log that it finds, from before it was given
    anything, and one that it makes; another one, a `follow`, and an `upgrade`, end at once meanwhile."""
    for held in [0, 1]:
        log = log_of(b"".join(FRAMES[:held])) if held else None
        with folder_of(log) as folder, running_append(watched, folder) as running:
            # Once it has read part of a frame, it has read the log, too.
            running.stdin.write(FRAMES[0][:PART])
            wait_for(running)
            checks.same("whether the lock is held before a block is given", is_locked(folder), held > 0)
            lines = known_lines(held) + PLAIN_LINES[held:]
            for number, frame in enumerate([FRAMES[0][PART:], FRAMES[1]]):
                checks.same(f"line {number} of one that runs", give(running, frame), lines[number])
                checks.holds("the lock is held", is_locked(folder))
            before = get(os.path.join(folder, LOG))
            checks.same("a second append", store(watched.program, folder, RECALL_FILE), ("", DISK_FAULT))
            checks.same("a follower meanwhile", ask(watched.program, folder, "follow"), ("", DISK_FAULT))
            checks.same("an upgrade meanwhile", ask(watched.program, folder, "upgrade"), ("", DISK_FAULT))
            checks.same("log after that", get(os.path.join(folder, LOG)), before)
            words = "hist raw/lot/l1".split()
            wanted = "block 1 tx 0 int 120\n", DONE
            checks.same("a question meanwhile", ask(watched.program, folder, *words), wanted)
            checks.holds("the lock is held still", is_locked(folder))
            running.kill()
            running.wait()
            wanted = "".join(known_lines(2) + PLAIN_LINES[2:]), DONE
            checks.same("append after a kill", store(watched.program, folder, RECALL_FILE), wanted)
            checks.holds("no lock is left", not is_locked(folder))
            checks.same("log after that", get(os.path.join(folder, LOG)), RECALL_LOG)
            checks.same("upgrade then", ask(watched.program, folder, "upgrade"), (upgraded(3), DONE))
            checks.holds("no lock is left", not is_locked(folder))
            checks.same("log after that", get(os.path.join(folder, LOG)), log_of(RECALL_FILE, b""))


# ---- a log that another program changes


# What stands in place of a log that was replaced.
OTHER = SET_LOG


def remove(folder):
    os.unlink(os.path.join(folder, LOG))


def replace(folder, other=OTHER):
    put(os.path.join(folder, "other"), other)
    os.rename(os.path.join(folder, "other"), os.path.join(folder, LOG))


def renew(folder):
    """Another file comes in the place of the log, with the same bytes."""
    replace(folder, get(os.path.join(folder, LOG)))


def resize(folder, bytes_):
    path = os.path.join(folder, LOG)
    os.truncate(path, os.path.getsize(path) + bytes_)


def cut(folder):
    resize(folder, -1)


def empty(folder):
    os.truncate(os.path.join(folder, LOG), 0)


def extend(folder):
    resize(folder, 1)


CHANGES = [remove, replace, renew, cut, empty, extend]
# How many of the first two blocks stand in the log before a run; it stores the others of the two.
HELD = [0, 1, 2]
# What is given behind a change: the end of the input, a block that the log has, and its next one.
GIVEN = {"nothing": b"", "a known block": FRAMES[0], "the last known block": FRAMES[1], "the next block": FRAMES[2]}


def changes_between_frames(checks, watched):
    """Once the log isn't the file that was opened, or another program has changed its length, nothing is written to it,
    and no further block is told of, not even one that it had: a run ends with the status of a fault, also where it is
    given nothing more. What was told of stands in the file that was opened, as far as it wasn't cut."""
    for words, held, change, given in itertools.product(STORING, HELD, CHANGES, GIVEN):
        log = log_of(b"".join(FRAMES[:held])) if held else None
        with folder_of(log) as folder, running_append(watched, folder, words) as running:
            lines = known_lines(held) + PLAIN_LINES[held:]
            name = f"{words} over {held} blocks to which somebody does `{change.__name__}`, and then given {given}"
            for number, frame in enumerate(FRAMES[:2]):
                checks.same(f"line {number} of {name}", give(running, frame), lines[number])
            kept, path = os.path.join(folder, "kept"), os.path.join(folder, LOG)
            os.link(path, kept)
            change(folder)
            before = get(path), get(kept)
            running.stdin.write(GIVEN[given])
            checks.same(name, end(running), ("", DISK_FAULT))
            checks.same(f"files after {name}", (get(path), get(kept)), before)
            if change is not empty:
                checks.same(f"blocks after {name}", held_frames(get(kept)), FRAMES[:2])


# Changes after which the path leads to the file that was opened no more.
LEADING_AWAY = [remove, replace, renew]


def changes_while_opened(checks, watched):
    """Where the path of a log leads to it no more at a time between its opening and its first read, nothing is written,
    and nothing told; also where it does so again a call later."""
    for words, change in itertools.product(CHANGING, LEADING_AWAY):
        good = watched.run(words, RECALL_FILE, RECALL_LOG)
        names = [(call.name, call.what) for call in good.calls]
        openings = [number for number, name in enumerate(names) if name == ("open", "log")]
        settings = {"CHANGE": change.__name__, "other": OTHER}
        for number in range(openings[0] + 1, names.index(("pread", "log"))):
            ran = watched.run(words, RECALL_FILE, RECALL_LOG, BEFORE=number, **settings)
            name = f"{words} where somebody does `{change.__name__}` before call {number}, {good.calls[number]}"
            checks.same(name, (ran.told, ran.status, ran.kept), ("", DISK_FAULT, RECALL_LOG))
            checks.holds(f"nothing is written, {name}", not any(call.name == "pwrite" for call in ran.calls))
        # One that has no name can't be opened again.
        for number in openings[1:] * (change is not remove):
            ran = watched.run(words, RECALL_FILE, RECALL_LOG, BEFORE=number, BACK=number + 1, **settings)
            name = f"{words} where somebody does `{change.__name__}` before it is opened again, and undoes it"
            checks.same(name, (ran.told, ran.status, ran.log), ("", DISK_FAULT, RECALL_LOG))


# Runs to which such a change is made: the words, and the log before.
RUNS = list(itertools.product(STORING, [None, log_of(FRAMES[0]), RECALL_LOG]))
RUNS += [("upgrade", log) for log in (None, log_of(FRAMES[0]), MARKED_LOG)]
# What tells whether the path leads to the file that was opened, and how long that is.
LOOK = "statx", "log"


def changes_at_each_call(checks, watched):
    """The same, with the change before each call from the lock of a log on that was made, or from the last read of one
    that was found: the next look ends the run. The last one comes before the last line, or after it."""
    for words, log in RUNS:
        good = watched.run(words, RECALL_FILE, log)
        names = [(call.name, call.what) for call in good.calls]
        first = names.index(("flock", "log"))
        if log is not None:
            first = len(names) - names[::-1].index(("pread", "log"))
        for change in CHANGES:
            for number in range(first, len(names)):
                seen = (names + [LOOK]).index(LOOK, number)
                if names[number][1] != "input" and not is_written_over(change, log, good.calls[:seen], number):
                    changed_call(checks, watched, words, log, good, change, number, seen)


def is_written_over(change, log, calls, number):
    """Whether what follows puts a length right that is changed before a call, since it writes past the end; or whether
    there is nothing to cut."""
    is_empty = log is None and not any(call.name == "pwrite" for call in calls[:number])
    is_past = any(call.name == "pwrite" and call.size > 1 for call in calls[number:])
    return change in (cut, empty, extend) and (is_past or is_empty)


def changed_call(checks, watched, words, log, good, change, number, look):
    """A run to which a change is made before a call, and which looks at what was changed before another."""
    ran = watched.run(words, RECALL_FILE, log, other=OTHER, BEFORE=number, CHANGE=change.__name__)
    name = f"{words} over {len(log or b'')} bytes to which somebody does `{change.__name__}` before call {number}"
    status = DISK_FAULT if look < len(good.calls) else DONE
    told = "".join(good.told.splitlines(keepends=True)[: sum(call.what == "output" for call in good.calls[:look])])
    checks.same(name, (ran.told, ran.status), (told, status))
    checks.same(f"calls after {name}", changes(ran.calls[look + 1 :]), [])
    if change is replace:
        checks.same(f"what stands in its place after {name}", ran.log, OTHER)
    if change is not empty:
        kept, lines = ran.kept or b"", told.count("\n")
        sure = lines if words in STORING else len(held_frames(log or b""))
        checks.same(f"blocks after {name}", held_frames(kept)[:sure], FRAMES[:sure])
        if words == "upgrade":
            checks.holds(f"the mark is there that was told of, after {name}", is_marked(kept) >= lines)
