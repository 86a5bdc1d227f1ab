"""Which calls the built program makes of the log and of its streams, in which order, and what it does where one of
them fails, moves fewer bytes, or takes nothing.

What is expected was written from docs/formats.md and docs/log.md.
"""
import errno
import functools
import itertools
import os
import signal
import subprocess
import tempfile

from cases.block_files import block_file, sets
from cases.generated_chain import Generated
from cases.growing_roots import growing_roots
from cases.light_cases import pieces
from cases.log_cases import ALREADY, BEYOND, DISK_FAULT, DONE, FIRST_GATE, HEAD, MARK, MEMORY, REFUSED
from cases.log_cases import SET_FILE, SET_LINE, SET_LOG, UNREADABLE, UNTOLD, USAGE, frames_of, log_of, upgraded
from cases.root_cases import Row
from checks.disk_calls import CREATE, LOCK, NEW, SYNCS, TRUNCATE, get, put
from checks.log_runs import LOG, held_frames, is_marked, known_lines
from checks.program_cases import MADE_FROM, RAW_A_PROOF, RECALL_FILE, RECALL_LINES, RECALL_LOG, S1, USED
from checks.program_cases import BATCH, EXPOSE, OF_PART, PROVE_S1, RECALL_LIGHT, SET_FRAME, SET_LIGHT, SET_TOLD
from checks.program_cases import VERIFY, followed
from checks.program_runs import take_rights
from checks.recall_chains import chain_of, over, recall_chain

# The status where a call fails, by what it touches.
STATUSES = {"log": DISK_FAULT, "folder": DISK_FAULT, "input": UNREADABLE, "output": UNTOLD}
# And where a file is at the limit of its length, by whether the signal is ignored that comes with that.
AT_LIMIT = {True: DISK_FAULT, False: -signal.SIGXFSZ}
FRAMES = frames_of(RECALL_FILE)
LINES = RECALL_LINES.splitlines(keepends=True)
QUESTION = "fwd raw/part/p1"
USED_LINES = USED.splitlines(keepends=True)
# The log of the first of the three blocks, marked, and what `append` takes behind the mark.
MARKED = recall_chain(1)
MARKED_LOG = MARKED.log(1)
# The commands that change the log.
CHANGING = ["append", "follow", "upgrade"]
# The last line of `follow` over all three blocks.
FOLLOWED = followed(3, 0)
KNOWN = "".join(known_lines(3))
# A call that ends so is not made again; as each other one that fails it ends the run.
ERRORS = [errno.ENOSPC]

# ---- calls as words

# Before a write, after a sync, before the line of a block that the log has, and before an end at which all is well: one
# look at the path tells whether it leads to the file that is open, and how long that is.
LOOK = "look"
# Each file that is opened gets a second descriptor, since the first one may be that of a standard stream that was
# closed; and it is asked which file it is.
OPENED = ["apart", "which"]
# A log is looked for, and opened for reading alone.
LOOKED_FOR = [LOOK]
TO_READ = [*LOOKED_FOR, "open to read", *OPENED]
# It is opened once more for writing, and locked, before anything is read or written; how long it is then is noted.
# It is synced before a byte of it is read: an earlier run may have ended before its sync.
FOUND = [*TO_READ, "open to write", *OPENED, "lock", LOOK, "sync log", "sync folder", LOOK, "read"]
# One that is made is empty, whatever stands in it once it is locked.
ABSENT = [*LOOKED_FOR, LOOK]
MADE = [*ABSENT, "make", *OPENED, "lock"]


def stored(at, size, *folder):
    """Some bytes are put at a place, and synced."""
    return [LOOK, f"write {at} {size}", "sync log", *folder, LOOK]


def head_stored():
    """The head of a new log in three steps; the folder, which has a new file, is synced too."""
    return [*stored(0, 1, "sync folder"), *stored(1, len(HEAD)), *stored(0, 1)]


def record_stored(gate, record):
    """A block or the mark: its record, behind which comes a closed gate, then its own gate; and its line."""
    return [*stored(gate + 1, len(record) + 1), *stored(gate, 1), "tell"]


# How many looks that takes.
LOOKS_A_BLOCK = 4


def blocks_stored(gate, frames):
    """Blocks one after another, the first of which has its gate at this place."""
    for frame in frames:
        yield from record_stored(gate, frame)
        gate += 1 + len(frame)


def blocks_known(count):
    """Blocks that the log has."""
    return [LOOK, "tell"] * count


# At the end of a run that took all of its input, and an upgrade of a log that is marked, which takes none.
DONE_WELL = [LOOK]
UNCHANGING = [*FOUND, "tell"]
WORDS = {"pwrite": "write {0.at} {0.size}", "write": "tell", "ftruncate": "truncate", "fchmod": "mode {0.size}"}
WORDS |= {"dup": "apart", "pread": "read", "fstat": "which", "statx": LOOK, "unlink": "unlink"}
WORDS |= dict.fromkeys(SYNCS, "sync {0.what}")
# How a file is opened.
OPENINGS = {os.O_RDONLY: "open to read", os.O_RDWR: "open to write"}


def word_of(call):
    """A call as words; nothing of one that is no step: of the input, or the opening of a folder, of which its sync
    tells."""
    if call.name == "open" and call.what == "log":
        return "make" if call.at & (CREATE | NEW) == CREATE | NEW else OPENINGS[call.at & os.O_ACCMODE]
    if call.name == "flock":
        return "lock" if call.at == LOCK else f"lock {call.at}"
    return WORDS.get(call.name, "").format(call)


def steps(calls):
    """The calls as words; reads that follow one another are one."""
    words = [word for word in map(word_of, calls) if word]
    return [word for word, before in zip(words, [None, *words]) if (word, before) != ("read", "read")]


def changes(calls):
    """Those of them that write, sync or tell."""
    return steps(call for call in calls if call.changes())


# ---- the order of calls


def order_of_calls(checks, watched):
    """What is looked at, locked, read, written, synced and told, in which order; and how the log is opened."""
    first = watched.run("append", SET_FILE)
    checks.same("a first append", (first.told, first.status, first.log), (SET_LINE, DONE, SET_LOG))
    wanted = [*MADE, *head_stored(), *blocks_stored(FIRST_GATE, [SET_FILE]), *DONE_WELL]
    checks.same("calls of a first append", steps(first.calls), wanted)
    runs = [first, *order_of_known_blocks(checks, watched), *order_of_upgrades(checks, watched)]
    for ran in runs:
        flags = [call.at for call in ran.calls if call.name == "open" and call.what == "log"]
        checks.holds("the log is never cut", not any(flag & TRUNCATE for flag in flags))
        made = [flag & (CREATE | NEW) for flag in flags if flag & (CREATE | NEW)]
        is_new = any(map("make".__eq__, steps(ran.calls)))
        checks.same("a log is made where there is none, and there alone", made, [CREATE | NEW] * is_new)
    questions_read_alone(checks, watched)


def order_of_known_blocks(checks, watched):
    """The calls of an append and of a follow of blocks that the log has, and of an append and a follow of nothing."""
    for words, source, log, told, wanted in [
        ("append", SET_FILE, SET_LOG, "known 0\n", [*FOUND, *blocks_known(1), *DONE_WELL]),
        ("append", RECALL_FILE, RECALL_LOG, KNOWN, [*FOUND, *blocks_known(3), *DONE_WELL]),
        ("append", b"", SET_LOG, "", [*FOUND, *DONE_WELL]),
        ("append", b"", None, "", [*ABSENT, *DONE_WELL]),
        ("follow", SET_FILE, SET_LOG, f"known 0\n{followed(1, 0)}", [*FOUND, *blocks_known(1), *DONE_WELL, "tell"]),
        ("follow", b"", SET_LOG, followed(1, 0), [*FOUND, *DONE_WELL, "tell"]),
        ("follow", b"", None, followed(0, 0), [*ABSENT, *DONE_WELL, "tell"]),
        # What waits is no block of the log.
        ("follow", FRAMES[2], log_of(FRAMES[0]), f"kept 2\n{followed(1, 1)}", [*FOUND, "tell", *DONE_WELL, "tell"]),
    ]:
        ran, name = watched.run(words, source, log), f"{words} of {len(source)} bytes over {len(log or b'')}"
        checks.same(name, (ran.told, ran.status, ran.log), (told, DONE, log))
        checks.same(f"calls of {name}", steps(ran.calls), wanted)
        yield ran


# A question of each kind, its input, and the log.
EACH_QUESTION = [
    *((words, b"", RECALL_LOG) for words in ("hist raw/lot/l1", "back raw/lot/l1", QUESTION, "root", "root 0")),
    *((words, b"", RECALL_LOG) for words in ("prove fwd raw/part/p1 2 2", "range prove raw/part/p1 0 2 2")),
    *((words.decode(), b"", RECALL_LOG) for words in (S1, PROVE_S1, OF_PART)),
    (EXPOSE.decode(), RAW_A_PROOF, SET_LOG),
    ("light make", b"", RECALL_LOG),
]


def questions_read_alone(checks, watched):
    """A question opens the log for reading, once, and does nothing else with it."""
    for words, source, log in EACH_QUESTION:
        ran = watched.run(words, source, log)
        checks.same(f"status of {words}", ran.status, DONE)
        of_log = steps(call for call in ran.calls if call.what != "output")
        checks.same(f"calls of {words}, but for what is told", of_log, [*TO_READ, "read"])


def order_of_upgrades(checks, watched):
    """The calls of an upgrade: over no log, over a log, and over one that is marked; and of an append to that."""
    making = [*MADE, *head_stored(), *record_stored(FIRST_GATE, MARK)]
    marking = [*FOUND, *record_stored(len(SET_LOG) - 1, MARK)]
    for log, told, after, wanted in [
        (None, upgraded(0), log_of(b"", b""), making),
        (SET_LOG, upgraded(1), log_of(SET_FILE, b""), marking),
        (MARKED_LOG, ALREADY, MARKED_LOG, UNCHANGING),
    ]:
        ran, name = watched.run("upgrade", SET_FILE, log), f"upgrade of {len(log or b'')} bytes"
        checks.same(name, (ran.told, ran.status, ran.log, ran.read), (told, DONE, after, 0))
        checks.same(f"calls of {name}", steps(ran.calls), wanted)
        yield ran
    ran = watched.run("append", MARKED.file, MARKED_LOG)
    told = "".join(known_lines(1) + MARKED.lines[1:])
    checks.same("append to a marked log", (ran.told, ran.status, ran.log), (told, DONE, MARKED.log()))
    stored_then = blocks_stored(len(MARKED_LOG) - 1, MARKED.frames[1:])
    wanted = [*FOUND, *blocks_known(1), *stored_then, *DONE_WELL]
    checks.same("calls of an append to a marked log", steps(ran.calls), wanted)
    yield ran


# How long the chain is that is stored block by block, and its seed.
LONG = 200, 7
# A log that is longer than this, in texts of the greatest size.
LONG_LOG_BYTES = 1 << 16
TEXT = "a" * 1_024


def looks_of(words):
    """How many of some calls ask for what the system knows of the log, by its path or as an open file."""
    return words.count(LOOK) + words.count("which")


def order_of_long_runs(checks, watched):
    """Each block of a long chain is written, synced and told in its order; so is one behind a long log."""
    made = Generated(*LONG)
    frames = frames_of(made.file)
    roots = growing_roots(frames, made.rows)
    lines = [f"{line} root {root}\n" for line, root in zip(made.plain_lines(), roots)]
    ran = watched.run("append", made.file)
    checks.same("a long append", (ran.told, ran.status, ran.log), ("".join(lines), DONE, log_of(made.file)))
    wanted = [*MADE, *head_stored(), *blocks_stored(FIRST_GATE, frames), *DONE_WELL]
    checks.same("calls of a long append", steps(ran.calls), wanted)
    looks = looks_of(steps(ran.calls)) - looks_of([*MADE, *head_stored(), *DONE_WELL])
    checks.same("how many looks that takes", looks, LOOKS_A_BLOCK * len(frames))
    ran = watched.run("append", made.file, log_of(made.file))
    told = "".join(known_lines(len(frames)))
    checks.same("a long append once more", (ran.told, ran.status, ran.log), (told, DONE, log_of(made.file)))
    wanted = [*FOUND, *blocks_known(len(frames)), *DONE_WELL]
    checks.same("calls of a long append once more", steps(ran.calls), wanted)
    rows = [Row(f"raw/{at}", at, 0, TEXT, []) for at in range(LONG_LOG_BYTES // len(TEXT) + 3)]
    file = block_file([[sets(row.key, row.value)] for row in rows])
    frames = frames_of(file)
    roots = growing_roots(frames, rows)
    lines = [f"block {at} rows 1 status 0 root {root}\n" for at, root in enumerate(roots)]
    log = log_of(b"".join(frames[:-2]))
    checks.holds("a log is long", len(log) > LONG_LOG_BYTES)
    ran = watched.run("append", b"".join(frames[-2:]), log)
    checks.same("append to a long log", (ran.told, ran.status, ran.log), ("".join(lines[-2:]), DONE, log_of(file)))
    wanted = [*FOUND, *blocks_stored(len(log) - 1, frames[-2:]), *DONE_WELL]
    checks.same("calls of an append to a long log", steps(ran.calls), wanted)
    ran = watched.run("upgrade", log=log_of(file))
    wanted = upgraded(len(rows)), DONE, log_of(file, b"")
    checks.same("upgrade of a long log", (ran.told, ran.status, ran.log), wanted)
    wanted = [*FOUND, *record_stored(len(log_of(file)) - 1, MARK)]
    checks.same("calls of an upgrade of a long log", steps(ran.calls), wanted)


# ---- calls that fail


# Runs of which each call fails in turn: the words, the input, the log before, and the lines.
RUNS = [
    ("append", RECALL_FILE, None, LINES),
    ("append", RECALL_FILE, log_of(FRAMES[0]), known_lines(1) + LINES[1:]),
    ("append", RECALL_FILE, RECALL_LOG, known_lines(3)),
    ("append", MARKED.file, MARKED_LOG, known_lines(1) + MARKED.lines[1:]),
    ("follow", FRAMES[2] + FRAMES[0] + FRAMES[1], None, ["kept 2\n", *LINES, FOLLOWED]),
    ("follow", RECALL_FILE, log_of(FRAMES[0]), [*known_lines(1), *LINES[1:], FOLLOWED]),
    ("upgrade", b"", None, [upgraded(0)]),
    ("upgrade", b"", log_of(FRAMES[0]), [upgraded(1)]),
    ("upgrade", b"", RECALL_LOG, [upgraded(3)]),
    ("upgrade", b"", MARKED_LOG, [ALREADY]),
    (QUESTION, b"", RECALL_LOG, USED_LINES),
    (S1.decode(), b"", RECALL_LOG, MADE_FROM.splitlines(keepends=True)),
    (OF_PART.decode(), b"", RECALL_LOG, BATCH.splitlines(keepends=True)),
    ("light make", b"", RECALL_LOG, [piece.decode("latin-1") for piece in pieces(RECALL_LIGHT)]),
    ("light", SET_LIGHT + SET_FRAME, None, SET_TOLD.splitlines(keepends=True)),
]


def failing_calls(checks, watched):
    for words, source, log, lines in RUNS:
        good = watched.run(words, source, log)
        checks.same(f"{words}, all well", (good.told, good.status), ("".join(lines), DONE))
        run = words, source, log, lines
        for number in some_of_each_kind(good.calls):
            for error in ERRORS:
                failing_call(checks, watched, run, good, {"FAIL": number, "ERROR": error})
        for number, call in enumerate(good.calls):
            failing_call(checks, watched, run, good, {"FAIL": number})
            if call.takes_bytes():
                failing_call(checks, watched, run, good, {"NOTHING": number})
            if call.moves_bytes() and call.size > 1:
                ran = watched.run(words, source, log, SHORT=number)
                name = f"{words}, of call {number}, {call}, one byte"
                given = (ran.told, ran.status, ran.log)
                checks.same(name, given, (good.told, good.status, good.log))


def some_of_each_kind(calls):
    """The numbers of the first and of the last call of each name that touches each thing."""
    numbered = [((call.name, call.what), number) for number, call in enumerate(calls)]
    return sorted({*dict(numbered).values(), *dict(reversed(numbered)).values()})


def failing_call(checks, watched, run, good, setting):
    """A run of which one call fails: it ends at once with what was told before, and the next run goes
    on with each block that was told of."""
    words, source, log, lines = run
    number = setting.get("FAIL", setting.get("NOTHING"))
    call = good.calls[number]
    name = f"{words} over {len(log or b'')} bytes, {setting} {call}"
    ran = watched.run(words, source, log, **setting)
    told = sum(call.what == "output" for call in good.calls[:number])
    checks.same(f"status of {name}", ran.status, STATUSES[call.what])
    checks.same(f"lines of {name}", ran.told, "".join(lines[:told]))
    checks.same(f"calls after {name}", changes(ran.calls[number + 1 :]), [])
    if words not in CHANGING:
        checks.same(f"log after {name}", ran.log, log)
        return
    promises = sum(line.startswith(("block", "known", "upgraded", "already")) for line in lines[:told])
    keeps_what_was_told(checks, words, log, ran.log, promises, name)
    goes_on(checks, watched, ran.log, name)


def keeps_what_was_told(checks, words, before, after, told, name):
    """A log after a run that told so many lines of blocks or of the mark has the blocks and the mark that it had, and
    what was told of."""
    held, had = held_frames(after or b""), held_frames(before or b"")
    checks.holds(f"the log has first ones of the blocks after {name}", chain_of(after) is not None)
    if words != "upgrade":
        checks.holds(f"each block is there that was told of, after {name}", len(held) >= max(told, len(had)))
        checks.same(f"whether the log is marked after {name}", is_marked(after or b""), is_marked(before or b""))
    else:
        checks.same(f"blocks after {name}", held, had)
        checks.holds(f"the mark is there that was told of, after {name}", is_marked(after or b"") >= told)


@functools.cache
def run_again(watched, words, source, log):
    """A run over what was left, with nothing in its way. It does the same each time."""
    return watched.run(words, source, log)


def goes_on(checks, watched, log, name):
    """An append over what was left has the blocks that are there, and stores the others, and an upgrade marks it, over
    what stands behind its end. What is there is synced before anything is told of or written."""
    chain, held, marked = chain_of(log)
    for words, source, wanted, after in [
        ("append", chain.file, known_lines(held) + chain.lines[held:], over(log, chain.log(is_marked=marked))),
        ("upgrade", b"", [ALREADY if marked else upgraded(held)], over(log, chain.log(held))),
    ]:
        again, going = run_again(watched, words, source, log), f"going on by {words} after {name}"
        checks.same(f"status of {going}", (again.status, again.log), (DONE, after))
        checks.same(f"lines of {going}", again.told, "".join(wanted))
        if log is not None:
            wanted = FOUND[:-1]
            if marked and words == "upgrade":
                wanted = UNCHANGING
            elif held and words == "append":
                wanted = [*FOUND, *blocks_known(held)]
            checks.same(f"first calls of {going}", steps(again.calls)[: len(wanted)], wanted)


# The calls that a signal may interrupt, which never happens to the others; and the streams, which may be such that a
# call fails where it would have to wait.
INTERRUPTED = ["open", "read", "write", "pread", "pwrite", "flock", *SYNCS]
STREAMS = ["input", "output"]
# How often one after another such a call fails.
AGAIN = 3


def interrupted_calls(checks, watched):
    """A call that was interrupted is made again until it is not, and so is one of a stream that would have to wait: all
    is as if nothing had been."""
    for words, source, log, _ in RUNS:
        good = watched.run(words, source, log)
        for number, call in enumerate(good.calls):
            errors = [errno.EINTR] * (call.name in INTERRUPTED) + [errno.EAGAIN] * (call.what in STREAMS)
            for error in errors:
                made_again(checks, watched, (words, source, log), good, number, {"ERROR": error})


def made_again(checks, watched, run, good, number, settings):
    """A run of which one call fails some times, one after another, and is made again each time; nothing else is."""
    words, source, log = run
    ran = watched.run(words, source, log, FAIL=number, TIMES=AGAIN, **settings)
    name = f"{words} over {len(log or b'')} bytes, {AGAIN} times {settings} at {good.calls[number]}"
    given, wanted = [(kept.told, kept.status, kept.log, kept.read, kept.names) for kept in (ran, good)]
    checks.same(name, given, wanted)
    calls = [good.calls[number]] * AGAIN
    wanted = good.calls[:number] + calls + good.calls[number:]
    checks.same(f"calls of {name}, but for looks", asked(ran.calls), asked(wanted))


def asked(calls):
    """Calls without their answers, and without looks at the log, which may come before a write that is made again."""
    return [(call.name, call.what, call.at, call.size) for call in calls if call.name != "statx"]


def log_made_meanwhile(checks, watched):
    """Another program makes the log after this one found none: it stays as it is, and the run doesn't end well, even
    where it stores nothing."""
    for words, source in [*((words, RECALL_FILE) for words in CHANGING), ("append", b""), ("follow", b"")]:
        good = watched.run(words, source)
        # Each call from the second one that could see it on, to the one that makes it.
        names = [call.name for call in good.calls]
        last = names.index("open") if "open" in names else len(names) - 1 - names[::-1].index("statx")
        checks.holds(f"a log can be made meanwhile, {words} of {len(source)} bytes", last > 0)
        for number in range(names.index("statx") + 1, last + 1):
            ran = watched.run(words, source, other=SET_LOG, BEFORE=number)
            name = f"a log that was made before call {number} of {words} of {len(source)} bytes"
            checks.same(name, (ran.told, ran.status, ran.log), ("", DISK_FAULT, SET_LOG))


# ---- the input


def rest_of_input(checks, watched):
    """How much of standard input was read: all frames, those up to a refused one and that, or nothing."""
    first, second, third = FRAMES
    question = f"scan {QUESTION} 2"
    proof = VERIFY.decode()
    for words, source, log, status, read in [
        ("append", RECALL_FILE, None, DONE, len(RECALL_FILE)),
        ("append", RECALL_FILE, RECALL_LOG, DONE, len(RECALL_FILE)),
        (question, RECALL_FILE, None, DONE, len(RECALL_FILE)),
        (proof, RAW_A_PROOF, None, DONE, len(RAW_A_PROOF)),
        # The third block in place of the second one; a frame without a byte.
        ("append", first + third + second, None, REFUSED, len(first + third)),
        ("append", first + bytes(4) + second, None, REFUSED, len(first) + 4),
        ("follow", third + first + second, None, DONE, len(RECALL_FILE)),
        ("follow", first + bytes(4) + second, None, REFUSED, len(first) + 4),
        (question, first + third + second, None, REFUSED, len(first + third)),
        (QUESTION, RECALL_FILE, RECALL_LOG, DONE, 0),
        ("root", RECALL_FILE, RECALL_LOG, DONE, 0),
        ("root", RECALL_FILE, None, BEYOND, 0),
        ("upgrade", RECALL_FILE, None, DONE, 0),
        ("upgrade", RECALL_FILE, RECALL_LOG, DONE, 0),
        ("upgrade", RECALL_FILE, MARKED_LOG, DONE, 0),
        # The second block is of the first version.
        ("append", RECALL_FILE, MARKED_LOG, REFUSED, len(first + second)),
        ("gen 2 7", RECALL_FILE, None, DONE, 0),
        ("appends", RECALL_FILE, None, USAGE, 0),
    ]:
        ran = watched.run(words, source, log)
        name = f"status of {words} over {len(source)} bytes, and how many of these were read"
        checks.same(name, (ran.status, ran.read), (status, read))


# ---- what a log can't be, and limits


def pipe_for_log(checks, watched):
    """Where the log is a pipe that nobody writes, a run ends at once, also one that may only read it; and
    words that are no command don't look at it."""
    answers = dict.fromkeys([*CHANGING, "root", "hist raw/a"], ("", DISK_FAULT))
    answers["hist raw/a 00"] = ("usage\n", USAGE)
    for mode, prepare in [(0o666, None), (0o444, take_rights)]:
        for words, answer in answers.items():
            with tempfile.TemporaryDirectory() as folder:
                os.chmod(folder, 0o755)
                os.mkfifo(os.path.join(folder, LOG))
                os.chmod(os.path.join(folder, LOG), mode)
                ran = watched.run_in(folder, words, subprocess.DEVNULL, {}, prepare)
                checks.same(f"{words} over a pipe of mode {mode:o}", ran, answer)


def link_for_log(checks, watched):
    """Where a link to a file is the log, that file is, also while blocks are stored and told of; a link to no file is
    left alone."""
    told = "".join(known_lines(1) + LINES[1:])
    with tempfile.TemporaryDirectory() as folder:
        put(os.path.join(folder, "kept"), log_of(FRAMES[0]))
        os.symlink("kept", os.path.join(folder, LOG))
        for words, source, told, status in [
            ("append", RECALL_FILE, told, DONE), (QUESTION, b"", USED, DONE), ("append", RECALL_FILE, KNOWN, DONE),
            ("upgrade", b"", upgraded(3), DONE), ("upgrade", b"", ALREADY, DONE),
        ]:
            ran = watched.run_over(folder, words, source)
            checks.same(f"{words} where a link is the log", (ran.told, ran.status), (told, status))
            checks.same(f"files after {words} where a link is the log", sorted(ran.names), [LOG, "kept"])
        checks.same("what a link leads to", get(os.path.join(folder, "kept")), log_of(RECALL_FILE, b""))
        os.unlink(os.path.join(folder, "kept"))
        for words, source, told, status in [
            ("append", RECALL_FILE, "", DISK_FAULT), (QUESTION, b"", "beyond empty\n", BEYOND),
        ]:
            ran = watched.run_over(folder, words, source)
            checks.same(f"{words} where the log is a link to no file", (ran.told, ran.status), (told, status))
            checks.same(f"files after {words} where the log is a link to no file", ran.names, [LOG])


def limit_of_a_file(checks, watched):
    """A log that may not grow past some size: a write is short, or fails. What was told of stays, also where the signal
    ends the run that comes with that, unless it is ignored. The scratch file is not written, as its bodies are few."""
    sizes = [0, 1, 8, 9, len(HEAD) + 1, len(SET_LOG), len(RECALL_LOG) - 1]
    sizes += [len(log_of(b"".join(FRAMES[:count]))) for count in (1, 2)]
    for size, (is_ignored, status) in itertools.product(sizes, AT_LIMIT.items()):
        ran = watched.run("append", RECALL_FILE, file_limit=size, is_ignored=is_ignored)
        told = ran.told.count("\n")
        held = held_frames(ran.log or b"")
        name = f"append to a file of at most {size} bytes, the signal ignored: {is_ignored}"
        stored = sum(len(log_of(b"".join(FRAMES[: n + 1]))) <= size for n in range(len(FRAMES)))
        checks.same(name, (ran.status, ran.told), (status, "".join(LINES[:stored])))
        checks.same(f"blocks after {name}", held, FRAMES[:told])
        checks.holds(f"no more than the limit after {name}", len(ran.log or b"") <= size)
        checks.same(f"files after {name}", ran.names, [LOG])
        goes_on(checks, watched, ran.log, name)
    limit_of_a_marked_file(checks, watched)


def limit_of_a_marked_file(checks, watched):
    """A log that may not grow by the mark, or by some bytes of it, is as it was but for what stands behind its end."""
    log = log_of(FRAMES[0])
    for size in range(len(log), len(log) + len(MARK) + 2):
        ran, is_done = watched.run("upgrade", log=log, file_limit=size), size > len(log) + len(MARK)
        name = f"upgrade of a file of at most {size} bytes"
        checks.same(name, (ran.told, ran.status), (upgraded(1), DONE) if is_done else ("", DISK_FAULT))
        keeps_what_was_told(checks, "upgrade", log, ran.log, is_done, name)
        checks.same(f"whether it is marked after {name}", is_marked(ran.log), is_done)
        goes_on(checks, watched, ran.log, name)


def no_memory(checks, watched):
    """Each allocation of a question, and of an upgrade, fails in turn. Where that ends the run nothing is told, and the
    log stays as it was, so no memory is wanted behind the mark; else all is as ever. Where it is one for the words,
    which come first, no file is touched."""
    for words, log, told, after in [
        (QUESTION, RECALL_LOG, USED, RECALL_LOG),
        ("upgrade", SET_LOG, upgraded(1), log_of(SET_FILE, b"")),
        ("upgrade", MARKED_LOG, ALREADY, MARKED_LOG),
    ]:
        good, ended = watched.run(words, log=log), 0
        for number in range(good.requests):
            ran = watched.run(words, log=log, NO_MEMORY=number)
            ended += ran.status == MEMORY
            wanted = ("", MEMORY, log) if ran.status == MEMORY else (told, DONE, after)
            name = f"{words} over {len(log)} bytes where allocation {number} fails"
            checks.same(name, (ran.told, ran.status, ran.log), wanted)
            if number == 0:
                checks.same("calls without memory for the words", ran.calls, [])
        checks.holds(f"allocations end {words} over {len(log)} bytes", ended > 0)


# Words that are no command: none, one that none begins with, and some that are too few, too many or malformed.
NO_COMMAND = ["", "appends", "hist", "append append", "hist raw/a 00", "gen 2", "\udcff"]


def no_random_bytes(checks, watched):
    """No random bytes are given for the hash of keys: no command runs, no file is touched, nothing is told, and the
    status is that of a read that failed. Of words that are no command this is told all the same."""
    for words in (*CHANGING, QUESTION, "scan hist raw/a 0", "gen 2 7", "root"):
        ran = watched.run(words, RECALL_FILE, log=RECALL_LOG, NO_RANDOM=1)
        seen = (ran.told, ran.status, ran.log, ran.calls, ran.read)
        checks.same(f"{words} without random bytes", seen, ("", UNREADABLE, RECALL_LOG, [], 0))
    for words in NO_COMMAND:
        for settings in [{}, {"NO_RANDOM": 1}]:
            ran = watched.run(words, RECALL_FILE, log=RECALL_LOG, **settings)
            seen = (ran.told, ran.status, steps(ran.calls), ran.read, ran.log)
            checks.same(f"{words!r}, {settings}", seen, ("usage\n", USAGE, ["tell"], 0, RECALL_LOG))
