"""What the built program does with its scratch file: its calls, each of them failing, moving one byte, or taking
nothing; what is read back from it; where it is made, under which name, and what is left of it.

What is expected was written from docs/log.md. Which bodies are put is worked out from the rows of the chain, and
what is made of those that are read back by tools/cases/growing_roots.py and tools/cases/proof_cases.py.
"""
import errno
import itertools
import os
import tempfile

from cases.block_files import OK, block_file, calls, deploys, sets
from cases.growing_roots import growing_roots
from cases.log_cases import DONE, SCRATCH_FAULT, frames_of, log_of, upgraded
from cases.proof_cases import proof_of
from cases.range_cases import range_of, range_proof_of
from cases.root_cases import History, Row, block_digests
from cases.trace_cases import trace_proof_of
from cases.verifier import told_of
from checks.disk_calls import CREATE, NEW, TRUNCATE, get, put
from checks.edge_calls import AT_LIMIT, ERRORS, FRAMES, INTERRUPTED, LINES, QUESTION, goes_on, made_again, run_again
from checks.edge_calls import some_of_each_kind
from checks.lock_checks import give, running_append
from checks.log_runs import LOG, SCRATCH, SCRATCH_FOLDER, held_frames, known_lines
from checks.program_cases import BATCH, MADE_FROM, OF_PART, RECALL_FILE, RECALL_LIGHT, RECALL_LOG, RECALL_ROOTS
from checks.program_cases import RECALL_ROWS, S1, USED
from checks.program_runs import take_rights

# The owner alone may open it.
MODE = 0o600
# What is put after its name where there is a file of that name, and how many names are tried.
MARK = "_"
NAMES = 32
# How many bytes of bodies are gathered in memory at most.
GATHERED_BYTES = 1 << 16


def body_size(history, row):
    """How many bytes a body has; the first byte of its text says what is hashed."""
    return len(history.body_text(row)) - 1


def earlier_proof(rows, frames, key):
    """What is told of `prove hist KEY 0 0`."""
    first = [row for row in rows if row.block == 0]
    return proof_of(History(first), block_digests(frames)[0], "hist", key, 0, 0).hex() + "\n"


def earlier_trace(rows, frames, key):
    """What is told of `trace prove KEY 0 0`."""
    first = [row for row in rows if row.block == 0]
    return trace_proof_of(History(first), block_digests(frames)[0], key, 0, 0).hex() + "\n"


def earlier_range(rows, frames, key):
    """What is told of `range prove KEY 0 0 0`."""
    first = [row for row in rows if row.block == 0]
    return range_proof_of(History(first), block_digests(frames)[0], key, 0, 0, 0).hex() + "\n"


# The lineage of the first block, of which these proofs are made, has no body at hand: one is read back, the first
# or another.
PROVED = {f"prove hist {row.key} 0 0": row for row in RECALL_ROWS if row.block == 0}
TRACED = {f"trace prove {row.key} 0 0": row for row in RECALL_ROWS if row.block == 0}
RANGED = {f"range prove {row.key} 0 0 0": row for row in RECALL_ROWS if row.block == 0}
READING_BACK = PROVED | TRACED | RANGED
# Runs that use the scratch file: the words, the input, the log before, and what is told.
RUNS = [
    ("append", RECALL_FILE, None, "".join(LINES)),
    ("append", RECALL_FILE, log_of(FRAMES[0]), "".join(known_lines(1) + LINES[1:])),
    ("light make", b"", RECALL_LOG, RECALL_LIGHT.decode("latin-1")),
    *[(words, b"", RECALL_LOG, earlier_proof(RECALL_ROWS, FRAMES, row.key)) for words, row in PROVED.items()],
    *[(words, b"", RECALL_LOG, earlier_trace(RECALL_ROWS, FRAMES, row.key)) for words, row in TRACED.items()],
    *[(words, b"", RECALL_LOG, earlier_range(RECALL_ROWS, FRAMES, row.key)) for words, row in RANGED.items()],
]


# Runs over a log that make none: the words, and what is told.
WITHOUT_FILE = [
    ("upgrade", upgraded(len(FRAMES))),
    (QUESTION, USED),
    (S1.decode(), MADE_FROM),
    (OF_PART.decode(), BATCH),
]


class Moves:
    """What puts and gets of bodies do to the file. Bodies are gathered; what is gathered is written at once where the
    next one has no room there, or where a byte of it is read."""

    def __init__(self):
        self.at, self.gathered, self.made = 0, 0, []

    def flush(self):
        if self.gathered:
            self.made.append(("pwrite", self.at, self.gathered))
            self.at, self.gathered = self.at + self.gathered, 0

    def put(self, size):
        if self.gathered + size > GATHERED_BYTES:
            self.flush()
        self.gathered += size
        if size > GATHERED_BYTES:
            self.flush()

    def get(self, at, size):
        if at + size > self.at:
            self.flush()
        self.made.append(("pread", at, size))


def moves_of(history, rows, read_back):
    """The writes and reads where the bodies of these rows are put, and then those of some of them, by their numbers,
    are read back."""
    moves, sizes = Moves(), [body_size(history, row) for row in rows]
    for size in sizes:
        moves.put(size)
    for number in read_back:
        moves.get(sum(sizes[:number]), sizes[number])
    return moves


# ---- its calls


def no_scratch_file(checks, watched):
    """A command that runs the blocks of a log into rows makes no scratch file."""
    for words, told in WITHOUT_FILE:
        ran = watched.run(words, log=RECALL_LOG, LOG=SCRATCH)
        checks.same(f"{words} without a scratch file", (ran.told, ran.status), (told, DONE))
        checks.same(f"calls of the scratch file, {words}", [call for call in ran.calls if call.what == "log"], [])


def scratch_calls(checks, watched):
    """What is done with the scratch file, in which order; and each of these calls failing, moving one byte, taking
    nothing, or being interrupted, after which it is made again."""
    history = History(RECALL_ROWS)
    for words, source, log, told in RUNS:
        read_back = [RECALL_ROWS.index(READING_BACK[words])] if words in READING_BACK else []
        run = words, source, log, told, steps_of(moves_of(history, RECALL_ROWS, read_back))
        good = scratch_run(checks, watched, run)
        for number in some_of_each_kind(good.calls):
            for error in ERRORS * (good.calls[number].what == "log"):
                scratch_call(checks, watched, run, good, {"FAIL": number, "ERROR": error})
    chain = ReadBack()
    scratch_run(checks, watched, ("append", chain.file, None, "".join(chain.lines()), steps_of(chain.moves())))


def scratch_run(checks, watched, run):
    """What is done with the scratch file in a run; and each of these calls failing, moving one byte, taking nothing, or
    being interrupted."""
    words, source, log, told, wanted = run
    good = watched.run(words, source, log, LOG=SCRATCH)
    checks.same(f"{words} with its scratch file", (good.told, good.status), (told, DONE))
    numbered = [(number, call) for number, call in enumerate(good.calls) if call.what == "log"]
    made = [call for _, call in numbered]
    checks.same(f"calls of the scratch file, {words}", list(scratch_steps(made)), wanted)
    for number, call in numbered:
        for setting in ["FAIL"] + ["NOTHING", "SHORT"] * call.moves_bytes():
            scratch_call(checks, watched, run, good, {setting: number})
        if call.name in INTERRUPTED:
            made_again(checks, watched, run[:3], good, number, {"ERROR": errno.EINTR, "LOG": SCRATCH})
    return good


def steps_of(moves):
    """The calls of the scratch file: it is made anew, its name is taken away, and then bytes are moved."""
    return [f"made anew {MODE:o}", "unlink", "dup", *[f"{name} {at} {size}" for name, at, size in moves.made]]


def scratch_steps(calls):
    """The same, of calls that were made."""
    for call in calls:
        if call.name == "open":
            is_new = call.at & (CREATE | NEW) == CREATE | NEW and not call.at & TRUNCATE
            yield f"made anew {call.size:o}" if is_new else "opened"
        elif call.moves_bytes():
            yield f"{call.name} {call.at} {call.size}"
        else:
            yield call.name


def scratch_call(checks, watched, run, good, settings):
    """A run of which one call of the scratch file was made to fail, or to move fewer bytes. Where its name can't be
    taken away, that is done at the end. No run leaves it."""
    words, source, log, *_ = run
    number = next(iter(settings.values()))
    call = good.calls[number]
    ran = watched.run(words, source, log, LOG=SCRATCH, **settings)
    name = f"{words} over {len(log or b'')} bytes, {settings} {call} of the scratch file"
    checks.same(f"files after {name}", [file for file in ran.names if file != LOG], [])
    if "SHORT" in settings or call.name == "unlink":
        checks.same(name, (ran.told, ran.status, ran.log), (good.told, good.status, good.log))
        return
    lines = good.told.splitlines(keepends=True)
    before = sum(other.what == "output" for other in good.calls[:number])
    checks.same(f"status of {name}", ran.status, SCRATCH_FAULT)
    checks.same(f"lines of {name}", ran.told, "".join(lines[:before]))
    if words == "append":
        frames = frames_of(source)
        held = max(before, len(held_frames(log or b"")))
        checks.same(f"blocks after {name}", held_frames(ran.log or b""), frames[:held])
        if source == RECALL_FILE:
            goes_on(checks, watched, ran.log, name)
        else:
            stores_the_rest(checks, watched, source, ran.log, lines, name)
    else:
        checks.same(f"log after {name}", ran.log, log)


def stores_the_rest(checks, watched, source, log, lines, name):
    """An append over what was left has the blocks that are there, and stores the others."""
    held = len(held_frames(log or b""))
    again = run_again(watched, "append", source, log)
    wanted = "".join(known_lines(held) + lines[held:]), DONE, log_of(source)
    checks.same(f"going on after {name}", (again.told, again.status, again.log), wanted)


# ---- what is read back


# How many rows the first block of a chain has, more than have their bodies at hand; and a text of them.
ROWS = 1_100
TEXT = "{:0400}"
# Of these the bodies are read back: the first, one near it, and some behind more than 20,000 bytes.
READ_BACK = [0, 3, 50, 60, 75]
# And of these proofs are made, too.
PROVED_KEYS = ["raw/3", "raw/60"]


class ReadBack:
    """A chain whose last block asks for values of its first one of which the bodies are not at hand."""

    def __init__(self):
        self.first = [Row(f"raw/{at}", 0, at, TEXT.format(at), []) for at in range(ROWS)]
        puts = "".join(f' put "ask/{at}" = hist_text("raw/{at}", 0);' for at in READ_BACK)
        blocks = [
            [sets(row.key, row.value) for row in self.first],
            [deploys("ask", f"fn old() {{{puts} }}")],
            [calls("ask", "old", [], 10_000, OK, 0)],
        ]
        self.rows = self.first + [Row(f"ask/{at}", 2, 0, TEXT.format(at), []) for at in READ_BACK]
        self.file = block_file(blocks)
        self.frames = frames_of(self.file)

    def lines(self):
        statuses = [",".join(["0"] * ROWS), "0", "0"]
        for at, root in enumerate(growing_roots(self.frames, self.rows)):
            count = sum(row.block == at for row in self.rows)
            yield f"block {at} rows {count} status {statuses[at]} root {root}\n"

    def moves(self):
        """What an append does to the scratch file: the last rows are put after those that they are read from."""
        history = History(self.rows)
        moves = moves_of(history, self.first, READ_BACK)
        for row in self.rows[ROWS:]:
            moves.put(body_size(history, row))
        return moves


def bodies_read_back(checks, watched):
    """The bodies that are read back are those that were put, wherever they stand in the file: by the roots of what a
    contract makes of them, and by proofs."""
    chain = ReadBack()
    ran = watched.run("append", chain.file, LOG=SCRATCH)
    lines = list(chain.lines())
    checks.same("an append that reads bodies back", (ran.told, ran.status), ("".join(lines), DONE))
    moves = [(call.name, call.at, call.size) for call in ran.calls if call.what == "log" and call.moves_bytes()]
    checks.same("what is written and read back", moves, chain.moves().made)
    log = log_of(chain.file)
    checks.same("the log of that", ran.log, log)
    known = watched.run("append", chain.file, log)
    checks.same("the same again", (known.told, known.status), ("".join(known_lines(3)), DONE))
    last = watched.run("root", log=log)
    checks.same("its root", (last.told, last.status), (f"root 2 {lines[2].split()[-1]}\n", DONE))
    for key in PROVED_KEYS:
        ran = watched.run(f"prove hist {key} 0 0", log=log)
        wanted = earlier_proof(chain.rows, chain.frames, key), DONE
        checks.same(f"a proof of {key}", (ran.told, ran.status), wanted)


# How many of the first versions of a key are asked for, all of whose bodies are in the file alone, and how many of the
# last ones.
FIRST_VERSIONS, LAST_VERSIONS = 50, 10


def versions_read_back(checks, watched):
    """For a proof of the versions between two blocks each of their bodies is read once, and no other one is."""
    key = "raw/a"
    rows = [Row(key, at, 0, TEXT.format(at), []) for at in range(ROWS)]
    file = block_file([[sets(row.key, row.value)] for row in rows])
    log, history, root_at = log_of(file), History(rows), ROWS - 1
    *_, root = growing_roots(frames_of(file), rows)
    sizes = [body_size(history, row) for row in rows]
    for first, last, is_read in [(0, FIRST_VERSIONS - 1, True), (ROWS - LAST_VERSIONS, ROWS - 1, False)]:
        words = f"range prove {key} {first} {last} {root_at}"
        ran = watched.run(words, log=log, LOG=SCRATCH)
        checks.same(f"the status of {words}", ran.status, DONE)
        shown = told_of(["range", "verify", root, key, str(first), str(last)], ran.told.encode())
        checks.same(f"what is shown by {words}", shown, (range_of(rows, key, first, last), DONE))
        reads = sorted((call.at, call.size) for call in ran.calls if call.name == "pread")
        wanted = [(sum(sizes[:at]), sizes[at]) for at in range(first, last + 1) if is_read]
        checks.same(f"what is read back by {words}", reads, wanted)


def limit_of_the_scratch_file(checks, watched):
    """Files that may not grow past some size: where a write of bodies is short, or fails, nothing is told; where all
    are done, the log can't be written. So it is where the signal ends the run that comes with that, unless it is
    ignored. The next run goes on."""
    chain = ReadBack()
    lines = list(chain.lines())
    ends = [at + size for name, at, size in chain.moves().made if name == "pwrite"]
    checks.holds("bodies are written more than once", len(ends) > 1)
    checks.holds("the first block is longer than its bodies", len(log_of(chain.frames[0])) > ends[-1])
    for size, is_ignored in itertools.product([ends[0] - 1, ends[0], ends[-1] - 1, ends[-1]], AT_LIMIT):
        ran = watched.run("append", chain.file, file_limit=size, is_ignored=is_ignored)
        name = f"append that reads bodies back, of files of at most {size} bytes, the signal ignored: {is_ignored}"
        wanted = SCRATCH_FAULT if is_ignored and size < ends[-1] else AT_LIMIT[is_ignored]
        checks.same(name, (ran.told, ran.status), ("", wanted))
        checks.same(f"files after {name}", [file for file in ran.names if file != LOG], [])
        checks.same(f"blocks after {name}", held_frames(ran.log or b""), [])
        stores_the_rest(checks, watched, chain.file, ran.log, lines, name)


# ---- where it is made, and what is left of it


LAST = len(FRAMES) - 1
ROOT = f"root {LAST} {RECALL_ROOTS[LAST]}\n"


def run_in(watched, folder, words, source=b"", prepare=None, **settings):
    """What a run in a folder tells, and its status."""
    with tempfile.TemporaryFile() as given:
        given.write(source)
        given.seek(0)
        return watched.run_in(folder, words, given, settings, prepare)


def folder_of_the_scratch_file(checks, watched):
    """It is made in the folder of the variable, or in the present one where that names none that is a text. So a user
    who may write the one and not the other is answered by it."""
    with tempfile.TemporaryDirectory() as closed, tempfile.TemporaryDirectory() as opened:
        put(os.path.join(closed, LOG), RECALL_LOG)
        put(os.path.join(opened, LOG), RECALL_LOG)
        os.chmod(closed, 0o555)
        os.chmod(opened, 0o777)
        for present, named, status in [
            (closed, opened, DONE),
            (closed, closed, SCRATCH_FAULT),
            (closed, "", SCRATCH_FAULT),
            (closed, None, SCRATCH_FAULT),
            (opened, closed, SCRATCH_FAULT),
            (opened, os.path.join(opened, "none"), SCRATCH_FAULT),
            (opened, os.path.join(opened, LOG), SCRATCH_FAULT),
            (opened, "", DONE),
            (opened, None, DONE),
            (opened, b"\xff", DONE),
            (opened, ".", DONE),
        ]:
            settings = {} if named is None else {SCRATCH_FOLDER: named}
            ran = run_in(watched, present, "root", prepare=take_rights, **settings)
            name = f"`root` with the scratch file in {named!r}, from a folder of mode {os.stat(present).st_mode:o}"
            checks.same(name, ran, (ROOT if status == DONE else "", status))
            for folder in [closed, opened]:
                checks.same(f"files after {name}", os.listdir(folder), [LOG])
                checks.same(f"log after {name}", get(os.path.join(folder, LOG)), RECALL_LOG)


def put_pipe(path):
    os.mkfifo(path)


def put_folder(path):
    os.mkdir(path)


def put_link(path):
    os.symlink("kept", path)


def put_file(path):
    put(path, b"of a user")


def names_that_are_taken(checks, watched):
    """What stands at its name is never touched: a further name is tried, up to the last one."""
    for place in [put_file, put_folder, put_link, put_pipe]:
        for count in [1, 2, NAMES - 1, NAMES]:
            with tempfile.TemporaryDirectory() as folder:
                put(os.path.join(folder, "kept"), b"what a link leads to")
                names = [SCRATCH + MARK * marks for marks in range(count)]
                for name in names:
                    place(os.path.join(folder, name))
                before = {name: os.lstat(os.path.join(folder, name)) for name in names}
                name = f"append where {count} names are taken, {place.__name__}"
                wanted = ("".join(LINES), DONE) if count < NAMES else ("", SCRATCH_FAULT)
                checks.same(name, run_in(watched, folder, "append", RECALL_FILE), wanted)
                logs = [LOG] if count < NAMES else []
                checks.same(f"files after {name}", sorted(os.listdir(folder)), sorted(["kept", *logs, *names]))
                after = {name: os.lstat(os.path.join(folder, name)) for name in names}
                checks.same(f"what stands there after {name}", list(map(stands, after.values())),
                            list(map(stands, before.values())))
                checks.same(f"what a link leads to, {name}", get(os.path.join(folder, "kept")), b"what a link leads to")


def stands(found):
    """What is told of a file that another program would have changed."""
    return found.st_ino, found.st_mode, found.st_size, found.st_mtime_ns


def nothing_is_left(checks, watched):
    """While a run goes on its scratch file has no name, so a run that is killed leaves none."""
    with tempfile.TemporaryDirectory() as folder:
        with running_append(watched, folder) as running:
            checks.holds("a first block is told", give(running, FRAMES[0]).startswith("block 0 "))
            checks.same("files while a run goes on", os.listdir(folder), [LOG])
        checks.same("files after a kill", os.listdir(folder), [LOG])
