"""Cases of faults and crashes: each call of a run fails once, and each moment of an `append` and of an `upgrade` is a
crash.

What is expected is worked out from docs/log.md and docs/formats.md: which calls such a run makes, and what a disk
holds after so many of them. What a crash leaves is read by tools/cases/block_reader.py; roots are those of
tools/cases/root_cases.py, proofs those of tools/cases/proof_cases.py, and light files those of
tools/cases/light_cases.py.
"""
import functools
import itertools
from typing import NamedTuple

from cases.block_files import FIRST_VERSION, SECOND_VERSION, block_file, sets
from cases.block_reader import stands_for
from cases.light_cases import accepted, frame, hex_lines, light_file_of
from cases.log_cases import (
    ALREADY, BAD_INPUT, BEYOND, CLOSED, DISK_FAULT, DONE, FIRST_GATE, HEAD, MAGIC, MARK, OPEN, REFUSED, REJECTED,
    SET_ANSWER, SET_FILE, SET_ROWS, UNREADABLE, UNTOLD, LogCase, frames_of, log_of, upgraded,
)
from cases.proof_cases import proof_of
from cases.range_cases import range_proof_of
from cases.root_cases import History, Row, block_digests, roots
from cases.trace_cases import trace_proof_of

# Of three blocks the first is that of SET_FILE, the second has no transaction, and the row of the third is derived from
# that of the first.
BLOCKS = [[sets("raw/a", 5)], [], [sets("raw/b", 2, ["raw/a"])]]
ROWS = [Row("raw/a", 0, 0, 5, []), Row("raw/b", 2, 0, 2, [("raw/a", 0)])]
ADDED = ["block 0 rows 1 status 0", "block 1 rows 0 status -", "block 2 rows 1 status 0"]
KNOWN = [f"known {at}\n" for at in range(len(BLOCKS))]
HEAD_BLOCK = len(BLOCKS) - 1

READ, LOOK, SYNC, WRITE, TELL = "read", "look", "sync", "write", "tell"
# What stands in place of bytes that a crash loses.
FILLS = [CLOSED, OPEN, b"\x5a"]
# How many of the bytes that are not synced a crash keeps: none, the first, the length of a block, or all.
KEPT = [0, 1, 4, 1_048_576]


class Crash(NamedTuple):
    """How a crash leaves a disk: how many of the bytes that are not synced it keeps, what stands in place of the
    others, and whether no more is left than the length that was synced."""

    kept: int
    fill: bytes
    is_short: bool

    def field(self, moment):
        """Such a crash at a moment, as a case has it."""
        return f"{moment} {self.kept} {self.fill.hex()} {'short' if self.is_short else 'whole'}"


CRASHES = [Crash(*crash) for crash in itertools.product(KEPT, FILLS, [False, True])]


class Call(NamedTuple):
    """A call of a machine: what it writes and where, or what it tells; and what is left of the input by then."""

    kind: str
    left: int
    piece: object = None
    at: int = 0

    def status(self):
        """How the run ends where it fails."""
        return UNTOLD if self.kind == TELL else DISK_FAULT


class Disk:
    """What a disk holds, and what of it a crash may change."""

    def __init__(self, content):
        self.content = bytearray(content)
        self.synced_length = len(content)
        # The offsets that were written since the last sync.
        self.pending = set()

    def make(self, call, is_done=True):
        """Makes a call. A write that fails leaves its range pending, and the content as it was."""
        if call.kind == WRITE:
            end = call.at + len(call.piece)
            self.pending.update(range(call.at, end))
            if is_done:
                self.content[call.at : end] = call.piece
        if call.kind == SYNC and is_done:
            self.pending.clear()
            self.synced_length = len(self.content)

    def left_by(self, crash):
        """What a crash leaves: of the pending bytes the first ones, and others in place of the rest; with all of
        the length, or with what was synced of it."""
        image = bytearray(self.content)
        lost = sorted(offset for offset in self.pending if offset < len(image))[crash.kept :]
        for offset in lost:
            image[offset : offset + 1] = crash.fill
        return bytes(image[: self.synced_length] if crash.is_short else image)

    def images(self):
        """What each crash leaves."""
        return map(self.left_by, CRASHES)


# ---- an append of three blocks, and an upgrade


@functools.cache
def chain_in(image):
    """The frames of the blocks of an image, which is a log or none yet, and whether it is marked."""
    chain, line = stands_for(image)
    assert line is None
    return [len(frame).to_bytes(4, "big") + frame for frame in chain.frames], chain.is_marked


def held_by(image):
    """How many blocks an image has."""
    return len(chain_in(image)[0])


def is_log(image):
    return len(image) > FIRST_GATE and image.startswith(HEAD)


# How many bytes of a log are read ahead at once.
AHEAD_BYTES = 1 << 16


def reads_of(image):
    """How many reads open it: of the head, and of a log, which is short, one of all that follows."""
    assert len(image) - FIRST_GATE <= AHEAD_BYTES
    return 2 if is_log(image) else 1


def opened(image, left):
    """The calls that begin a run: it syncs what it finds before it reads it."""
    yield Call(SYNC, left)
    yield from [Call(READ, left)] * reads_of(image)


def created(image, left):
    """The calls that make a log where there is none yet."""
    if is_log(image):
        return
    steps = [(0, CLOSED), (1, MAGIC + CLOSED), (0, OPEN)]
    for at, piece in steps[1:] if image.startswith(CLOSED) else steps:
        yield Call(WRITE, left, piece, at)
        yield Call(SYNC, left)


def stored(record, gate, left):
    """The calls that store a block, or the mark, at a closed gate."""
    for at, piece in [(gate + 1, record + CLOSED), (gate, OPEN)]:
        yield Call(WRITE, left, piece, at)
        yield Call(SYNC, left)


def looked(line, left):
    """The calls that tell what the log holds already: it is looked at first."""
    yield Call(LOOK, left)
    yield Call(TELL, left, line)


class Append:
    """The append of three blocks; in the log the first ones are of the first version, so many, and the mark follows
    where there are others."""

    words = "append"

    def __init__(self, firsts=len(BLOCKS)):
        versions = [FIRST_VERSION] * firsts + [SECOND_VERSION] * (len(BLOCKS) - firsts)
        self.firsts, self.file = firsts, block_file(BLOCKS, versions)
        self.frames = frames_of(self.file)
        self.is_marked = firsts < len(BLOCKS)
        self.roots = roots(self.frames, ROWS)
        self.lines = [f"{line} root {root}\n" for line, root in zip(ADDED, self.roots)]

    def log_of_first(self, count):
        """The log of the first blocks, which isn't there where there are none and it isn't marked."""
        firsts = b"".join(self.frames[: min(count, self.firsts)])
        if self.is_marked:
            return log_of(firsts, b"".join(self.frames[self.firsts : count]))
        return log_of(firsts) if count else b""

    def is_kept(self, before, begun, image):
        """Whether an image has what it must, where these lines were begun: the first of the blocks, those that were
        there before and those of the lines among them; and it is marked as it was."""
        (frames, is_marked), (held, was_marked) = chain_in(image), chain_in(before)
        is_first = frames == self.frames[: len(frames)]
        return is_first and len(frames) >= max(self.sure(begun), len(held)) and is_marked == was_marked

    def sure(self, begun):
        """How many blocks are sure to be there once these lines were begun."""
        return len(begun)

    def is_done(self, _, image):
        """Whether an image has all the blocks, and the mark where it must."""
        return chain_in(image) == (self.frames, self.is_marked)

    def calls(self, image):
        """All calls of the append over an image, in order."""
        left, held = len(self.file), held_by(image)
        yield from opened(image, left)
        gate = FIRST_GATE
        for at, frame in enumerate(self.frames):
            if self.is_marked and at == self.firsts:
                gate += 1 + len(MARK)
            left -= len(frame)
            if at >= held:
                if at == 0:
                    yield from created(image, left)
                yield from stored(frame, gate, left)
                yield Call(TELL, left, self.lines[at])
            else:
                yield from looked(KNOWN[at], left)
            gate += 1 + len(frame)
        yield Call(LOOK, left)


class Upgrade:
    """The upgrade of a log. Its input is never read."""

    words = "upgrade"
    file = b"x"

    def is_kept(self, before, begun, image):
        """Whether an image has the blocks that were there, and a mark where there was one or a line was begun."""
        (frames, is_marked), (held, was_marked) = chain_in(image), chain_in(before)
        return frames == held and is_marked >= (was_marked or bool(begun))

    def is_done(self, before, image):
        """Whether an image has the blocks that were there, and the mark."""
        return chain_in(image) == (chain_in(before)[0], True)

    def calls(self, image):
        """All calls of the upgrade over an image, in order."""
        left, (frames, is_marked) = len(self.file), chain_in(image)
        yield from opened(image, left)
        if is_marked:
            yield Call(TELL, left, ALREADY)
            return
        yield from created(image, left)
        yield from stored(MARK, FIRST_GATE + sum(1 + len(frame) for frame in frames), left)
        yield Call(TELL, left, upgraded(len(frames)))


APPEND, UPGRADE = Append(), Upgrade()
FILE, FRAMES, ROOTS, LINES = APPEND.file, APPEND.frames, APPEND.roots, APPEND.lines
LOG = log_of(FILE)
log_of_first = APPEND.log_of_first
# The append to a marked log, which has one block before the mark.
MARKED_APPEND = Append(1)


def told_by(calls):
    return [call.piece for call in calls if call.kind == TELL]


def disk_after(image, made, failed=None):
    """The disk after the calls that were made, and one that failed."""
    disk = Disk(image)
    for call in made:
        disk.make(call)
    if failed:
        disk.make(failed, is_done=False)
    return disk


def failing_run(run, image):
    """The run with each of its calls failing, up to the first that is never made."""
    calls = list(run.calls(image))
    for number, failed in enumerate([*calls, None]):
        made = calls[:number]
        after = bytes(disk_after(image, made, failed).content)
        assert failed or run.is_done(image, after)
        told = "".join(told_by(made))
        status, left = (failed.status(), failed.left) if failed else (DONE, calls[-1].left)
        yield LogCase(run.words, image, told, status, after, run.file, left=left, calls=f"{number}")


def whole_run(run, image):
    """The run with nothing in its way."""
    return list(failing_run(run, image))[-1]


def left_by_crashes(run, image, number, is_failed):
    """What each crash leaves of a run, after so many of its calls were made, and the next one failed or wasn't; it has
    what it must."""
    calls = list(run.calls(image))
    failed = calls[number] if is_failed and number < len(calls) else None
    # Each line that was begun by then.
    begun = told_by(calls[: number + 1])
    for left in disk_after(image, calls[:number], failed).images():
        assert run.is_kept(image, begun, left)
        yield left


def crash_images(run, image):
    """What a crash may leave of the run at each of its moments, and after each of its calls failed."""
    moments = range(len(list(run.calls(image))) + 1)
    each = itertools.product(moments, [False, True])
    return set().union(*(left_by_crashes(run, image, number, is_failed) for number, is_failed in each))


# Runs, and over what they begin: an empty disk and a log of two blocks; a marked log with no block behind the mark, and
# with one; an empty disk, and logs of one block and of three.
STARTS = [
    (APPEND, [log_of_first(0), log_of_first(2)]),
    (MARKED_APPEND, [MARKED_APPEND.log_of_first(1), MARKED_APPEND.log_of_first(2)]),
    (UPGRADE, [log_of_first(0), log_of_first(1), log_of_first(3)]),
]


def next_append(image):
    """The append that goes on from an image; none where its mark stands before the first block, or behind all."""
    held, is_marked = held_by(image), chain_in(image)[1]
    return APPEND if not is_marked else MARKED_APPEND if held == MARKED_APPEND.firsts else None


def over_crashes(run, starts):
    """Over what a crash may leave of the run: the run again, with each of its calls failing. Then the root over what a
    crash may leave of that; and of an upgrade the whole run once more, and an append."""
    first = set(starts).union(*(crash_images(run, image) for image in starts))
    second = first.union(*(crash_images(run, image) for image in first))
    for image in sorted(first):
        yield from failing_run(run, image)
    for image in sorted(second):
        held = held_by(image)
        root = root_of(image)
        told, status = (f"root {held - 1} {root}\n", DONE) if held else ("beyond empty\n", BEYOND)
        yield LogCase("root", image, told, status)
        if run is UPGRADE:
            again = None if image in first else run
            yield from (whole_run(other, image) for other in [again, next_append(image)] if other)


@functools.cache
def root_of(image):
    """The root at the last block of an image."""
    frames, _ = chain_in(image)
    return roots(frames, [row for row in ROWS if row.block < len(frames)])[-1] if frames else None


def failing_pulls():
    """The append with each pull of its source failing, one byte a pull: what was told stays, and so does what was
    stored."""
    for pull in range(len(FILE) + 2):
        held = sum(pull >= len(b"".join(FRAMES[: at + 1])) for at in range(len(FRAMES)))
        is_made = pull <= len(FILE)
        status, left = (UNREADABLE, len(FILE) - pull) if is_made else (DONE, 0)
        told = "".join(LINES[:held])
        yield LogCase(
            "append", b"", told, status, log_of_first(held), FILE, left=left, pulls=f"{pull}", piece=1
        )


# ---- crashes of the machine that run_cases stops


class CrashCase(NamedTuple):
    """A run over a disk, of which the call of a number fails, or none; and each crash at some of its moments."""

    run: object
    image: bytes
    moments: list
    failing: int = None

    def case(self):
        """As a LogCase gives its own."""
        calls = list(self.run.calls(self.image))
        made = calls[: self.failing]
        failed = None if self.failing is None else calls[self.failing]
        status = failed.status() if failed else DONE
        told = [f"at {at} {call.piece}" for at, call in enumerate(made) if call.kind == TELL]
        words, last = f"crash {self.run.words}", len(made) + bool(failed)
        lines = [f"== {status} {words}\n", *told, f"moment {last}\n"]
        before = self.image
        for moment in self.moments:
            number = min(moment, len(made))
            for left in left_by_crashes(self.run, self.image, number, is_failed=moment > number):
                lines.append(f"image {'same' if left == before else left.hex()}\n")
                before = left
        crashes = [crash.field(moment) for moment in self.moments for crash in CRASHES]
        calls_field = "" if self.failing is None else f"{self.failing}"
        fields = [self.run.file.hex(), "", calls_field, self.image.hex(), ",".join(crashes)]
        return words, "".join(lines), "|".join(fields), None


def crash_cases():
    """What crashes leave of each run: at each of its moments, and after each of its calls failed."""
    for run, starts in STARTS:
        for image in starts:
            count = len(list(run.calls(image)))
            yield CrashCase(run, image, list(range(count + 1))).case()
            for failing in range(count):
                yield CrashCase(run, image, [failing + 1], failing).case()


# ---- other commands


def made_proof(kind, key, at):
    """The proof of a question with the root at the last block, in hex and a line end."""
    digest = block_digests(FRAMES)[HEAD_BLOCK]
    return proof_of(History(ROWS), digest, kind, key, at, HEAD_BLOCK).hex() + "\n"


def made_trace(key, at):
    """The proof of all ancestors of a version with that root, in hex and a line end."""
    digest = block_digests(FRAMES)[HEAD_BLOCK]
    return trace_proof_of(History(ROWS), digest, key, at, HEAD_BLOCK).hex() + "\n"


def made_range(key, first, last):
    """The proof of all versions between two blocks with that root, in hex and a line end."""
    digest = block_digests(FRAMES)[HEAD_BLOCK]
    return range_proof_of(History(ROWS), digest, key, first, last, HEAD_BLOCK).hex() + "\n"


USES = ["block 0 uses 1\n", "raw/b 2\n"]
PROOF = made_proof("fwd", "raw/a", 0)
ANCESTORS = ["block 2 ancestors 1\n", "raw/a 0\n"]
TRACE_PROOF = made_trace("raw/b", 2)
VERSIONS = ["versions 1\n", "block 2 tx 0 int 2\n"]
RANGE_PROOF = made_range("raw/b", 0, 2)
LIGHT_FILE = light_file_of(FILE, ROWS)
# Commands over the log of the three blocks, and the lines of each. They read nothing.
QUESTIONS = {
    "hist raw/b": ["block 2 tx 0 int 2\n"],
    "back raw/b 2": ["block 2 deps 1\n", "raw/a 0\n"],
    "fwd raw/a": USES,
    "root 1": [f"root 1 {ROOTS[1]}\n"],
    f"prove fwd raw/a 0 {HEAD_BLOCK}": [PROOF],
    f"prove hist raw/c 0 {HEAD_BLOCK}": [made_proof("hist", "raw/c", 0)],
    "trace raw/b 2": ANCESTORS,
    "trace raw/c 2": ["none\n"],
    f"trace prove raw/b 2 {HEAD_BLOCK}": [TRACE_PROOF],
    "range raw/b 0 2": VERSIONS,
    "range raw/b 0 1": ["versions 0\n"],
    f"range prove raw/b 0 2 {HEAD_BLOCK}": [RANGE_PROOF],
    "light make": hex_lines(LIGHT_FILE),
}
TRACE_VERIFY = f"trace verify {ROOTS[HEAD_BLOCK]} raw/b 2"
RANGE_VERIFY = f"range verify {ROOTS[HEAD_BLOCK]} raw/b 0 2"
VERIFY = f"verify {ROOTS[HEAD_BLOCK]} fwd raw/a 0"
EXPOSE = f"expose {ROOTS[HEAD_BLOCK]} fwd raw/a 0 {HEAD_BLOCK}"
PIECE = 16


def failing_questions():
    """Each command over the log with each of its calls failing; a pull would fail too, and none is made."""
    opened = reads_of(LOG)
    for words, lines in QUESTIONS.items():
        for call in range(opened + len(lines) + 1):
            told, status = lines[: max(call - opened, 0)], DISK_FAULT if call < opened else UNTOLD
            if call == opened + len(lines):
                status = DONE
            yield LogCase(
                words, LOG, "".join(told), status, file=b"x", left=1, pulls="0", calls=f"{call}"
            )


def failing_proofs():
    """The commands that check a proof with each of their pulls, their reads and their tells failing."""
    opened = reads_of(LOG)
    for words, proof, image, lines, reads in [
        (VERIFY, PROOF, b"hello", USES, 0),
        (EXPOSE, PROOF, LOG, ["no clash\n"], opened),
        (TRACE_VERIFY, TRACE_PROOF, b"hello", ANCESTORS, 0),
        (RANGE_VERIFY, RANGE_PROOF, b"hello", VERSIONS, 0),
    ]:
        source = proof.encode("ascii")
        size = len(source)
        # One more pull finds the end.
        pulls = -(-size // PIECE) + 1
        for pull in range(pulls):
            left = max(size - PIECE * pull, 0)
            yield LogCase(words, image, "", UNREADABLE, file=source, left=left, pulls=f"{pull}", piece=PIECE)
        yield LogCase(words, image, "".join(lines), file=source, pulls=f"{pulls}", piece=PIECE)
        for call in range(reads):
            yield LogCase(words, image, "", DISK_FAULT, file=source, left=size, calls=f"{call}")
        for tell in range(len(lines)):
            yield LogCase(words, image, "".join(lines[:tell]), UNTOLD, file=source, calls=f"{reads + tell}")
        yield LogCase(words, image, "".join(lines), file=source, calls=f"{reads + len(lines)}")


# The light file of the chain of one block, and behind it a frame that is no proof, and a proof of what the block set.
SET_LIGHT = light_file_of(SET_FILE, SET_ROWS)
NO_PROOF = frame(b"x")
SET_PROOF = proof_of(History(SET_ROWS), block_digests([SET_FILE])[0], "hist", "raw/a", 0, 0)
LIGHT_INPUT = SET_LIGHT + NO_PROOF + frame(SET_PROOF)
LIGHT_LINES = ["proof 0 rejected malformed 0\n"]
LIGHT_LINES += [f"{line}\n" for line in accepted(1, "hist", "raw/a", 0, 0, [SET_ANSWER.rstrip()])]


def failing_lights():
    """`light` with each of its pulls failing, one byte a pull, and with each of its tells: of each frame that was read
    the lines were told. It ends as it does where a proof was rejected."""
    size, first = len(LIGHT_INPUT), len(SET_LIGHT + NO_PROOF)
    for pull in range(size + 1):
        told = LIGHT_LINES[: (pull >= first) + 2 * (pull >= size)]
        yield LogCase(
            "light", b"hello", "".join(told), UNREADABLE, file=LIGHT_INPUT, left=size - pull, pulls=f"{pull}", piece=1
        )
    all_lines = "".join(LIGHT_LINES)
    yield LogCase("light", b"hello", all_lines, REJECTED, file=LIGHT_INPUT, pulls=f"{size + 1}", piece=1)
    for tell in range(len(LIGHT_LINES)):
        left = 0 if tell else size - first
        told = "".join(LIGHT_LINES[:tell])
        yield LogCase("light", b"hello", told, UNTOLD, file=LIGHT_INPUT, left=left, calls=f"{tell}")
    yield LogCase("light", b"hello", all_lines, REJECTED, file=LIGHT_INPUT, calls=f"{len(LIGHT_LINES)}")
    # The one line of a file or a frame that is none.
    for file, left, line, status in [
        (SET_LIGHT[:-1], 0, "badinput light\n", BAD_INPUT),
        (SET_FILE, len(SET_FILE) - 8, "badinput light\n", BAD_INPUT),
        (SET_LIGHT + bytes(4) + b"x", 1, "refused frame 0 length 0\n", REFUSED),
        (LIGHT_INPUT[: first - 1], 0, "refused frame 0 truncated\n", REFUSED),
    ]:
        yield LogCase("light", b"hello", "", UNTOLD, file=file, left=left, calls="0")
        yield LogCase("light", b"hello", line, status, file=file, left=left, calls="1")


def pausing_lights():
    """`light` over a source that gives nothing once, as at the end of an input, and then goes on, one byte a pull: it
    has ended by then."""
    none, rejected, all_lines = "badinput light\n", LIGHT_LINES[0], "".join(LIGHT_LINES)
    light, first, size = len(SET_LIGHT), len(SET_LIGHT + NO_PROOF), len(LIGHT_INPUT)
    for pull, told, status in [
        *((pull, none, BAD_INPUT) for pull in (0, 3, 4, 7, 8, 40, light - 1)),
        (light, "", DONE),
        *((pull, "refused frame 0 truncated\n", REFUSED) for pull in (light + 1, light + 4)),
        (first, rejected, REJECTED),
        *((pull, f"{rejected}refused frame 1 truncated\n", REFUSED) for pull in (first + 1, first + 4, size - 1)),
        (size, all_lines, REJECTED),
    ]:
        file = LIGHT_INPUT + b"x"
        pulls = f"pause {pull}"
        yield LogCase("light", b"hello", told, status, file=file, left=len(file) - pull, pulls=pulls, piece=1)


def fault_cases():
    """All cases, as tools/cases/log_cases.py gives its own."""
    crashes = itertools.starmap(over_crashes, STARTS)
    for part in [*crashes, failing_pulls(), failing_questions(), failing_proofs(), failing_lights(), pausing_lights()]:
        for case in part:
            yield case.case()
