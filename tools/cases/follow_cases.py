"""Cases of `follow`: frames in any order, repeated, lost, forked, far, changed and of bad form; over logs of all kinds;
with each call failing, each pull failing, and each moment of a run a crash.

What is expected is worked out by tools/cases/follow_model.py, but for the first table, which is written by hand; the
calls that a run makes, and what a crash leaves of it, as tools/cases/fault_cases.py has them for `append`.
"""
import itertools

from cases import changed_files
from cases.block_files import OK, SECOND_VERSION, block_file, calls, number, sets
from cases.block_reader import MAX_BLOCK_BYTES, MAX_NUMBER, decoded, stands_for
from cases.fault_cases import (
    APPEND, FRAMES, LINES, MARKED_APPEND, TELL, Append, Call, CrashCase, chain_in, created, looked, opened, over_crashes,
    reads_of, stored,
)
from cases.follow_model import BLOCK, IS_KNOWN, MAX_AHEAD, Follower, follow_over, lines_of
from cases.log_cases import (
    CLOSED, DISK_FAULT, DONE, REFUSED, SCRATCH_FAULT, SET_FILE, SET_LOG, TRUNCATED, UNREADABLE, UNTOLD, USAGE, LogCase,
    block, digest, frames_of, log_of, torn_heads, torn_records, wrong_images,
)

FOLLOW = "follow"
NO_PARENT = bytes(32)


def last_line(held, waiting):
    return f"follow blocks {held} waiting {waiting}\n"


def lines_with(image, file):
    """The lines of the blocks that a follower may add over a log, by their numbers: those of the chain that it has at
    the end."""
    followed, follower = follow_over(image, file)
    is_added = any(turn.what == BLOCK for turn in followed.all_turns())
    return lines_of(follower.chain) if is_added else []


def case_of(image, file, lines=None, front=None):
    """The case of a file over a log, of which so many blocks stand before the mark where it is marked."""
    followed, follower = follow_over(image, file)
    after = None
    if any(turn.what == BLOCK for turn in followed.all_turns()):
        lines = lines or lines_with(image, file)
        after = follower.log(front)
    left = len(file) - followed.read
    return LogCase(FOLLOW, image, followed.told(lines), followed.status, after, file=file, left=left)


# ---- by hand


# Two blocks without transactions, and one of one Set.
SMALL = frames_of(block_file([[], [], [sets("raw/a", 1)]]))
SMALL_CHAIN, _ = stands_for(log_of(b"".join(SMALL)))
SMALL_LINES = lines_of(SMALL_CHAIN)


def first_table():
    """Frames of a small chain over an empty disk, and a follower's limits there."""
    assert [line.split(" root ")[0] for line in SMALL_LINES] == [
        "block 0 rows 0 status -", "block 1 rows 0 status -", "block 2 rows 1 status 0",
    ]
    first, second, third = SMALL
    zero, one, two = SMALL_LINES
    whole = log_of(b"".join(SMALL))
    for frames, told, after in [
        ([], last_line(0, 0), b""),
        ([first, second, third], zero + one + two + last_line(3, 0), whole),
        ([third, first, first, second], f"kept 2\n{zero}known 0\n{one}{two}{last_line(3, 0)}", whole),
        ([third, first], f"kept 2\n{zero}{last_line(1, 1)}", log_of(first)),
        ([third, third], f"kept 2\ndropped 1 taken\n{last_line(0, 1)}", b""),
        ([third, second, first], f"kept 2\nkept 1\n{zero}{one}{two}{last_line(3, 0)}", whole),
        (
            [second, first, first, second],
            f"kept 1\n{zero}{one}known 0\nknown 1\n{last_line(2, 0)}",
            log_of(first + second),
        ),
        ([empty(MAX_AHEAD)], f"kept 64\n{last_line(0, 1)}", b""),
        ([empty(MAX_AHEAD + 1)], f"dropped 0 far 0\n{last_line(0, 0)}", b""),
        ([first, empty(65), empty(66)], f"{zero}kept 65\ndropped 2 far 1\n{last_line(1, 1)}", log_of(first)),
        ([empty(MAX_NUMBER), first], f"dropped 0 far 0\n{zero}{last_line(1, 0)}", log_of(first)),
    ]:
        yield LogCase(FOLLOW, b"", told, after=after, file=b"".join(frames))
    # Stopped during the first of these runs, as it waits; then over the same file.
    file = third + first + first + second
    known = "known 0\n"
    for held, lines in enumerate([
        ["kept 2\n", zero, known, one, two],
        ["kept 2\n", known, known, one, two],
        [two, known, known, "known 1\n"],
    ]):
        image = log_of(b"".join(SMALL[:held])) if held else b""
        yield LogCase(FOLLOW, image, "".join([*lines, last_line(3, 0)]), after=whole, file=file)
    yield LogCase(FOLLOW, whole, f"known 2\nknown 0\nknown 0\nknown 1\n{last_line(3, 0)}", file=file)


def empty(at, parent=NO_PARENT):
    """The frame of a block without transactions."""
    return block(at, parent, [])


def usages():
    """Words that are no command: nothing is read."""
    others = ["follows", "Follow", "follow --help"]
    for words in ["follow x", "follow 0", "follow follow", "follow append", "follow make", *others]:
        yield LogCase(words, SET_LOG, "usage\n", USAGE, file=SET_FILE, left=len(SET_FILE))


# ---- orders, causes and forms


def orders():
    """The blocks of a chain in all orders, over a log of each of its first blocks; and some left out or repeated."""
    blocks = [[sets("raw/a", 1)], [], [sets("raw/b", 2, ["raw/a"])], [sets("raw/a", 3, ["raw/b"])]]
    frames = frames_of(block_file(blocks))
    lines = lines_of(stands_for(log_of(b"".join(frames)))[0])
    for held in range(len(frames)):
        image = log_of(b"".join(frames[:held])) if held else b""
        for order in itertools.permutations(frames):
            yield case_of(image, b"".join(order), lines)
    for count in (1, 2, 3):
        for order in itertools.product(frames, repeat=count):
            yield case_of(b"", b"".join(order), lines)


def far_windows():
    """Windows of as many blocks as may wait, the last of them first, and one more."""
    blocks = [[sets(f"raw/{at}", at)] if at % 16 == 0 else [] for at in range(2 * MAX_AHEAD + 2)]
    frames = frames_of(block_file(blocks))
    lines = lines_of(stands_for(log_of(b"".join(frames)))[0])
    windows = [frames[at : at + MAX_AHEAD + 1] for at in range(0, len(frames), MAX_AHEAD + 1)]
    yield case_of(b"", b"".join(frame for window in windows for frame in reversed(window)), lines)
    yield case_of(b"", b"".join(reversed(frames)), lines)
    beyond = frames[MAX_AHEAD + 1]
    yield case_of(b"", b"".join([*frames[1 : MAX_AHEAD + 1], beyond, frames[0], beyond]), lines)
    yield case_of(log_of(frames[0]), b"".join([*frames[2:], frames[1]]), lines)


def wrong_blocks():
    """A block of each number about the next one, wrong in each way, alone and with the right ones behind it: it is
    dropped where it comes, or waits and is dropped once it is due, and then the right one is taken."""
    for image, version, front in [(b"", 1, None), (SET_LOG, 1, None), (log_of(SET_FILE, b""), SECOND_VERSION, 1)]:
        chain, _ = stands_for(image)
        held, parent = len(chain.frames), chain.digests[-1] if chain.digests else NO_PARENT
        right = [block(held, parent, [sets("raw/b", 1)], version)]
        for at in (1, 2):
            parent = bytes.fromhex(digest(right[-1]))
            right.append(block(held + at, parent, [sets("raw/b", at + 1)], version))
        for at, frame in enumerate(right):
            for wrong in wrong_of(frame, version):
                for order in orders_with(wrong, at, right):
                    yield case_of(image, b"".join(order), front=front)


def wrong_of(frame, version):
    """Blocks with the number of a right one that are wrong: of another parent, of the other version, with budgets of
    too many steps, another block of the same place, and bytes that spell none."""
    at, parent = decoded(frame[5:9]), frame[9:41]
    eleven = [calls("c", "f", [], 1_000_000, OK, 0)] * 11
    yield block(at, bytes(31) + b"\1", [], version)
    yield block(at, parent, [], SECOND_VERSION if version == 1 else 1)
    yield block(at, parent, eleven, version)
    yield block(at, parent, [sets("raw/c", 9)], version)
    yield frame[:4] + b"\3" + frame[5:]
    yield number(1, 4) + b"x"


def orders_with(wrong, at, right):
    """The wrong block alone; before and behind all right ones; in the place of the right one of its number; and
    while it waits for those before it."""
    yield [wrong]
    yield [wrong, *right]
    yield [*right, wrong]
    yield [*right[:at], wrong, *right[at:]]
    yield [wrong, *right[:at], *right[at:]]
    yield [right[-1], wrong, *right]


def bad_forms():
    """Frames of bad form: alone, behind a block that is added, and behind one that waits."""
    for before in (b"", SET_FILE, empty(5)):
        for bad in [number(0, 4), number(MAX_BLOCK_BYTES + 1, 4), number(MAX_NUMBER, 4)]:
            yield case_of(b"", before + bad + SET_FILE)
        for size in (1, 2, 3, 4, 5, len(SET_FILE) - 1):
            yield case_of(b"", before + SET_FILE[:size])
            yield case_of(SET_LOG, before + SET_FILE[:size])


def changed_frames():
    """A file of three blocks whose last one comes first, with each of its bytes changed in a way."""
    first, second, third = frames_of(block_file(changed_files.BLOCKS))
    file = third + first + second
    for offset, byte in enumerate(file):
        for change in changed_files.CHANGES[:1]:
            changed = file[:offset] + bytes([byte ^ change]) + file[offset + 1 :]
            yield case_of(b"", changed)


# ---- logs


def over_logs():
    """Over what is no log and what is damaged nothing is read; over what a stopped append or follow of one block
    leaves, the block is added."""
    for image, told, status in wrong_images():
        yield LogCase(FOLLOW, image, told, status, file=SET_FILE, left=len(SET_FILE))
    for image in dict.fromkeys([*torn_heads(), *torn_records()]):
        yield case_of(image, SET_FILE)
    # Where nothing is added, nothing is written, and no log is made.
    for image in [b"", CLOSED, SET_LOG[:8] + CLOSED]:
        yield LogCase(FOLLOW, image, last_line(0, 0))
        yield LogCase(FOLLOW, image, f"kept 1\n{last_line(0, 1)}", file=empty(1))


# ---- calls that fail, and crashes


class Follow:
    """A `follow` of blocks of an append, in some order."""

    words = FOLLOW

    def __init__(self, append, order):
        self.append, self.given = append, [append.frames[at] for at in order]
        self.file = b"".join(self.given)
        self.is_kept = append_like(self, append)

    def is_done(self, before, image):
        """Whether an image has the blocks that a follower has at the end."""
        _, follower = follow_over(before, self.file)
        return chain_in(image) == (self.append.frames[: follower.held()], chain_in(before)[1])

    def sure(self, begun):
        """How many blocks are sure to be there once these lines were begun."""
        words = [line.split() for line in begun]
        return max((int(line[1]) + 1 for line in words if line[0] in (BLOCK, IS_KNOWN)), default=0)

    def calls(self, image):
        """All calls of the run over an image, in order."""
        left, follower = len(self.file), Follower(stands_for(image)[0])
        has_log = False
        yield from opened(image, left)
        for index, frame in enumerate(self.given):
            left -= len(frame)
            for turn in follower.delivered(index, frame[4:]):
                if turn.what == BLOCK:
                    if not has_log:
                        yield from created(image, left)
                    has_log, record = True, self.append.frames[turn.number]
                    yield from stored(record, follower.chain.end() - 1 - len(record), left)
                line = turn.line(self.append.lines)
                yield from looked(line, left) if turn.what == IS_KNOWN else [Call(TELL, left, line)]
        yield from looked(last_line(follower.held(), len(follower.waiting)), left)


def append_like(run, append):
    """Whether an image has what it must, as after an append, where these lines of a run were begun."""

    def is_kept(before, begun, image):
        return Append.is_kept(append, before, [None] * run.sure(begun), image)

    return is_kept


# Runs, and over what they begin: an empty disk and a log of the first block; a marked log with no block behind the
# mark.
FOLLOWS = [
    (Follow(APPEND, [2, 0, 0, 1]), [APPEND.log_of_first(0), APPEND.log_of_first(1)]),
    (Follow(MARKED_APPEND, [2, 2, 1]), [MARKED_APPEND.log_of_first(1)]),
]


def crashes():
    """What crashes leave of each run, as of an append."""
    for run, starts in FOLLOWS:
        for image in starts:
            count = len(list(run.calls(image)))
            yield CrashCase(run, image, list(range(count + 1)))
            for failing in range(count):
                yield CrashCase(run, image, [failing + 1], failing)


ORDER = [2, 0, 0, 1]
ORDERED = [FRAMES[at] for at in ORDER]
ORDERED_FILE = b"".join(ORDERED)


def failing_pulls():
    """The run with each pull of its source failing, one byte a pull: of each frame that was read the lines were told.
    And over a source that gives nothing once, as at the end of an input, and then goes on."""
    size = len(ORDERED_FILE)
    starts = [len(b"".join(ORDERED[:at])) for at in range(len(ORDERED) + 1)]
    for pull in range(size + 1):
        followed, follower = follow_over(b"", ORDERED_FILE[: max(start for start in starts if start <= pull)])
        told, left = "".join(turn.line(LINES) for turn in followed.all_turns()), size - pull
        after = follower.log() if follower.held() else b""
        yield LogCase(FOLLOW, b"", told, UNREADABLE, after, ORDERED_FILE, left=left, pulls=f"{pull}", piece=1)
        paused, follower = follow_over(b"", ORDERED_FILE[:pull])
        yield LogCase(
            FOLLOW, b"", paused.told(LINES), paused.status, after, ORDERED_FILE + b"x", left=left + 1,
            pulls=f"pause {pull}", piece=1,
        )
    whole, follower = follow_over(b"", ORDERED_FILE)
    yield LogCase(
        FOLLOW, b"", whole.told(LINES), DONE, follower.log(), ORDERED_FILE, pulls=f"{size + 1}", piece=1
    )


def failing_looks():
    """Where no frame comes the log is looked at before the last line, and where one of bad form comes it isn't."""
    for image in (b"", SET_LOG):
        look, last = 1 + reads_of(image), last_line(len(chain_in(image)[0]), 0)
        yield LogCase(FOLLOW, image, "", DISK_FAULT, calls=f"{look}")
        yield LogCase(FOLLOW, image, "", UNTOLD, calls=f"{look + 1}")
        yield LogCase(FOLLOW, image, last, DONE, calls=f"{look + 2}")
        yield LogCase(FOLLOW, image, "", UNTOLD, file=b"x", calls=f"{look}")
        yield LogCase(FOLLOW, image, TRUNCATED, REFUSED, file=b"x", calls=f"{look + 1}")


def failing_scratch():
    """The run over the logs of the first blocks with each put of a body failing: that of a block that waits is put once
    it is due. Nothing is written for the block at work."""
    for held in range(len(FRAMES) + 1):
        image = APPEND.log_of_first(held)
        put = sum(rows_of(at) for at in range(held))
        for early in range(put):
            left = len(ORDERED_FILE)
            yield LogCase(FOLLOW, image, "", SCRATCH_FAULT, file=ORDERED_FILE, left=left, scratch=f"{early}")
        follower, told, left, after = Follower(stands_for(image)[0]), "", len(ORDERED_FILE), image
        for index, frame in enumerate(ORDERED):
            left -= len(frame)
            for turn in follower.delivered(index, frame[4:]):
                if turn.what == BLOCK:
                    for _ in range(rows_of(turn.number)):
                        yield LogCase(
                            FOLLOW, image, told, SCRATCH_FAULT, after, ORDERED_FILE, left=left, scratch=f"{put}"
                        )
                        put += 1
                    after = APPEND.log_of_first(turn.number + 1)
                told += turn.line(LINES)
        yield LogCase(FOLLOW, image, told + last_line(3, 0), DONE, after, ORDERED_FILE, scratch=f"{put}")


def rows_of(at):
    return int(LINES[at].split()[3])


def follow_cases():
    """All cases, as tools/cases/log_cases.py gives its own."""
    runs = itertools.starmap(over_crashes, FOLLOWS)
    for part in [
        first_table(), usages(), orders(), far_windows(), wrong_blocks(), bad_forms(), changed_frames(), over_logs(),
        *runs, failing_pulls(), failing_looks(), failing_scratch(), crashes(),
    ]:
        for case in part:
            yield case.case()
