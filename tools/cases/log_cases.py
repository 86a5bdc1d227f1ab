"""Cases of logs: what commands tell over what a disk holds, and what becomes of it.

What is expected is worked out by hand from docs/formats.md and docs/log.md, but for roots, which
tools/cases/root_cases.py works out from the rows that are written here.
"""
import dataclasses

from cases import block_files
from cases.block_files import (
    CONFLICT, FIRST_VERSION, OK, SECOND_VERSION, block_frame, calls, deploys, number, sets,
)
from cases.root_cases import Row, roots

OPEN = b"\xa5"
CLOSED = b"\0"
MAGIC = b"LCLOG1\n"
# What a log has before its records, with its head gate open or not.
HEAD = OPEN + MAGIC
CLOSED_HEAD = CLOSED + MAGIC
FIRST_GATE = len(HEAD)
# The longest text of a block of the second version.
LONGEST_TEXT = "".join(chr(0x20 + at % 95) for at in range(8_192))
# A record that is the mark: the length of no block.
MARK = number(0, 4)
BYTES = [bytes([byte]) for byte in range(256)]

DONE = 0
USAGE = 1
UNREADABLE = 2
UNTOLD = 3
DISK_FAULT = 4
MEMORY = 5
NOT_A_LOG = 6
DAMAGED = 7
REFUSED = 8
BEYOND = 9
REJECTED = 10
BAD_INPUT = 11
SCRATCH_FAULT = 12

SET_FILE = block_files.block_file([[sets("raw/a", 5)]])
SET_LOG = HEAD + OPEN + SET_FILE + CLOSED
SET_ROWS = [Row("raw/a", 0, 0, 5, [])]
SET_LINE = f"block 0 rows 1 status 0 root {roots([SET_FILE], SET_ROWS)[0]}\n"
# A block after that one.
SECOND_ROWS = [*SET_ROWS, Row("raw/b", 1, 0, 1, [])]
SET_ANSWER = "block 0 tx 0 int 5\n"
SET_ROOT = f"root 0 {roots([SET_FILE], SET_ROWS)[0]}\n"
HIST = "hist raw/a 0"
TRUNCATED = "refused frame 0 truncated\n"


@dataclasses.dataclass
class LogCase:
    """A command over a disk, and what it must tell, leave and end with."""

    words: str
    # What the disk holds before and after; after is before where it is left out.
    image: bytes
    told: str
    status: int = DONE
    after: bytes = None
    file: bytes = b""
    # How many bytes of the input are left.
    left: int = 0
    # The calls that fail; `pause N` for a pull that gives nothing.
    pulls: str = ""
    calls: str = ""
    # The greatest number of bytes that the source gives at once, where that matters.
    piece: int = None
    # Those of the scratch device; behind a `/` how many calls it has room for, and behind another how many bytes.
    scratch: str = ""

    def case(self):
        """Its words, what must be printed, the fields of its line after the piece, and the piece."""
        after = "same" if self.after in (None, self.image) else self.after.hex()
        printed = f"== {self.status} {self.words}\n{self.told}left {self.left}\nlog {after}\n"
        fields = [self.file.hex(), self.pulls, self.calls, self.image.hex()]
        if self.scratch:
            fields.append(self.scratch)
        return self.words, printed, "|".join(fields), self.piece


def frames_of(file):
    """The frames of a block file, each with its length."""
    frames, at = [], 0
    while at < len(file):
        size = 4 + int.from_bytes(file[at : at + 4], "big")
        frames.append(file[at : at + size])
        at += size
    return frames


def log_of(file, marked=None):
    """The log of the blocks of a file; or that log marked, with the blocks of another file behind the mark."""
    records = frames_of(file) + ([] if marked is None else [MARK, *frames_of(marked)])
    return HEAD + b"".join(OPEN + record for record in records) + CLOSED


def block(at, parent, txs, version=FIRST_VERSION):
    """The frame of a block of any number and parent."""
    return block_frame(version, at, parent, txs)


def digest(frame):
    return block_files.block_digest(frame[4:]).hex()


# ---- chains that are appended, and then asked about


BANK = (
    'fn begin() { put "bank/n" = get_int("raw/a"); } fn add(d: int) { let n = get_int("bank/n");'
    ' put "bank/n" = n + d; put "bank/log" = d from "bank/n"; }'
)
# Blocks, the lines of `append` but for the roots, the rows, and questions with their answers.
CHAINS = [
    (
        [[sets("raw/a", 1), sets("raw/a", 2, status=CONFLICT)]],
        ["block 0 rows 1 status 0,1"],
        [Row("raw/a", 0, 0, 1, [])],
        {
            "hist raw/a": "block 0 tx 0 int 1\n",
            "hist raw/b": "none\n",
            "trace raw/a 0": "block 0 ancestors 0\n",
            "trace raw/b 0": "none\n",
            "range raw/a 0 0": "versions 1\nblock 0 tx 0 int 1\n",
            "range raw/b 0 0": "versions 0\n",
        },
    ),
    (
        [
            [sets("raw/a", 1), sets("raw/b", 2, ["raw/a"], status=CONFLICT)],
            [sets("raw/b", 2, ["raw/a"])],
        ],
        ["block 0 rows 1 status 0,1", "block 1 rows 1 status 0"],
        [Row("raw/a", 0, 0, 1, []), Row("raw/b", 1, 0, 2, [("raw/a", 0)])],
        {
            "back raw/b": "block 1 deps 1\nraw/a 0\n",
            "back raw/b 1": "block 1 deps 1\nraw/a 0\n",
            "back raw/b 0": "none\n",
            "fwd raw/a": "block 0 uses 1\nraw/b 1\n",
            # A forward answer counts the rows of the whole chain.
            "fwd raw/a 0": "block 0 uses 1\nraw/b 1\n",
            "trace raw/b 1": "block 1 ancestors 1\nraw/a 0\n",
            "trace raw/b 0": "none\n",
            "range raw/b 0 1": "versions 1\nblock 1 tx 0 int 2\n",
            "range raw/b 0 0": "versions 0\n",
            "range raw/a 1 1": "versions 0\n",
        },
    ),
    (
        [
            [deploys("bank", BANK), sets("raw/a", 5)],
            [calls("bank", "begin", [], 100, OK, 28)],
            [
                calls("bank", "add", [3], 100, OK, 52),
                calls("bank", "add", [1], 100, CONFLICT, 0),
            ],
            [sets("raw/b", "x", ["raw/a", "raw/a", "raw/z"])],
        ],
        [
            "block 0 rows 1 status 0,0",
            "block 1 rows 1 status 0",
            "block 2 rows 2 status 0,1",
            "block 3 rows 1 status 0",
        ],
        [
            Row("raw/a", 0, 1, 5, []),
            Row("bank/n", 1, 0, 5, [("raw/a", 0)]),
            Row("bank/n", 2, 0, 8, [("bank/n", 1)]),
            Row("bank/log", 2, 0, 3, [("bank/n", 1)]),
            Row("raw/b", 3, 0, "x", [("raw/a", 0)]),
        ],
        {
            "hist bank/n": "block 2 tx 0 int 8\n",
            "hist bank/n 0": "none\n",
            "back bank/n 2": "block 2 deps 1\nbank/n 1\n",
            "fwd bank/n 1": "block 1 uses 2\nbank/n 2\nbank/log 2\n",
            "fwd raw/a 3": "block 0 uses 2\nbank/n 1\nraw/b 3\n",
            "trace bank/log 3": "block 2 ancestors 2\nraw/a 0\nbank/n 1\n",
            "trace bank/n 1": "block 1 ancestors 1\nraw/a 0\n",
            "trace raw/b 3": "block 3 ancestors 1\nraw/a 0\n",
            "trace raw/a 3": "block 0 ancestors 0\n",
            "trace raw/z 3": "none\n",
            # Where three words are given, the second one is a key.
            "trace prove 3": "none\n",
            "range bank/n 0 3": "versions 2\nblock 1 tx 0 int 5\nblock 2 tx 0 int 8\n",
            "range bank/n 2 2": "versions 1\nblock 2 tx 0 int 8\n",
            "range raw/a 0 0": "versions 1\nblock 0 tx 1 int 5\n",
            "range raw/a 1 3": "versions 0\n",
            "range raw/b 0 3": "versions 1\nblock 3 tx 0 text x\n",
            # Where four words are given, the second one is a key.
            "range prove 0 3": "versions 0\n",
            "range verify 3 3": "versions 0\n",
        },
    ),
    # A block without transactions, and one that sets a text.
    (
        [[], [sets("raw/a", "t")]],
        ["block 0 rows 0 status -", "block 1 rows 1 status 0"],
        [Row("raw/a", 1, 0, "t", [])],
        {"hist raw/a": "block 1 tx 0 text t\n", "hist raw/a 0": "none\n"},
    ),
    # Versions of one key in the blocks 2, 9 and 10: that in block 9 has four links, all to block 2,
    # and that in block 10 two, both to block 9.
    (
        [[], [], [sets("raw/a", 1)], *[[]] * 6, [sets("raw/a", 2)], [sets("raw/a", 3)]],
        [
            "block 0 rows 0 status -",
            "block 1 rows 0 status -",
            "block 2 rows 1 status 0",
            *[f"block {at} rows 0 status -" for at in range(3, 9)],
            "block 9 rows 1 status 0",
            "block 10 rows 1 status 0",
        ],
        [Row("raw/a", 2, 0, 1, []), Row("raw/a", 9, 0, 2, []), Row("raw/a", 10, 0, 3, [])],
        {
            "hist raw/a": "block 10 tx 0 int 3\n",
            "hist raw/a 9": "block 9 tx 0 int 2\n",
            "hist raw/a 8": "block 2 tx 0 int 1\n",
            "hist raw/a 2": "block 2 tx 0 int 1\n",
            "hist raw/a 1": "none\n",
            "back raw/a": "block 10 deps 0\n",
            "range raw/a 0 10": "versions 3\nblock 2 tx 0 int 1\nblock 9 tx 0 int 2\nblock 10 tx 0 int 3\n",
            "range raw/a 2 9": "versions 2\nblock 2 tx 0 int 1\nblock 9 tx 0 int 2\n",
            "range raw/a 3 10": "versions 2\nblock 9 tx 0 int 2\nblock 10 tx 0 int 3\n",
            "range raw/a 9 9": "versions 1\nblock 9 tx 0 int 2\n",
            "range raw/a 3 8": "versions 0\n",
            "range raw/a 0 1": "versions 0\n",
        },
    ),
]


def chains():
    """Chains that are appended to an empty disk, at once and block by block, and asked about."""
    for blocks, plain, rows, questions in CHAINS:
        file = block_files.block_file(blocks)
        frames = frames_of(file)
        log = log_of(file)
        told_roots = roots(frames, rows)
        lines = [f"{line} root {root}\n" for line, root in zip(plain, told_roots)]
        yield LogCase("append", b"", "".join(lines), after=log, file=file)
        before, held = b"", b""
        for frame, line in zip(frames, lines):
            held += frame
            yield LogCase("append", before, line, after=log_of(held), file=frame)
            before = log_of(held)
        known = "".join(f"known {i}\n" for i in range(len(frames)))
        yield LogCase("append", log, known, file=file)
        # What is stored already is passed over, and the rest is stored.
        yield LogCase(
            "append", log_of(frames[0]), "known 0\n" + "".join(lines[1:]), after=log, file=file
        )
        for question, answer in questions.items():
            yield LogCase(question, log, answer)
        for at, root in enumerate(told_roots):
            yield LogCase(f"root {at}", log, f"root {at} {root}\n")
        head = len(blocks) - 1
        yield LogCase("root", log, f"root {head} {told_roots[head]}\n", file=file, left=len(file))
        beyond = f"beyond head {head}\n"
        yield LogCase(f"root {head + 1}", log, beyond, BEYOND)
        yield LogCase("root 4294967295", log, beyond, BEYOND)
        yield LogCase(f"hist raw/a {head + 1}", log, beyond, BEYOND)
        yield LogCase("fwd raw/a 4294967295", log, beyond, BEYOND)
        yield LogCase(f"trace raw/a {head + 1}", log, beyond, BEYOND)
        yield LogCase("trace raw/a 4294967295", log, beyond, BEYOND)
        yield LogCase(f"trace prove raw/a 0 {head + 1}", log, beyond, BEYOND)
        yield LogCase(f"trace prove raw/a {head + 1} {head}", log, beyond, BEYOND)
        for range_words in [
            f"range raw/a 0 {head + 1}", f"range raw/a {head + 1} {head + 1}", "range raw/a 0 4294967295",
            f"range prove raw/a 0 0 {head + 1}", f"range prove raw/a 0 {head + 1} {head}",
            f"range prove raw/a {head + 1} {head + 1} 0",
        ]:
            yield LogCase(range_words, log, beyond, BEYOND)
        # No command has a block before the one from which it asks, also past the last one.
        yield LogCase(f"range raw/a {head + 2} {head + 1}", log, "usage\n", 1)


# ---- what is refused


def refusals():
    """Frames that are refused. Those before them stay, and what follows them is left."""
    other = block(0, bytes(32), [sets("raw/a", 6)])
    parent = bytes.fromhex(digest(SET_FILE))
    after = block(1, parent, [sets("raw/b", 1)])
    late = block(2, bytes(32), [])
    orphan = block(1, bytes(32), [])
    eleven_calls = [calls("c", "f", [], 1_000_000, OK, 0)] * 11
    eleven = block(0, bytes(32), eleven_calls)
    # One call, whose budget is its last field.
    costly = block(0, bytes(32), [calls("c", "f", [], 1_000_001, OK, 0)])
    budget_at = len(costly) - 4 - 4
    broken = SET_FILE[:4] + b"\3" + SET_FILE[5:]
    # The same block of the second version, which is another block.
    second = SET_FILE[:4] + b"\2" + SET_FILE[5:]
    on_set = [
        (other, f"fork {digest(SET_FILE)}"),
        (late, "number 1"),
        (orphan, f"parent {digest(SET_FILE)}"),
        (broken, "malformed 0"),
        (second, f"fork {digest(SET_FILE)}"),
        # A log takes no block of the second version. Its number and its parent come before that, and its budgets after.
        (block(1, parent, [sets("raw/b", 1)], SECOND_VERSION), "version 1"),
        (block(2, parent, [], SECOND_VERSION), "number 1"),
        (block(1, bytes(32), [], SECOND_VERSION), f"parent {digest(SET_FILE)}"),
        (block(1, parent, eleven_calls, SECOND_VERSION), "version 1"),
        (SET_FILE[:-1], "truncated"),
        (b"\0\0\0", "truncated"),
    ]
    for frame, cause in on_set:
        refused = f"refused frame 0 {cause}\n"
        rest = b"" if cause == "truncated" else after
        yield LogCase("append", SET_LOG, refused, REFUSED, file=frame + rest, left=len(rest))
        # After a block that is stored.
        refused = f"refused frame 1 {cause}\n"
        file = SET_FILE + frame + rest
        yield LogCase("append", SET_LOG, "known 0\n" + refused, REFUSED, file=file, left=len(rest))
        yield LogCase(
            "append", b"", SET_LINE + refused, REFUSED, SET_LOG, file=file, left=len(rest)
        )
    # Nothing is stored, so no log is made.
    no_length = b"\0\0\0\0"
    for frame, cause in [
        (late, "number 0"),
        (block(0, bytes(31) + b"\1", []), f"parent {bytes(32).hex()}"),
        (second, "version 1"),
        (broken, "malformed 0"),
        (eleven, "budget 11000000"),
        (costly, f"malformed {budget_at}"),
        (no_length, "length 0"),
        (number(1_048_577, 4), "length 1048577"),
        (SET_FILE[:63], "truncated"),
    ]:
        rest = b"" if cause == "truncated" else SET_FILE
        yield LogCase(
            "append", b"", f"refused frame 0 {cause}\n", REFUSED, file=frame + rest, left=len(rest)
        )


# ---- what is no log, or a damaged one


def wrong_images():
    """Bytes of a disk that are wrong, and what is told of them."""
    cut = SET_LOG[:40]
    yield cut, "damaged at 8\n", DAMAGED
    yield b"hello", "not a log\n", NOT_A_LOG
    yield b"3" + MAGIC + OPEN, "not a log\n", NOT_A_LOG
    # Cut within the head, within the first record, and within the second.
    two = log_of(SET_FILE + block(1, bytes.fromhex(digest(SET_FILE)), [sets("raw/b", 1)]))
    second = len(SET_LOG) - 1
    for length in range(2, FIRST_GATE + 1):
        yield two[:length], "not a log\n", NOT_A_LOG
    for length in range(FIRST_GATE + 1, second + 1):
        yield two[:length], f"damaged at {FIRST_GATE}\n", DAMAGED
    for length in range(second + 1, len(two)):
        yield two[:length], f"damaged at {second}\n", DAMAGED
    # Each bit of the magic.
    for at in range(1, FIRST_GATE):
        for bit in range(8):
            changed = bytearray(SET_LOG)
            changed[at] ^= 1 << bit
            yield bytes(changed), "not a log\n", NOT_A_LOG
    # Behind an open gate stand a block that isn't next, as one of the second version, bytes that spell none, and
    # lengths that no block has.
    for record in [
        SET_FILE + OPEN + SET_FILE + CLOSED,
        SET_FILE + OPEN + block(1, bytes(32), []) + CLOSED,
        SET_FILE + OPEN + block(1, bytes.fromhex(digest(SET_FILE)), [], SECOND_VERSION) + CLOSED,
    ]:
        yield HEAD + OPEN + record, f"damaged at {second}\n", DAMAGED
    for record in [
        SET_FILE[:4] + b"\2" + SET_FILE[5:] + CLOSED,
        SET_FILE[:4] + b"\3" + SET_FILE[5:] + CLOSED,
        number(1_048_577, 4) + CLOSED,
        block(1, bytes(32), []) + CLOSED,
        block(0, bytes(32), [calls("c", "f", [], 1_000_000, OK, 0)] * 11) + CLOSED,
    ]:
        yield HEAD + OPEN + record, f"damaged at {FIRST_GATE}\n", DAMAGED
    for image, gate in wrong_marks():
        yield image, f"damaged at {gate}\n", DAMAGED


def wrong_marks():
    """Logs that are damaged at the gate of a mark, or behind one, and the place of that gate."""
    after_set = len(SET_LOG) - 1
    parent = bytes.fromhex(digest(SET_FILE))
    first, second = (block(1, parent, [], version) for version in [FIRST_VERSION, SECOND_VERSION])
    # A second mark: right behind the first, and behind a block that follows it.
    yield SET_LOG[:-1] + (OPEN + MARK) * 2 + CLOSED, after_set + 5
    yield HEAD + (OPEN + MARK) * 2 + CLOSED, FIRST_GATE + 5
    yield log_of(SET_FILE, second)[:-1] + OPEN + MARK + CLOSED, after_set + 5 + 1 + len(second)
    # A block of the other version before the mark, and behind it; and one of the right version that isn't next.
    yield log_of(block(0, bytes(32), [], SECOND_VERSION), b""), FIRST_GATE
    yield log_of(SET_FILE + second, b""), after_set
    yield log_of(SET_FILE, first), after_set + 5
    yield log_of(b"", SET_FILE), FIRST_GATE + 5
    yield log_of(SET_FILE, block(1, bytes(32), [], SECOND_VERSION)), after_set + 5
    # Cut within the mark, right behind it, and within the block that follows.
    whole = log_of(SET_FILE, second)
    for length in range(after_set + 1, after_set + 6):
        yield whole[:length], after_set
    for length in range(after_set + 6, len(whole)):
        yield whole[:length], after_set + 5
    for length in range(1, 6):
        yield log_of(b"", b"")[: FIRST_GATE + length], FIRST_GATE


def wrong_logs():
    """Commands over them: nothing is read, and nothing is written."""
    for image, told, status in wrong_images():
        yield LogCase(HIST, image, told, status)
        yield LogCase("root", image, told, status)
        yield LogCase("append", image, told, status, file=SET_FILE, left=len(SET_FILE))
        yield LogCase("upgrade", image, told, status, file=SET_FILE, left=len(SET_FILE))


# ---- marked logs


ALREADY = "already upgraded\n"


def upgraded(count):
    return f"upgraded {count}\n"


def upgrades():
    """A log with its mark, and what `append` takes before and behind it."""
    parent = bytes.fromhex(digest(SET_FILE))
    first, second = (block(1, parent, [], version) for version in [FIRST_VERSION, SECOND_VERSION])
    line = f"block 1 rows 0 status - root {roots([SET_FILE, second], SET_ROWS)[1]}\n"
    marked, last = log_of(SET_FILE, b""), log_of(SET_FILE, second)
    # Byte 73 is the gate of the mark, and the five behind it are its length and the next gate.
    assert marked == SET_LOG[:73] + b"\xa5" + bytes(5)
    assert (len(SET_LOG), len(last)) == (74, 123)
    yield LogCase("upgrade", SET_LOG, upgraded(1), after=marked)
    yield LogCase("upgrade", marked, ALREADY)
    yield LogCase("append", marked, "known 0\n", file=SET_FILE)
    yield LogCase("append", marked, "refused frame 0 version 2\n", REFUSED, file=first)
    yield LogCase("append", marked, line, after=last, file=second)
    yield LogCase("append", marked, f"known 0\n{line}", after=last, file=SET_FILE + second)
    yield LogCase("append", SET_LOG, "refused frame 0 version 1\n", REFUSED, file=second)
    # The same block of the first version is another one.
    yield LogCase("append", last, f"refused frame 0 fork {digest(second)}\n", REFUSED, file=first)
    for image in [marked, last]:
        yield LogCase(HIST, image, SET_ANSWER)
        yield LogCase("root 0", image, SET_ROOT)
    for image in [log_of(SET_FILE + first), last]:
        told = ALREADY if image == last else upgraded(2)
        yield LogCase("upgrade", image, told, after=last if image == last else log_of(SET_FILE + first, b""))
    # A log that isn't there yet, or that was begun, is made first.
    empty = log_of(b"", b"")
    assert len(empty) == 14
    for image in [b"", CLOSED, b"x", CLOSED_HEAD, CLOSED_HEAD + CLOSED, HEAD + CLOSED]:
        yield LogCase("upgrade", image, upgraded(0), after=empty)
    yield LogCase("upgrade", empty, ALREADY, file=SET_FILE, left=len(SET_FILE))
    for question in [HIST, "root"]:
        yield LogCase(question, empty, "beyond empty\n", BEYOND)
    set_again = block(0, bytes(32), [sets("raw/a", 5)], SECOND_VERSION)
    line = f"block 0 rows 1 status 0 root {roots([set_again], SET_ROWS)[0]}\n"
    yield LogCase("append", empty, line, after=log_of(b"", set_again), file=set_again)
    yield LogCase("append", empty, "refused frame 0 version 2\n", REFUSED, file=SET_FILE)
    yield LogCase("upgrade", log_of(b"", set_again), ALREADY)
    # Its words are one, and nothing is read of its input.
    for words in ["upgrade 0", "upgrade x", "upgrade upgrade", "upgraded"]:
        yield LogCase(words, SET_LOG, "usage\n", USAGE, file=SET_FILE, left=len(SET_FILE))


def refusals_when_marked():
    """Frames that are refused by a marked log: the number and the parent come before the version, and the version
    before the budgets."""
    parent = bytes.fromhex(digest(SET_FILE))
    eleven_calls = [calls("c", "f", [], 1_000_000, OK, 0)] * 11
    for frame, cause in [
        (block(2, parent, []), "number 1"),
        (block(1, bytes(32), []), f"parent {digest(SET_FILE)}"),
        (block(1, parent, eleven_calls), "version 2"),
        (block(1, parent, eleven_calls, SECOND_VERSION), "budget 11000000"),
        (SET_FILE[:4] + b"\2" + SET_FILE[5:], f"fork {digest(SET_FILE)}"),
        (block(0, bytes(32), [sets("raw/a", 6)]), f"fork {digest(SET_FILE)}"),
    ]:
        image = log_of(SET_FILE, b"")
        yield LogCase("append", image, f"refused frame 0 {cause}\n", REFUSED, file=frame + SET_FILE, left=len(SET_FILE))


def long_texts():
    """Texts at the limit of each version of blocks and one past it, before and behind the mark."""
    parent = bytes.fromhex(digest(SET_FILE))
    marked = log_of(SET_FILE, b"")

    def set_of(text, version):
        return block(1, parent, [sets("raw/t", text)], version)

    # In a block the Set begins at 39, and 11 bytes of it stand before its value; the length follows the tag.
    malformed = "refused frame 0 malformed 51\n"
    for image, version, size in [(SET_LOG, FIRST_VERSION, 1_024), (marked, SECOND_VERSION, 8_192)]:
        text = LONGEST_TEXT[:size]
        good, bad = set_of(text, version), set_of(text + "a", version)
        root = roots([SET_FILE, good], [*SET_ROWS, Row("raw/t", 1, 0, text, [])])[1]
        line = f"block 1 rows 1 status 0 root {root}\n"
        held = image[:-1] + OPEN + good + CLOSED
        yield LogCase("append", image, line, after=held, file=good)
        yield LogCase("append", held, "known 1\n", file=good)
        yield LogCase("hist raw/t", held, f"block 1 tx 0 text {text}\n")
        yield LogCase("root", held, f"root 1 {root}\n")
        if image == marked:
            yield LogCase("upgrade", held, ALREADY)
        else:
            yield LogCase("upgrade", held, upgraded(2), after=log_of(SET_FILE + good, b""))
        yield LogCase("append", image, malformed, REFUSED, file=bad + good, left=len(good))
        # What spells no block is no record either.
        torn = image[:-1] + OPEN + bad + CLOSED
        yield LogCase("hist raw/t", torn, f"damaged at {len(image) - 1}\n", DAMAGED)
    # What spells no block of its version is malformed, whichever version is wanted; else the version is looked at.
    long_first, long_second = set_of(LONGEST_TEXT, FIRST_VERSION), set_of(LONGEST_TEXT, SECOND_VERSION)
    yield LogCase("append", marked, malformed, REFUSED, file=long_first)
    yield LogCase("append", SET_LOG, malformed, REFUSED, file=long_first)
    yield LogCase("append", SET_LOG, "refused frame 0 version 1\n", REFUSED, file=long_second)


def torn_marks():
    """What may stand where an `upgrade` of a log of one block is stopped, behind the gate of the mark and in its place:
    whether the log is marked then, and its bytes."""
    mark, front = MARK + CLOSED, SET_LOG[:-1]
    for length in range(len(mark) + 1):
        for fill in [OPEN, b"\xff", b"\x5a"]:
            yield False, front + CLOSED + mark[:length] + fill * (len(mark) - length)
        yield False, front + CLOSED + mark[:length]
    for byte in BYTES:
        yield byte == OPEN, front + byte + mark


def stopped_upgrades():
    """A question, and the `upgrade` again, over all that a stopped one of a log of one block may leave: the block
    stays, and the log is marked or not."""
    for is_marked, image in dict.fromkeys(torn_marks()):
        yield LogCase(HIST, image, SET_ANSWER)
        yield LogCase("upgrade", image, ALREADY if is_marked else upgraded(1), after=log_of(SET_FILE, b""))


# What the disk holds when the call of each number fails in an `upgrade` of a log of one block: it is synced and opened
# by three calls, as by an `append`.
FAILED_MARKS = [
    *[SET_LOG] * 3,
    # The mark, and its sync.
    SET_LOG,
    SET_LOG + MARK + CLOSED,
    # Its open gate.
    SET_LOG + MARK + CLOSED,
    log_of(SET_FILE, b""),
]


def failing_upgrades():
    """An `upgrade` of which one call fails, up to the first that is never made."""
    for call, after in enumerate(FAILED_MARKS):
        yield LogCase("upgrade", SET_LOG, "", DISK_FAULT, after, calls=f"{call}")
    tell, marked = len(FAILED_MARKS), log_of(SET_FILE, b"")
    yield LogCase("upgrade", SET_LOG, "", UNTOLD, marked, calls=f"{tell}")
    yield LogCase("upgrade", SET_LOG, upgraded(1), DONE, marked, calls=f"{tell + 1}")
    # The mark is read with the block.
    opened = 3
    for call in range(opened):
        yield LogCase("upgrade", marked, "", DISK_FAULT, calls=f"{call}")
    yield LogCase("upgrade", marked, "", UNTOLD, calls=f"{opened}")
    yield LogCase("upgrade", marked, ALREADY, DONE, calls=f"{opened + 1}")


# ---- what a crash leaves


def torn_heads():
    """What may stand on the disk when an append to an empty one is stopped in making the head."""
    yield from [b"", *BYTES]
    # The magic and a closed gate, cut; and with other bytes in their place.
    rest = MAGIC + CLOSED
    for length in range(len(rest) + 1):
        yield CLOSED + rest[:length]
        yield CLOSED + OPEN * length
        yield CLOSED + b"\xff" * length
    # Any byte in place of the head gate.
    for byte in BYTES:
        yield byte + rest


def changed_heads():
    """The same with any byte in place of each one after the closed head gate."""
    rest = MAGIC + CLOSED
    for at in range(len(rest)):
        for byte in BYTES:
            yield CLOSED + rest[:at] + byte + rest[at + 1 :]


def torn_records():
    """What may stand there when the append is stopped before the gate of its record is open."""
    record = SET_FILE + CLOSED
    for length in range(len(record) + 1):
        yield HEAD + CLOSED + record[:length]
        yield HEAD + CLOSED + OPEN * length
        yield HEAD + CLOSED + record[:length] + b"\xff" * (len(record) - length)
    for byte in BYTES:
        if byte != OPEN:
            yield HEAD + byte + record


def crashes():
    """A question, and the append again, over all that a stopped append of one block may leave."""
    empty = "beyond empty\n"
    torn = dict.fromkeys([*torn_heads(), *torn_records()])
    for image in torn:
        yield LogCase(HIST, image, empty, BEYOND)
        yield LogCase("append", image, SET_LINE, after=SET_LOG, file=SET_FILE)
    for image in dict.fromkeys(changed_heads()):
        if image not in torn:
            yield LogCase(HIST, image, empty, BEYOND)
    yield LogCase(HIST, SET_LOG, SET_ANSWER)
    yield LogCase("append", SET_LOG, "known 0\n", file=SET_FILE)


# ---- calls that fail


# What the disk holds when the call of each number fails in an append to an empty disk: a write that
# fails leaves it as it was. The first call reads the head, and the next one syncs what was found.
FAILED_CALLS = [
    b"",
    b"",
    # The closed head gate, and its sync.
    b"",
    CLOSED,
    # The magic and a closed gate.
    CLOSED,
    CLOSED_HEAD + CLOSED,
    # The open head gate.
    CLOSED_HEAD + CLOSED,
    HEAD + CLOSED,
    # The record.
    HEAD + CLOSED,
    HEAD + CLOSED + SET_FILE + CLOSED,
    # The open gate of the record.
    HEAD + CLOSED + SET_FILE + CLOSED,
    SET_LOG,
]


def failing_calls():
    """An append of which one call fails."""
    size = len(SET_FILE)
    for call, after in enumerate(FAILED_CALLS):
        # Before the log is open and synced nothing is read.
        left = 0 if call > 1 else size
        yield LogCase(
            "append", b"", "", DISK_FAULT, after, SET_FILE, left=left, calls=f"{call}"
        )
    tell = len(FAILED_CALLS)
    yield LogCase("append", b"", "", UNTOLD, SET_LOG, SET_FILE, calls=f"{tell}")
    # The disk is looked at before a run ends.
    yield LogCase("append", b"", SET_LINE, DISK_FAULT, SET_LOG, SET_FILE, calls=f"{tell + 1}")
    yield LogCase("append", b"", SET_LINE, DONE, SET_LOG, SET_FILE, calls=f"{tell + 2}")
    # The second of three blocks: the line of the first was told, and the third is left.
    second = block(1, bytes.fromhex(digest(SET_FILE)), [sets("raw/b", 1)])
    third = block(2, bytes.fromhex(digest(second)), [])
    file = SET_FILE + second + third
    two = log_of(SET_FILE + second)
    closed = SET_LOG + second + CLOSED
    for call, after in enumerate([SET_LOG, closed, closed, two], tell + 1):
        yield LogCase(
            "append", b"", SET_LINE, DISK_FAULT, after, file, left=len(third), calls=f"{call}"
        )
    yield LogCase(
        "append", b"", SET_LINE, UNTOLD, two, file, left=len(third), calls=f"{tell + 5}"
    )
    yield LogCase("append", SET_LOG, "", UNREADABLE, file=SET_FILE, left=size, pulls="0")
    # The disk is synced first. Then, over a log of a block, two reads open it: of the head, and of what follows.
    opened = 2
    for call in range(opened + 1):
        yield LogCase(
            "append", SET_LOG, "", DISK_FAULT, file=SET_FILE, left=size, calls=f"{call}"
        )
    # Where a block is known, the disk is looked at before its line, and then before the end.
    yield LogCase("append", SET_LOG, "", DISK_FAULT, file=SET_FILE, calls=f"{opened + 1}")
    yield LogCase("append", SET_LOG, "", UNTOLD, file=SET_FILE, calls=f"{opened + 2}")
    yield LogCase("append", SET_LOG, "known 0\n", DISK_FAULT, file=SET_FILE, calls=f"{opened + 3}")
    yield LogCase("append", SET_LOG, "known 0\n", DONE, file=SET_FILE, calls=f"{opened + 4}")
    # So it is before the end where no frame comes. The line of a refused frame comes without a look.
    for image, reads in [(b"", 1), (SET_LOG, opened)]:
        yield LogCase("append", image, "", DISK_FAULT, calls=f"{reads + 1}")
        yield LogCase("append", image, "", DONE, calls=f"{reads + 2}")
        yield LogCase("append", image, "", UNTOLD, file=b"x", calls=f"{reads + 1}")
        yield LogCase("append", image, TRUNCATED, REFUSED, file=b"x", calls=f"{reads + 2}")
    for question, answer in [(HIST, SET_ANSWER), ("root", SET_ROOT)]:
        for call in range(opened):
            yield LogCase(question, SET_LOG, "", DISK_FAULT, calls=f"{call}")
        yield LogCase(question, SET_LOG, "", UNTOLD, calls=f"{opened}")
        yield LogCase(question, SET_LOG, answer, DONE, calls=f"{opened + 1}")
    # The first call of a question reads the head.
    for question in [HIST, "root"]:
        yield LogCase(question, b"", "", DISK_FAULT, calls="0")
        yield LogCase(question, b"", "", UNTOLD, calls="1")
    # Without a disk call: the first call tells.
    yield LogCase("scan " + HIST, SET_LOG, "", UNTOLD, file=SET_FILE, calls="0")
    yield LogCase("scan " + HIST, b"hello", SET_ANSWER, file=SET_FILE)


def failing_pulls():
    """An append of two blocks of which one pull fails, each in turn, one byte a pull: what was told
    stays, and so does what was stored."""
    second = block(1, bytes.fromhex(digest(SET_FILE)), [sets("raw/b", 1)])
    file = SET_FILE + second
    root = roots(frames_of(file), SECOND_ROWS)[1]
    lines = f"{SET_LINE}block 1 rows 1 status 0 root {root}\n"
    for pull in range(len(file) + 1):
        told, after = "", b""
        if pull >= len(SET_FILE):
            told, after = SET_LINE, SET_LOG
        if pull == len(file):
            told, after = lines, log_of(file)
        left = len(file) - pull
        yield LogCase(
            "append", b"", told, UNREADABLE, after, file, left=left, pulls=f"{pull}", piece=1
        )
    # The pull that finds the end was the last one.
    never = f"{len(file) + 1}"
    yield LogCase("append", b"", lines, DONE, log_of(file), file, pulls=never, piece=1)


def pauses():
    """A source that gives nothing once, as at the end of an input, and then goes on: the command has
    ended by then, so what follows stays where it is, and the log is that of the blocks before it."""
    for byte in [CLOSED, OPEN]:
        for image, told in [(b"", SET_LINE), (SET_LOG, "known 0\n")]:
            yield LogCase(
                "append", image, told, DONE, SET_LOG, SET_FILE + byte, left=1,
                pulls=f"pause {len(SET_FILE)}", piece=1,
            )
    size = len(SET_FILE)
    for pull in range(size):
        told, status = (TRUNCATED, REFUSED) if pull else ("", DONE)
        yield paused("append", pull, told, status)
        yield paused("scan " + HIST, pull, *((told, status) if pull else ("beyond empty\n", BEYOND)))
    for byte in [CLOSED, OPEN]:
        yield paused("scan " + HIST, size, SET_ANSWER, DONE, SET_FILE + byte)
    source = b"fn f(){}"
    for pull in [0, len(source) - 1]:
        yield paused("fmt", pull, f"badinput syntax {pull} end\n", BAD_INPUT, source)
    yield paused("fmt", len(source), "fn f() {\n}\n", DONE, source + b"}")
    for pull in range(2):
        yield paused("pack", pull, "badinput json\n", BAD_INPUT, b"[]")
    yield paused("pack", 2, "", DONE, b"[]]")


def paused(words, pull, told, status, file=SET_FILE):
    """A command over a source whose pull of this number gives nothing, one byte a pull."""
    left = len(file) - pull
    return LogCase(words, b"", told, status, file=file, left=left, pulls=f"pause {pull}", piece=1)


def words():
    """Words over a log that are no command: nothing is read."""
    questions = ["hist", "hist RAW 0", "hist raw/a 00", "back raw/a 0 0"]
    traces = [
        "trace", "trace raw/a", "trace RAW 0", "trace raw/a 00", "trace raw/a 4294967296", "trace raw/a 0 0",
        "trace back raw/a 0", "trace expose raw/a 0 0", "traces raw/a 0",
        "trace prove raw/a 0", "trace prove RAW 0 0", "trace prove raw/a 00 0", "trace prove raw/a 0 00",
        "trace prove raw/a 0 4294967296", "trace prove raw/a 0 0 0",
        "trace verify raw/a 0 0", f"trace verify {'0' * 64} raw/a", f"trace verify {'0' * 64} RAW 0",
        f"trace verify {'0' * 64} raw/a 00", f"trace verify {'0' * 64} raw/a 0 0", f"trace verify {'A' * 64} raw/a 0",
        f"trace verify {'0' * 63} raw/a 0", f"trace verify {'0' * 65} raw/a 0",
    ]
    root = "0" * 64
    ranges = [
        "range", "range raw/a", "range raw/a 0", "range RAW 0 0", "range raw/a 00 0", "range raw/a 0 00",
        "range raw/a 4294967296 4294967296", "range raw/a 0 4294967296", "range raw/a 1 0", "range raw/a 4294967295 0",
        "range raw/a 0 0 0", "range hist raw/a 0 0", "ranges raw/a 0 0",
        "range prove raw/a 0 0", "range prove RAW 0 0 0", "range prove raw/a 00 0 0", "range prove raw/a 0 00 0",
        "range prove raw/a 0 0 00", "range prove raw/a 0 0 4294967296", "range prove raw/a 1 0 0",
        "range prove raw/a 1 0 1", "range prove raw/a 0 0 0 0",
        "range verify raw/a 0 0 0", f"range verify {root} raw/a 0", f"range verify {root} RAW 0 0",
        f"range verify {root} raw/a 00 0", f"range verify {root} raw/a 0 00", f"range verify {root} raw/a 1 0",
        f"range verify {root} raw/a 0 4294967296", f"range verify {root} raw/a 0 0 0",
        f"range verify {'A' * 64} raw/a 0 0", f"range verify {root}0 raw/a 0 0", f"range verify {root[1:]} raw/a 0 0",
        f"range expose {root} raw/a 0 0", f"range expose {root} raw/a 0 0 0",
    ]
    lights = [
        "lights", "Light", "light x", "light 0", "light MAKE", "light makes", "light make x", "light make 0",
        "light light", "light make make", "light verify", "light prove", "light raw/a 0", "make light", "make",
        f"light {root}", "light --help",
    ]
    others = ["root 00", "root x", "root -1", "root 0 0", "root 4294967296"]
    for text in ["append x", *questions, *traces, *ranges, *lights, *others]:
        yield LogCase(text, SET_LOG, "usage\n", 1, file=SET_FILE, left=len(SET_FILE))
    for kind in ["hist", "back", "fwd"]:
        yield LogCase(f"{kind} raw/a", b"", "beyond empty\n", BEYOND)
    empty = ["root", "root 0", "root 7", "trace raw/a 0", "trace verify 0", "trace prove raw/a 0 0"]
    for text in [*empty, "range raw/a 0 0", "range prove 0 7", "range verify 0 7", "range prove raw/a 0 0 0"]:
        yield LogCase(text, b"", "beyond empty\n", BEYOND)


def log_cases():
    """All cases: the words of each, what must be printed, the fields of its line after the piece, and
    the piece, where it isn't the next in turn."""
    parts = [
        chains, refusals, wrong_logs, crashes, failing_calls, failing_pulls, pauses, words, upgrades,
        refusals_when_marked, stopped_upgrades, failing_upgrades, long_texts,
    ]
    for part in parts:
        for case in part():
            yield case.case()
