"""Reads blocks, block files and logs, by docs/formats.md alone: what refuses a frame or damages a log, and where."""
import re
from typing import NamedTuple

from cases.block_files import FIRST_VERSION, SECOND_VERSION, block_digest
from cases.log_cases import CLOSED, CLOSED_HEAD, FIRST_GATE, HEAD, MARK, OPEN
from lineage.draft_faults import MAX_ARGS, MAX_BUDGET, MAX_BUDGETS, MAX_DEPS, MAX_SOURCE_BYTES, MAX_TXS

MAX_BLOCK_BYTES = 1_048_576
# The most bytes of a text, in a block of each version.
MAX_TEXT_BYTES = {FIRST_VERSION: 1_024, SECOND_VERSION: 8_192}
MAX_KEY_BYTES = 64
MAX_NAME_BYTES = 16
MAX_NUMBER = 2**32 - 1
SET, DEPLOY, CALL = 1, 2, 3
NO_PARENT = bytes(32)

KEY = re.compile(rb"[a-z0-9./_-]*")
NAME = re.compile(rb"[a-z][a-z0-9_]*")
PRINTABLE = re.compile(rb"[ -~]*")
ANY = re.compile(rb".*", re.S)


class Invalid(Exception):
    """The field at an offset is invalid."""

    def __init__(self, offset):
        super().__init__(offset)
        self.offset = offset


class Refused(Exception):
    """A frame is refused, for a cause."""


class Set(NamedTuple):
    """A Set: its key, its value as it is printed, and its dependency keys."""

    key: str
    value: str
    deps: list

    def budget(self):
        return 0


class Deploy(NamedTuple):
    name: str
    source: bytes

    def budget(self):
        return 0


class Call(NamedTuple):
    contract: str
    function: str
    args: list
    steps: int

    def budget(self):
        return self.steps


class Fields:
    """The bytes of a block, read field by field."""

    def __init__(self, block):
        self.block = block
        self.offset = 0
        self.version = FIRST_VERSION

    def take(self, count, is_good=lambda field: True):
        field = self.block[self.offset : self.offset + count]
        if len(field) < count or not is_good(field):
            raise Invalid(self.offset)
        self.offset += count
        return field

    def number(self, count, low, high):
        return decoded(self.take(count, lambda field: low <= decoded(field) <= high))

    def string(self, low, high, pattern):
        count = self.number(2, low, high)
        return self.take(count, pattern.fullmatch)

    def key(self):
        return self.string(1, MAX_KEY_BYTES, KEY).decode("ascii")

    def name(self):
        return self.string(1, MAX_NAME_BYTES, NAME).decode("ascii")

    def value(self):
        """A value as it is printed."""
        if self.number(1, 0, 1) == 1:
            return "text " + self.string(0, MAX_TEXT_BYTES[self.version], PRINTABLE).decode("ascii")
        number = int.from_bytes(self.take(8), "big", signed=True)
        return f"int {number}"

    def tx(self):
        kind = self.number(1, SET, CALL)
        self.key()
        if kind == SET:
            key, value = self.key(), self.value()
            return Set(key, value, [self.key() for _ in range(self.number(1, 0, MAX_DEPS))])
        if kind == DEPLOY:
            return Deploy(self.name(), self.string(0, MAX_SOURCE_BYTES, ANY))
        contract, function = self.name(), self.name()
        args = [self.value() for _ in range(self.number(1, 0, MAX_ARGS))]
        return Call(contract, function, args, self.number(4, 0, MAX_BUDGET))

    def whole_block(self):
        """The version, the number, the parent and the transactions of a block."""
        version = self.version = self.number(1, FIRST_VERSION, SECOND_VERSION)
        number = self.number(4, 0, MAX_NUMBER)
        parent = self.take(32)
        txs = [self.tx() for _ in range(self.number(2, 0, MAX_TXS))]
        if self.offset < len(self.block):
            raise Invalid(self.offset)
        return version, number, parent, txs


def decoded(field):
    return int.from_bytes(field, "big")


def frame_at(file, start):
    """The bytes of the frame that begins here."""
    if len(file) < start + 4:
        raise Refused("truncated")
    length = decoded(file[start : start + 4])
    if not 1 <= length <= MAX_BLOCK_BYTES:
        raise Refused(f"length {length}")
    if len(file) < start + 4 + length:
        raise Refused("truncated")
    return file[start + 4 : start + 4 + length]


class Chain:
    """Blocks that were taken one after another: their bytes, and the transactions of each. In a log the mark says
    which version may follow, and in a file that of the last block."""

    def __init__(self, is_of_log=False):
        self.frames, self.digests, self.blocks = [], [], []
        self.is_of_log, self.is_marked, self.last_version = is_of_log, False, FIRST_VERSION

    def wanted_version(self, version):
        """The version that the next block must have, where it has this one."""
        if self.is_of_log:
            return SECOND_VERSION if self.is_marked else FIRST_VERSION
        return max(self.last_version, version)

    def end(self):
        """Where the closed gate stands at the end of a log that has these blocks."""
        sizes = [len(frame) for frame in self.frames] + [0] * self.is_marked
        return FIRST_GATE + sum(1 + len(MARK) + size for size in sizes)

    def take_in(self, frame):
        """Takes the block of a frame after those that are held, and answers true, unless it is one of them."""
        try:
            version, number, parent, txs = Fields(frame).whole_block()
        except Invalid as fault:
            raise Refused(f"malformed {fault.offset}") from fault
        held = len(self.digests)
        if number < held:
            if block_digest(frame) != self.digests[number]:
                raise Refused(f"fork {self.digests[number].hex()}")
            return False
        if number != held:
            raise Refused(f"number {held}")
        wanted = self.digests[-1] if self.digests else NO_PARENT
        if parent != wanted:
            raise Refused(f"parent {wanted.hex()}")
        if version != self.wanted_version(version):
            raise Refused(f"version {self.wanted_version(version)}")
        budgets = sum(tx.budget() for tx in txs)
        if budgets > MAX_BUDGETS:
            raise Refused(f"budget {budgets}")
        self.frames.append(frame)
        self.digests.append(block_digest(frame))
        self.blocks.append(txs)
        self.last_version = version
        return True

    def take_back(self):
        """Takes the last block out of a log that has one."""
        for held in (self.frames, self.digests, self.blocks):
            held.pop()

    def fold(self, file):
        """Takes the frames of a file, shorter than any that has too many of them: of each that was taken its
        number and whether its block is new; the line of the refused one, or none; and how much was read."""
        taken, start = [], 0
        while start < len(file):
            try:
                frame = frame_at(file, start)
            except Refused as refusal:
                is_length = str(refusal).startswith("length")
                read = start + 4 if is_length else len(file)
                return taken, f"refused frame {len(taken)} {refusal}\n", read
            start += 4 + len(frame)
            try:
                is_new = self.take_in(frame)
            except Refused as refusal:
                return taken, f"refused frame {len(taken)} {refusal}\n", start
            taken.append((decoded(frame[1:5]), is_new))
        return taken, None, start


def stands_for(image):
    """The chain that the bytes of a log stand for, and whether it is marked, none where the file isn't there; or the
    line that tells what they are else."""
    chain = Chain(is_of_log=True)
    closed_head = len(image or b"") > FIRST_GATE and image[1:FIRST_GATE] == CLOSED_HEAD[1:]
    if image is None or len(image) <= 1 or image[:1] == CLOSED:
        return chain, None
    if closed_head and image[:1] != OPEN and image[FIRST_GATE : FIRST_GATE + 1] != OPEN:
        return chain, None
    if len(image) <= FIRST_GATE or not image.startswith(HEAD):
        return None, "not a log\n"
    gate = FIRST_GATE
    while image[gate : gate + 1] == OPEN:
        damaged = f"damaged at {gate}\n"
        frame = b""
        try:
            if image.startswith(MARK, gate + 1) and not chain.is_marked:
                chain.is_marked = True
            else:
                frame = frame_at(image, gate + 1)
                if not chain.take_in(frame):
                    return None, damaged
        except Refused:
            return None, damaged
        gate += 1 + len(MARK) + len(frame)
        if gate >= len(image):
            return None, damaged
    return chain, None
