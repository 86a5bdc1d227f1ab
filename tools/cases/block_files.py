"""Blocks as bytes, by docs/formats.md, and what is expected of their transactions."""
import dataclasses
import hashlib
import itertools

# How a transaction ends, by its number in docs/language.md.
OK = 0
CONFLICT = 1
NO_KEY = 2
FOREIGN = 3
NO_CONTRACT = 4
NO_FUNCTION = 5
BAD_ARGS = 6
OUT_OF_STEPS = 7
OVERFLOW = 8
DIV_ZERO = 9
WRONG_KIND = 10
BAD_BLOCK = 11
BAD_INDEX = 12
TEXT_TOO_LONG = 13
BAD_KEY = 14
TAKEN = 15
BAD_SOURCE = 16
TOO_MANY = 17
NOT_READ = 18
FAILED = 19

# The value of a version that is gone: bodies have it, and no block may.
GONE = None

# The versions of blocks, each the first byte of those that have it.
FIRST_VERSION = 1
SECOND_VERSION = 2


@dataclasses.dataclass
class Tx:
    """A transaction as bytes, the status that it ends with and what it costs."""

    bytes: bytes
    status: int
    cost: int


@dataclasses.dataclass
class Block:
    """The transactions of a block, how many rows they write together, and its version."""

    rows: int
    txs: list
    version: int = FIRST_VERSION


@dataclasses.dataclass
class Chain:
    """Blocks from the number 0 on, and questions about them with their answers."""

    name: str
    blocks: list
    questions: dict = dataclasses.field(default_factory=dict)

    def file(self):
        txs, versions = zip(*((block.txs, block.version) for block in self.blocks))
        return block_file(txs, versions)


def number(of, width):
    return of.to_bytes(width, "big")


def string(text):
    encoded = text.encode()
    return number(len(encoded), 2) + encoded


def value(of):
    if of is GONE:
        return b"\2"
    if isinstance(of, int):
        return b"\0" + of.to_bytes(8, "big", signed=True)
    return b"\1" + string(of)


def sets(key, to, deps=(), status=OK, sender="u"):
    fields = string(sender) + string(key) + value(to) + number(len(deps), 1)
    return Tx(b"\1" + fields + b"".join(map(string, deps)), status, 0)


def deploys(name, source, status=OK, sender="u"):
    return Tx(b"\2" + string(sender) + string(name) + string(source), status, 0)


def calls(contract, function, args, budget, status, cost, sender="u"):
    fields = string(sender) + string(contract) + string(function) + number(len(args), 1)
    return Tx(b"\3" + fields + b"".join(map(value, args)) + number(budget, 4), status, cost)


def block_digest(block):
    """The digest of a block, by its bytes."""
    return hashlib.sha256(b"\7" + block).digest()


def block_frame(version, at, parent, txs):
    """The frame of a block of any version, number and parent."""
    block = number(version, 1) + number(at, 4) + parent + number(len(txs), 2)
    block += b"".join(tx.bytes for tx in txs)
    return number(len(block), 4) + block


def block_file(blocks, versions=itertools.repeat(FIRST_VERSION)):
    """The frames of blocks from the number 0 on, each with the digest of the one before; all are of the
    first version where no versions are given."""
    frames, parent = [], bytes(32)
    for at, (version, txs) in enumerate(zip(versions, map(list, blocks))):
        frames.append(block_frame(version, at, parent, txs))
        parent = block_digest(frames[-1][4:])
    return b"".join(frames)
