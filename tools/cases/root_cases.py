"""The roots of a chain by docs/formats.md, from the rows of its blocks. It keeps nothing between one
root and the next, and looks for everything by going over all rows.
"""
import dataclasses
import hashlib

from cases.block_files import block_digest, number, string, value
from cases.tree_cases import tree_hash

NO_DIGEST = bytes(32)
LEVELS = 32


@dataclasses.dataclass
class Row:
    """A version of a key: its block and transaction, its value, and what it was derived from, each by
    a key and a block."""

    key: str
    block: int
    tx: int
    value: object
    deps: list


def digest_of(text):
    return hashlib.sha256(text).digest()


def uses_digest(uses):
    """The digest of a forward list."""
    digest = digest_of(b"\4")
    for row in uses:
        digest = digest_of(b"\5" + digest + string(row.key) + number(row.block, 4))
    return digest


class History:
    """Rows in the order in which they were written."""

    def __init__(self, rows):
        self.rows = rows
        self.headers = {}

    def blocks_of(self, key):
        """The blocks of the versions of a key, the oldest first."""
        return [row.block for row in self.rows if row.key == key]

    def uses(self, key, block, until):
        """The rows up to a block that were derived from a version."""
        return [row for row in self.rows if (key, block) in row.deps and row.block <= until]

    def is_at_level(self, key, block, level):
        """Whether no earlier version of the key is in the interval of 2^level blocks of this one."""
        close = [other for other in self.blocks_of(key) if other >> level == block >> level]
        return not any(other < block for other in close)

    def links(self, key, block):
        """The blocks to which a version links, one for each level up to its height."""
        older = [other for other in self.blocks_of(key) if other < block]
        if not older:
            return []
        height = max(i for i in range(LEVELS) if self.is_at_level(key, block, i))
        return [
            max(other for other in older if self.is_at_level(key, other, level))
            for level in range(height + 1)
        ]

    def header_digest(self, key, block):
        """The digest of the header of a version."""
        if (key, block) not in self.headers:
            self.headers[key, block] = digest_of(self.header_text(key, block))
        return self.headers[key, block]

    def row_of(self, key, block):
        [row] = [row for row in self.rows if (row.key, row.block) == (key, block)]
        return row

    def body_text(self, row):
        body = b"\3" + value(row.value) + number(len(row.deps), 1)
        for dep, at in row.deps:
            body += string(dep) + number(at, 4) + self.header_digest(dep, at)
        return body

    def header_text(self, key, block):
        row = self.row_of(key, block)
        body = self.body_text(row)
        older = [other for other in self.blocks_of(key) if other < block]
        closed = self.uses(key, older[-1], block) if older else []
        links = self.links(key, block)
        text = b"\2" + string(key) + number(block, 4) + number(row.tx, 2) + digest_of(body)
        text += number(len(closed), 8) + uses_digest(closed) + number(len(links), 1)
        for target in links:
            text += number(target, 4) + self.header_digest(key, target)
        return text

    def keys(self, at):
        """The keys up to a block, in the order of their first rows."""
        return list(dict.fromkeys(row.key for row in self.rows if row.block <= at))

    def leaves(self, at):
        """The leaves up to a block: the sentinel, and one for each key."""
        keys = self.keys(at)
        leaves = [leaf("", keys, 0, NO_DIGEST, [])]
        for key in keys:
            block = max(block for block in self.blocks_of(key) if block <= at)
            header = self.header_digest(key, block)
            leaves.append(leaf(key, keys, block, header, self.uses(key, block, at)))
        return leaves

    def root(self, at, block_digest):
        """The root at a block that has this digest."""
        leaves = self.leaves(at)
        text = b"\6" + number(at, 4) + block_digest + number(len(leaves), 4)
        return digest_of(text + tree_hash(leaves))


def leaf(key, keys, block, header, uses):
    """The leaf of a key among all keys; that of the sentinel has the empty key."""
    greater = [other for other in keys if other > key]
    following = b"\1" + string(min(greater)) if greater else b"\0"
    newest = number(block, 4) + header
    return string(key) + following + newest + number(len(uses), 8) + uses_digest(uses)


def block_digests(frames):
    """The digests of the blocks of frames, each with its length in front."""
    return [block_digest(frame[4:]) for frame in frames]


def roots(frames, rows):
    """The roots at all blocks of a chain, in hex."""
    history = History(rows)
    digests = block_digests(frames)
    return [history.root(at, digest).hex() for at, digest in enumerate(digests)]
