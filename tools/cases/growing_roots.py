"""The roots of a long chain by docs/formats.md, each from what is kept of the blocks before it.

tools/cases/root_cases.py works roots out by going over all rows, which takes too long for a long chain;
tools/checks/size_runs.py holds the two against each other over a short one.
"""
import bisect

from cases.block_files import number, string, value
from cases.root_cases import LEVELS, NO_DIGEST, block_digests, digest_of

NO_USES = (0, digest_of(b"\4"))
NO_LEAF_YET = b""


class Key:
    """What is kept of a key: its newest version, and that one's uses."""

    def __init__(self, index):
        self.index = index
        self.block, self.header, self.uses = None, NO_DIGEST, NO_USES
        # Of each level the last version at it, as a link: its block and the digest of its header.
        self.links = []

    def links_from(self, block):
        """The links of a version of this block: to the last version at each level up to its height."""
        if self.block is None:
            return []
        height = max(level for level in range(LEVELS) if self.block >> level != block >> level)
        return self.links[: height + 1]

    def add_version(self, block, header, height):
        link = (block, header)
        # The first version is at each level.
        self.links = [link] * height + self.links[height:] if self.links else [link] * LEVELS
        self.block, self.header, self.uses = block, header, NO_USES


class Tree:
    """The tree hash of leaves; the hash of a part is kept as long as its leaves stay."""

    def __init__(self):
        self.leaves = []
        self.hashes = {}

    def put(self, index, leaf):
        if self.leaves[index] == leaf:
            return
        self.leaves[index] = leaf
        start, count = 0, len(self.leaves)
        while count > 1:
            self.hashes.pop((start, count), None)
            first = first_of(count)
            if index < start + first:
                count = first
            else:
                start, count = start + first, count - first
        self.hashes.pop((start, 1), None)

    def hash(self, start, count):
        if (start, count) not in self.hashes:
            if count == 1:
                text = b"\0" + self.leaves[start]
            else:
                first = first_of(count)
                text = b"\1" + self.hash(start, first) + self.hash(start + first, count - first)
            self.hashes[start, count] = digest_of(text)
        return self.hashes[start, count]


def first_of(count):
    """The greatest power of 2 below a number."""
    return 1 << (count - 1).bit_length() - 1


class Ledger:
    """The rows of the blocks so far."""

    def __init__(self):
        self.keys = {"": Key(0)}
        self.in_order = [""]
        self.headers = {}
        self.tree = Tree()
        self.tree.leaves.append(NO_LEAF_YET)

    def add_block(self, block, rows):
        """Adds the rows of a block."""
        touched = {"": None}
        for row in rows:
            for dep, at in row.deps:
                self.add_use(dep, at, row)
                touched[dep] = None
        # A version closes the uses of its own block too, so they all come first.
        for row in rows:
            touched |= dict.fromkeys([row.key, *self.add_key(row.key)])
        closed = {row.key: self.keys[row.key].uses for row in rows}
        for row in rows:
            self.add_version(row, closed[row.key])
        for key in touched:
            self.tree.put(self.keys[key].index, self.leaf(key))

    def add_use(self, dep, at, row):
        key = self.keys[dep]
        if key.block != at:
            raise ValueError("a dependency that is not on the newest version")
        count, digest = key.uses
        text = b"\5" + digest + string(row.key) + number(row.block, 4)
        key.uses = (count + 1, digest_of(text))

    def add_key(self, name):
        """Adds a key, where it is new, and gives the one before it, whose next key it is."""
        if name in self.keys:
            return []
        self.keys[name] = Key(len(self.keys))
        self.tree.leaves.append(NO_LEAF_YET)
        place = bisect.bisect(self.in_order, name)
        self.in_order.insert(place, name)
        return [self.in_order[place - 1]]

    def add_version(self, row, closed):
        key = self.keys[row.key]
        body = b"\3" + value(row.value) + number(len(row.deps), 1)
        for dep, at in row.deps:
            body += string(dep) + number(at, 4) + self.headers[dep, at]
        count, digest = closed
        links = key.links_from(row.block)
        text = b"\2" + string(row.key) + number(row.block, 4) + number(row.tx, 2) + digest_of(body)
        text += number(count, 8) + digest + number(len(links), 1)
        text += b"".join(number(block, 4) + header for block, header in links)
        header = self.headers[row.key, row.block] = digest_of(text)
        self.keep_texts(row, body, text, links)
        key.add_version(row.block, header, len(links))

    def keep_texts(self, row, body, header, links):
        """Takes the texts of a version; nothing is kept of them here."""

    def leaf(self, name):
        key = self.keys[name]
        place = bisect.bisect(self.in_order, name)
        following = b"\0"
        if place < len(self.in_order):
            following = b"\1" + string(self.in_order[place])
        count, digest = key.uses
        newest = number(key.block or 0, 4) + key.header
        return string(name) + following + newest + number(count, 8) + digest

    def root(self, block, block_digest):
        count = len(self.tree.leaves)
        text = b"\6" + number(block, 4) + block_digest + number(count, 4)
        return digest_of(text + self.tree.hash(0, count))


def growing_roots(frames, rows, ledger=None):
    """The roots at all blocks of a chain, in hex; by a ledger of no block, where one is given."""
    ledger, at = ledger or Ledger(), 0
    for block, digest in enumerate(block_digests(frames)):
        end = at
        while end < len(rows) and rows[end].block == block:
            end += 1
        ledger.add_block(block, rows[at:end])
        at = end
        yield ledger.root(block, digest).hex()
