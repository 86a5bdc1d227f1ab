"""Proofs of ancestors that are drawn: over versions which no chain wrote, whose digests are right all the same, and
with items left out, doubled, moved or taken from others.

So each check behind that of the start decides over some of them: bytes that are changed hardly reach them.
"""
import dataclasses

from cases.block_files import GONE, number, string, value
from cases.root_cases import digest_of, uses_digest
from cases.trace_cases import spelled

KEYS = ["raw/a", "raw/b", "c"]
# How many versions a proof is drawn over, and how many blocks these are of.
VERSIONS, BLOCKS = 8, 5
VALUES = [5, -1, "", "text", GONE]


@dataclasses.dataclass
class Version:
    """A version by its key and its block, the bytes of its header and its body, and what the body names: for each a
    block, a key and the digest of a header."""

    key: str
    block: int
    header: bytes
    body: bytes
    deps: list

    def name(self):
        return self.block, self.key.encode(), digest_of(b"\2" + self.header)

    def item(self):
        return self.header + self.body


def drawn_name(versions, rng):
    """What a body names: a version by its own block, key and digest, now and then by another of these."""
    block, key, digest = rng.choice(versions).name()
    if rng.randrange(12) == 0:
        block = rng.randrange(BLOCKS + 1)
    if rng.randrange(12) == 0:
        key = rng.choice(KEYS).encode()
    return block, key, rng.choice(versions).name()[2] if rng.randrange(24) == 0 else digest


def drawn_version(versions, rng):
    """A version that was derived from some of those before, which are mostly of earlier blocks."""
    last = max((version.block for version in versions), default=0)
    block = rng.choice([min(last + 1, BLOCKS)] * 4 + [last, rng.randrange(BLOCKS + 1)])
    key = rng.choice(KEYS)
    older = [version for version in versions if version.block < block] or versions
    older = versions if versions and rng.randrange(12) == 0 else older
    deps = [drawn_name(older, rng) for _ in range(rng.randrange(4))] if older else []
    named = b"".join(string(of.decode()) + number(at, 4) + digest for at, of, digest in deps)
    body = value(rng.choice(VALUES)) + number(len(deps), 1) + named
    header = string(key) + number(block, 4) + number(rng.randrange(3), 2) + digest_of(b"\3" + body)
    return Version(key, block, header + number(0, 8) + uses_digest([]) + number(0, 1), body, deps)


def items_of(start, versions, most=4 * VERSIONS):
    """What the proof of a version lists, as far as each that is wanted is found by its digest, and not many more than
    the most."""
    by_digest = {version.name()[2]: version for version in versions}
    wanted, items = set(start.deps), []
    while wanted:
        last = max(wanted)
        wanted.discard(last)
        if last[2] in by_digest:
            items.append(by_digest[last[2]])
            wanted.update(items[-1].deps)
        if len(items) > most:
            break
    return items


def changed_items(items, versions, rng):
    """The items with some left out, doubled, moved, or others in their place."""
    items = [item.item() for item in items]
    for _ in range(rng.choice([0, 0, 1, 1, 2])):
        at = rng.randrange(len(items) + 1)
        other = rng.choice(versions)
        new = [[], [other.item()], [other.header + rng.choice(versions).body], items[at : at + 1] * 2]
        items[at : at + rng.randrange(2)] = rng.choice(new)
        if len(items) > 1 and rng.randrange(4) == 0:
            one, two = rng.sample(range(len(items)), 2)
            items[one], items[two] = items[two], items[one]
    return items


def start_proof(version, at, rng):
    """A proof of what a version was derived from, under the root to which it leads; none of it where the version is of
    a later block than the question."""
    root_block = at + rng.randrange(3)
    leaf = string(version.key) + number(0, 1) + number(version.block, 4) + version.name()[2]
    leaf += number(0, 8) + uses_digest([])
    proof = b"LCP1" + number(1, 1) + string(version.key) + number(at, 4) + number(root_block, 4) + bytes(32)
    proof += number(2, 4) + number(1, 4) + leaf + number(1, 1) + bytes(32) + number(1, 1) + version.header
    return proof + version.body if version.block <= at else proof


def drawn_trace(rng):
    """A proof, and the words of its question behind the root: the key and the block."""
    versions = []
    for _ in range(rng.randrange(1, VERSIONS + 1)):
        versions.append(drawn_version(versions, rng))
    start = versions[-1]
    at = start.block + rng.choice([0, 0, 0, 1, 7]) if rng.randrange(20) else max(start.block - 1, 0)
    items = items_of(start, versions) if start.block <= at else []
    return spelled(start_proof(start, at, rng), changed_items(items, versions, rng)), [start.key, str(at)]
