"""Proofs of answers that are drawn: over versions which no chain wrote, whose digests are right all the same, and with
headers, the body and uses left out, doubled, moved or taken from others.

So each check behind that of the root decides over some of them: bytes that are changed hardly reach them.
"""
import dataclasses

from cases.block_files import number, string
from cases.drawn_ranges import BLOCKS, KEYS, VERSIONS, changed, drawn_leaf, drawn_version, way
from cases.proof_cases import KINDS, MAGIC
from cases.root_cases import uses_digest

# No version that is asked for is of a block from this one on, so a way ends with the one that answers.
PAST_ALL = 2**32
NO_DIGEST = bytes(32)


@dataclasses.dataclass
class Use:
    """A use of a version: the key and the block of what was derived from it."""

    key: str
    block: int


def drawn_uses(rng):
    return [Use(rng.choice(KEYS), rng.randrange(BLOCKS)) for _ in range(rng.choice([0, 0, 1, 2, 3]))]


def spelled_uses(uses, rng):
    """The uses as a proof has them, of which some are changed now and then."""
    if uses and rng.randrange(8) == 0:
        uses = changed(uses, [*uses, *drawn_uses(rng)], rng)
    return number(len(uses), 4) + b"".join(string(use.key) + number(use.block, 4) for use in uses)


def first_leaf(rng):
    """A leaf before those of all keys."""
    return string("") + b"\1" + string(rng.choice(KEYS)) + number(0, 4) + NO_DIGEST + number(0, 8) + uses_digest([])


def rooted(leaf, index, rng):
    """The counts of leaves, one leaf and the hash beside it."""
    return number(2, 4) + number(index, 4) + leaf + number(1, 1) + rng.randbytes(32)


def drawn_answer(rng):
    """A proof, and the words of its question behind the root: the kind, the key and the block."""
    kind, key, versions, lists = rng.choice(KINDS), rng.choice(KEYS), [], [[]]
    for _ in range(rng.randrange(1, VERSIONS + 1)):
        versions.append(drawn_version(versions, key, rng, lists[-1]))
        lists.append(drawn_uses(rng))
    at = max(rng.choice(versions).block + rng.choice([-1, 0, 0, 1]), 0)
    passed = changed(way(versions, PAST_ALL, at), versions, rng) if rng.randrange(12) else []
    proof = MAGIC + number(KINDS.index(kind), 1) + string(key) + number(at, 4) + number(at + rng.randrange(3), 4)
    index = 1 if rng.randrange(15) else 0
    leaf = drawn_leaf(versions[-1], key, rng, lists[-1]) if index else first_leaf(rng)
    proof += NO_DIGEST + rooted(leaf, index, rng)
    proof += number(len(passed), 1) + b"".join(version.header for version in passed)
    if passed and passed[-1].block <= at:
        last = passed[-1] if rng.randrange(12) else rng.choice(versions)
        proof += last.body
        if kind == "fwd":
            proof += spelled_uses(lists[1 + versions.index(passed[-1])], rng)
    return proof, [kind, key, str(at if rng.randrange(40) else at + 1)]
