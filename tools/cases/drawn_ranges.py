"""Proofs of ranges that are drawn: over versions which no chain wrote, whose digests are right all the same, and with
headers and bodies left out, doubled, moved or taken from others.

So each check behind that of the root decides over some of them: bytes that are changed hardly reach them.
"""
import dataclasses

from cases.block_files import GONE, number, string, value
from cases.range_cases import MAGIC
from cases.root_cases import digest_of, uses_digest

KEYS = ["raw/a", "raw/b", "c"]
# How many versions a proof is drawn over, and how many blocks these are of.
VERSIONS, BLOCKS = 12, 20
VALUES = [5, -1, "", "text", GONE]


@dataclasses.dataclass
class Version:
    """A version by its key and its block, the bytes of its header and its body, and its links, each a block and the
    digest of a header."""

    key: str
    block: int
    header: bytes
    body: bytes
    links: list

    def name(self):
        return self.block, digest_of(b"\2" + self.header)


def drawn_links(older, rng):
    """Links to versions before, each further back than the one below it; now and then one names another block, or the
    links are in any order."""
    links, last = [], len(older) - 1
    for _ in range(rng.choice([1, 1, 2, 3, 4]) if older else 0):
        block, digest = older[last].name()
        links.append((rng.randrange(BLOCKS) if rng.randrange(40) == 0 else block, digest))
        last = rng.randrange(last + 1)
    if rng.randrange(20) == 0:
        rng.shuffle(links)
    return links if rng.randrange(20) else links[1:]


def drawn_version(older, key, rng, closed=()):
    """A version that mostly is of the same key and of a later block than those before, and closes these uses."""
    last = older[-1].block if older else -1
    block = rng.randrange(BLOCKS) if rng.randrange(30) == 0 else last + rng.choice([1, 1, 1, 2, 3])
    key = key if rng.randrange(30) else rng.choice(KEYS)
    links = drawn_links(older, rng)
    body = value(rng.choice(VALUES)) + number(0, 1)
    header = string(key) + number(block, 4) + number(rng.randrange(3), 2) + digest_of(b"\3" + body)
    header += number(len(closed), 8) + uses_digest(closed) + number(len(links), 1)
    header += b"".join(number(target, 4) + digest for target, digest in links)
    return Version(key, block, header, body, links)


def following(version, first, last):
    """The link to the version whose header follows in a proof; none where none does."""
    if version.block > last:
        later = [link for link in version.links if link[0] > last]
        return (later[-1:] or version.links[:1] or [None])[0]
    is_between = version.block >= first and version.links and version.links[0][0] >= first
    return version.links[0] if is_between else None


def way(versions, first, last, most=2 * VERSIONS):
    """The versions of a proof, the newest first, as far as each is found by its digest, and at most so many."""
    by_digest = {version.name()[1]: version for version in versions}
    passed, link = [], versions[-1].name()
    while link and link[1] in by_digest and len(passed) < most:
        passed.append(by_digest[link[1]])
        link = following(passed[-1], first, last)
    return passed


def changed(items, others, rng):
    """Items of which some are left out, doubled, moved, or others."""
    items = list(items)
    for _ in range(rng.choice([0, 0, 0, 1, 1, 2])):
        at = rng.randrange(len(items) + 1)
        items[at : at + rng.randrange(2)] = rng.choice([[], [rng.choice(others)], items[at : at + 1] * 2])
        if len(items) > 1 and rng.randrange(4) == 0:
            one, two = rng.sample(range(len(items)), 2)
            items[one], items[two] = items[two], items[one]
    return items


def drawn_leaf(newest, key, rng, uses=()):
    """A leaf that mostly is of the key and of the newest version, with its uses; else one of another key, which may
    cover it."""
    of = key if rng.randrange(12) else rng.choice(KEYS)
    following_key = rng.choice([b"\0", b"\0", b"\1" + string(rng.choice(KEYS))])
    block, digest = newest.name()
    block = block if rng.randrange(30) else rng.randrange(BLOCKS)
    return string(of) + following_key + number(block, 4) + digest + number(len(uses), 8) + uses_digest(uses)


def drawn_range(rng):
    """A proof, and the words of its question behind the root: the key, and the first and the last block."""
    key, versions = rng.choice(KEYS), []
    for _ in range(rng.randrange(1, VERSIONS + 1)):
        versions.append(drawn_version(versions, key, rng))
    places = [max(version.block + rng.choice([-1, 0, 0, 1]), 0) for version in rng.choices(versions, k=2)]
    first, last = sorted(places)
    passed = changed(way(versions, first, last), versions, rng)
    bodies = [version.body for version in passed if first <= version.block <= last]
    if bodies and rng.randrange(6) == 0:
        bodies[rng.randrange(len(bodies))] = rng.choice(versions).body
    proof = MAGIC + string(key) + number(first, 4) + number(last, 4) + number(last + rng.randrange(3), 4) + bytes(32)
    proof += number(2, 4) + number(1, 4) + drawn_leaf(versions[-1], key, rng) + number(1, 1) + bytes(32)
    headers = [] if rng.randrange(25) == 0 else [version.header for version in passed]
    proof += number(len(headers), 4) + b"".join(headers) + b"".join(bodies if headers else [])
    asked = [key, str(first), str(last if rng.randrange(40) else last + 1)]
    return proof, asked
