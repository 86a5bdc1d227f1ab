"""Long proofs whose digests are right, over versions that no chain wrote: of a list of uses, of a range, and of all
ancestors.

Each comes with the words of its question behind the root, and the lines of what it proves; it is accepted for the root
that it leads to.
"""
from cases.block_files import number, string, value
from cases.drawn_answers import NO_DIGEST, Use
from cases.drawn_ranges import Version as RangeVersion
from cases.drawn_ranges import way
from cases.drawn_traces import Version, items_of
from cases.proof_cases import MAGIC
from cases.range_cases import MAGIC as RANGE_MAGIC
from cases.root_cases import digest_of, uses_digest
from cases.trace_cases import MAGIC as TRACE_MAGIC
from cases.trace_cases import spelled
from cases.verifier import root_of

KEY = "raw/lot"
KIND_BACK, KIND_FWD = 1, 2
# A version of a range links to the one before it and to as many more.
LINKS = 6


def header(key, block, body, links=()):
    """A header that closes no uses."""
    named = b"".join(number(target, 4) + digest for target, digest in links)
    text = string(key) + number(block, 4) + number(0, 2) + digest_of(b"\3" + body)
    return text + number(0, 8) + uses_digest([]) + number(len(links), 1) + named


def rooted(newest, head, uses=()):
    """From the root block to the audit hashes: the leaf of a key with its newest version and the uses of that."""
    leaf = string(newest.key) + b"\0" + number(newest.block, 4) + digest_of(b"\2" + newest.header)
    leaf += number(len(uses), 8) + uses_digest(uses)
    return number(head, 4) + NO_DIGEST + number(2, 4) + number(1, 4) + leaf + number(1, 1) + NO_DIGEST


def long_uses(count):
    """A proof of a `fwd` with so many uses."""
    body = value(7) + number(0, 1)
    version = RangeVersion(KEY, 0, header(KEY, 0, body), body, [])
    uses = [Use(f"raw/shop/{at % 1000}", 1 + at // 1000) for at in range(count)]
    head = 1 + count // 1000
    proof = MAGIC + number(KIND_FWD, 1) + string(KEY) + number(head, 4) + rooted(version, head, uses)
    proof += number(1, 1) + version.header + body + number(count, 4)
    proof += b"".join(string(use.key) + number(use.block, 4) for use in uses)
    return proof, ["fwd", KEY, str(head)], [f"block 0 uses {count}", *(f"{use.key} {use.block}" for use in uses)]


def long_range(count):
    """A proof of so many versions of a key, one in each block."""
    versions = []
    for block in range(count):
        body = value(block) + number(0, 1)
        links = [older.name() for older in versions[: -1 - LINKS : -1]]
        versions.append(RangeVersion(KEY, block, header(KEY, block, body, links), body, links))
    passed = way(versions, 0, count - 1, most=count)
    proof = RANGE_MAGIC + string(KEY) + number(0, 4) + number(count - 1, 4) + rooted(versions[-1], count - 1)
    proof += number(len(passed), 4) + b"".join(version.header for version in passed)
    lines = [f"versions {count}", *(f"block {block} tx 0 int {block}" for block in range(count))]
    return proof + b"".join(version.body for version in passed), [KEY, "0", str(count - 1)], lines


def long_trace(width, blocks):
    """A proof of all ancestors of a version that stands behind so many blocks, in each of which so many keys are set,
    each from all of the block before."""
    versions, before = [], []
    for block in range(blocks + 1):
        deps = [version.name() for version in before]
        named = b"".join(string(key.decode()) + number(at, 4) + digest for at, key, digest in deps)
        keys = [f"raw/{'ab'[block % 2]}{at}" for at in range(width)] if block < blocks else [KEY]
        body = value(block) + number(len(deps), 1) + named
        before = [Version(key, block, header(key, block, body), body, deps) for key in keys]
        versions += before
    newest = before[0]
    start = MAGIC + number(KIND_BACK, 1) + string(KEY) + number(blocks, 4) + rooted(newest, blocks)
    start += number(1, 1) + newest.header + newest.body
    items = items_of(newest, versions, most=len(versions))
    lines = [f"block {blocks} ancestors {len(items)}", *(f"{item.key} {item.block}" for item in reversed(items))]
    return spelled(start, [item.item() for item in items]), [KEY, str(blocks)], lines


def root_of_long(proof):
    """The root that a long proof leads to; of a proof of all ancestors only the start is read."""
    is_trace = proof.startswith(TRACE_MAGIC)
    return root_of(proof[8 : 8 + int.from_bytes(proof[4:8], "big")] if is_trace else proof)
