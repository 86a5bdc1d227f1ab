"""A block file of which each byte is changed, and what `scan` says of it; tools/cases/block_reader.py reads it.

The file has Sets alone, and no change of a byte makes a transaction of another kind.
"""
from cases.block_files import block_file, sets
from cases.block_reader import Chain

# By what a byte is changed: its last bit, its first, all of them.
CHANGES = [0x01, 0x80, 0xFF]
QUESTION = "hist raw/a 0"
# raw/b is derived from raw/a, and then raw/a from raw/b.
BLOCKS = [
    [sets("raw/a", 1), sets("raw/b", 2, ["raw/a"])],
    [sets("raw/b", 2, ["raw/a"])],
    [sets("raw/a", 7, ["raw/b"])],
]


def written(txs):
    """What is printed of each key that the Sets of a block write."""
    versions = {}
    for place, (key, value, deps) in enumerate(txs):
        if key.startswith("raw/") and not any(each in versions for each in [key, *deps]):
            versions[key] = f"tx {place} {value}"
    return versions


def answer(file):
    """What `scan hist raw/a 0` prints of a file that isn't empty."""
    chain = Chain()
    _, refused, _ = chain.fold(file)
    if refused:
        return refused.rstrip("\n")
    version = written(chain.blocks[0]).get("raw/a")
    return f"block 0 {version}" if version else "none"


def changed_files():
    """The file with each byte changed in each way."""
    file = block_file(BLOCKS)
    for offset, byte in enumerate(file):
        for change in CHANGES:
            yield file[:offset] + bytes([byte ^ change]) + file[offset + 1 :]
