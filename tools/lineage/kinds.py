"""What a file is, by how it begins, and what to do with one that was given to another command or as the log."""
import re

MAX_BLOCK_BYTES = 1_048_576
MAGIC_OF_LOG = b"LCLOG1\n"
MAGIC_OF_PROOF = b"LCP1"
MAGIC_OF_TRACE = b"LCT1"
MAGIC_OF_RANGE = b"LCR1"
MAGIC_OF_LIGHT = b"LCH1"
# The versions of blocks, which stand in the first byte of each.
FIRST_VERSION, SECOND_VERSION = VERSIONS = 1, 2
LOG, DRAFT, PROOF, TRACE, RANGE, LIGHT, BYTES_OF_PROOF, BLOCK_FILE, CONTRACT = range(9)
# What each is, and what to do with it.
WHAT_TO_DO = {
    LOG: (
        "a log",
        "ask `hist`, `back` or `fwd` in its folder, where it is named chain.log; or make a block file of it:\n"
        "tools/export-blocks LOG > BLOCKS",
    ),
    DRAFT: ("a draft, which is JSON", "pack it first, ./lineage pack < DRAFT > BLOCKS"),
    PROOF: ("a proof in hex", "`./lineage verify ROOT KIND KEY BLOCK` reads it"),
    TRACE: ("a proof of ancestors in hex", "`./lineage trace verify ROOT KEY BLOCK` reads it"),
    RANGE: ("a proof of a range in hex", "`./lineage range verify ROOT KEY FROM TO` reads it"),
    LIGHT: ("a light file", "`./lineage light` reads it, with proofs behind it"),
    BYTES_OF_PROOF: ("the bytes of a proof", "a proof is read in hex: xxd -p < PROOF | tr -d '\\n'"),
    BLOCK_FILE: (
        "a block file",
        "`./lineage append`, `./lineage follow` and `./lineage scan KIND KEY BLOCK` read it",
    ),
    CONTRACT: ("a contract", "`./lineage fmt` reads it; to deploy it, name it in a draft, and pack that"),
}
# What a command reads, by its first word.
READS = {
    "scan": BLOCK_FILE,
    "append": BLOCK_FILE,
    "follow": BLOCK_FILE,
    "verify": PROOF,
    "expose": PROOF,
    "trace": TRACE,
    "range": RANGE,
    "light": LIGHT,
    "fmt": CONTRACT,
    "pack": DRAFT,
}


def kind_of(first):
    """What a file is that begins so; none where it is nothing of these."""
    length = int.from_bytes(first[:4], "big")
    if first[1:].startswith(MAGIC_OF_LOG):
        return LOG
    for magic, kind in [(MAGIC_OF_PROOF, PROOF), (MAGIC_OF_TRACE, TRACE), (MAGIC_OF_RANGE, RANGE)]:
        if first.startswith(magic):
            return BYTES_OF_PROOF
        if first.startswith(magic.hex().encode()):
            return kind
    if first.startswith(MAGIC_OF_LIGHT):
        return LIGHT
    if 1 <= length <= MAX_BLOCK_BYTES and len(first) > 4 and first[4] in VERSIONS:
        return BLOCK_FILE
    if re.match(rb"\s*[\[{]", first):
        return DRAFT
    if re.match(rb"(\s*#[^\n]*\n)*\s*fn\s", first):
        return CONTRACT
    return None


def advice(first, wanted, name="the input"):
    """What a file is that begins so, and what to do with it; nothing where it is what is wanted, or isn't known."""
    kind = kind_of(first)
    if kind is None or kind == wanted:
        return ""
    what, done = WHAT_TO_DO[kind]
    return f"{name} looks like {what}: {done}"
