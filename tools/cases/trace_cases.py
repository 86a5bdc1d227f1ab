"""All ancestors of versions, and proofs of them, by docs/proofs.md, made from the rows of a chain by going over
them all.

The check has verifiers/verify.py say what such proofs prove, and why it refuses them once a byte of one is
changed. tools/cases/check-proofs makes it.
"""
import dataclasses

from cases.block_files import GONE, number
from cases.generated_chain import Generated
from cases.log_cases import frames_of
from cases.proof_cases import Checked, proof_of
from cases.root_cases import block_digests
from cases.verifier import verify

MAGIC = b"LCT1"


def ancestors(rows, key, block):
    """What a version was made from, by block and then by key, each by its key and its block: what its row was derived
    from, what these were derived from, and so on."""
    deps = {(row.key, row.block): row.deps for row in rows}
    found, reached = set(), [(key, block)]
    while reached:
        for dep in deps[reached.pop()]:
            if dep not in found:
                found.add(dep)
                reached.append(dep)
    return sorted(found, key=lambda version: (version[1], version[0].encode()))


def latest(rows, key, at):
    """The block of the last version of a key up to a block; none where there is none."""
    return max((row.block for row in rows if row.key == key and row.block <= at), default=None)


def trace_of(rows, key, at):
    """The lines of all ancestors of the last version of a key up to a block."""
    block = latest(rows, key, at)
    if block is None:
        return ["none"]
    versions = ancestors(rows, key, block)
    return [f"block {block} ancestors {len(versions)}", *(f"{of} {in_block}" for of, in_block in versions)]


def item_of(history, key, block):
    """What a proof has of an ancestor: its header and its body, without the first bytes of their texts."""
    return history.header_text(key, block)[1:] + history.body_text(history.row_of(key, block))[1:]


def spelled(start, items):
    """The bytes of a proof that starts with this proof."""
    return MAGIC + number(len(start), 4) + start + number(len(items), 4) + b"".join(items)


def trace_proof_of(history, block_digest, key, at, root_at):
    """The proof of all ancestors with the root at a block of this digest."""
    start = proof_of(history, block_digest, "back", key, at, root_at)
    block = latest(history.rows, key, at)
    versions = ancestors(history.rows, key, block) if block is not None else []
    return spelled(start, [item_of(history, *version) for version in reversed(versions)])


# ---- the verifier over them


class CheckedTraces(Checked):
    """What the verifier says of proofs of all ancestors over the rows of a chain."""

    of = verify.OF_TRACE

    def proof_of(self, _, key, at, root_at):
        return trace_proof_of(self.history, self.digests[root_at], key, at, root_at)

    def answer_of(self, _, key, at, root_at):
        return trace_of(self.rows, key, at)


def check():
    """Whether the verifier says what it must; prints where it doesn't."""
    chain = Generated(40, 7)
    digests = block_digests(frames_of(chain.file))
    some_gone = [dataclasses.replace(row, value=GONE) if row.block % 2 else row for row in chain.rows]
    all_checked = [CheckedTraces(rows, digests) for rows in (chain.rows, some_gone)]
    for checked in all_checked:
        for key in [*checked.history.keys(39)[::9], "raw/none", "a", "zz"]:
            for at, root_at in [(0, 0), (5, 39), (20, 20), (38, 39), (39, 39)]:
                checked.check("back", key, at, root_at)
    wrong = [line for checked in all_checked for line in checked.wrong]
    for line in wrong:
        print(f"trace_cases: {line}")
    print(f"trace_cases: {sum(checked.count for checked in all_checked)} checks, {len(wrong)} wrong")
    return not wrong
