"""All versions of keys between two blocks, and proofs of them, by docs/proofs.md, made from the rows of a chain by
going over them all.

The check has verifiers/verify.py say what such proofs prove, and why it refuses them once a byte of one is
changed. tools/cases/check-proofs makes it.
"""
import dataclasses

from cases.block_files import GONE, number, string
from cases.generated_chain import Generated
from cases.log_cases import frames_of
from cases.proof_cases import Checked, covering_index, path, value_told
from cases.root_cases import History, Row, block_digests
from cases.tree_cases import audit_path
from cases.verifier import verify

MAGIC = b"LCR1"
# A key with versions in the blocks 0 to 63 and in two far ones; two blocks of a question, the versions of the path to
# the second of them, and how many versions all those between the two take: the path and two more.
FAR_BLOCKS = [*range(64), 524_287, 524_288]
FAR_QUESTION = 31, 33
FAR_PATH = [524_288, 524_287, 48, 40, 36, 34, 33]
FAR_STEPS = 9


def between(rows, key, first, last):
    """The rows of a key from a block to another one."""
    return [row for row in rows if row.key == key and first <= row.block <= last]


def range_of(rows, key, first, last):
    """The lines of all versions of a key from a block to another one."""
    versions = between(rows, key, first, last)
    return [f"versions {len(versions)}", *(f"block {of.block} tx {of.tx} {value_told(of.value)}" for of in versions)]


def way(history, key, first, last, root_at):
    """The blocks of the versions that a proof goes through, the newest first: to the last block, and then from each
    version that is asked for to the one before it. As many versions are looked at for the answer."""
    to_last = path(history, key, last, root_at)
    versions = [row.block for row in between(history.rows, key, first, last)]
    return to_last + versions[-2::-1]


def spelled(history, block_digest, question, root_at, leaf_key, headers, bodies):
    """The bytes of a proof with these headers and bodies, by the leaf that covers a key with the root at a block of
    this digest."""
    key, first, last = question
    leaves = history.leaves(root_at)
    index = covering_index(history.keys(root_at), leaf_key)
    audit = audit_path(index, leaves)
    proof = MAGIC + string(key) + number(first, 4) + number(last, 4) + number(root_at, 4)
    proof += block_digest + number(len(leaves), 4) + number(index, 4) + leaves[index]
    proof += number(len(audit), 1) + b"".join(audit) + number(len(headers), 4)
    return proof + b"".join(headers) + b"".join(bodies)


def header_of(history, key, block):
    """A header as a proof has it, without the first byte of its text."""
    return history.header_text(key, block)[1:]


def body_of(history, key, block):
    """The same of a body."""
    return history.body_text(history.row_of(key, block))[1:]


def range_proof_of(history, block_digest, key, first, last, root_at):
    """The proof of all versions of a key from a block to another one, with the root at a block of this digest."""
    blocks = way(history, key, first, last, root_at)
    headers = [header_of(history, key, block) for block in blocks]
    bodies = [body_of(history, key, block) for block in blocks if first <= block <= last]
    return spelled(history, block_digest, (key, first, last), root_at, key, headers, bodies)


# ---- the verifier over them


class CheckedRanges(Checked):
    """What the verifier says of proofs of all versions between two blocks over the rows of a chain."""

    of = verify.OF_RANGE

    def question_of(self, key, first, last):
        return verify.Period(key.encode(), first, last)

    def proof_of(self, key, first, last, root_at):
        return range_proof_of(self.history, self.digests[root_at], key, first, last, root_at)

    def answer_of(self, key, first, last, root_at):
        return range_of(self.rows, key, first, last)


def check_far(checked):
    """How many versions are looked at where the blocks are far behind the newest version."""
    history = History([Row("raw/a", block, 0, block, []) for block in FAR_BLOCKS])
    first, last = FAR_QUESTION
    head = FAR_BLOCKS[-1]
    checked.expect("the path to a far block", path(history, "raw/a", last, head), FAR_PATH)
    checked.expect("the way through far blocks", way(history, "raw/a", first, last, head), [*FAR_PATH, 32, 31])
    proof = verify.read_proof(range_proof_of(history, bytes(32), "raw/a", first, last, head), verify.OF_RANGE)
    checked.expect("the headers of far blocks", len(proof.headers), FAR_STEPS)
    lines = verify.proved(proof, history.root(head, bytes(32)), verify.Period(b"raw/a", first, last))
    checked.expect("the versions of far blocks", lines, range_of(history.rows, "raw/a", first, last))
    checked.expect("how many there are", lines[0], "versions 3")


def check():
    """Whether the verifier says what it must; prints where it doesn't."""
    chain = Generated(40, 7)
    digests = block_digests(frames_of(chain.file))
    some_gone = [dataclasses.replace(row, value=GONE) if row.block % 2 else row for row in chain.rows]
    all_checked = [CheckedRanges(rows, digests) for rows in (chain.rows, some_gone)]
    for checked in all_checked:
        for key in [*checked.history.keys(39)[::9], "raw/none", "a", "zz"]:
            for first, last, root_at in [(0, 0, 0), (0, 39, 39), (5, 20, 39), (20, 38, 38), (39, 39, 39)]:
                checked.check(key, first, last, root_at)
    check_far(all_checked[0])
    wrong = [line for checked in all_checked for line in checked.wrong]
    for line in wrong:
        print(f"range_cases: {line}")
    print(f"range_cases: {sum(checked.count for checked in all_checked)} checks, {len(wrong)} wrong")
    return not wrong
