"""Proofs over a long chain by docs/proofs.md, by the root at its last block, from what is kept of its blocks.

tools/cases/proof_cases.py makes proofs by going over all rows, which takes too long for many over a long chain;
tools/measure/measure-light holds the two against each other over a short one, and tools/checks/size_runs.py those of a
range.
"""
import bisect

from cases.block_files import number, string
from cases.growing_roots import Ledger, first_of
from cases.proof_cases import KINDS, MAGIC
from cases.range_cases import MAGIC as RANGE_MAGIC


class ProvingLedger(Ledger):
    """The rows of the blocks so far, of which the texts of all versions are kept."""

    def __init__(self):
        super().__init__()
        # Of each version its header and its body, without the first bytes of their texts, and the blocks of its links.
        self.texts = {}

    def keep_texts(self, row, body, header, links):
        self.texts[row.key, row.block] = header[1:], body[1:], [block for block, _ in links]

    def audit(self, index):
        """The hashes beside the way to a leaf, from the leaf upward."""
        start, count, path = 0, len(self.tree.leaves), []
        while count > 1:
            first = first_of(count)
            if index < start + first:
                path.append(self.tree.hash(start + first, count - first))
                count = first
            else:
                path.append(self.tree.hash(start, first))
                start, count = start + first, count - first
        return path[::-1]

    def path(self, key, at):
        """The blocks of the versions that a proof goes through, the newest first."""
        newest = self.keys[key].block if key in self.keys else None
        blocks = [] if newest is None else [newest]
        while blocks and blocks[-1] > at:
            _, _, links = self.texts[key, blocks[-1]]
            if not links:
                break
            later = [target for target in links if target > at]
            blocks.append(later[-1] if later else links[0])
        return blocks

    def rooted(self, key, block_digest):
        """From the digest of the last block to the audit hashes: the leaf that covers a key, in the tree."""
        covering = key if key in self.keys else self.in_order[bisect.bisect(self.in_order, key) - 1]
        index = self.keys[covering].index
        audit = self.audit(index)
        leaf = number(len(self.tree.leaves), 4) + number(index, 4) + self.leaf(covering)
        return block_digest + leaf + number(len(audit), 1) + b"".join(audit)

    def proof(self, kind, key, at, head, block_digest):
        """The proof of a `hist` or a `back` by the root at the last block, which has this number and this digest."""
        blocks = self.path(key, at)
        proof = MAGIC + number(KINDS.index(kind), 1) + string(key) + number(at, 4) + number(head, 4)
        proof += self.rooted(key, block_digest) + number(len(blocks), 1)
        proof += b"".join(self.texts[key, block][0] for block in blocks)
        return proof + (self.texts[key, blocks[-1]][1] if blocks and blocks[-1] <= at else b"")

    def proof_of_uses(self, key, at, head, block_digest, uses):
        """The proof of a `fwd` about the newest version of a key that has one; its uses are given, each a key and a
        block."""
        proof = self.proof("fwd", key, at, head, block_digest) + number(len(uses), 4)
        return proof + b"".join(string(user) + number(block, 4) for user, block in uses)

    def whole_range_proof(self, key, head, block_digest):
        """The proof of all versions of a key, which has one in each block up to the last one."""
        texts = [self.texts[key, block] for block in range(head, -1, -1)]
        proof = RANGE_MAGIC + string(key) + number(0, 4) + number(head, 4) + number(head, 4)
        proof += self.rooted(key, block_digest) + number(len(texts), 4)
        return proof + b"".join(header for header, *_ in texts) + b"".join(body for _, body, _ in texts)
