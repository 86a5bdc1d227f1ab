"""The three blocks of examples/recall.blocks, of which the last ones may be of the second version, behind a mark.
"""
import functools

from cases.block_files import FIRST_VERSION, SECOND_VERSION, block_digest, number
from cases.block_reader import stands_for
from cases.log_cases import frames_of, log_of
from cases.root_cases import roots
from checks.program_cases import RECALL_FILE, RECALL_ROWS

COUNT = len(frames_of(RECALL_FILE))
# Where the fields of a block begin that say nothing of its place in a chain.
TXS_AT = 1 + 4 + 32


class RecallChain:
    """The blocks, of which so many first ones are of the first version: their frames, and what `append` tells of them.
    The rows are the same, whatever the versions."""

    def __init__(self, firsts):
        self.firsts, self.frames, parent = firsts, [], bytes(32)
        for at, frame in enumerate(frames_of(RECALL_FILE)):
            version = FIRST_VERSION if at < firsts else SECOND_VERSION
            block = number(version, 1) + number(at, 4) + parent + frame[4 + TXS_AT :]
            self.frames.append(number(len(block), 4) + block)
            parent = block_digest(block)
        self.file = b"".join(self.frames)
        self.roots = roots(self.frames, RECALL_ROWS)
        self.lines = [f"block {at} rows 2 status 0,0 root {root}\n" for at, root in enumerate(self.roots)]

    def log(self, held=COUNT, is_marked=True):
        """The log of so many first blocks, marked or not."""
        marked = b"".join(self.frames[self.firsts : held]) if is_marked else None
        return log_of(b"".join(self.frames[: min(held, self.firsts)]), marked)


recall_chain = functools.cache(RecallChain)


def over(log, written):
    """What was written from the first byte of a log on, and what stood there behind that."""
    return written + (log or b"")[len(written) :]


def chain_of(log):
    """The chain whose first blocks a log has: those that are still to come are of the version that it takes; how many
    it has; and whether it is marked. Nothing where it has others, or is no log."""
    chain, _ = stands_for(log)
    if chain is None:
        return None
    frames = [number(len(frame), 4) + frame for frame in chain.frames]
    firsts = sum(frame[4] == FIRST_VERSION for frame in frames) if chain.is_marked else COUNT
    recall = recall_chain(firsts)
    if firsts > COUNT or frames != recall.frames[: len(frames)]:
        return None
    return recall, len(frames), chain.is_marked
