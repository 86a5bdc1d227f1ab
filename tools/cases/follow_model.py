"""A follower by crates/follower_steps/README.md, in plain steps: what becomes of each block that is delivered to it,
and what `follow` tells of the frames of a file.

Which block is the next one, and why another is refused, is read by tools/cases/block_reader.py. The lines of added
blocks are worked out where these have Sets alone, from the rows of all of them.
"""
from typing import NamedTuple

from cases.block_files import CONFLICT, FOREIGN, OK
from cases.block_reader import Fields, Invalid, Refused, decoded, frame_at, stands_for
from cases.growing_roots import growing_roots
from cases.log_cases import DAMAGED, DONE, NOT_A_LOG, REFUSED, log_of
from cases.root_cases import Row

# How far ahead of the next block a block may be that waits.
MAX_AHEAD = 64
BLOCK, IS_KNOWN, IS_KEPT, IS_DROPPED = "block", "known", "kept", "dropped"


class Turn(NamedTuple):
    """What became of a block: it was added, it is known, it is kept, with its number; or it was dropped, with the
    index of the frame that brought it, and why."""

    what: str
    number: int
    cause: str = None

    def line(self, lines):
        """Its line, where those of the blocks that may be added are known, each by its number."""
        if self.what == BLOCK:
            return lines[self.number]
        return f"{self.what} {self.number} {self.cause}\n" if self.cause else f"{self.what} {self.number}\n"


class Waiting(NamedTuple):
    """A block that waits: the index of the frame that brought it, its number, and its bytes."""

    index: int
    number: int
    block: bytes


class Follower:
    """A follower that starts with the chain of a log."""

    def __init__(self, chain):
        self.chain, self.waiting, self.acknowledged = chain, [], len(chain.frames)

    def held(self):
        return len(self.chain.frames)

    def decided(self, index, block):
        """The chain decides about a block."""
        try:
            is_new = self.chain.take_in(block)
        except Refused as refusal:
            return Turn(IS_DROPPED, index, str(refusal))
        return Turn(BLOCK if is_new else IS_KNOWN, decoded(block[1:5]))

    def first_turn(self, index, block):
        """The first turn of the delivery of the frame of this index."""
        try:
            _, number, _, _ = Fields(block).whole_block()
        except Invalid as fault:
            return Turn(IS_DROPPED, index, f"malformed {fault.offset}")
        if number < self.held():
            return self.decided(index, block)
        if number - self.held() > MAX_AHEAD:
            return Turn(IS_DROPPED, index, f"far {self.held()}")
        if number in [waiting.number for waiting in self.waiting]:
            return Turn(IS_DROPPED, index, "taken")
        if number > self.held():
            self.waiting.append(Waiting(index, number, block))
            return Turn(IS_KEPT, number)
        return self.decided(index, block)

    def further_turn(self):
        """A further turn: the waiting block that is due is taken out, and decided about; none where none is due."""
        for waiting in self.waiting:
            if waiting.number == self.held():
                self.waiting.remove(waiting)
                return self.decided(waiting.index, waiting.block)
        return None

    def delivered(self, index, block):
        """The turns of a whole delivery, one after another."""
        turn = self.first_turn(index, block)
        while turn:
            yield turn
            turn = self.further_turn()
        self.acknowledged = self.held()

    def crash(self):
        """A crash between two deliveries."""
        self.waiting = []

    def crash_within(self, index, block, turns, is_stored):
        """A crash in the last of so many turns of a delivery, with the block that this turn adds or without it; how
        many turns were made."""
        made = 0
        rest = self.delivered(index, block)
        while made < turns:
            before, turn = self.held(), next(rest, None)
            if turn is None:
                break
            made += 1
            self.acknowledged = before
        if self.held() > self.acknowledged and made and not is_stored:
            self.chain.take_back()
        self.crash()
        return made

    def log(self, front=None):
        """The log of its chain, with the first block behind the mark where that is marked: so many stand before it."""
        frames = frames_in(self.chain)
        if not self.chain.is_marked:
            return log_of(b"".join(frames))
        return log_of(b"".join(frames[:front]), b"".join(frames[front:]))


class Followed(NamedTuple):
    """What becomes of the frames of a file: the turns of each, the line that ends it, the status, and how many of its
    bytes were read."""

    turns: list
    line: str
    status: int
    read: int

    def all_turns(self):
        return [turn for turns in self.turns for turn in turns]

    def told(self, lines):
        """All lines, where those of the blocks that may be added are known, each by its number."""
        return "".join(turn.line(lines) for turn in self.all_turns()) + self.line


def follow(follower, file):
    """The frames of a file are delivered to a follower, fewer than any file has too many of."""
    turns, start = [], 0
    while start < len(file):
        try:
            block = frame_at(file, start)
        except Refused as refusal:
            read = start + 4 if str(refusal).startswith("length") else len(file)
            return Followed(turns, f"refused frame {len(turns)} {refusal}\n", REFUSED, read)
        turns.append(list(follower.delivered(len(turns), block)))
        start += 4 + len(block)
    line = f"follow blocks {follower.held()} waiting {len(follower.waiting)}\n"
    return Followed(turns, line, DONE, start)


def follow_over(image, file):
    """What `follow` does over what a log holds, and its follower; none where that stands for no chain."""
    chain, line = stands_for(image)
    if line:
        return Followed([], line, NOT_A_LOG if line.startswith("not") else DAMAGED, 0), None
    follower = Follower(chain)
    return follow(follower, file), follower


# ---- the lines of blocks


def frames_in(chain):
    """The frames of the blocks of a chain."""
    return [len(block).to_bytes(4, "big") + block for block in chain.frames]


def done_by(chain):
    """What the blocks of a chain do, which have Sets alone: their rows, and the statuses of each."""
    rows, statuses, newest = [], [], {}
    for at, block in enumerate(chain.blocks):
        written, ended = {}, []
        for index, (key, value, deps) in enumerate(block):
            is_own, clashes = key.startswith("raw/"), written.keys() & {key, *deps}
            ended.append(FOREIGN if not is_own else CONFLICT if clashes else OK)
            if ended[-1] == OK:
                kind, _, word = value.partition(" ")
                froms = [(dep, newest[dep]) for dep in dict.fromkeys(deps) if dep in newest]
                rows.append(Row(key, at, index, int(word) if kind == "int" else word, froms))
                written[key] = at
        newest.update(written)
        statuses.append(ended)
    return rows, statuses


def lines_of(chain):
    """The lines of the blocks of a chain, which have Sets alone."""
    rows, statuses = done_by(chain)
    lines = []
    for at, (ended, root) in enumerate(zip(statuses, growing_roots(frames_in(chain), rows))):
        count = sum(row.block == at for row in rows)
        lines.append(f"block {at} rows {count} status {','.join(map(str, ended)) or '-'} root {root}\n")
    return lines
