"""Light files by docs/light.md, made from the digests and the roots of blocks, and proofs that are checked by them.

The check makes the light file of a small chain and proofs from the rows of it, and has verifiers/verify.py say what it
tells of them and why it refuses them: by the whole file and by that of the first blocks, by files and over inputs of
which a byte is changed, or which end too early. tools/cases/check-proofs makes it.
"""
import dataclasses

from cases.block_files import GONE, number
from cases.generated_chain import Generated
from cases.growing_roots import growing_roots
from cases.log_cases import BAD_INPUT, DONE, REFUSED, REJECTED, frames_of
from cases.proof_cases import KINDS, answer_of, proof_of
from cases.root_cases import History, block_digests
from cases.verifier import told_by_light

MAGIC = b"LCH1"
HEAD_BYTES = 8
# Of a block its digest and its root.
ENTRY_BYTES = 64
MAX_FRAME_BYTES = 1_048_576
# How many blocks a piece has that `light make` prints at once; the last one may have fewer, and the head stands before
# them by itself.
PIECE_BLOCKS = 1_024


def light_file(digests, roots):
    """The light file of blocks with these digests, and with these roots, all in bytes."""
    entries = [digest + root for digest, root in zip(digests, roots, strict=True)]
    return MAGIC + number(len(entries), 4) + b"".join(entries)


def light_file_of(file, rows):
    """The light file of the chain of a block file, whose blocks write these rows."""
    frames = frames_of(file)
    return light_file(block_digests(frames), map(bytes.fromhex, growing_roots(frames, rows)))


def pieces(file):
    """A light file in the pieces that `light make` prints."""
    size = PIECE_BLOCKS * ENTRY_BYTES
    return [file[:HEAD_BYTES], *(file[at : at + size] for at in range(HEAD_BYTES, len(file), size))]


def hex_lines(file):
    """These pieces as run_cases prints them."""
    return [f"hex {piece.hex()}\n" for piece in pieces(file)]


def frame(proof):
    """A proof as it stands behind a light file."""
    return number(len(proof), 4) + proof


def accepted(at, kind, key, block, root_at, answer):
    """The lines that are told of the proof of this number, which is accepted with this answer."""
    return [f"proof {at} {kind} {key} {block} root {root_at}", *answer]


# ---- the verifier over them


class CheckedLights:
    """The rows of a chain, its light file and proofs over it, and what the verifier tells of them."""

    def __init__(self, rows, file):
        self.rows, self.history = rows, History(rows)
        frames = frames_of(file)
        self.digests = block_digests(frames)
        self.light = light_file_of(file, rows)
        self.count, self.wrong = 0, []
        head = len(frames) - 1
        keys = [*self.history.keys(head)[::19], "raw/none", "zz"]
        blocks = [(0, 0), (5, head), (20, 20), (head - 1, head)]
        self.asked = [(kind, key, at, root_at) for kind in KINDS for key in keys for at, root_at in blocks]
        self.proofs = [self.proof_of(*question) for question in self.asked]

    def proof_of(self, kind, key, at, root_at):
        return proof_of(self.history, self.digests[root_at], kind, key, at, root_at)

    def right(self, at):
        """What is told of the proof of this number where it is accepted, by going over the rows."""
        return accepted(at, *self.asked[at], answer_of(self.rows, *self.asked[at]))

    def expect(self, what, given, wanted):
        self.count += 1
        if given != wanted:
            self.wrong.append(f"{what}: {given!r:.300}, not {wanted!r:.300}")

    def expect_told(self, what, source, told, status, left=0):
        """The verifier tells these lines of an input, ends with this status, and leaves so much of the input."""
        self.expect(what, told_by_light(source), (told, status, left))

    def input(self, light=None, proofs=None):
        return (light or self.light) + b"".join(map(frame, proofs or self.proofs))

    def told(self, cause_of):
        """The lines of all proofs, where some are rejected for a cause and the others accepted; and the status."""
        causes = [cause_of(at) for at in range(len(self.proofs))]
        lines = [
            line
            for at, cause in enumerate(causes)
            for line in ([f"proof {at} rejected {cause}"] if cause else self.right(at))
        ]
        return lines, REJECTED if any(causes) else DONE

    def check_files(self):
        """By the whole file all proofs are accepted; by that of the first blocks those at these blocks; and by one
        whose digest or root of a block is another, all but those at that block."""
        self.expect_told("the whole file", self.input(), *self.told(lambda at: None))
        for count in (0, 1, 20, 21, len(self.digests) - 1):
            shorter = light_file(self.digests[:count], [self.root(at) for at in range(count)])
            unknown = self.told(lambda at: f"unknown {count}" if self.asked[at][3] >= count else None)
            self.expect_told(f"a file of {count} blocks", self.input(shorter), *unknown)
        for block in (0, 20, len(self.digests) - 1):
            start = HEAD_BYTES + block * ENTRY_BYTES
            for offset, word in [(start, "digest"), (start + ENTRY_BYTES - 1, "root")]:
                changed = put(self.light, offset)
                digest = changed[start : start + ENTRY_BYTES // 2] if word == "digest" else self.root(block)
                cause = f"{word} {digest.hex()}"
                told = self.told(lambda at: cause if self.asked[at][3] == block else None)
                self.expect_told(f"another {word} of block {block}", self.input(changed), *told)

    def root(self, block):
        start = HEAD_BYTES + block * ENTRY_BYTES + ENTRY_BYTES // 2
        return self.light[start : start + ENTRY_BYTES // 2]

    def check_proofs(self):
        """A proof that is changed is rejected, and the others are accepted as before."""
        for changed in (0, len(self.proofs) // 2, len(self.proofs) - 1):
            proofs = list(self.proofs)
            proofs[changed] = proofs[changed][:-1]
            cause = f"malformed {last_field(self.proofs[changed])}"
            told = self.told(lambda at: cause if at == changed else None)
            self.expect_told(f"proof {changed} cut", self.input(proofs=proofs), *told)

    def check_forms(self):
        """Light files that are none, and frames of bad form: what is left of the input then."""
        first, rest = self.proofs[0], b"rest"
        for size in [*range(HEAD_BYTES + ENTRY_BYTES), len(self.light) - 1]:
            self.expect_told(f"{size} bytes", self.light[:size], ["badinput light"], BAD_INPUT)
        for offset in range(len(MAGIC)):
            changed = put(self.light, offset) + rest
            left = len(changed) - HEAD_BYTES
            self.expect_told(f"byte {offset}", changed, ["badinput light"], BAD_INPUT, left)
        before, told = self.light + frame(first), self.right(0)
        for length in (0, MAX_FRAME_BYTES + 1, 2**32 - 1):
            refused = f"refused frame 1 length {length}"
            source = before + number(length, 4) + rest
            self.expect_told(f"a length {length}", source, [*told, refused], REFUSED, len(rest))
        for size in range(1, len(frame(first)) - 1, 7):
            refused = "refused frame 1 truncated"
            self.expect_told(f"{size} bytes of a frame", before + frame(first)[:size], [*told, refused], REFUSED)
        longest = self.light + frame(bytes(MAX_FRAME_BYTES))
        self.expect_told("the longest frame", longest, ["proof 0 rejected malformed 0"], REJECTED)


def put(text, offset):
    """The text with the last bit of a byte turned."""
    return text[:offset] + bytes([text[offset] ^ 1]) + text[offset + 1 :]


def last_field(proof):
    """Where the last field of a proof begins, by the verifier; it is of a proof that lacks its last byte."""
    [line], _, _ = told_by_light(light_file([], []) + frame(proof[:-1]))
    return int(line.split()[-1])


def check():
    """Whether the verifier says what it must; prints where it doesn't."""
    chain = Generated(40, 7)
    some_gone = [dataclasses.replace(row, value=GONE) if row.block % 2 else row for row in chain.rows]
    all_checked = [CheckedLights(rows, chain.file) for rows in (chain.rows, some_gone)]
    for checked in all_checked:
        checked.check_files()
        checked.check_proofs()
        checked.check_forms()
    wrong = [line for checked in all_checked for line in checked.wrong]
    for line in wrong:
        print(f"light_cases: {line}")
    print(f"light_cases: {sum(checked.count for checked in all_checked)} checks, {len(wrong)} wrong")
    return not wrong
