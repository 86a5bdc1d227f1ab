"""Proofs over chains of `gen` that are changed at random, with the words that ask for them, and what the verifier must
print of each: for tools/checks/try-verifiers and tools/checks/try-page, which say what becomes of them.

A case has its place and the fixed seed, so it can be made again.
"""
import random

from cases.block_files import number, string
from cases.drawn_answers import drawn_answer
from cases.drawn_ranges import drawn_range
from cases.drawn_traces import drawn_trace
from cases.generated_chain import Generated
from cases.growing_roots import growing_roots
from cases.light_cases import MAX_FRAME_BYTES, frame, light_file
from cases.log_cases import frames_of
from cases.proof_cases import KINDS, MAGIC, proof_of
from cases.range_cases import MAGIC as RANGE_MAGIC
from cases.range_cases import range_proof_of
from cases.root_cases import History, block_digests
from cases.trace_cases import MAGIC as TRACE_MAGIC
from cases.trace_cases import trace_proof_of
from cases.verifier import root_of, text_of, told_of, verify

SEED = 7
# The blocks and the seeds of the chains.
CHAINS = [(40, 7), (150, 11)]
PROOFS_OF_A_CHAIN = 120
# Numbers at the limits of one, two, four and eight bytes.
LIMITS = [bytes([byte]) * width for width in (1, 2, 4, 8) for byte in (0x00, 0x7F, 0x80, 0xFF)]


def question_bytes(kind, key, at):
    """What a proof begins with."""
    return MAGIC + number(KINDS.index(kind), 1) + string(key) + number(int(at), 4)


class Answers:
    """Proofs of answers: the words of their command, and how they are made."""

    command = ["verify"]
    kinds = KINDS

    def proofs_of_chain(self, blocks, seed, rng):
        """Proofs over a chain, each with the root and the words of its question."""
        chain = Generated(blocks, seed)
        history, digests = History(chain.rows), block_digests(frames_of(chain.file))
        keys = sorted({row.key for row in chain.rows})
        for _ in range(PROOFS_OF_A_CHAIN):
            question, root_at = self.asked([*keys, "raw/none", "a", "zz"], blocks, rng)
            proof = self.made(history, digests[root_at], question, root_at)
            yield proof, history.root(root_at, digests[root_at]), question

    def case(self, place, proofs, seed=SEED):
        """The words and the input of the case at a place."""
        return case_of_proof(self, random.Random(f"{seed} {place}"), proofs)

    def outcomes(self, printed):
        """What kind of outcome it was."""
        words = printed.decode("ascii").split()
        count = 3 if words[:2] == ["rejected", "trace"] else 2 if words[0] in ("rejected", "badinput") else 1
        return [" ".join(words[:count])]

    def asked(self, keys, blocks, rng):
        """A question, as words, and the block of a root."""
        kind, key, root_at = rng.choice(self.kinds), rng.choice(keys), rng.randrange(blocks)
        return [kind, key, str(rng.choice([root_at, rng.randrange(root_at + 1)]))], root_at

    def made(self, history, digest, question, root_at):
        kind, key, at = question
        return proof_of(history, digest, kind, key, int(at), root_at)

    def words(self, question):
        """The words behind the root."""
        return question

    def of_question(self, proof, question, asked):
        """The proof of a question, said to be one of what is asked."""
        rest = proof[len(question_bytes(*question)) :]
        return question_bytes(*asked) + rest

    def drawn(self, _):
        """A proof that is drawn, with the words of its question; none where none are."""
        return None


class DrawnAnswers(Answers):
    """The same, and as many that are drawn."""

    def drawn(self, rng):
        return drawn_answer(rng) if rng.randrange(2) else None


class Traces(Answers):
    """Proofs of ancestors, which start with a proof of what a version was derived from."""

    command = ["trace", "verify"]
    kinds = ["back"]

    def made(self, history, digest, question, root_at):
        _, key, at = question
        return trace_proof_of(history, digest, key, int(at), root_at)

    def words(self, question):
        return question[1:]

    def of_question(self, proof, question, asked):
        end = 8 + int.from_bytes(proof[4:8], "big")
        start = super().of_question(proof[8:end], question, asked)
        return TRACE_MAGIC + number(len(start), 4) + start + proof[end:]

    def drawn(self, rng):
        return drawn_trace(rng) if rng.randrange(2) else None


def range_question_bytes(key, first, last):
    """What a proof of a range begins with."""
    return RANGE_MAGIC + string(key) + number(int(first), 4) + number(int(last), 4)


class Ranges(Answers):
    """Proofs of all versions between two blocks."""

    command = ["range", "verify"]

    def asked(self, keys, blocks, rng):
        key, root_at = rng.choice(keys), rng.randrange(blocks)
        last = rng.choice([root_at, rng.randrange(root_at + 1)])
        return [key, str(rng.choice([0, last, rng.randrange(last + 1)])), str(last)], root_at

    def made(self, history, digest, question, root_at):
        key, first, last = question
        return range_proof_of(history, digest, key, int(first), int(last), root_at)

    def of_question(self, proof, question, asked):
        rest = proof[len(range_question_bytes(*question)) :]
        return range_question_bytes(*asked) + rest

    def drawn(self, rng):
        return drawn_range(rng) if rng.randrange(2) else None


class Lights(Answers):
    """Light files, and proofs of answers behind them."""

    command = ["light"]

    def proofs_of_chain(self, blocks, seed, rng):
        """Proofs over a chain, each with the digest of each block and the root at it, and what it is a proof of."""
        chain = Generated(blocks, seed)
        frames = frames_of(chain.file)
        entries = list(zip(block_digests(frames), map(bytes.fromhex, growing_roots(frames, chain.rows))))
        for proof, _, question in super().proofs_of_chain(blocks, seed, rng):
            yield proof, entries, question

    def case(self, place, proofs, seed=SEED):
        rng = random.Random(f"{seed} {place}")
        _, entries, _ = rng.choice(proofs)
        own, others = ([proof for proof, of, _ in proofs if of is entries or all_of] for all_of in (False, True))
        entries, frames = list(entries), []
        for _ in range(rng.choice([1, 1, 2, 3, 5])):
            proof = rng.choice(own if rng.randrange(10) else others)
            for _ in range(rng.choice([0, 0, 1, 1, 2, 3])):
                proof = changed(proof, others, rng) or proof
            if rng.randrange(2):
                put_right(entries, proof)
            frames.append(frame(proof))
        entries = entries if rng.randrange(6) else entries[: rng.randrange(len(entries) + 1)]
        light = light_file([digest for digest, _ in entries], [root for _, root in entries])
        if rng.randrange(8) == 0:
            light = changed(light, [light], rng)
        if rng.randrange(8) == 0:
            at = rng.randrange(len(frames) + 1)
            frames[at:at] = [rng.choice([number(0, 4), number(MAX_FRAME_BYTES + 1, 4), b"\0", number(300, 4), b"\xff"])]
        source = light + b"".join(frames)
        return self.command, source if rng.randrange(8) else source[: len(source) - rng.randrange(600)]

    def outcomes(self, printed):
        for line in printed.decode("ascii").splitlines():
            first, *words = line.split()
            if first == "proof":
                yield " ".join(words[1:3]) if words[1] == "rejected" else f"accepted {words[1]}"
            elif first in ("refused", "badinput"):
                yield f"{first} {words[-1] if first == 'badinput' else words[2]}"


def put_right(entries, proof):
    """Puts what a proof leads to in its place among the digests and the roots of blocks, where it has one."""
    try:
        read = verify.read_proof(proof, verify.OF_ANSWER)
    except verify.Stop:
        return
    if read.root_block < len(entries):
        entries[read.root_block] = read.block_digest, verify.root_of(read)


SORTS = {"--trace": Traces(), "--range": Ranges(), "--light": Lights()}


def changed(proof, others, rng):
    """The proof after one change, which mostly keeps its length."""
    at = rng.randrange(len(proof))
    until = min(len(proof), at + rng.choice([1, 2, 4, 32, 100]))
    other = rng.choice(others)
    other_at = rng.randrange(len(other))
    bit = bytes([proof[at] ^ 1 << rng.randrange(8)])
    limit = rng.choice(LIMITS)
    piece = other[other_at : other_at + until - at]
    if rng.randrange(4):
        put = rng.choice([bit, bytes([rng.randrange(256)]), limit, piece])
        return proof[:at] + put + proof[at + len(put) :]
    return rng.choice([
        proof[:at] + proof[until:],
        proof[:at] + piece + proof[at:],
        proof[:until] + proof[at:],
        proof[:at] + limit + proof[until:],
        proof[:at],
    ])


def words_of(root, question, rng):
    """The words behind those of the command, of which some are changed."""
    words = [root.hex(), *question]
    if rng.randrange(50) == 0:
        place = rng.randrange(len(words))
        words[place] = rng.choice([words[place].upper(), words[place][:-1], "0" + words[place], "7"])
    return words


def digits_of(proof, rng):
    """The proof in hex, of which some digits are changed."""
    digits = proof.hex() + rng.choice(["", "\n"])
    if rng.randrange(50) == 0:
        at = rng.randrange(len(digits))
        digits = rng.choice([digits[:at] + "g" + digits[at:], digits[1:], digits.upper(), digits + "\n"])
    return digits.encode()


def case_of_proof(sort, rng, proofs):
    """The words of a command that checks one proof, and its input."""
    drawn = sort.drawn(rng)
    if drawn and rng.randrange(10):
        proof, asked = drawn
        return [*sort.command, *words_of(root_of(proof), asked, rng)], digits_of(proof, rng)
    proof, root, question = rng.choice(proofs)
    others = [other for other, _, _ in proofs]
    if rng.randrange(4) == 0:
        asked = [rng.choice(values) for values in zip(question, rng.choice(proofs)[2])]
        proof, question = sort.of_question(proof, question, asked), asked
    asked = sort.words(question)
    if drawn:
        proof, asked = drawn
        root = root_of(proof)
    for _ in range(rng.choice([0, 0, 1, 1, 2, 3])):
        proof = changed(proof, others, rng) or proof
    if rng.randrange(2):
        root = root_of(proof) or root
    return [*sort.command, *words_of(root, asked, rng)], digits_of(proof, rng)


def wanted_of(words, source):
    """What verifiers/verify.py prints, and its status."""
    lines, status = told_of(words, source)
    return text_of(lines).encode(), status
