"""Inputs of the cases, and inputs that are changed from them at random, for tools/checks/try-mutants.

A mutant is made from its number and a seed alone, so each can be made again.
"""
import collections
import dataclasses
import random
import re

from cases.block_files import SECOND_VERSION, block_digest, number
from cases.block_reader import MAX_TXS, Fields, Invalid
from cases.drawn_ranges import drawn_range
from cases.drawn_traces import drawn_trace
from cases.generated_chain import Generated
from cases.light_cases import HEAD_BYTES, frame, light_file
from cases.log_cases import CLOSED, HEAD, MARK, OPEN, frames_of, log_of
from cases.proof_cases import KINDS
from cases.verifier import root_of, verify
from checks.log_runs import held_frames
from checks.program_cases import CONTRACT_CHAINS
from checks.program_runs import TOP

RUN_CASES = f"{TOP}/crates/run_cases"
SEED = 20
# Longer inputs of the cases are left out: they show limits, and take long.
LONGEST = 20_000
GENERATED = (40, 7)
# Where the transactions of a block begin to be counted, after its version, number and parent.
TXS_AT = 37
# How often each command is, of all mutants.
SHARES = {
    "verify": 16, "expose": 7, "trace": 9, "range": 10, "light": 9, "log": 21, "scan": 8, "append": 7, "follow": 7,
    "fmt": 6, "pack": 7,
}
LIGHT_MAKE = ["light", "make"]
# The light files that are made have so many blocks at most.
MAX_LIGHT_BLOCKS = 64
# Numbers at the limits of one, two, four and eight bytes.
LIMITS = [bytes([byte]) * width for width in (1, 2, 4, 8) for byte in (0x00, 0x7F, 0x80, 0xFF)]
LIMITS += [OPEN, *(number(of, 2) for of in (64, 65, 1_024, 8_192)), number(1_048_576, 4), number(1_000_001, 4)]
CONTRACT_PIECES = [
    *b"fn let if else while put drop from fail return int text ( ) { } , ; : = == != <= >= ++ && || ! - \" # \\".split(),
    *b"0 00 9223372036854775807 9223372036854775808 aaaaaaaaaaaaaaaaa \"\\\"\" get_int( hist_block( fwd_key(".split(),
    b"{" * 33, b"(" * 129, b"-" * 65, b"f(" * 100, b"1+" * 65, b" ", b"\n",
]
TOKEN = re.compile(rb'[A-Za-z0-9_./-]+|"(?:[^"\\]|\\.)*"|[ \t\r\n]+|.', re.S)
DRAFT_PIECES = [
    *b"[ ] { } , : \" \\ null true 0 -0 1.0 1e2 1e999 -1 9223372036854775808 18446744073709551616".split(),
    *b"[] {} \"\" \"\\ud800\" \"\\u0041\" \"\\ud83d\\ude00\" 1000000 1000001".split(),
    *b"\"deps\" \"set\" \"call\" \"value\"".split(),
    b"[" * 128, b"9" * 400, b" ", b"\n", b"\xff", b"\xc3\xa9", b"\xef\xbb\xbf",
]


@dataclasses.dataclass
class Mutant:
    """A command over a changed input or log: its words, and what it is called."""

    kind: str
    words: list
    source: bytes = b""
    log: object = None
    # The bytes that the input has in hex, where it is a proof.
    proof: bytes = b""


@dataclasses.dataclass
class Seeds:
    """What the cases have: proofs, each with its words and its log; proofs of ancestors and of ranges, each with its
    words; light files with proofs behind them; logs; block files; block files that are appended to logs, and those that
    are delivered to followers; contracts; drafts."""

    proofs: list
    traces: list
    ranges: list
    lights: list
    logs: list
    files: list
    appended: list
    followed: list
    contracts: list
    drafts: list
    # The transactions of all blocks, each once, as bytes.
    txs: list

    def proof_bytes(self):
        return [proof for _, proof, _ in self.proofs]


def hex_field(field):
    """The bytes of a field of the cases."""
    parts = [part.partition("*") for part in field.split("+")]
    return b"".join(bytes.fromhex(digits) * int(count or 1) for digits, _, count in parts)


def recorded_cases():
    """Of each case that is a command over streams that don't fail: its words, its input, and its disk."""
    with open(f"{RUN_CASES}/stdin") as cases:
        for line in cases:
            words, *fields = line.rstrip("\n").split("|")
            is_plain = len(fields) == 2 or len(fields) == 5 and not fields[2] and not fields[3]
            if is_plain and len(line) < 2 * LONGEST and "*" not in line:
                yield words.split(), hex_field(fields[1]), hex_field(fields[4]) if len(fields) == 5 else b""


def read_hex(source):
    try:
        return verify.read_hex(source)
    except verify.Stop:
        return None


def read_seeds():
    """All that is changed."""
    found = collections.defaultdict(list)
    for words, source, image in recorded_cases():
        command = words[0] if words else ""
        if command in ("verify", "expose"):
            proof = read_hex(source)
            if proof:
                found["proofs"].append((words[1:], proof, image or None))
        elif words[1:2] == ["verify"] and (command, len(words)) in [("trace", 5), ("range", 6)]:
            proof = read_hex(source)
            if proof:
                found[command].append((words[2:], proof))
        elif words == ["light"]:
            found["light"].append(source)
        elif command in ("root", "prove", "upgrade", "trace", "range", *KINDS) or words == LIGHT_MAKE:
            found["logs"].append((words, image))
        elif command in ("scan", "append", "follow", "fmt", "pack"):
            found[command].append((words, source, image or None))
    files = [bytes.fromhex(chain.split("\n")[0]) for chain in open(CONTRACT_CHAINS).read().split("\n\n")]
    files = [file for file in [*files, Generated(*GENERATED).file] if len(file) < LONGEST]
    found["scan"] += [(["scan", "hist", "raw/a", "0"], file, None) for file in files]
    found["append"] += [(["append"], file, None) for file in files]
    found["logs"] += [(["root"], log_of(file)) for file in files]
    return Seeds(
        found["proofs"],
        found["trace"],
        found["range"],
        found["light"],
        found["logs"],
        found["scan"],
        found["append"],
        found["follow"],
        [source for _, source, _ in found["fmt"]],
        [source for _, source, _ in found["pack"]],
        list(dict.fromkeys(tx for _, file, _ in found["scan"] for frame in file_frames(file) for tx in txs_of(frame))),
    )


# ---- changes


def changed(bytes_, others, pieces, rng):
    """Bytes after one change; of the others pieces are taken."""
    if not bytes_:
        return rng.choice(pieces)
    at = rng.randrange(len(bytes_))
    until = min(len(bytes_), at + rng.choice([1, 1, 2, 4, 8, 32, 100]))
    pick = rng.randrange(12)
    if pick < 3:
        return bytes_[:at] + bytes([bytes_[at] ^ 1 << rng.randrange(8)]) + bytes_[at + 1 :]
    if pick < 5:
        byte = rng.choice([rng.randrange(256), bytes_[at] + 1 & 255, bytes_[at] - 1 & 255])
        return bytes_[:at] + bytes([byte]) + bytes_[at + 1 :]
    if pick < 7:
        piece = rng.choice(pieces)
        return bytes_[:at] + piece + bytes_[at + rng.choice([0, len(piece)]) :]
    if pick == 7:
        return rng.choice([bytes_[:at], bytes_[:at] + bytes_[until:], bytes_[at:]])
    if pick == 8:
        return bytes_[:until] + bytes_[at:]
    other = rng.choice(others) or b"\0"
    other_at = min(at, len(other)) if rng.randrange(2) else rng.randrange(len(other))
    if pick < 11:
        piece = other[other_at : other_at + until - at]
        return bytes_[:at] + piece + bytes_[rng.choice([at, until]) :]
    return bytes_[:at] + other[other_at:]


def overwritten(bytes_, others, pieces, rng):
    """Bytes of which a bit, a byte or a piece is another, and which are as many."""
    if not bytes_:
        return bytes_
    at = rng.randrange(len(bytes_))
    other = rng.choice(others) or b"\0"
    other_at = min(at, len(other)) if rng.randrange(2) else rng.randrange(len(other))
    bit = bytes([bytes_[at] ^ 1 << rng.randrange(8)])
    piece = other[other_at : other_at + rng.choice([1, 2, 4, 8, 32])]
    put = rng.choice([bit, bit, bytes([rng.randrange(256)]), rng.choice(pieces), piece])
    return (bytes_[:at] + put + bytes_[at + len(put) :])[: len(bytes_)]


def changes(bytes_, others, pieces, rng):
    """Bytes after some changes, mostly such that keep their number."""
    change = rng.choice([changed, overwritten, overwritten])
    for _ in range(rng.choice([1, 1, 1, 2, 3, 6])):
        bytes_ = change(bytes_, others, pieces, rng)
    return bytes_[: 2 * LONGEST]


def kind_of(token):
    """What a token is, by its first byte: a blank, a text, a number, a word, or that sign."""
    first = token[:1]
    return "blank" if first.isspace() else "number" if first.isdigit() else "word" if first.isalpha() else first


def changed_text(text, others, pieces, rng):
    """A text after some changes of its words and signs, mostly to others of their kind, or of its bytes."""
    if rng.randrange(4) == 0:
        return changes(text, others, pieces, rng)
    tokens = TOKEN.findall(text)
    for _ in range(rng.choice([1, 1, 1, 2, 3])):
        at = rng.randrange(len(tokens) + 1)
        other = TOKEN.findall(rng.choice([text, rng.choice(others)]))
        alike = [token for token in other if at < len(tokens) and kind_of(token) == kind_of(tokens[at])]
        if alike and rng.randrange(2):
            tokens[at] = rng.choice(alike)
            continue
        until = min(len(tokens), at + rng.choice([0, 1, 1, 3, 8]))
        other_at = rng.randrange(len(other) + 1)
        piece = other[other_at : other_at + rng.choice([until - at, 1, 3, 20])]
        tokens[at:until] = rng.choice([piece, piece, tokens[at:until] * 2, [rng.choice(pieces)], []])
    return b"".join(tokens)[: 2 * LONGEST]


def file_frames(file):
    """The frames of a file that may be none: each but the last is whole."""
    frames = frames_of(file) if len(file) < LONGEST else [file]
    return [frame for frame in frames if len(frame) > 4]


def txs_of(frame):
    """The transactions of the block of a frame, as bytes, up to the first that is none."""
    fields = Fields(frame[4:])
    # Its texts are as long as those of any block.
    fields.version, fields.offset = SECOND_VERSION, TXS_AT + 2
    txs, start = [], fields.offset
    try:
        while fields.offset < len(fields.block):
            fields.tx()
            txs.append(fields.block[start : fields.offset])
            start = fields.offset
    except Invalid:
        pass
    return txs


def changed_txs(frame, txs, rng):
    """A frame of which some transactions are left out, doubled, changed, or others."""
    given = txs_of(frame)
    for _ in range(rng.choice([1, 1, 2, 4])):
        at = rng.randrange(len(given) + 1)
        other = rng.choice([rng.choice(txs), *given])
        other = rng.choice([other, other, overwritten(other, txs[:1], LIMITS, rng)])
        given[at : at + rng.randrange(2)] = rng.choice([[other], [other], [], [other] * rng.choice([2, 11])])
    given = given[:MAX_TXS]
    return frame[: 4 + TXS_AT] + number(len(given), 2) + b"".join(given)


def linked(frames, second, rng):
    """Frames whose lengths are right, whose numbers rise from 0, and each of which names the one before, as far
    as they are long enough; those from a number on are of the second version. Now and then one is as it was."""
    parent, given = bytes(32), []
    for at, frame in enumerate(frames):
        block = frame[4:]
        if rng.randrange(40):
            version = block[:1] if at < second else number(SECOND_VERSION, 1)
            block = version + number(at, 4) + parent + block[TXS_AT:]
        parent = block_digest(block)
        given.append(number(len(block), 4) + block)
    return given


def first_of_second(frames, rng):
    """From which of the frames on they are of the second version; of most none is."""
    return len(frames) if rng.randrange(4) else rng.randrange(len(frames) + 1)


def changed_frames(frames, others, txs, rng):
    """Frames of which some are changed behind their heads, left out, doubled, or another's."""
    frames = list(frames)
    for _ in range(rng.choice([1, 1, 2])):
        at = rng.randrange(len(frames) + 1)
        frame = frames[at] if at < len(frames) else rng.choice(file_frames(rng.choice(others)) or [bytes(50)])
        pick = rng.randrange(8)
        if pick < 4:
            frames[at : at + 1] = [changed_txs(frame, txs, rng)]
        elif pick < 5:
            frames[at : at + 1] = [frame[: 4 + TXS_AT] + changes(frame[4 + TXS_AT :], others, LIMITS, rng)]
        elif pick < 7:
            frames.insert(at, frame)
        elif len(frames) > 1:
            del frames[rng.randrange(len(frames))]
    return frames


def changed_file(file, others, txs, rng):
    """A block file after changes of its bytes, or of its blocks."""
    frames = file_frames(file)
    if frames and rng.randrange(3):
        frames = changed_frames(frames, others, txs, rng)
        file = b"".join(linked(frames, first_of_second(frames, rng), rng))
        if rng.randrange(6):
            return file
    return changes(file, others, LIMITS, rng)


def changed_log(image, others, txs, rng):
    """A log after changes of its bytes, or of its blocks; half of the latter are marked, mostly where the blocks of the
    second version begin."""
    frames = held_frames(image)
    if frames and rng.randrange(3):
        frames = changed_frames(frames, others, txs, rng)
        marked = rng.randrange(len(frames) + 1)
        records = linked(frames, rng.choice([marked] * 8 + [len(frames), rng.randrange(len(frames) + 1)]), rng)
        if rng.randrange(2):
            records[marked:marked] = [MARK] * rng.choice([1] * 12 + [2])
        else:
            records = linked(frames, first_of_second(frames, rng), rng)
        image = HEAD + b"".join(OPEN + record for record in records) + CLOSED
        if rng.randrange(6):
            return image
    return changes(image, others, LIMITS, rng)


# ---- mutants


def near(word, rng):
    """A number near another, or at a limit."""
    of = int(word) if re.fullmatch("[0-9]{1,10}", word) else 0
    return str(rng.choice([of] * 12 + [max(of - 1, 0), of + 1, 0, 2**31, 2**32 - 1, 2**32]))


def proof_mutant(kind, seeds, rng):
    """A proof that is changed, mostly against its own root; now and then the question or the digits are."""
    words, proof, log = rng.choice(seeds.proofs)
    while kind == "expose" and len(words) < 5:
        words, proof, log = rng.choice(seeds.proofs)
    words = list(words)
    if rng.randrange(20):
        proof = changes(proof, seeds.proof_bytes(), LIMITS, rng)
    if rng.randrange(3) == 0:
        own = root_of(proof)
        words[0] = own.hex() if own else words[0]
    if rng.randrange(25) == 0:
        at = rng.randrange(len(words))
        words[at] = near(words[at], rng) if at > 2 else rng.choice(rng.choice(seeds.proofs)[0])
    digits = changed_digits(proof, rng)
    proof = read_hex(digits) or b""
    if kind == "verify":
        return Mutant(kind, ["verify", *words[:4]], digits, None, proof)
    if rng.randrange(20) == 0:
        log = changed_log(log or b"", [image for _, image in seeds.logs[-400:]], seeds.txs, rng)
    return Mutant(kind, ["expose", *words], digits, log, proof)


def changed_digits(proof, rng):
    """The hex digits of a proof, which are changed now and then."""
    digits = proof.hex().encode() + rng.choice([b"", b"\n"])
    if rng.randrange(25) == 0:
        digits = changes(digits, [digits.upper(), b"g\n"], [b"0", b"\n", b"\0", b"G", b"FF"], rng)
    return digits


def drawn_mutant(kind, seeds, rng):
    """A proof of ancestors or of a range that is drawn, or changed, mostly against its own root; now and then the
    question or the digits are changed."""
    given, draw = (seeds.traces, drawn_trace) if kind == "trace" else (seeds.ranges, drawn_range)
    words, proof = rng.choice(given)
    words, is_drawn = list(words), rng.randrange(2)
    if is_drawn:
        proof, asked = draw(rng)
        words = [root_of(proof).hex(), *asked]
    if not rng.randrange(6) if is_drawn else rng.randrange(20):
        proof = changes(proof, [other for _, other in given], LIMITS, rng)
    if rng.randrange(2):
        own = root_of(proof)
        words[0] = own.hex() if own else words[0]
    if rng.randrange(25) == 0:
        at = rng.randrange(len(words))
        words[at] = near(words[at], rng) if at > 1 else rng.choice(rng.choice(given)[0])
    digits = changed_digits(proof, rng)
    return Mutant(kind, [kind, "verify", *words], digits, None, read_hex(digits) or b"")


def light_mutant(seeds, rng):
    """A light file with proofs behind it, which is changed, or made anew with proofs that are; for most of these the
    file has the digest and the root to which they lead."""
    if rng.randrange(3) == 0:
        source = changes(rng.choice(seeds.lights), seeds.lights, LIMITS, rng)
    else:
        given = [rng.choice(seeds.proofs)[1] for _ in range(rng.choice([1, 1, 2, 3]))]
        proofs = [changes(proof, seeds.proof_bytes(), LIMITS, rng) if rng.randrange(5) else proof for proof in given]
        source = light_of(proofs, rng) + b"".join(map(frame, proofs))
        if rng.randrange(6) == 0:
            front = source[HEAD_BYTES:]
            source = source[:HEAD_BYTES] + overwritten(front, [front], [*LIMITS, number(1_048_577, 4)], rng)
    words = ["light"] if rng.randrange(60) else rng.choice([["light", "x"], ["light", "0"]])
    return Mutant("light", words, source)


def light_of(proofs, rng):
    """A light file that has, of the root blocks of most of these proofs, what they lead to."""
    entries = [(bytes(32), bytes(32))] * rng.randrange(3)
    for proof in proofs:
        try:
            read = verify.read_proof(proof, verify.OF_ANSWER)
        except verify.Stop:
            continue
        if read.root_block < MAX_LIGHT_BLOCKS and rng.randrange(8):
            entries += [(bytes(32), bytes(32))] * (read.root_block + 1 - len(entries))
            entries[read.root_block] = read.block_digest, verify.root_of(read)
    return light_file([digest for digest, _ in entries], [root for _, root in entries])


def appended_file(image, seeds, rng):
    """A file that is appended to a log: any; or blocks that follow those of the log, of either version."""
    file, held = rng.choice(seeds.appended)[1], held_frames(image)
    if not held or rng.randrange(2):
        return file
    frames = [*held, *file_frames(file)]
    second = rng.choice([len(held), len(frames), first_of_second(frames, rng)])
    return b"".join([*held, *linked(frames, second, rng)[len(held) :]])


def in_any_order(file, rng):
    """The frames of a file, most of them not far from their places; some are lost or repeated."""
    frames, spread = file_frames(file), rng.choice([1, 2, 4, 100])
    frames += rng.choices(frames, k=rng.choice([0, 0, 1, 3])) if frames else []
    kept = rng.choice([1, 1, 0.8])
    placed = [(at + rng.uniform(0, spread), frame) for at, frame in enumerate(frames) if rng.random() < kept]
    return b"".join(frame for _, frame in sorted(placed, key=lambda place: place[0]))


def log_mutant(seeds, rng):
    """A log that is changed, and a question about it, or blocks that are appended to it or delivered to its follower,
    or an upgrade of it."""
    words, image = rng.choice(seeds.logs)
    while not held_frames(image) and rng.randrange(8):
        words, image = rng.choice(seeds.logs)
    others = [log for _, log in rng.choices(seeds.logs, k=4)]
    image = changed_log(image, others, seeds.txs, rng)
    pick = rng.randrange(7)
    if pick == 0:
        file = appended_file(image, seeds, rng)
        if rng.randrange(2):
            return Mutant("follow", ["follow"], in_any_order(file, rng), image)
        return Mutant("append", ["append"], file, image)
    if pick == 6 or words[0] == "upgrade":
        words = rng.choice([["upgrade"]] * 20 + [["upgrade", "0"]])
        return Mutant("upgrade", words, rng.choice([b"", rng.choice(seeds.appended)[1]]), image)
    if pick == 1:
        words = rng.choice([["root"], ["root", str(rng.randrange(4))]])
    elif words[0] != "root" and len(words) > 2:
        front = 3 if is_made(words) else 2
        words = [*words[:front], *(near(word, rng) for word in words[front:])]
    elif words[0] == "root":
        key = rng.choice(["raw/a", "raw/b", "mix/3", "c/log"])
        traces = rng.choice([["trace", key, "0"], ["trace", key, "1"], ["trace", "prove", key, "0", "0"]])
        ranges = [["range", key, "0", "1"], ["range", key, "1", "2"], ["range", "prove", key, "0", "1", "1"]]
        proofs = ["prove", rng.choice(KINDS), key, "0", "0"]
        words = rng.choice([words, [rng.choice(KINDS), key], proofs, traces, rng.choice(ranges), LIGHT_MAKE])
    return Mutant("log", list(words), b"", image)


def is_made(words):
    """Whether words are those of a proof that is made, if they are a command."""
    is_other = words[1:2] == ["prove"] and (words[0], len(words)) in [("trace", 5), ("range", 6)]
    return words[0] == "prove" or is_other


def mutant(place, seeds):
    """The mutant of a number."""
    rng = random.Random(f"{SEED} {place}")
    (kind,) = rng.choices(list(SHARES), SHARES.values())
    if kind in ("verify", "expose"):
        return proof_mutant(kind, seeds, rng)
    if kind in ("trace", "range"):
        return drawn_mutant(kind, seeds, rng)
    if kind == "light":
        return light_mutant(seeds, rng)
    if kind == "log":
        return log_mutant(seeds, rng)
    if kind in ("scan", "append", "follow"):
        given = {"scan": seeds.files, "append": seeds.appended, "follow": seeds.followed}[kind]
        words, file, log = rng.choice(given)
        others = [other for _, other, _ in rng.choices(given, k=4)]
        file = changed_file(file, others, seeds.txs, rng)
        if kind == "follow" and rng.randrange(2):
            file = in_any_order(file, rng)
        if kind == "scan" and len(words) == 4:
            words = [*words[:3], near(words[3], rng)]
        return Mutant(kind, list(words), file, log)
    given, pieces = (seeds.contracts, CONTRACT_PIECES) if kind == "fmt" else (seeds.drafts, DRAFT_PIECES)
    words = rng.choice([[kind], [kind, "2"]])
    return Mutant(kind, words, changed_text(rng.choice(given), rng.choices(given, k=4), pieces, rng))
