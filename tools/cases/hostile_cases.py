"""Cases of hostile inputs: proofs and logs of which bytes are changed, and contracts that never end.

What is told of a change that is named here was worked out by hand from docs/proofs.md and docs/formats.md, but
for digests. Those, and what is told of the changes of each byte, are read by verifiers/verify.py and
tools/cases/block_reader.py.
"""
import itertools
from typing import NamedTuple

from cases import forged_lights, forged_ranges, forged_traces
from cases.block_files import (
    FIRST_VERSION, GONE, OK, OUT_OF_STEPS, SECOND_VERSION, block_file, calls, deploys, number, sets,
)
from cases.block_reader import stands_for
from cases.changed_files import CHANGES, written
from cases.fault_cases import LIGHT_INPUT, NO_PROOF, SET_LIGHT
from cases.light_cases import (
    ENTRY_BYTES, HEAD_BYTES, PIECE_BLOCKS, accepted, frame, hex_lines, light_file, light_file_of,
)
from cases.log_cases import (
    ALREADY, BEYOND, CHAINS, CLOSED, DAMAGED, DONE, FIRST_GATE, HEAD, HIST, LONGEST_TEXT, MARK, NOT_A_LOG, OPEN,
    REFUSED, REJECTED, SET_ANSWER, SET_FILE, SET_LOG, SET_ROWS, LogCase, frames_of, log_of, upgraded,
)
from cases.proof_cases import proof_of
from cases.range_cases import FAR_BLOCKS, FAR_PATH, FAR_QUESTION, FAR_STEPS, body_of, header_of, range_proof_of
from cases.range_cases import spelled as spelled_range
from cases.root_cases import History, Row, block_digests, roots
from cases.trace_cases import spelled, trace_proof_of
from cases.verifier import text_of, told_by_light, told_of
from lineage.draft_faults import MAX_BUDGET, MAX_BUDGETS


class Proved(NamedTuple):
    """The words of `verify`, of `trace verify` or of `range verify` with the root of a chain, and the proof of the
    answer."""

    words: str
    proof: bytes

    def told(self, proof, begin):
        """What is told of a proof in place of this one, which begins with these words, and the status."""
        lines, status = told_of(self.words.split(), in_hex(proof))
        assert lines[0].split()[: len(begin.split())] == begin.split(), (lines, begin)
        return text_of(lines), status

    def case(self, proof, begin):
        """Its case: its words, what must be printed, the fields of its line after the piece, and no piece."""
        told, status = self.told(proof, begin)
        return self.words, f"== {status} {self.words}\n{told}", in_hex(proof).hex(), None

    def exposed(self, log, root_at, proof, begin):
        """The case of `expose` over a log with the root of this one, which tells the same of a refused proof."""
        told, status = self.told(proof, begin)
        words = f"{self.words.replace('verify', 'expose')} {root_at}"
        if status == DONE:
            told = "no clash\n"
        return LogCase(words, log, told, status, file=in_hex(proof))


def in_hex(proof):
    return proof.hex().encode("ascii")


def proved(file, rows, kind, key, at, root_at):
    history, digest = History(rows), block_digests(frames_of(file))[root_at]
    root = history.root(root_at, digest).hex()
    return Proved(f"verify {root} {kind} {key} {at}", proof_of(history, digest, kind, key, at, root_at))


def traced(file, rows, key, at, root_at):
    history, digest = History(rows), block_digests(frames_of(file))[root_at]
    root = history.root(root_at, digest).hex()
    return Proved(f"trace verify {root} {key} {at}", trace_proof_of(history, digest, key, at, root_at))


def ranged(file, rows, key, first, last, root_at):
    history, digest = History(rows), block_digests(frames_of(file))[root_at]
    root = history.root(root_at, digest).hex()
    proof = range_proof_of(history, digest, key, first, last, root_at)
    return Proved(f"range verify {root} {key} {first} {last}", proof)


def put(text, offset, byte):
    return text[:offset] + bytes([byte]) + text[offset + 1 :]


def turned(text, offset):
    """The text with the last bit of a byte turned."""
    return put(text, offset, text[offset] ^ 1)


# ---- proofs as they are made


# Three keys, and none of the keys that are asked about.
BETWEEN_FILE = block_file([[sets("raw/b", 1), sets("raw/m", 2), sets("raw/y", 3)]])
BETWEEN_ROWS = [Row("raw/b", 0, 0, 1, []), Row("raw/m", 0, 1, 2, []), Row("raw/y", 0, 2, 3, [])]
BANK_BLOCKS, _, BANK_ROWS, _ = CHAINS[2]
BANK_FILE = block_file(BANK_BLOCKS)
# A chain, a question with the root block, the answer, and how long its proof is, where that was counted.
MADE = [
    (SET_FILE, SET_ROWS, ("hist", "raw/a", 0, 0), SET_ANSWER, 274),
    (BETWEEN_FILE, BETWEEN_ROWS, ("hist", "raw/f", 0, 0), "none\n", 217),
    (BETWEEN_FILE, BETWEEN_ROWS, ("hist", "raw/a", 0, 0), "none\n", 212),
    (BETWEEN_FILE, BETWEEN_ROWS, ("hist", "raw/z", 0, 0), "none\n", 210),
    # The uses of an older version are closed, and those of the newest are open.
    (BANK_FILE, BANK_ROWS, ("fwd", "bank/n", 1, 3), "block 1 uses 2\nbank/n 2\nbank/log 2\n", None),
    (BANK_FILE, BANK_ROWS, ("fwd", "raw/a", 3, 3), "block 0 uses 2\nbank/n 1\nraw/b 3\n", None),
]


def made_proofs():
    """Each is made over the log, and then accepted with the answer."""
    for file, rows, (kind, key, at, root_at), answer, length in MADE:
        made = proved(file, rows, kind, key, at, root_at)
        assert length in (None, len(made.proof)) and made.told(made.proof, "") == (answer, DONE)
        line = made.proof.hex() + "\n"
        yield LogCase(f"prove {kind} {key} {at} {root_at}", log_of(file), line)
        yield LogCase(made.words, b"", answer, file=line.encode("ascii"))


# A chain, a key with its block and the root block, and what the version was made from.
MADE_TRACES = [
    (BANK_FILE, BANK_ROWS, ("bank/log", 3, 3), "block 2 ancestors 2\nraw/a 0\nbank/n 1\n"),
    (BANK_FILE, BANK_ROWS, ("bank/n", 1, 3), "block 1 ancestors 1\nraw/a 0\n"),
    (BANK_FILE, BANK_ROWS, ("raw/a", 3, 3), "block 0 ancestors 0\n"),
    (BANK_FILE, BANK_ROWS, ("raw/z", 3, 3), "none\n"),
    (BETWEEN_FILE, BETWEEN_ROWS, ("raw/f", 0, 0), "none\n"),
]


def made_traces():
    """The same of all ancestors."""
    for file, rows, (key, at, root_at), answer in MADE_TRACES:
        made = traced(file, rows, key, at, root_at)
        assert made.told(made.proof, "") == (answer, DONE)
        line = made.proof.hex() + "\n"
        yield LogCase(f"trace prove {key} {at} {root_at}", log_of(file), line)
        yield LogCase(made.words, b"", answer, file=line.encode("ascii"))


# The same with a key, a first and a last block and the root block, and the versions.
MADE_RANGES = [
    (BANK_FILE, BANK_ROWS, ("bank/n", 0, 3, 3), "versions 2\nblock 1 tx 0 int 5\nblock 2 tx 0 int 8\n"),
    (BANK_FILE, BANK_ROWS, ("bank/n", 0, 1, 3), "versions 1\nblock 1 tx 0 int 5\n"),
    (BANK_FILE, BANK_ROWS, ("bank/n", 2, 2, 2), "versions 1\nblock 2 tx 0 int 8\n"),
    (BANK_FILE, BANK_ROWS, ("bank/n", 0, 0, 3), "versions 0\n"),
    (BANK_FILE, BANK_ROWS, ("raw/b", 3, 3, 3), "versions 1\nblock 3 tx 0 text x\n"),
    (BANK_FILE, BANK_ROWS, ("raw/z", 0, 3, 3), "versions 0\n"),
    (BETWEEN_FILE, BETWEEN_ROWS, ("raw/f", 0, 0, 0), "versions 0\n"),
]


def made_ranges():
    """The same of all versions between two blocks."""
    chosen = [("raw/a", 0, 10, 10), ("raw/a", 3, 8, 10), ("raw/a", 2, 9, 9), ("raw/a", 9, 10, 10), ("raw/a", 0, 1, 10)]
    both = "block 2 tx 0 int 1\nblock 9 tx 0 int 2\n"
    answers = [
        f"versions 2\n{both}", "versions 0\n", f"versions 2\n{both}", "versions 1\nblock 9 tx 0 int 2\n",
        "versions 0\n",
    ]
    over_path = [(PATH_FILE, PATH_ROWS, asked, answer) for asked, answer in zip(chosen, answers)]
    for file, rows, (key, first, last, root_at), answer in [*MADE_RANGES, *over_path]:
        made = ranged(file, rows, key, first, last, root_at)
        assert made.told(made.proof, "") == (answer, DONE)
        line = made.proof.hex() + "\n"
        yield LogCase(f"range prove {key} {first} {last} {root_at}", log_of(file), line)
        yield LogCase(made.words, b"", answer, file=line.encode("ascii"))


# A chain, how it is marked, and its rows: of none, of three keys, of contracts, of two versions of a key far apart, and
# of blocks before and behind a mark. Then questions with their root blocks, and the answers.
MADE_LIGHTS = [
    (b"", b"", [], []),
    (b"", log_of(b"", b""), [], []),
    (SET_FILE, SET_LOG, SET_ROWS, [(("hist", "raw/a", 0, 0), ["block 0 tx 0 int 5"])]),
    (
        BETWEEN_FILE, log_of(BETWEEN_FILE, b""), BETWEEN_ROWS,
        [(("hist", "raw/m", 0, 0), ["block 0 tx 1 int 2"]), (("fwd", "raw/f", 0, 0), ["none"])],
    ),
    (
        BANK_FILE, log_of(BANK_FILE), BANK_ROWS,
        [
            (("fwd", "bank/n", 1, 3), ["block 1 uses 2", "bank/n 2", "bank/log 2"]),
            (("fwd", "bank/n", 1, 1), ["block 1 uses 0"]),
            (("back", "bank/log", 3, 3), ["block 2 deps 1", "bank/n 1"]),
            (("hist", "bank/n", 0, 3), ["none"]),
        ],
    ),
]


def made_lights():
    """The light file of each chain is made over its log. By it the proofs of all questions are accepted with the
    answers; and by the light file of the blocks before the last one those at the last one aren't."""
    for file, log, rows, asked in MADE_LIGHTS:
        light, digests = light_file_of(file, rows), block_digests(frames_of(file))
        yield LogCase("light make", log, "".join(hex_lines(light)), file=b"x", left=1)
        proofs = [frame(proof_of(History(rows), digests[root_at], *of, root_at)) for (*of, root_at), _ in asked]
        answers = [accepted(at, *question, answer) for at, (question, answer) in enumerate(asked)]
        source = light + b"".join(proofs)
        yield LogCase("light", b"", text_of(itertools.chain(*answers)), file=source)
        head = len(digests) - 1
        if head > 0:
            shorter = number_put(light[:-ENTRY_BYTES], head) + b"".join(proofs)
            told = [
                [f"proof {at} rejected unknown {head}"] if question[3] == head else answers[at]
                for at, (question, _) in enumerate(asked)
            ]
            yield LogCase("light", b"", text_of(itertools.chain(*told)), REJECTED, file=shorter)


def long_lights():
    """The light file of one block more than a piece has."""
    file = block_file([[sets("raw/a", 5)], *[[]] * PIECE_BLOCKS])
    light = light_file_of(file, SET_ROWS)
    lines = hex_lines(light)
    assert len(lines) == 3
    yield LogCase("light make", log_of(file), "".join(lines))


def number_put(light, count):
    """The light file with another count of blocks."""
    return light[:4] + number(count, 4) + light[HEAD_BYTES:]


# ---- a proof of one header


# What `raw/a` is in the one block that sets it. Of its fields the kind begins at 4, the block of the question at 12,
# the root block at 16, the count of leaves at 52 and the index of the leaf at 56, the leaf at 60; the length of the
# audit path is at 144, its one hash at 145, the count of headers at 177, the header at 178; the length of its key's
# string at 178, its transaction at 189, the count of its links at 263, the body at 264, its value at 265 and the
# count of its dependencies at 273.
SET_PROVED = proved(SET_FILE, SET_ROWS, "hist", "raw/a", 0, 0)
SET_CHANGES = [
    (0, 0, "malformed 0"),
    (4, 1, "query"),
    (4, 3, "malformed 4"),
    (55, 3, "malformed 144"),
    (177, 0, "malformed 178"),
    (190, 1, "link 0"),
    (263, 33, "malformed 263"),
    (272, 4, "body"),
    (273, 1, "malformed 274"),
]


def named_changes():
    """What is asked, the proof as it is or with a change that is named, and how what is told of it begins."""
    proof = SET_PROVED.proof
    assert len(proof) == 274
    yield SET_PROVED, proof, SET_ANSWER
    for offset, byte, cause in SET_CHANGES:
        yield SET_PROVED, put(proof, offset, byte), f"rejected {cause}"
    yield SET_PROVED, turned(proof, 145), "rejected root"
    yield SET_PROVED, put(proof, 177, 0)[:178], "rejected path 0"
    yield SET_PROVED, proof + b"\0", "rejected malformed 274"
    yield SET_PROVED._replace(words=SET_PROVED.words.replace("raw/a", "raw/b")), proof, "rejected query"
    other_root = SET_PROVED._replace(words=f"verify {'0' * 64} hist raw/a 0")
    yield other_root, proof, f"rejected root {SET_PROVED.words.split()[1]}"


def changed_proofs():
    """The proof with the changes that are named, with each byte changed, and cut at every length."""
    proof = SET_PROVED.proof
    for asked, changed, begin in named_changes():
        yield asked.case(changed, begin)
    for offset in range(len(proof)):
        yield SET_PROVED.case(turned(proof, offset), "rejected")
        yield SET_PROVED.case(proof[:offset], "rejected malformed")


# ---- a proof of two headers, and what is made of its parts


# Eleven blocks, of which two set a key.
PATH_ROWS = [Row("raw/a", 2, 0, 1, []), Row("raw/a", 9, 0, 2, [])]
PATH_FILE = block_file([[], [], [sets("raw/a", 1)], *[[]] * 6, [sets("raw/a", 2)], []])
PATH_PROVED = proved(PATH_FILE, PATH_ROWS, "hist", "raw/a", 7, 10)
NEWEST_PROVED = proved(PATH_FILE, PATH_ROWS, "hist", "raw/a", 9, 10)


def other_paths():
    """Proofs whose headers or bodies are those of others."""
    history = History(PATH_ROWS)
    newest, older = (history.header_text("raw/a", block)[1:] for block in [9, 2])
    newest_body, older_body = (history.body_text(history.row_of("raw/a", block))[1:] for block in [9, 2])
    front, tail = PATH_PROVED.proof, number(2, 1) + newest + older + older_body
    assert front.endswith(tail)
    front = front[: -len(tail)]
    yield PATH_PROVED.case(PATH_PROVED.proof, "block 2 tx 0 int 1")
    yield PATH_PROVED.case(front + number(1, 1) + newest, "rejected path 1")
    yield PATH_PROVED.case(front + number(2, 1) + newest + newest, "rejected link 1")
    yield NEWEST_PROVED.case(NEWEST_PROVED.proof, "block 9 tx 0 int 2")
    assert NEWEST_PROVED.proof.endswith(newest_body)
    yield NEWEST_PROVED.case(NEWEST_PROVED.proof[: -len(newest_body)] + older_body, "rejected body")


# ---- a proof of one ancestor


# The proof of what the version was derived from begins at 8, and its magic, kind and question take 16 bytes; the count
# of items stands before the one item, which is a header of 86 bytes, of which the last counts its links, and a body of
# 10, of which the last counts its dependencies.
TRACE_ROWS = [Row("raw/a", 0, 0, 5, []), Row("raw/b", 1, 0, 6, [("raw/a", 0)])]
TRACE_FILE = block_file([[sets("raw/a", 5)], [sets("raw/b", 6, ["raw/a"])]])
TRACED = traced(TRACE_FILE, TRACE_ROWS, "raw/b", 1, 1)
ITEM_BYTES = 86 + 10


def named_trace_changes():
    """The proof as it is or with a change that is named, and how what is told of it begins."""
    proof, size = TRACED.proof, len(TRACED.proof)
    start_size = int.from_bytes(proof[4:8], "big")
    assert size == 8 + start_size + 4 + ITEM_BYTES
    start, item = proof[8 : 8 + start_size], proof[-ITEM_BYTES:]
    count_at, item_at = 8 + start_size, size - ITEM_BYTES
    yield proof, "block 1 ancestors 1"
    yield start, "rejected malformed 0"
    yield put(proof, 3, 0x32), "rejected malformed 0"
    # The start is said to be shorter, and longer, and longer than all that follows.
    yield put(proof, 7, proof[7] - 1), f"rejected malformed {8 + start_size - 32}"
    yield put(proof, 7, proof[7] + 1), f"rejected malformed {8 + start_size}"
    yield put(proof, 4, 1), "rejected malformed 8"
    yield put(proof, 8 + 3, 0x32), "rejected malformed 8"
    yield put(proof, 8 + 4, 3), f"rejected malformed {8 + 4}"
    yield put(proof, 8 + 4, 0), "rejected query"
    yield put(proof, 8 + 4, 2), f"rejected malformed {8 + start_size}"
    yield put(proof, 8 + 15, 0), f"rejected malformed {8 + start_size - 43 - 10}"
    yield proof[:count_at] + bytes.fromhex("ffffffff") + proof[item_at:], f"rejected malformed {count_at}"
    yield proof[:count_at] + bytes.fromhex("fffffffe") + proof[item_at:], f"rejected malformed {size}"
    yield spelled(start, []), "rejected trace missing 1"
    yield spelled(start, [item] * 2), "rejected trace extra 2"
    yield spelled(start, []) + item, f"rejected malformed {item_at}"
    # The key, the block, the transaction and the body of the item, and its counts of links and dependencies.
    yield put(proof, item_at + 6, ord("c")), "rejected trace order 1"
    yield put(proof, item_at + 10, 1), "rejected trace order 1"
    yield put(proof, item_at + 12, 1), "rejected trace header 1"
    yield put(proof, size - 2, 4), "rejected trace body 1"
    # Of what is wrong at once the place of an item comes first, then its header, then its body, then a further item.
    yield put(put(proof, item_at + 6, ord("c")), item_at + 12, 1), "rejected trace order 1"
    yield put(put(proof, item_at + 6, ord("c")), size - 2, 4), "rejected trace order 1"
    yield put(put(proof, item_at + 12, 1), size - 2, 4), "rejected trace header 1"
    yield spelled(start, [put(item, ITEM_BYTES - 2, 4), item]), "rejected trace body 1"
    yield put(proof, item_at + 85, 33), f"rejected malformed {item_at + 85}"
    yield put(proof, size - 1, 1), f"rejected malformed {size}"


def changed_traces():
    """The proof with the changes that are named, with each byte changed, and cut at every length; and proofs of wrong
    ancestors."""
    for changed, begin in named_trace_changes():
        yield TRACED.case(changed, begin)
    for offset in range(len(TRACED.proof)):
        yield TRACED.case(turned(TRACED.proof, offset), "rejected")
        yield TRACED.case(TRACED.proof[:offset], "rejected malformed")
    for root, forgery in forged_traces.with_roots():
        _, key, at = forgery.question
        yield Proved(f"trace verify {root.hex()} {key} {at}", b"").case(forgery.proof, f"rejected {forgery.refused}")


# ---- a proof of two versions between two blocks


# All versions of `raw/a` over the eleven blocks. Of its fields the key begins at 4, the first block at 11, the last at
# 15, the root block at 19, the count of leaves at 55 and the index of the leaf at 59, the leaf at 63; the length of the
# audit path is at 147, its one hash at 148, the count of headers at 180, the first header at 184. That has four links,
# and so 86 and 4 times 36 bytes; the second one has none, and the bodies are of 10 bytes each.
RANGED = ranged(PATH_FILE, PATH_ROWS, "raw/a", 0, 10, 10)
SECOND_HEADER = 184 + 86 + 4 * 36
BODIES = SECOND_HEADER + 86
RANGE_CHANGES = [
    (3, 0x32, "malformed 0"),
    (5, 0, "malformed 4"),
    (6, 0x20, "malformed 6"),
    (10, ord("b"), "query"),
    (14, 1, "query"),
    # The first block is past the last one, and the last one past the root block.
    (14, 11, "malformed 15"),
    (18, 9, "query"),
    (18, 11, "malformed 19"),
    (22, 9, "malformed 19"),
    (22, 11, "root"),
    (58, 3, "malformed 147"),
    (62, 0, "malformed 63"),
    (148, 0, "root"),
    # Of one header, what follows is read as its body; of three, the bodies as a header, whose key is empty.
    (183, 1, f"malformed {SECOND_HEADER + 10}"),
    (183, 3, f"malformed {BODIES}"),
    (180, 1, f"malformed {BODIES}"),
    (184 + 12, 1, "link 0"),
    (SECOND_HEADER - 1, 0, "link 0"),
    (SECOND_HEADER + 12, 1, "link 1"),
    (SECOND_HEADER + 85, 1, f"malformed {BODIES + 4}"),
    (BODIES + 8, 9, "body 0"),
    (BODIES + 9, 1, f"malformed {BODIES + 10}"),
    (BODIES + 18, 9, "body 1"),
    (BODIES + 19, 1, f"malformed {BODIES + 20}"),
]


def named_range_changes():
    """The proof as it is or with a change that is named, and how what is told of it begins."""
    proof, history = RANGED.proof, History(PATH_ROWS)
    assert len(proof) == BODIES + 20
    front, end = proof[:180], proof[184:]
    newest, older = (header_of(history, "raw/a", block) for block in (9, 2))
    newest_body, older_body = (body_of(history, "raw/a", block) for block in (9, 2))
    assert end == newest + older + newest_body + older_body
    yield RANGED, proof, "versions 2"
    for offset, byte, cause in RANGE_CHANGES:
        yield RANGED, put(proof, offset, byte), f"rejected {cause}"
    yield RANGED, proof + b"\0", f"rejected malformed {len(proof)}"
    yield RANGED, front + number(1, 4) + newest + newest_body, "rejected path 1"
    yield RANGED, front + number(0, 4), "rejected path 0"
    yield RANGED, front + number(2, 4) + newest * 2 + newest_body * 2, "rejected link 1"
    yield RANGED, front + number(2, 4) + older + newest + older_body + newest_body, "rejected link 0"
    yield RANGED, front + number(3, 4) + newest + older * 2 + newest_body + older_body * 2, "rejected path 2"
    yield RANGED, front + number(2, 4) + newest + older + older_body + newest_body, "rejected body 0"
    yield RANGED, front + number(2, 4) + newest + older + newest_body * 2, "rejected body 1"
    yield RANGED, front + bytes.fromhex("ffffffff") + end, f"rejected malformed {BODIES}"
    # A header that is not in the range has no body, and none follows it where the one before it is not in it.
    middle = ranged(PATH_FILE, PATH_ROWS, "raw/a", 3, 8, 10)
    fields = middle.proof[:180]
    assert middle.proof == fields + number(2, 4) + newest + older
    yield middle, middle.proof, "versions 0"
    yield middle, middle.proof + older_body, f"rejected malformed {BODIES}"
    yield middle, fields + number(1, 4) + newest, "rejected path 1"
    yield middle, fields + number(3, 4) + newest + older * 2, "rejected path 2"
    last = ranged(PATH_FILE, PATH_ROWS, "raw/a", 3, 10, 10)
    fields = last.proof[:180]
    assert last.proof == fields + number(1, 4) + newest + newest_body
    yield last, last.proof, "versions 1"
    yield last, fields + number(2, 4) + newest + older + newest_body, "rejected path 1"
    yield last, fields + number(1, 4) + newest + older_body, "rejected body 0"
    root, others = RANGED.words.split()[2], RANGED.words.split()[3:]
    yield RANGED._replace(words=RANGED.words.replace("raw/a", "raw/b")), proof, "rejected query"
    yield RANGED._replace(words=" ".join(["range verify", "0" * 64, *others])), proof, f"rejected root {root}"


def far_ranges():
    """The proof of three versions far behind the newest one, of a key that no log has: with the nine headers that lead
    to them, without one that is on the way, without one of the three, and without the last one."""
    history, head = History([Row("raw/a", at, 0, at, []) for at in FAR_BLOCKS]), FAR_BLOCKS[-1]
    first, last = FAR_QUESTION
    asked = Proved(f"range verify {history.root(head, bytes(32)).hex()} raw/a {first} {last}", b"")
    blocks = [*FAR_PATH, 32, 31]
    assert len(blocks) == FAR_STEPS
    told = [(None, "versions 3"), (36, "rejected link 4"), (32, "rejected link 7"), (31, "rejected path 8")]
    for left_out, begin in told:
        given = [block for block in blocks if block != left_out]
        headers = [header_of(history, "raw/a", block) for block in given]
        bodies = [body_of(history, "raw/a", block) for block in given if first <= block <= last]
        question = "raw/a", first, last
        yield asked.case(spelled_range(history, bytes(32), question, head, "raw/a", headers, bodies), begin)


def changed_ranges():
    """The proof with the changes that are named, with each byte changed, and cut at every length; and proofs of wrong
    versions."""
    for asked, changed, begin in named_range_changes():
        yield asked.case(changed, begin)
    for offset in range(len(RANGED.proof)):
        yield RANGED.case(turned(RANGED.proof, offset), "rejected")
        yield RANGED.case(RANGED.proof[:offset], "rejected malformed")
    for root, forgery in forged_ranges.with_roots():
        _, key, first, last = forgery.question
        asked = Proved(f"range verify {root.hex()} {key} {first} {last}", b"")
        yield asked.case(forgery.proof, f"rejected {forgery.refused}")


# ---- a light file and proofs of which bytes are changed


def checked_by_light(source, begin=""):
    """The case of `light` over an input, whose last line begins with these words."""
    lines, status, left = told_by_light(source)
    assert not begin or lines[-1].startswith(begin), (lines, begin)
    return LogCase("light", b"", text_of(lines), status, file=source, left=left)


# Of the light file of one block the count begins at 4, the digest of the block at 8, the root at 40; the length of the
# frame behind it at 72, and its proof at 76.
FRAMED_AT, PROOF_AT = 72, 76
SET_FRAMED = SET_LIGHT + frame(SET_PROVED.proof)
LIGHT_CHANGES = [
    (0, 0x4D, "badinput light"),
    (3, 0x32, "badinput light"),
    (4, 1, "badinput light"),
    # The file has more blocks than it says, and the first bytes of a digest are a length; or fewer, and a part of the
    # proof is taken for a block.
    (7, 0, "refused frame 0 length "),
    (7, 2, "refused frame 0 truncated"),
    (8, 0, "proof 0 rejected digest 00"),
    (71, 0, "proof 0 rejected root "),
    (FRAMED_AT, 1, "refused frame 0 length "),
    (FRAMED_AT + 3, 0x11, "refused frame 1 truncated"),
    (FRAMED_AT + 3, 0x13, "refused frame 0 truncated"),
    (PROOF_AT, 0x4D, "proof 0 rejected malformed 0"),
    # Another kind of question, and another block of one, are of proofs that lead to the root as well: the answer is
    # that of the proof's own question.
    (PROOF_AT + 4, 1, "block 0 deps 0"),
    (PROOF_AT + 4, 2, "proof 0 rejected malformed 274"),
    (PROOF_AT + 11, ord("b"), "proof 0 rejected path 0"),
    (PROOF_AT + 15, 1, "proof 0 rejected malformed 16"),
    (PROOF_AT + 19, 1, "proof 0 rejected unknown 1"),
    (PROOF_AT + 20, 0, "proof 0 rejected digest "),
    (PROOF_AT + 272, 4, "proof 0 rejected body "),
]


def changed_lights():
    """The light file of one block and a proof behind it with the changes that are named, with each byte changed, and
    cut at every length; with one proof rejected between others; and proofs of wrong answers."""
    assert SET_FRAMED[PROOF_AT:] == SET_PROVED.proof
    yield checked_by_light(SET_FRAMED, "block 0 tx 0 int 5")
    for offset, byte, begin in LIGHT_CHANGES:
        yield checked_by_light(put(SET_FRAMED, offset, byte), begin)
    for offset in range(len(SET_FRAMED)):
        yield checked_by_light(turned(SET_FRAMED, offset))
        yield checked_by_light(SET_FRAMED[:offset])
    good, others = frame(SET_PROVED.proof), [NO_PROOF, frame(turned(SET_PROVED.proof, 20)), frame(b"\0" * 300)]
    for other in others:
        yield checked_by_light(SET_LIGHT + good + other + good, "block 0 tx 0 int 5")
        yield checked_by_light(SET_LIGHT + other + good + bytes(4) + good, "refused frame 2 length 0")
    yield checked_by_light(LIGHT_INPUT + b"\0", "refused frame 2 truncated")
    yield checked_by_light(light_file([], []) + good, "proof 0 rejected unknown 0")
    forged = {}
    for light, forgery, _ in forged_lights.with_files():
        forged.setdefault(light, []).append(forgery)
    for light, forgeries in forged.items():
        yield checked_by_light(light + b"".join(frame(forgery.proof) for forgery in forgeries), "proof")


# ---- a proof of a version that is gone


# Only a contract makes one, so it stands here in blocks that are empty: a proof has no more of a block than its digest.
GONE_ROWS = [Row("raw/a", 0, 0, 1, []), Row("raw/a", 1, 0, GONE, [("raw/a", 0)])]
GONE_FILE = block_file([[], []])


def gone_proofs():
    """It is accepted with that answer; and a tag past that of a value that is gone is invalid."""
    told = [
        ("hist", 0, "block 0 tx 0 int 1"), ("hist", 1, "block 1 tx 0 gone"),
        ("back", 1, "block 1 deps 1"), ("fwd", 0, "block 0 uses 1"), ("fwd", 1, "block 1 uses 0"),
    ]
    for kind, at, begin in told:
        asked = proved(GONE_FILE, GONE_ROWS, kind, "raw/a", at, 1)
        yield asked.case(asked.proof, begin)
    # The body is the tag, the count of dependencies, and one of a key in 7 bytes, a block in 4 and a digest in 32.
    asked = proved(GONE_FILE, GONE_ROWS, "hist", "raw/a", 1, 1)
    tag_at = len(asked.proof) - 1 - 1 - 7 - 4 - 32
    yield asked.case(put(asked.proof, tag_at, 3), f"rejected malformed {tag_at}")


# ---- a proof of a text that is as long as may be


LONG_BLOCKS = [
    [deploys("c", 'fn f() { put "c/a" = get_text("raw/t"); }'), sets("raw/t", LONGEST_TEXT)],
    [calls("c", "f", [], 100, OK, 28)],
]
LONG_FILE = block_file(LONG_BLOCKS, [SECOND_VERSION] * 2)


def long_rows(text):
    return [Row("raw/t", 0, 1, text, []), Row("c/a", 1, 0, text, [("raw/t", 0)])]


def long_proofs():
    """The proofs over a marked log of a text of 8,192 bytes that was set, and of what a contract put from it: made,
    accepted with the answer, and without a clash. A body of one byte more is malformed, whatever root it leads to."""
    rows, log = long_rows(LONGEST_TEXT), log_of(b"", LONG_FILE)
    lines = [
        f"block {at} rows 1 status {status} root {root}\n"
        for at, (status, root) in enumerate(zip(["0,0", "0"], roots(frames_of(LONG_FILE), rows)))
    ]
    yield LogCase("append", log_of(b"", b""), "".join(lines), after=log, file=LONG_FILE)
    for (kind, key, at, root_at), answer in [
        (("hist", "raw/t", 0, 0), f"block 0 tx 1 text {LONGEST_TEXT}\n"),
        (("fwd", "raw/t", 1, 1), "block 0 uses 1\nc/a 1\n"),
        (("hist", "c/a", 1, 1), f"block 1 tx 0 text {LONGEST_TEXT}\n"),
        (("back", "c/a", 1, 1), "block 1 deps 1\nraw/t 0\n"),
    ]:
        made = proved(LONG_FILE, rows, kind, key, at, root_at)
        assert made.told(made.proof, "") == (answer, DONE)
        line = f"{made.proof.hex()}\n".encode("ascii")
        yield LogCase(f"prove {kind} {key} {at} {root_at}", log, line.decode("ascii"))
        yield LogCase(made.words, b"", answer, file=line)
        yield made.exposed(log, root_at, made.proof, "")
    longer = proved(LONG_FILE, long_rows(LONGEST_TEXT + "a"), "hist", "raw/t", 0, 0)
    # The body ends with the count of its dependencies, and before that the text stands behind its length.
    length_at = len(longer.proof) - 1 - len(LONGEST_TEXT + "a") - 2
    assert longer.told(longer.proof, "") == (f"rejected malformed {length_at}\n", REJECTED)
    yield LogCase(longer.words, b"", f"rejected malformed {length_at}\n", REJECTED, file=in_hex(longer.proof))
    yield longer.exposed(log, 0, longer.proof, f"rejected malformed {length_at}")


# ---- changed logs


class Held(NamedTuple):
    """A log of two blocks, that of SET_FILE and one without transactions; and the file of these."""

    file: bytes
    log: bytes

    def lines(self):
        """What `append` tells of the blocks."""
        told = ["block 0 rows 1 status 0", "block 1 rows 0 status -"]
        return [f"{line} root {root}\n" for line, root in zip(told, roots(frames_of(self.file), SET_ROWS))]


TWO_BLOCKS = [[sets("raw/a", 5)], []]
TWO_FILE = block_file(TWO_BLOCKS)
TWO_LOG = log_of(TWO_FILE)
TWO = Held(TWO_FILE, TWO_LOG)
# The same with a mark before the second one, which is of the second version then.
BOTH_FILE = block_file(TWO_BLOCKS, [FIRST_VERSION, SECOND_VERSION])
BOTH = Held(BOTH_FILE, log_of(SET_FILE, frames_of(BOTH_FILE)[1]))
# In a log of one block the length of that block stands at 9, the block at 13, and the last byte of its value at 71;
# the second record begins at the gate at 73.
LOG_CHANGES = [
    (SET_LOG[:9] + bytes.fromhex("ff00003c") + SET_LOG[13:], "damaged at 8\n", DAMAGED),
    (put(SET_LOG, 13, 0), "damaged at 8\n", DAMAGED),
    # A block of the second version, before which a mark would stand.
    (put(SET_LOG, 13, 2), "damaged at 8\n", DAMAGED),
    # No later block speaks against this one.
    (put(SET_LOG, 71, 6), "block 0 tx 0 int 6\n", DONE),
    (put(TWO_LOG, 71, 6), "damaged at 73\n", DAMAGED),
    # In the marked log the gate of the mark stands at 73, its length at 74, the next gate at 78, and the block behind
    # it at 83.
    (put(BOTH.log, 71, 6), "damaged at 78\n", DAMAGED),
    (put(BOTH.log, 83, 1), "damaged at 78\n", DAMAGED),
    (put(BOTH.log, 77, 1), "damaged at 73\n", DAMAGED),
    # A closed gate ends the log before the mark, or behind it.
    (put(BOTH.log, 73, 0x5A), "block 0 tx 0 int 5\n", DONE),
    (put(BOTH.log, 78, 0x5A), "block 0 tx 0 int 5\n", DONE),
]


def wrong(line):
    """What is told of a log that is none, and the status."""
    return line, NOT_A_LOG if line == "not a log\n" else DAMAGED


def answer_over(image):
    """What is told of the key over a log of Sets, and the status."""
    chain, line = stands_for(image)
    if line:
        return wrong(line)
    if not chain.blocks:
        return "beyond empty\n", BEYOND
    version = written(chain.blocks[0]).get("raw/a")
    return f"block 0 {version}\n" if version else "none\n", DONE


def with_records(image, gate, records):
    """A log after records were stored at its closed gate, over what stands there; as it is where there are none."""
    if not records:
        return image
    added = b"".join(OPEN + record for record in records) + CLOSED
    return (HEAD + image[FIRST_GATE:])[:gate] + added + image[gate + len(added) :]


def append_over(held, image):
    """The append of the two blocks over a log of which a byte is changed."""
    chain, line = stands_for(image)
    if line:
        told, status = wrong(line)
        return LogCase("append", image, told, status, file=held.file, left=len(held.file))
    gate, lines = chain.end(), held.lines()
    taken, refused, read = chain.fold(held.file)
    told = "".join(lines[at] if is_new else f"known {at}\n" for at, is_new in taken) + (refused or "")
    after = with_records(image, gate, [frame for frame, (_, is_new) in zip(frames_of(held.file), taken) if is_new])
    status = REFUSED if refused else DONE
    return LogCase("append", image, told, status, after, held.file, left=len(held.file) - read)


def upgrade_over(image):
    """The upgrade of a log of which a byte is changed."""
    chain, line = stands_for(image)
    if line:
        return LogCase("upgrade", image, *wrong(line))
    if chain.is_marked:
        return LogCase("upgrade", image, ALREADY)
    after = with_records(image, chain.end(), [MARK])
    return LogCase("upgrade", image, upgraded(len(chain.frames)), DONE, after)


def commands_over_wrong_logs():
    """Every command over a log that is none or damaged: its input is left."""
    source = in_hex(SET_PROVED.proof)
    expose = f"{SET_PROVED.words.replace('verify', 'expose')} 0"
    wrong_logs = [(image, told, status) for image, told, status in LOG_CHANGES if status == DAMAGED]
    for image, told, status in [*wrong_logs, (turned(SET_LOG, 0), "not a log\n", NOT_A_LOG)]:
        traces = ["trace raw/a 7", "trace prove raw/a 7 7"]
        others = [*traces, "range raw/a 0 7", "range prove raw/a 0 7 7", "light make", "upgrade"]
        for words in ["back raw/a", "fwd raw/a 7", "root", "prove hist raw/a 7 7", expose, *others]:
            yield LogCase(words, image, told, status, file=source, left=len(source))


def changed_logs():
    """The logs with the changes that are named, and with each byte changed in three ways."""
    for image, told, status in LOG_CHANGES:
        assert answer_over(image) == (told, status)
        yield LogCase(HIST, image, told, status)
    named = [image for image, _, _ in LOG_CHANGES]
    for log, held in [(SET_LOG, None), (TWO.log, TWO), (BOTH.log, BOTH)]:
        for offset, byte in enumerate(log):
            for change in CHANGES:
                image = put(log, offset, byte ^ change)
                if image not in named:
                    yield LogCase(HIST, image, *answer_over(image))
                if held:
                    yield append_over(held, image)
                    yield upgrade_over(image)


# ---- contracts that spend what they may


def spent_budgets():
    """A block whose ten calls spend all that the calls of a block may: its words, what must be printed, its file, and
    no piece."""
    endless, count = calls("c", "f", [], MAX_BUDGET, OUT_OF_STEPS, MAX_BUDGET), MAX_BUDGETS // MAX_BUDGET
    file = block_file([[deploys("c", "fn f() { while 1 { } }")], [endless] * count])
    ended = "".join(f"tx {at} status {endless.status} cost {endless.cost}\n" for at in range(count))
    words = "blocks calls that spend the greatest budgets"
    printed = f"== {words}\nblock 0 rows 0\ntx 0 status {OK} cost 0\nblock 1 rows 0\n{ended}answers 0\n"
    return words, printed, file.hex(), None


def hostile_cases():
    """All cases, as tools/cases/log_cases.py gives its own."""
    yield spent_budgets()
    yield from dict.fromkeys(changed_proofs())
    yield from dict.fromkeys(changed_traces())
    yield from dict.fromkeys(changed_ranges())
    yield from far_ranges()
    yield from other_paths()
    yield from gone_proofs()
    exposed = (asked.exposed(SET_LOG, 0, changed, begin) for asked, changed, begin in named_changes())
    made = made_proofs(), made_traces(), made_ranges(), made_lights(), long_lights(), long_proofs()
    for case in itertools.chain(*made, exposed, changed_lights(), commands_over_wrong_logs(), changed_logs()):
        yield case.case()
