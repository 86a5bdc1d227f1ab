"""Commands of the built program, and what each must print, end with and leave.

What is expected was written from docs/formats.md and docs/language.md, never from what the program
printed.
"""
import json

from cases.block_files import block_file
from cases.generated_chain import spelled
from cases.generated_loads import load_line
from cases.light_cases import accepted, frame, light_file, light_file_of
from cases.log_cases import ALREADY, MARK, OPEN, SET_FILE, SET_LINE, SET_LOG, SET_ROWS, frames_of, log_of, upgraded
from cases.proof_cases import answer_of, proof_of
from cases.root_cases import History, Row, block_digests, digest_of, roots
from cases.verifier import text_of
from cases.version_cases import DROPS, EDITIONS, SECOND_SET, of_versions
from checks.log_runs import NO_ROOT
from checks.program_runs import TOP, Case

ONE_SET = f"{TOP}/examples/one-set.blocks"
RECALL = f"{TOP}/examples/recall.blocks"
BANK = f"{TOP}/examples/bank.blocks"
DRAFT = f"{TOP}/examples/supply-chain.json"
# Chains whose rows are written by contracts: the blocks of each in hex, and what `append` tells of them
# but for their roots, which need these rows.
CONTRACT_CHAINS = f"{TOP}/tools/cases/contract_chains.txt"
# A source has at most so many bytes. As the source of a case, a number is that of zeros.
MAX_SOURCE_BYTES = 67_108_864
# The fields of a block before its transactions take 39 bytes: here the last of them is cut.
SHORT_FRAME = bytes([0, 0, 0, 38, 1]) + bytes(37)
CUT_FRAME = bytes([0, 0, 0, 1])
SCAN = b"scan hist raw/a 0"
SET_ANSWER = "block 0 tx 0 int 5\n"
# A draft of the block of ONE_SET, which begins with its length in four bytes.
ONE_DRAFT = b'[[{"set":{"sender":"u","key":"raw/a","value":5}}]]'
with open(ONE_SET, "rb") as one_set:
    ONE_FRAME = one_set.read()
ONE_SECOND_FRAME = ONE_FRAME[:4] + b"\2" + ONE_FRAME[5:]
# The one block that `gen 1` makes, whatever the seed: number 0, no parent, one Deploy.
MIX = (
    b'fn step(a: int) { let k = "raw/" ++ text(a); if has(k) { put "mix/" ++ text(a) = '
    b"hist_block(k, block() - 1); } }"
)
GENERATED = b"".join(
    [bytes([0, 0, 0, 164, 1]), bytes(36), b"\0\1\2", b"\0\3gen", b"\0\3mix", b"\0\x70", MIX]
)
# A proof of what raw/a is in ONE_SET, of 274 bytes, in hex and a line end, and the root to which it
# leads, by docs/proofs.md.
with open(f"{TOP}/examples/raw-a.proof", "rb") as raw_a:
    RAW_A_PROOF = raw_a.read()
RAW_A_ROOT = "41f6c6fc6bc756e479b796f7f09689670bee66ffad0189a20e5bf0574966869d"
VERIFY = f"verify {RAW_A_ROOT} hist raw/a 0".encode()
EXPOSE = f"expose {RAW_A_ROOT} hist raw/a 0 0".encode()
# A block without a transaction, which comes first.
EMPTY_FRAME = block_file([[]])
EMPTY_LOG = log_of(EMPTY_FRAME)
with open(RECALL, "rb") as recall:
    RECALL_FILE = recall.read()
RECALL_LOG = log_of(RECALL_FILE)
RECALL_ROWS = [
    Row("raw/part/p1", 0, 0, "batch 17", []),
    Row("raw/part/p2", 0, 1, "batch 18", []),
    Row("raw/lot/l1", 1, 0, 120, [("raw/part/p1", 0)]),
    Row("raw/lot/l2", 1, 1, 80, [("raw/part/p2", 0)]),
    Row("raw/lot/l3", 2, 0, 200, [("raw/part/p1", 0), ("raw/part/p2", 0)]),
    Row("raw/shop/s1", 2, 1, "l1", [("raw/lot/l1", 1)]),
]
RECALL_ROOTS = roots(frames_of(RECALL_FILE), RECALL_ROWS)
# What `append` tells of its blocks, and tells of them again.
RECALL_LINES = "".join(
    f"block {n} rows 2 status 0,0 root {root}\n" for n, root in enumerate(RECALL_ROOTS)
)
RECALL_KNOWN = "".join(f"known {n}\n" for n in range(3))
FRAMES = frames_of(RECALL_FILE)


def followed(blocks, waiting):
    """The last line of `follow`."""
    return f"follow blocks {blocks} waiting {waiting}\n"


# What was made of the part p1.
USED = """\
block 0 uses 2
raw/lot/l1 1
raw/lot/l3 2
"""
# What the version in the shop was made from; and a proof of that under the root of the last block, of 634 bytes, in
# hex and a line end, by docs/proofs.md. The proof that it starts with ends before the offset 376, where the count of
# items stands, and the items begin at 380 and 530.
S1 = b"trace raw/shop/s1 2"
MADE_FROM = """\
block 2 ancestors 2
raw/part/p1 0
raw/lot/l1 1
"""
with open(f"{TOP}/examples/shop-s1.proof", "rb") as shop_s1:
    S1_PROOF = shop_s1.read()
PROVE_S1 = b"trace prove raw/shop/s1 2 2"
VERIFY_S1 = f"trace verify {RECALL_ROOTS[2]} raw/shop/s1 2".encode()


def s1_proof(count, *items):
    """The proof with so many items, which are pieces of it."""
    pieces = [S1_PROOF[: 2 * 376], b"%08x" % count, *(S1_PROOF[2 * start : 2 * end] for start, end in items), b"\n"]
    return b"".join(pieces)


LOT, PART = (380, 530), (530, 634)

# The stock of two shelves of a shop, a block a day: by the draft, in which block which shelf had how much, worked out
# by hand from what was filled and sold. Each version but the first of a shelf is derived from the one before it.
with open(f"{TOP}/examples/shelf.json", encoding="utf-8") as shelf:
    SHELF_DRAFT = shelf.read()
SHELF_FILE = block_file([[spelled(tx) for tx in block] for block in json.loads(SHELF_DRAFT)])
SHELF_LOG = log_of(SHELF_FILE)
STOCK = {
    "shelf/s7": {
        2: 40, 6: 28, 11: 19, 17: 4, 22: 40, 28: 33, 33: 22, 38: 14, 44: 0, 45: 48, 51: 38, 58: 21, 61: 18, 62: 12,
        64: 36,
    },
    "shelf/s8": {3: 24, 11: 14, 40: 0},
}


def shelf_rows():
    """The rows of these blocks. In block 11 the second shelf is that of the second transaction."""
    for at in range(len(frames_of(SHELF_FILE))):
        for tx, (key, stock) in enumerate((key, stock) for key, stock in STOCK.items() if at in stock):
            earlier = [block for block in stock if block < at]
            yield Row(key, at, tx, stock[at], [(key, earlier[-1])] if earlier else [])


SHELF_ROWS = list(shelf_rows())
SHELF_HEAD = len(frames_of(SHELF_FILE)) - 1
SHELF_ROOTS = [bytes.fromhex(root) for root in roots(frames_of(SHELF_FILE), SHELF_ROWS)]
SHELF_ROOT = SHELF_ROOTS[SHELF_HEAD].hex()
# All that the shelf s7 held in the blocks of one month; and a proof of that under the root of the last block, of 2,685
# bytes, in hex and a line end, by docs/proofs.md. The count of headers stands at the offset 228; then come the headers
# of the blocks 64, 62, 61, 58, 51, 45, 44, 38 and 33, that of block 44 at 1,558, the next one at 1,791 and the last at
# 1,988; and from 2,293 on the bodies of the last seven, of 56 bytes each.
MAY = b"range shelf/s7 31 61"
IN_MAY = """\
versions 7
block 33 tx 0 int 22
block 38 tx 0 int 14
block 44 tx 0 int 0
block 45 tx 0 int 48
block 51 tx 0 int 38
block 58 tx 0 int 21
block 61 tx 0 int 18
"""
with open(f"{TOP}/examples/shelf-s7.proof", "rb") as shelf_s7:
    MAY_PROOF = shelf_s7.read()
PROVE_MAY = b"range prove shelf/s7 31 61 65"
VERIFY_MAY = f"range verify {SHELF_ROOT} shelf/s7 31 61".encode()


def may_proof(count, *pieces):
    """The proof with so many headers, of which these pieces stand behind the count."""
    pieces = [MAY_PROOF[: 2 * 228], b"%08x" % count, *(MAY_PROOF[2 * start : 2 * end] for start, end in pieces), b"\n"]
    return b"".join(pieces)


def link_of(block):
    """The digest of the header of that shelf in a block."""
    return History(SHELF_ROWS).header_digest("shelf/s7", block).hex()


# The proof without the version of the block 44, in which the shelf was empty; without the first version; with that
# once more; and with the first two bodies in place of each other.
WITHOUT_44 = may_proof(8, (232, 1558), (1791, 2517), (2573, 2685))
WITHOUT_33 = may_proof(8, (232, 1988), (2293, 2629))
TWICE_33 = may_proof(10, (232, 2293), (1988, 2293), (2293, 2685), (2629, 2685))
SWAPPED = may_proof(9, (232, 2293), (2349, 2405), (2293, 2349), (2405, 2685))
SECOND_BODY = digest_of(b"\3" + bytes.fromhex(MAY_PROOF[2 * 2349 : 2 * 2405].decode())).hex()

# The light file of these blocks; and what the shop shows of the evening of June 3: questions about its shelves, the
# proofs of them by the root of that block, and what is told of these.
EVENING = 64
ASKED = [("hist", "shelf/s7"), ("back", "shelf/s7"), ("hist", "shelf/s8"), ("hist", "shelf/s9")]
SHELF_LIGHT = light_file_of(SHELF_FILE, SHELF_ROWS)
SHELF_DIGESTS = block_digests(frames_of(SHELF_FILE))


def shelf_proof(kind, key, at):
    """The proof of a question by the root at its block."""
    return proof_of(History(SHELF_ROWS), SHELF_DIGESTS[at], kind, key, at, at)


def shelf_lines(number, kind, key, at):
    """What is told of the proof of this number."""
    return text_of(accepted(number, kind, key, at, at, answer_of(SHELF_ROWS, kind, key, at, at)))


EVENING_PROOFS = [shelf_proof(*asked, EVENING) for asked in ASKED]
EVENING_FRAMES = b"".join(map(frame, EVENING_PROOFS))
EVENING_TOLD = "".join(shelf_lines(number, *asked, EVENING) for number, asked in enumerate(ASKED))
# The light files of the blocks before that one, and of all with another digest and another root of it.
BEFORE_EVENING = light_file(SHELF_DIGESTS[:EVENING], SHELF_ROOTS[:EVENING])
AFTER_EVENING = SHELF_LIGHT[8 + 64 * (EVENING + 1) :]
OTHER_DIGEST = SHELF_LIGHT[: 8 + 64 * EVENING] + bytes(32) + SHELF_ROOTS[EVENING] + AFTER_EVENING
OTHER_ROOT = SHELF_LIGHT[: 8 + 64 * EVENING] + SHELF_DIGESTS[EVENING] + bytes(32) + AFTER_EVENING
# The light files of ONE_SET, of the three blocks of RECALL, and of no block.
SET_LIGHT, RECALL_LIGHT = light_file_of(SET_FILE, SET_ROWS), light_file_of(RECALL_FILE, RECALL_ROWS)
NO_LIGHT = b"LCH1" + bytes(4)
SET_FRAME = frame(bytes.fromhex(RAW_A_PROOF.decode()))
SET_TOLD, SET_TOLD_AS_1 = (f"proof {number} hist raw/a 0 root 0\n{SET_ANSWER}" for number in range(2))

# All versions of a part.
OF_PART, BATCH = b"range raw/part/p1 0 2", "versions 1\nblock 0 tx 0 text batch 17\n"

# A contract of the second edition, and the canonical text of another.
DROPPING = b'fn g() { drop "c/a"; }'
DROPPED_FROM = """\
fn g() {
  drop "c/" ++ "a" from "c/b", "c/a";
}
"""

# A chain of the second version, of which a contract drops a key; and one of two blocks of the first version, with what
# `append` tells of these, and then some of the second.
DROPPED, BOTH = DROPS[0].file(), EDITIONS.file()
BOTH_FIRST = b"".join(frames_of(BOTH)[:2])
BOTH_ROOTS = roots(frames_of(BOTH_FIRST), [Row("d/a", 1, 0, 1, [])])
BOTH_LINES = f"block 0 rows 0 status 16,0,16 root {BOTH_ROOTS[0]}\nblock 1 rows 1 status 0,4 root {BOTH_ROOTS[1]}\n"
SECOND_THEN_FIRST = b"".join(of_versions(2, 1))
# The log of ONE_SET, marked, and one that has no block.
MARKED_LOG, MARKED_EMPTY = log_of(SET_FILE, b""), log_of(b"", b"")
# The block of ONE_SET and one behind it of the second version, the log of both, and the line of the second one.
SET_THEN_SECOND = of_versions(1, 2)
SECOND_LINE = f"block 1 rows 0 status - root {roots(SET_THEN_SECOND, SET_ROWS)[1]}\n"
SET_THEN_SECOND_LOG = log_of(SET_FILE, SET_THEN_SECOND[1])
SECOND_MARK = MARKED_LOG[:-1] + OPEN + MARK + b"\0"
MARKED_RECALL = log_of(frames_of(RECALL_FILE)[0], b"")

CASES = [
    # 0: done. The program's words are those after its own name, from the first to the last.
    Case(SCAN, ONE_SET, "block 0 tx 0 int 5\n", 0),
    Case(b"scan back raw/a 0", ONE_SET, "block 0 deps 0\n", 0),
    Case(b"scan fwd raw/part/p1 2", RECALL, USED, 0),
    Case(b"scan hist raw/b 0", ONE_SET, "none\n", 0),
    Case(b"scan hist bank/n 3", BANK, "block 2 tx 0 int 8\n", 0),
    Case(b"scan fwd bank/n 1", BANK, "block 1 uses 2\nbank/n 2\nbank/log 2\n", 0),
    Case(SCAN, SECOND_SET, SET_ANSWER, 0),
    Case(b"scan hist c/a 1", DROPPED, "block 1 tx 0 int 1\n", 0),
    Case(b"scan hist c/a 3", DROPPED, "block 2 tx 0 gone\n", 0),
    Case(b"scan back c/a 3", DROPPED, "block 2 deps 1\nc/a 1\n", 0),
    Case(b"scan fwd c/a 1", DROPPED, "block 1 uses 1\nc/a 2\n", 0),
    Case(b"scan hist c/a 4", BOTH, "block 4 tx 0 gone\n", 0),
    Case(b"fmt", b"fn f ( a :int ){}# and no more", "fn f(a: int) {\n}\n", 0),
    Case(b"fmt", b"fn f() { let drop = 1; }", "fn f() {\n  let drop = 1;\n}\n", 0),
    Case(b"fmt 2", DROPPING, 'fn g() {\n  drop "c/a";\n}\n', 0),
    Case(b"fmt 2", b'fn g(){drop"c/"++"a"from"c/b","c/a";}', DROPPED_FROM, 0),
    Case(b"pack", b"[]", "", 0),
    Case(b"pack", ONE_DRAFT, ONE_FRAME, 0),
    Case(b"pack 2", b"[]", "", 0),
    Case(b"pack 2", ONE_DRAFT, ONE_SECOND_FRAME, 0),
    Case(b"gen 1 0", b"", GENERATED, 0),
    Case(b"gen 1 7", None, GENERATED, 0, streams="<&-"),
    Case(b"load 1 0", b"", load_line(1, 0), 0),
    Case(b"load 20 7", None, load_line(20, 7), 0, streams="<&-", log=b"hello"),
    # Over the log, which the first block makes.
    Case(b"append", ONE_SET, SET_LINE, 0, after=SET_LOG),
    Case(b"append", ONE_SET, "known 0\n", 0, log=SET_LOG),
    Case(b"append", RECALL, RECALL_LINES, 0, after=RECALL_LOG),
    Case(b"append", RECALL, RECALL_KNOWN, 0, log=RECALL_LOG),
    Case(b"fwd raw/part/p1", None, USED, 0, log=RECALL_LOG),
    Case(b"root 1", None, f"root 1 {RECALL_ROOTS[1]}\n", 0, log=RECALL_LOG),
    Case(b"append", b"", "", 0),
    Case(b"append", ONE_SET, SET_LINE, 0, log=SET_LOG[:1], after=SET_LOG),
    # Blocks in any order: those that come early wait, also at the end, and others are dropped.
    Case(b"follow", b"".join(reversed(FRAMES)), f"kept 2\nkept 1\n{RECALL_LINES}{followed(3, 0)}", 0, after=RECALL_LOG),
    Case(b"follow", RECALL, RECALL_KNOWN + followed(3, 0), 0, log=RECALL_LOG),
    Case(b"follow", FRAMES[2] * 2, f"kept 2\ndropped 1 taken\n{followed(1, 1)}", 0, log=log_of(FRAMES[0])),
    Case(b"follow", FRAMES[1] + b"\0\0\0\1\3", f"kept 1\ndropped 1 malformed 0\n{followed(0, 1)}", 0),
    Case(b"follow", ONE_SET, f"{SET_LINE}{followed(1, 0)}", 0, log=SET_LOG[:1], after=SET_LOG),
    Case(b"follow", FRAMES[1] + bytes(4), "kept 1\nrefused frame 1 length 0\n", 8),
    Case(b"follow", b"", followed(0, 0), 0),
    # The mark, which is put into the log once, and makes it where there is none. Nothing is read.
    Case(b"upgrade", None, upgraded(1), 0, streams="<&-", log=SET_LOG, after=MARKED_LOG),
    Case(b"upgrade", None, ALREADY, 0, streams="<&-", log=MARKED_LOG),
    Case(b"upgrade", None, upgraded(0), 0, after=MARKED_EMPTY),
    Case(b"upgrade", None, upgraded(0), 0, log=SET_LOG[:1], after=MARKED_EMPTY),
    Case(b"upgrade", None, ALREADY, 0, log=MARKED_EMPTY),
    Case(b"upgrade", None, upgraded(3), 0, log=RECALL_LOG, after=log_of(RECALL_FILE, b"")),
    Case(b"append", ONE_SET, "known 0\n", 0, log=MARKED_LOG),
    Case(b"append", b"".join(SET_THEN_SECOND), f"known 0\n{SECOND_LINE}", 0, log=MARKED_LOG, after=SET_THEN_SECOND_LOG),
    Case(b"hist raw/a", None, SET_ANSWER, 0, log=SET_THEN_SECOND_LOG),
    Case(b"prove hist raw/a 0 0", None, RAW_A_PROOF, 0, log=SET_THEN_SECOND_LOG),
    Case(EXPOSE, RAW_A_PROOF, "no clash\n", 0, log=MARKED_LOG),
    # What stood where the mark is put, and behind it.
    Case(b"upgrade", None, upgraded(1), 0, log=SET_LOG + b"junk and more", after=MARKED_LOG + b"and more"),
    # A log that may only be read, in a folder where no file can be made: nor that of the scratch device, which
    # `hist` and `upgrade` don't use, nor a block without rows.
    Case(b"hist raw/a", None, SET_ANSWER, 0, log=SET_LOG, is_read_only=True),
    Case(b"hist raw/a", None, "beyond empty\n", 9, is_read_only=True),
    Case(b"append", EMPTY_FRAME, "known 0\n", 0, log=EMPTY_LOG, is_read_only=True),
    Case(b"append", EMPTY_FRAME, "", 4, log=SET_LOG[:8] + b"\0", is_read_only=True),
    Case(b"append", EMPTY_FRAME, "", 4, is_read_only=True),
    Case(b"append", ONE_SET, "", 12, log=SET_LOG, is_read_only=True),
    Case(b"append", RECALL, "", 12, log=SET_LOG[:8] + b"\0", is_read_only=True),
    Case(b"append", ONE_SET, "", 12, is_read_only=True),
    Case(b"root", None, "", 12, log=SET_LOG, is_read_only=True),
    Case(b"upgrade", None, ALREADY, 0, log=MARKED_EMPTY, is_read_only=True),
    Case(b"upgrade", None, "", 4, log=EMPTY_LOG, is_read_only=True),
    Case(b"upgrade", None, "", 4, is_read_only=True),
    Case(b"upgrade", None, ALREADY, 0, log=MARKED_LOG, is_read_only=True),
    Case(b"upgrade", None, "", 4, log=SET_LOG, is_read_only=True),
    Case(b"load 20 7", None, "", 12, is_read_only=True),
    # What stands behind a closed gate means nothing.
    Case(b"append", ONE_SET, SET_LINE, 0, log=SET_LOG[:8] + b"\0junk", after=SET_LOG),
    Case(b"append", b"", "", 0, log=SET_LOG[:8] + b"\0" + bytes(80)),
    Case(b"hist raw/a", None, SET_ANSWER, 0, log=SET_LOG),
    Case(b"hist raw/a 0", None, SET_ANSWER, 0, streams="<&-", log=SET_LOG),
    Case(b"back raw/a", None, "block 0 deps 0\n", 0, log=SET_LOG),
    Case(b"fwd raw/a 0", None, "block 0 uses 0\n", 0, log=SET_LOG),
    Case(b"hist raw/b", None, "none\n", 0, log=SET_LOG),
    # These don't touch it.
    Case(SCAN, ONE_SET, SET_ANSWER, 0, log=b"hello"),
    Case(SCAN, ONE_SET, SET_ANSWER, 0, log="."),
    Case(b"prove hist raw/a 0 0", None, RAW_A_PROOF, 0, log=SET_LOG),
    Case(b"prove hist raw/a 0 0", None, RAW_A_PROOF, 0, streams="<&-", log=SET_LOG),
    Case(b"prove hist raw/a 0 0", None, "", 12, log=SET_LOG, is_read_only=True),
    # A proof, with digits of either case and with a line end or not.
    Case(VERIFY, RAW_A_PROOF, SET_ANSWER, 0),
    Case(VERIFY, RAW_A_PROOF.rstrip().upper(), SET_ANSWER, 0, log=b"hello"),
    Case(EXPOSE, RAW_A_PROOF, "no clash\n", 0, log=SET_LOG),
    Case(EXPOSE, RAW_A_PROOF.rstrip().upper(), "no clash\n", 0, log=SET_LOG),
    Case(EXPOSE, RAW_A_PROOF, "", 12, log=SET_LOG, is_read_only=True),
    # All that a version was made from, and proofs of that. Where three words are given, the second one is a key.
    Case(S1, None, MADE_FROM, 0, log=RECALL_LOG),
    Case(S1, None, MADE_FROM, 0, streams="<&-", log=log_of(RECALL_FILE, b"")),
    Case(b"trace raw/shop/s1 1", None, "none\n", 0, log=RECALL_LOG),
    Case(b"trace raw/lot/l3 2", None, "block 2 ancestors 2\nraw/part/p1 0\nraw/part/p2 0\n", 0, log=RECALL_LOG),
    Case(b"trace raw/part/p1 2", None, "block 0 ancestors 0\n", 0, log=RECALL_LOG),
    Case(b"trace prove 2", None, "none\n", 0, log=RECALL_LOG),
    Case(b"trace verify 2", None, "none\n", 0, log=RECALL_LOG),
    Case(PROVE_S1, None, S1_PROOF, 0, log=RECALL_LOG),
    Case(PROVE_S1, None, S1_PROOF, 0, streams="<&-", log=RECALL_LOG),
    Case(S1, None, MADE_FROM, 0, log=RECALL_LOG, is_read_only=True),
    Case(PROVE_S1, None, "", 12, log=RECALL_LOG, is_read_only=True),
    Case(VERIFY_S1, S1_PROOF, MADE_FROM, 0),
    Case(VERIFY_S1, S1_PROOF.rstrip().upper(), MADE_FROM, 0, log=b"hello"),
    # All versions between two blocks, and proofs of them. Where four words are given, the second one is a key.
    Case(b"pack", SHELF_DRAFT.encode(), SHELF_FILE, 0),
    Case(MAY, None, IN_MAY, 0, log=SHELF_LOG),
    Case(MAY, None, IN_MAY, 0, streams="<&-", log=log_of(SHELF_FILE, b"")),
    Case(b"range shelf/s7 34 37", None, "versions 0\n", 0, log=SHELF_LOG),
    Case(b"range shelf/s7 44 44", None, "versions 1\nblock 44 tx 0 int 0\n", 0, log=SHELF_LOG),
    Case(b"range shelf/s8 4 65", None, "versions 2\nblock 11 tx 1 int 14\nblock 40 tx 0 int 0\n", 0, log=SHELF_LOG),
    Case(OF_PART, None, BATCH, 0, log=RECALL_LOG),
    Case(b"range raw/part/p9 0 2", None, "versions 0\n", 0, log=RECALL_LOG),
    Case(b"range prove 0 2", None, "versions 0\n", 0, log=RECALL_LOG),
    Case(b"range verify 2 2", None, "versions 0\n", 0, log=RECALL_LOG),
    Case(PROVE_MAY, None, MAY_PROOF, 0, log=SHELF_LOG),
    Case(PROVE_MAY, None, MAY_PROOF, 0, streams="<&-", log=SHELF_LOG),
    Case(MAY, None, IN_MAY, 0, log=SHELF_LOG, is_read_only=True),
    Case(PROVE_MAY, None, "", 12, log=SHELF_LOG, is_read_only=True),
    Case(VERIFY_MAY, MAY_PROOF, IN_MAY, 0),
    Case(VERIFY_MAY, MAY_PROOF.rstrip().upper(), IN_MAY, 0, log=b"hello"),
    # A light file, and proofs that are checked by it. It has the same blocks where the log is marked.
    Case(b"light make", None, SHELF_LIGHT, 0, log=SHELF_LOG),
    Case(b"light make", None, SHELF_LIGHT, 0, streams="<&-", log=log_of(SHELF_FILE, b"")),
    Case(b"light make", None, RECALL_LIGHT, 0, log=RECALL_LOG),
    Case(b"light make", None, NO_LIGHT, 0),
    Case(b"light make", None, NO_LIGHT, 0, log=MARKED_EMPTY),
    Case(b"light make", None, NO_LIGHT, 0, is_read_only=True),
    Case(b"light make", None, light_file_of(EMPTY_FRAME, []), 0, log=EMPTY_LOG, is_read_only=True),
    Case(b"light make", None, "", 12, log=SHELF_LOG, is_read_only=True),
    Case(b"light", SHELF_LIGHT + EVENING_FRAMES, EVENING_TOLD, 0),
    Case(b"light", SET_LIGHT + SET_FRAME, SET_TOLD, 0, log=b"hello"),
    Case(b"light", SET_LIGHT, "", 0, log="."),
    Case(b"light", NO_LIGHT, "", 0),
    # 1: the words are no command: none, too few, one too many before or after those of a command.
    Case(b"", ONE_SET, "usage\n", 1),
    Case(b"scan hist raw/a", ONE_SET, "usage\n", 1),
    Case(b"scan hist raw/a 00", ONE_SET, "usage\n", 1),
    Case(b"scan hist raw/a 0 0", ONE_SET, "usage\n", 1),
    Case(b"x scan hist raw/a 0", ONE_SET, "usage\n", 1),
    Case(b"fmt fmt", b"fn f(){}", "usage\n", 1),
    Case(b"fmt 1", b"fn f(){}", "usage\n", 1),
    Case(b"fmt 02", b"fn f(){}", "usage\n", 1),
    Case(b"fmt 2 2", b"fn f(){}", "usage\n", 1),
    Case(b"pack 1", b"[]", "usage\n", 1),
    Case(b"upgrade 2", None, "usage\n", 1, log=SET_LOG),
    Case(b"upgrade upgrade", None, "usage\n", 1),
    Case(b"gen 0 0", b"", "usage\n", 1),
    Case(b"load 0 0", b"", "usage\n", 1),
    # A word that is no text isn't passed over.
    Case(b"fmt \xff", b"fn f(){}", "usage\n", 1),
    Case(b"scan hist raw/\xff 0", ONE_SET, "usage\n", 1),
    Case(VERIFY + b" 0", RAW_A_PROOF, "usage\n", 1),
    Case(VERIFY.replace(b"c6bc", b"C6bc"), RAW_A_PROOF, "usage\n", 1),
    Case(b"prove hist raw/a 0", None, "usage\n", 1, log=SET_LOG),
    Case(b"prove hist raw/a 0 00", None, "usage\n", 1, log=SET_LOG),
    Case(EXPOSE[:-2], RAW_A_PROOF, "usage\n", 1, log=SET_LOG),
    Case(b"trace raw/shop/s1", None, "usage\n", 1, log=RECALL_LOG),
    Case(b"trace raw/shop/s1 2 2", None, "usage\n", 1, log=RECALL_LOG),
    Case(b"trace raw/shop/s1 02", None, "usage\n", 1, log=RECALL_LOG),
    Case(b"trace hist raw/shop/s1 2 2", None, "usage\n", 1, log=RECALL_LOG),
    Case(b"trace back raw/shop/s1 2", None, "usage\n", 1, log=RECALL_LOG),
    Case(PROVE_S1 + b"a", None, "usage\n", 1, log=RECALL_LOG),
    Case(PROVE_S1 + b" 2", None, "usage\n", 1, log=RECALL_LOG),
    Case(VERIFY_S1.replace(b"c36b", b"C36b"), S1_PROOF, "usage\n", 1),
    Case(VERIFY_S1 + b" 2", S1_PROOF, "usage\n", 1),
    Case(b"range shelf/s7 31", None, "usage\n", 1, log=SHELF_LOG),
    Case(b"range shelf/s7 61 31", None, "usage\n", 1, log=SHELF_LOG),
    Case(b"range shelf/s7 031 61", None, "usage\n", 1, log=SHELF_LOG),
    Case(b"range hist shelf/s7 31 61", None, "usage\n", 1, log=SHELF_LOG),
    Case(MAY + b" 65", None, "usage\n", 1, log=SHELF_LOG),
    Case(b"range prove shelf/s7 61 31 65", None, "usage\n", 1, log=SHELF_LOG),
    Case(PROVE_MAY + b"a", None, "usage\n", 1, log=SHELF_LOG),
    Case(PROVE_MAY + b" 65", None, "usage\n", 1, log=SHELF_LOG),
    Case(VERIFY_MAY.replace(b" 31 61", b" 61 31"), MAY_PROOF, "usage\n", 1),
    Case(VERIFY_MAY + b" 65", MAY_PROOF, "usage\n", 1),
    Case(b"light 0", SET_LIGHT, "usage\n", 1, log=SET_LOG),
    Case(b"light raw/a 0", SET_LIGHT, "usage\n", 1, log=SET_LOG),
    Case(b"light make 0", None, "usage\n", 1, log=SET_LOG),
    Case(b"light make make", None, "usage\n", 1, log=SET_LOG),
    Case(b"make light", None, "usage\n", 1, log=SET_LOG),
    Case(EXPOSE + b"0", RAW_A_PROOF, "usage\n", 1, log=SET_LOG),
    # 2: reading fails, and nothing is printed.
    Case(SCAN, None, "", 2, streams="<&-"),
    Case(b"fmt", None, "", 2, streams="</"),
    Case(b"pack", None, "", 2, streams="<&-"),
    Case(b"append", None, "", 2, streams="<&-"),
    Case(VERIFY_S1, None, "", 2, streams="<&-"),
    Case(VERIFY_MAY, None, "", 2, streams="<&-"),
    Case(b"light", None, "", 2, streams="<&-"),
    Case(b"light", None, "", 2, streams="</"),
    # The log does not take the place of a stream that is closed.
    Case(b"append", None, "", 2, streams="<&-", log=SET_LOG),
    Case(b"append", None, "", 2, streams="<&- >&- 2>&-", log=SET_LOG),
    Case(b"append", None, "", 2, streams="</", log=SET_LOG),
    # 3: writing fails. The block was stored before.
    Case(b"append", ONE_SET, "", 3, streams=">/dev/full", after=SET_LOG),
    Case(b"append", ONE_SET, "", 3, streams=">&-", after=SET_LOG),
    Case(b"append", ONE_SET, "", 3, streams=">&- 2>&-", log=SET_LOG),
    # The mark was put there before, too.
    Case(b"upgrade", None, "", 3, streams=">/dev/full", log=SET_LOG, after=MARKED_LOG),
    Case(b"upgrade", None, "", 3, streams=">&-", log=MARKED_LOG),
    Case(b"hist raw/a", None, "", 3, streams=">&-", log=SET_LOG),
    Case(b"hist raw/a", None, "", 3, streams="<&- >&- 2>&-", log=SET_LOG),
    Case(b"hist raw/a", None, SET_ANSWER, 0, streams="2>&-", log=SET_LOG),
    Case(SCAN, ONE_SET, "", 3, streams=">&-"),
    Case(SCAN, ONE_SET, "", 3, streams=">/dev/full"),
    Case(b"", ONE_SET, "", 3, streams=">/dev/full"),
    Case(b"pack", DRAFT, "", 3, streams=">/dev/full"),
    Case(b"gen 2 0", b"", "", 3, streams=">/dev/full"),
    Case(b"load 2 0", b"", "", 3, streams=">/dev/full"),
    Case(S1, None, "", 3, streams=">/dev/full", log=RECALL_LOG),
    Case(PROVE_S1, None, "", 3, streams=">&-", log=RECALL_LOG),
    Case(VERIFY_S1, S1_PROOF, "", 3, streams=">&-"),
    Case(MAY, None, "", 3, streams=">/dev/full", log=SHELF_LOG),
    Case(PROVE_MAY, None, "", 3, streams=">&-", log=SHELF_LOG),
    Case(VERIFY_MAY, MAY_PROOF, "", 3, streams=">&-"),
    Case(b"light make", None, "", 3, streams=">/dev/full", log=SHELF_LOG),
    Case(b"light make", None, "", 3, streams=">&-"),
    Case(b"light", SET_LIGHT + SET_FRAME, "", 3, streams=">/dev/full"),
    Case(b"light", SET_LIGHT + SET_FRAME, "", 3, streams=">&-"),
    # 4: the log is a folder; a device, of zeros or of nothing; a link to no folder.
    Case(b"append", ONE_SET, "", 4, log="."),
    Case(b"hist raw/a", None, "", 4, log="."),
    Case(b"append", ONE_SET, "", 4, log="/dev/full"),
    Case(b"hist raw/a", None, "", 4, log="/dev/full"),
    Case(b"append", ONE_SET, "", 4, log="/dev/null"),
    Case(b"root", None, "", 4, log="/dev/null"),
    Case(b"light make", None, "", 4, log="."),
    Case(b"light make", None, "", 4, log="/dev/null"),
    Case(b"append", ONE_SET, "", 4, log="none/chain.log"),
    Case(b"upgrade", None, "", 4, log="."),
    Case(b"upgrade", None, "", 4, log="/dev/full"),
    Case(b"upgrade", None, "", 4, log="/dev/null"),
    Case(b"upgrade", None, "", 4, log="none/chain.log"),
    # 5: out of memory, and nothing is printed.
    Case(b"fmt", MAX_SOURCE_BYTES, "", 5, memory=48_000_000),
    # 6 and 7: not a log, and a damaged one; nothing is written.
    Case(b"append", ONE_SET, "not a log\n", 6, log=b"hello"),
    Case(b"hist raw/a", None, "not a log\n", 6, log=b"hello"),
    Case(b"prove hist raw/a 0 0", None, "not a log\n", 6, log=b"hello"),
    Case(b"prove hist raw/a 0 0", None, "damaged at 8\n", 7, log=SET_LOG[:40]),
    Case(EXPOSE, b"zz", "not a log\n", 6, log=b"hello"),
    Case(S1, None, "not a log\n", 6, log=b"hello"),
    Case(PROVE_S1, None, "not a log\n", 6, log=b"hello"),
    Case(MAY, None, "not a log\n", 6, log=b"hello"),
    Case(PROVE_MAY, None, "not a log\n", 6, log=b"hello"),
    Case(MAY, None, "damaged at 8\n", 7, log=SET_LOG[:40]),
    Case(PROVE_MAY, None, "damaged at 8\n", 7, log=SET_LOG[:40]),
    Case(b"light make", None, "not a log\n", 6, log=b"hello"),
    Case(b"light make", None, "damaged at 8\n", 7, log=SET_LOG[:40]),
    Case(S1, None, "damaged at 8\n", 7, log=SET_LOG[:40]),
    Case(PROVE_S1, None, "damaged at 8\n", 7, log=SET_LOG[:40]),
    Case(EXPOSE, b"zz", "damaged at 8\n", 7, log=SET_LOG[:40]),
    Case(b"append", ONE_SET, "damaged at 8\n", 7, log=SET_LOG[:40]),
    Case(b"fwd raw/a 0", None, "damaged at 8\n", 7, log=SET_LOG[:40]),
    Case(b"upgrade", None, "not a log\n", 6, log=b"hello"),
    Case(b"upgrade", None, "damaged at 8\n", 7, log=SET_LOG[:40]),
    # A second mark, a mark at the end of the file, and a block of the other version behind it and before it.
    Case(b"hist raw/a", None, "damaged at 78\n", 7, log=SECOND_MARK),
    Case(b"upgrade", None, "damaged at 78\n", 7, log=SECOND_MARK),
    Case(b"append", ONE_SET, "damaged at 73\n", 7, log=MARKED_LOG[:-1]),
    Case(b"root", None, "damaged at 13\n", 7, log=log_of(b"", SET_FILE)),
    Case(b"root", None, "damaged at 8\n", 7, log=log_of(SECOND_SET, b"")),
    # 8: a frame is refused.
    Case(b"append", SHORT_FRAME, "refused frame 0 malformed 37\n", 8),
    Case(b"append", CUT_FRAME, "refused frame 0 truncated\n", 8, log=SET_LOG),
    Case(b"append", SECOND_SET, "refused frame 0 version 1\n", 8),
    Case(b"append", ONE_FRAME[:4] + b"\3" + ONE_FRAME[5:], "refused frame 0 malformed 0\n", 8),
    Case(b"append", BOTH, f"{BOTH_LINES}refused frame 2 version 1\n", 8, after=log_of(BOTH_FIRST)),
    Case(SCAN, SECOND_THEN_FIRST, "refused frame 1 version 2\n", 8),
    Case(b"append", ONE_SET, "refused frame 0 version 2\n", 8, log=MARKED_EMPTY),
    Case(b"append", RECALL, "known 0\nrefused frame 1 version 2\n", 8, log=MARKED_RECALL),
    Case(SCAN, CUT_FRAME, "refused frame 0 truncated\n", 8),
    Case(SCAN, SHORT_FRAME, "refused frame 0 malformed 37\n", 8),
    # What follows a proof that was rejected or accepted.
    Case(b"light", SET_LIGHT + CUT_FRAME, "refused frame 0 truncated\n", 8),
    Case(b"light", SET_LIGHT + SET_FRAME + bytes(4) + SET_FRAME, f"{SET_TOLD}refused frame 1 length 0\n", 8),
    Case(b"light", SET_LIGHT + RAW_A_PROOF, "refused frame 0 length 878916659\n", 8),
    Case(
        b"light", NO_LIGHT + SET_FRAME + b"\0\x10\0\1",
        "proof 0 rejected unknown 0\nrefused frame 1 length 1048577\n", 8,
    ),
    # 9: there is no such block.
    Case(b"hist raw/a", None, "beyond empty\n", 9),
    Case(b"back raw/a 0", None, "beyond empty\n", 9, log="none/chain.log"),
    Case(b"fwd raw/a 1", None, "beyond head 0\n", 9, log=SET_LOG),
    Case(b"prove fwd raw/a 0 1", None, "beyond head 0\n", 9, log=SET_LOG),
    Case(b"prove fwd raw/a 1 0", None, "beyond head 0\n", 9, log=SET_LOG),
    Case(b"prove fwd raw/a 1 0", None, "beyond empty\n", 9),
    Case(EXPOSE, b"zz", "beyond empty\n", 9),
    Case(EXPOSE[:-1] + b"1", None, "beyond head 0\n", 9, streams="<&-", log=SET_LOG),
    Case(EXPOSE[:-3] + b"1 0", None, "beyond head 0\n", 9, streams="<&-", log=SET_LOG),
    Case(S1, None, "beyond empty\n", 9),
    Case(S1, None, "beyond head 0\n", 9, log=SET_LOG),
    Case(b"trace prove raw/shop/s1 2 3", None, "beyond head 2\n", 9, log=RECALL_LOG),
    Case(b"trace prove raw/shop/s1 2 1", None, "beyond head 2\n", 9, log=RECALL_LOG),
    Case(b"trace prove raw/shop/s1 2 1", None, "beyond empty\n", 9, log=EMPTY_LOG[:8] + b"\0"),
    Case(MAY, None, "beyond empty\n", 9),
    Case(MAY, None, "beyond head 2\n", 9, log=RECALL_LOG),
    Case(b"range shelf/s7 31 66", None, "beyond head 65\n", 9, log=SHELF_LOG),
    Case(b"range shelf/s7 66 66", None, "beyond head 65\n", 9, log=SHELF_LOG),
    Case(b"range prove shelf/s7 31 61 66", None, "beyond head 65\n", 9, log=SHELF_LOG),
    Case(b"range prove shelf/s7 31 61 60", None, "beyond head 65\n", 9, log=SHELF_LOG),
    Case(PROVE_MAY, None, "beyond empty\n", 9, log=EMPTY_LOG[:8] + b"\0"),
    Case(SCAN, b"", "beyond empty\n", 9),
    Case(b"scan hist raw/a 1", ONE_SET, "beyond head 0\n", 9),
    # 10: a proof is not accepted.
    Case(VERIFY, b"", "rejected malformed 0\n", 10),
    Case(VERIFY, b"\n", "rejected malformed 0\n", 10),
    Case(VERIFY, b"00" + RAW_A_PROOF[2:], "rejected malformed 0\n", 10),
    Case(VERIFY, RAW_A_PROOF[:546], "rejected malformed 273\n", 10),
    Case(VERIFY, RAW_A_PROOF[:548] + b"00", "rejected malformed 274\n", 10),
    Case(VERIFY.replace(b"raw/a", b"raw/b"), RAW_A_PROOF, "rejected query\n", 10),
    Case(
        VERIFY.replace(b"41f6", b"41f7"), RAW_A_PROOF, f"rejected root {RAW_A_ROOT}\n", 10
    ),
    Case(EXPOSE, b"\n", "rejected malformed 0\n", 10, log=SET_LOG),
    Case(
        EXPOSE.replace(b"41f6", b"41f7"),
        RAW_A_PROOF,
        f"rejected root {RAW_A_ROOT}\n",
        10,
        log=SET_LOG,
    ),
    Case(VERIFY_S1, b"", "rejected malformed 0\n", 10),
    Case(VERIFY_S1, RAW_A_PROOF, "rejected malformed 0\n", 10),
    Case(VERIFY, S1_PROOF, "rejected malformed 0\n", 10),
    Case(VERIFY_S1, S1_PROOF[:14], "rejected malformed 4\n", 10),
    Case(VERIFY_S1, S1_PROOF[:-3], "rejected malformed 633\n", 10),
    Case(VERIFY_S1, S1_PROOF[:-1] + b"00", "rejected malformed 634\n", 10),
    Case(VERIFY_S1, s1_proof(2**32 - 1, LOT, PART), "rejected malformed 376\n", 10),
    Case(VERIFY_S1, s1_proof(2**32 - 2, LOT, PART), "rejected malformed 634\n", 10),
    Case(VERIFY_S1.replace(b"raw/shop", b"raw/ship"), S1_PROOF, "rejected query\n", 10),
    Case(VERIFY_S1.replace(b"c36b", b"c36c"), S1_PROOF, f"rejected root {RECALL_ROOTS[2]}\n", 10),
    Case(VERIFY_S1, s1_proof(0), "rejected trace missing 1\n", 10),
    Case(VERIFY_S1, s1_proof(1, LOT), "rejected trace missing 2\n", 10),
    Case(VERIFY_S1, s1_proof(1, PART), "rejected trace order 1\n", 10),
    Case(VERIFY_S1, s1_proof(3, LOT, PART, PART), "rejected trace extra 3\n", 10),
    Case(VERIFY_MAY, b"", "rejected malformed 0\n", 10),
    Case(VERIFY_MAY, RAW_A_PROOF, "rejected malformed 0\n", 10),
    Case(VERIFY_MAY, S1_PROOF, "rejected malformed 0\n", 10),
    Case(VERIFY, MAY_PROOF, "rejected malformed 0\n", 10),
    Case(VERIFY_S1, MAY_PROOF, "rejected malformed 0\n", 10),
    Case(VERIFY_MAY, MAY_PROOF[:-3], "rejected malformed 2653\n", 10),
    Case(VERIFY_MAY, MAY_PROOF[:-1] + b"00", "rejected malformed 2685\n", 10),
    Case(VERIFY_MAY.replace(b"s7", b"s8"), MAY_PROOF, "rejected query\n", 10),
    Case(VERIFY_MAY[:-2] + b"62", MAY_PROOF, "rejected query\n", 10),
    Case(VERIFY_MAY.replace(b" 6714", b" 6715"), MAY_PROOF, f"rejected root {SHELF_ROOT}\n", 10),
    Case(VERIFY_MAY, WITHOUT_44, f"rejected link 6 {link_of(38)}\n", 10),
    Case(VERIFY_MAY, WITHOUT_33, "rejected path 8\n", 10),
    Case(VERIFY_MAY, TWICE_33, "rejected path 9\n", 10),
    Case(VERIFY_MAY, SWAPPED, f"rejected body 0 {SECOND_BODY}\n", 10),
    Case(VERIFY_MAY, may_proof(0), "rejected path 0\n", 10),
    # By a light file, one proof or each; and the others are accepted.
    Case(b"light", SET_LIGHT + frame(b"x") + SET_FRAME, f"proof 0 rejected malformed 0\n{SET_TOLD_AS_1}", 10),
    Case(b"light", SET_LIGHT + frame(RAW_A_PROOF), "proof 0 rejected malformed 0\n", 10),
    Case(b"light", NO_LIGHT + SET_FRAME, "proof 0 rejected unknown 0\n", 10),
    Case(b"light", SHELF_LIGHT + SET_FRAME, f"proof 0 rejected digest {SHELF_DIGESTS[0].hex()}\n", 10),
    Case(
        b"light", BEFORE_EVENING + EVENING_FRAMES,
        "".join(f"proof {number} rejected unknown {EVENING}\n" for number in range(len(ASKED))), 10,
    ),
    Case(
        b"light", OTHER_DIGEST + EVENING_FRAMES + frame(shelf_proof(*ASKED[0], EVENING + 1)),
        "".join(f"proof {number} rejected digest {bytes(32).hex()}\n" for number in range(len(ASKED)))
        + shelf_lines(len(ASKED), *ASKED[0], EVENING + 1), 10,
    ),
    Case(
        b"light", OTHER_ROOT + EVENING_FRAMES,
        "".join(f"proof {number} rejected root {SHELF_ROOTS[EVENING].hex()}\n" for number in range(len(ASKED))), 10,
    ),
    # 11: the input is no contract, no draft or no hex, or too long.
    Case(b"fmt", b"fn f()", "badinput syntax 6 end\n", 11),
    Case(b"fmt", DROPPING, "badinput syntax 14 expected\n", 11),
    Case(b"fmt 2", b"fn g() { let drop = 1; }", "badinput syntax 13 expected\n", 11),
    Case(b"fmt 2", b"fn g() { drop 1; }", "badinput check 14 kind\n", 11),
    Case(b"fmt", b"fn f() { a = 1; }", "badinput check 9 unknown\n", 11),
    Case(b"fmt", MAX_SOURCE_BYTES, "badinput syntax 0 byte\n", 11),
    Case(b"fmt", MAX_SOURCE_BYTES + 1, "badinput long\n", 11),
    Case(b"pack", b"[", "badinput json\n", 11),
    Case(b"pack", b"{}", "badinput top\n", 11),
    Case(b"pack", b"[1]", "badinput block 0\n", 11),
    Case(b"pack", b'[[{"set":{}}]]', "badinput draft 0 0\n", 11),
    Case(b"pack 2", b'[[{"set":{}}]]', "badinput draft 0 0\n", 11),
    Case(b"pack", MAX_SOURCE_BYTES + 1, "badinput long\n", 11),
    Case(VERIFY, b"abc", "badinput odd\n", 11),
    Case(EXPOSE, b"abc", "badinput odd\n", 11, log=SET_LOG),
    Case(EXPOSE, MAX_SOURCE_BYTES + 1, "badinput long\n", 11, log=SET_LOG),
    Case(VERIFY, b"zz", "badinput at 0\n", 11),
    Case(VERIFY, RAW_A_PROOF + b"\n", "badinput odd\n", 11),
    Case(VERIFY_S1, b"abc", "badinput odd\n", 11),
    Case(VERIFY_S1, S1_PROOF[:6] + b"g" + S1_PROOF[7:], "badinput at 6\n", 11),
    Case(VERIFY_S1, MAX_SOURCE_BYTES + 1, "badinput long\n", 11),
    Case(VERIFY_MAY, b"abc", "badinput odd\n", 11),
    Case(VERIFY_MAY, MAY_PROOF[:6] + b"g" + MAY_PROOF[7:], "badinput at 6\n", 11),
    Case(VERIFY_MAY, MAX_SOURCE_BYTES + 1, "badinput long\n", 11),
    Case(b"light", b"", "badinput light\n", 11),
    Case(b"light", NO_LIGHT[:-1], "badinput light\n", 11),
    Case(b"light", ONE_SET, "badinput light\n", 11),
    Case(b"light", EVENING_FRAMES, "badinput light\n", 11),
    Case(b"light", SHELF_LIGHT[:-1], "badinput light\n", 11),
    Case(b"light", MAX_SOURCE_BYTES, "badinput light\n", 11),
    # What is read takes memory, and not what is said to follow.
    Case(b"light", b"LCH1" + b"\xff" * 4 + bytes(1_000), "badinput light\n", 11, memory=48_000_000),
    Case(VERIFY, MAX_SOURCE_BYTES, "badinput at 0\n", 11),
    Case(VERIFY, MAX_SOURCE_BYTES + 1, "badinput long\n", 11),
]


def contract_cases():
    """`append` of the chains whose rows are written by contracts, each onto a log that is not there."""
    with open(CONTRACT_CHAINS) as chains:
        for chain in chains.read().split("\n\n"):
            blocks, told = chain.split("\n", 1)
            file = bytes.fromhex(blocks)
            told = "".join(f"{line} root {NO_ROOT}\n" for line in told.strip().split("\n"))
            yield Case(b"append", file, told, 0, after=log_of(file), has_roots=False)
