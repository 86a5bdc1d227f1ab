"""Runs of the built program over long chains, great blocks and long answers, and at the limits of
blocks, drafts and chains: at the last good value, and one past it.

They are cases of tools/checks/check-program. What is expected is worked out from docs/formats.md, by the
readers and writers of this folder, never by the program.
"""
import itertools
import json

from cases.block_files import BAD_SOURCE, FIRST_VERSION, NO_CONTRACT, OK, SECOND_VERSION, block_digest, block_file
from cases.block_files import calls, deploys, number, sets, string
from cases.follow_model import MAX_AHEAD
from cases.generated_chain import Generated, spelled
from cases.generated_loads import growing_links, links, load_line
from cases.growing_proofs import ProvingLedger
from cases.growing_roots import growing_roots
from cases.light_cases import MAX_FRAME_BYTES, accepted, frame, light_file
from cases.log_cases import BEYOND, DONE, REFUSED, REJECTED, frames_of, log_of, upgraded
from cases.proof_cases import KINDS, proof_of
from cases.proof_cases import MAGIC as PROOF_MAGIC
from cases.range_cases import body_of, header_of, range_of, range_proof_of, way
from cases.range_cases import spelled as range_proof
from cases.root_cases import History, Row, block_digests, digest_of, roots, uses_digest
from cases.trace_cases import trace_of, trace_proof_of
from cases.verifier import root_of, text_of, told_of
from checks.program_cases import followed
from checks.program_runs import Case

BAD_INPUT = 11
MAX_TXS = 4_096
MAX_BLOCK_BYTES = 1_048_576
MAX_BLOCKS = 1_048_576
# In a block of each version.
MAX_TEXT_BYTES = {FIRST_VERSION: 1_024, SECOND_VERSION: 8_192}
MAX_SOURCE_BYTES = 16_384
MAX_DEPS = 64
MAX_FRAMES = 2_097_152
MAX_KEY_BYTES = 64
MAX_ARGS = 8
MAX_CALL_BUDGET = 1_000_000
# The fields of a block before its transactions, and where among them the count of these stands.
FRONT_BYTES = 39
COUNT_OFFSET = 37


def run(words, source, printed, status=DONE, **fields):
    return Case(words, source, printed, status, **fields)


class Chain:
    """A block file with the rows that its blocks write, and what is told of them."""

    def __init__(self, file, rows, plain_lines):
        self.file, self.rows = file, rows
        self.frames = frames_of(file)
        self.log = log_of(file)
        self.ledger = ProvingLedger()
        self.roots = list(growing_roots(self.frames, rows, self.ledger))
        told = [f"{line} root {root}\n" for line, root in zip(plain_lines, self.roots)]
        self.lines = "".join(told)
        self.known = "".join(f"known {at}\n" for at in range(len(self.frames)))
        self.head = len(self.frames) - 1
        self.digest = block_digests(self.frames)[-1]

    def append_runs(self):
        yield run(b"append", self.file, self.lines, after=self.log)
        yield run(b"append", self.file, self.known, log=self.log)
        marked = log_of(self.file, b"")
        yield run(b"upgrade", None, upgraded(len(self.frames)), log=self.log, after=marked)
        yield run(b"append", self.file, self.known, log=marked)

    def root_runs(self, *blocks):
        last = f"root {self.head} {self.roots[self.head]}\n"
        yield run(b"root", None, last, log=self.log)
        for at in blocks:
            yield run(b"root %d" % at, None, f"root {at} {self.roots[at]}\n", log=self.log)
        beyond = f"beyond head {self.head}\n"
        yield run(b"root %d" % (self.head + 1), None, beyond, BEYOND, log=self.log)

    def question_runs(self, kind, key, *blocks):
        """A question over the log and over the file."""
        for at in blocks:
            question = f"{kind} {key} {at}".encode()
            answer = ANSWERS[kind](self.rows, self.version(key, at))
            yield run(question, None, answer, log=self.log)
            yield run(b"scan " + question, self.file, answer)

    def version(self, key, at):
        """The newest version of a key in the blocks up to one; none where there is none."""
        found = [row for row in self.rows if row.key == key and row.block <= at]
        return found[-1] if found else None


def told_value(value):
    return f"int {value}" if isinstance(value, int) else f"text {value}"


def hist_answer(_, row):
    return f"block {row.block} tx {row.tx} {told_value(row.value)}\n" if row else "none\n"


def listed(word, block, places):
    return "".join([f"block {block} {word} {len(places)}\n", *(f"{key} {at}\n" for key, at in places)])


def back_answer(_, row):
    return listed("deps", row.block, row.deps) if row else "none\n"


def fwd_answer(rows, row):
    if not row:
        return "none\n"
    users = [user for user in rows if (row.key, row.block) in user.deps]
    return listed("uses", row.block, [(user.key, user.block) for user in users])


ANSWERS = {"hist": hist_answer, "back": back_answer, "fwd": fwd_answer}


def chain_of_sets(blocks, version=FIRST_VERSION):
    """A chain of blocks of Sets that all write their rows, each a key, a value and dependencies: a key
    and the block of its newest version. All blocks have one version."""
    rows, files, lines = [], [], []
    for at, block in enumerate(blocks):
        rows += [Row(key, at, tx, value, deps) for tx, (key, value, deps) in enumerate(block)]
        files.append([sets(key, value, [dep for dep, _ in deps]) for key, value, deps in block])
        statuses = ",".join(["0"] * len(block)) or "-"
        lines.append(f"block {at} rows {len(block)} status {statuses}")
    return Chain(block_file(files, itertools.repeat(version)), rows, lines)


# ---- many blocks


def compare_roots():
    """Fails where the roots of a short chain are others than those that are worked out from all rows."""
    made = Generated(24, 7)
    frames = frames_of(made.file)
    if list(growing_roots(frames, made.rows)) != roots(frames, made.rows):
        raise ValueError("the roots of a generated chain differ")


def compare_links():
    """Fails where the links of the versions of a short chain are others than those that are worked out from all of
    them."""
    blocks = {}
    for row in Generated(200, 7).rows:
        blocks.setdefault(row.key, []).append(row.block)
    for versions in blocks.values():
        if growing_links(versions) != {block: links(versions, block) for block in versions}:
            raise ValueError("the links of a generated chain differ")


def generated_runs():
    """`gen 2000 7`, what becomes of it, `load 2000 7`, and the same chain as a draft; and `load 20000 7`."""
    compare_roots()
    compare_links()
    made = Generated(2_000, 7)
    chain = Chain(made.file, made.rows, made.plain_lines())
    yield run(b"gen 2000 7", b"", made.file)
    yield run(b"load 2000 7", b"", load_line(2_000, 7))
    yield run(b"load 20000 7", b"", load_line(20_000, 7), seconds=60)
    yield run(b"pack", json.dumps(made.draft).encode(), made.file)
    yield from chain.append_runs()
    yield from chain.root_runs(0, 1_000)
    # The other half is appended to the first.
    half = b"".join(chain.frames[:1_000])
    known = "".join(f"known {at}\n" for at in range(1_000))
    told = "".join(chain.lines.splitlines(keepends=True)[1_000:])
    yield run(b"append", made.file, known + told, log=log_of(half), after=chain.log)
    for kind in ANSWERS:
        for key in ["raw/3", "mix/3", made.rows[-1].key]:
            yield from chain.question_runs(kind, key, 1_000, 1_999)
    beyond = "beyond head 1999\n"
    yield run(b"hist raw/3 2000", None, beyond, BEYOND, log=chain.log)
    yield run(b"scan hist raw/3 2000", made.file, beyond, BEYOND)


def level_runs():
    """33 versions of one key, each eight blocks after the one before: so all are at the levels 0 to 3."""
    blocks = [[("raw/a", at, [])] if at % 8 == 0 else [] for at in range(8 * 32 + 1)]
    chain = chain_of_sets(blocks)
    yield from chain.append_runs()
    yield from chain.root_runs(0, 128)
    yield from chain.question_runs("hist", "raw/a", 0, 7, 8, 129, 255, 256)


def full_runs():
    """As many blocks as a chain may have, each without a transaction, and one more."""
    frames, parent = [], bytes(32)
    for at in range(MAX_BLOCKS + 1):
        block = b"\1%b%b\0\0" % (number(at, 4), parent)
        parent = block_digest(block)
        frames.append(b"\0\0\0%c%b" % (FRONT_BYTES, block))
    one_more = frames.pop()
    whole = b"".join(frames)
    last = MAX_BLOCKS - 1
    yield run(b"scan hist raw/a %d" % last, whole, "none\n")
    yield run(b"scan hist raw/a %d" % MAX_BLOCKS, whole, f"beyond head {last}\n", BEYOND)
    full = f"refused frame {MAX_BLOCKS} full\n"
    yield run(b"scan hist raw/a 0", whole + one_more, full, REFUSED)
    log = log_of(whole)
    yield run(b"append", one_more, "refused frame 0 full\n", REFUSED, log=log)
    yield run(b"follow", one_more, f"dropped 0 full\nfollow blocks {MAX_BLOCKS} waiting 0\n", log=log)
    yield run(b"upgrade", None, upgraded(MAX_BLOCKS), log=log, after=log_of(whole, b""))
    yield run(b"range raw/a 0 %d" % last, None, "versions 0\n", log=log)


# ---- great blocks


def txs_runs():
    """A block of as many transactions as it may have, and one of one more."""
    most = [(f"raw/{at}", at, []) for at in range(MAX_TXS)]
    chain = chain_of_sets([most])
    yield from chain.append_runs()
    yield from chain.root_runs()
    yield from chain.question_runs("hist", f"raw/{MAX_TXS - 1}", 0)
    more = block_file([[sets("raw/a", 1)] * (MAX_TXS + 1)])
    yield from refused_runs(more, f"malformed {COUNT_OFFSET}")
    draft = [{"set": {"sender": "u", "key": key, "value": value}} for key, value, _ in most]
    yield run(b"pack", json.dumps([draft]).encode(), chain.file)
    draft.append(draft[0])
    yield run(b"pack", json.dumps([[], draft]).encode(), "badinput block 1\n", BAD_INPUT)
    yield from second_txs_runs(most)


def second_txs_runs(most):
    """The same blocks of the second version, for which the log is marked first."""
    chain = chain_of_sets([most], SECOND_VERSION)
    marked, after = log_of(b"", b""), log_of(b"", chain.file)
    yield run(b"append", chain.file, chain.lines, log=marked, after=after)
    yield run(b"append", chain.file, chain.known, log=after)
    yield run(b"follow", chain.file, chain.lines + followed(1, 0), log=marked, after=after)
    yield run(b"hist raw/%d 0" % (MAX_TXS - 1), None, f"block 0 tx {MAX_TXS - 1} int {MAX_TXS - 1}\n", log=after)
    yield run(b"scan fwd raw/0 0", chain.file, "block 0 uses 0\n")
    more = block_file([[sets("raw/a", 1)] * (MAX_TXS + 1)], [SECOND_VERSION])
    yield from refused_runs(more, f"malformed {COUNT_OFFSET}")
    draft = [{"set": {"sender": "u", "key": key, "value": value}} for key, value, _ in most]
    yield run(b"pack 2", json.dumps([draft]).encode(), chain.file)
    yield run(b"pack 2", json.dumps([[], [*draft, draft[0]]]).encode(), "badinput block 1\n", BAD_INPUT)


def sets_of_bytes(size):
    """Sets of one text each, in a block of so many bytes."""
    left, block = size - FRONT_BYTES, []
    while left:
        key = f"raw/{len(block):04}"
        around = len(sets(key, "").bytes)
        # The last one needs room for what is around its text.
        text = min(MAX_TEXT_BYTES[FIRST_VERSION], left - around)
        if 0 < left - around - text < around:
            text -= around
        block.append((key, "a" * text, []))
        left -= around + text
    return block


def long_block_runs():
    """A block of as many bytes as it may have, and one of one more."""
    block = sets_of_bytes(MAX_BLOCK_BYTES)
    chain = chain_of_sets([block])
    assert len(chain.frames[0]) == 4 + MAX_BLOCK_BYTES
    yield from chain.append_runs()
    yield from chain.root_runs()
    yield from chain.question_runs("hist", block[-1][0], 0)
    longer = sets_of_bytes(MAX_BLOCK_BYTES + 1)
    more = block_file([[sets(key, value) for key, value, _ in longer]])
    yield from refused_runs(more, f"length {MAX_BLOCK_BYTES + 1}")
    for txs, printed, status in [
        (block, chain.file, DONE),
        (longer, "badinput block 0\n", BAD_INPUT),
    ]:
        draft = [{"set": {"sender": "u", "key": key, "value": value}} for key, value, _ in txs]
        yield run(b"pack", json.dumps([draft]).encode(), printed, status)


def deploys_of_bytes(size):
    """Deploys of sources that are none, as long as they may be but for the last, in a block of so many bytes."""
    left, block = size - FRONT_BYTES, []
    around = len(deploys("c", "").bytes)
    while left:
        source = "\0" * min(MAX_SOURCE_BYTES, left - around)
        block.append(deploys("c", source, BAD_SOURCE))
        left -= around + len(source)
    return block


def waiting_runs():
    """Blocks as long as a block may be: as many as may wait, the last of them first, and then the one that they wait
    for: more than 64 MB wait together."""
    block = deploys_of_bytes(MAX_BLOCK_BYTES)
    file = block_file([block] * (MAX_AHEAD + 1))
    assert len(file) == (4 + MAX_BLOCK_BYTES) * (MAX_AHEAD + 1)
    statuses = ",".join([str(BAD_SOURCE)] * len(block))
    chain = Chain(file, [], [f"block {at} rows 0 status {statuses}" for at in range(MAX_AHEAD + 1)])
    kept = "".join(f"kept {at}\n" for at in range(MAX_AHEAD, 0, -1))
    told = kept + chain.lines + followed(MAX_AHEAD + 1, 0)
    yield run(b"follow", b"".join(reversed(chain.frames)), told, after=chain.log)


def refused_runs(file, cause):
    """The first frame of a file is refused, and no log is made."""
    refused = f"refused frame 0 {cause}\n"
    yield run(b"scan hist raw/a 0", file, refused, REFUSED)
    yield run(b"append", file, refused, REFUSED)


# ---- long answers


def uses_runs():
    """A version from which 5,000 others were derived, in two blocks."""
    source = ("raw/s", 0)
    users = [[(f"raw/{at}-{i}", i, [source]) for i in range(2_500)] for at in (1, 2)]
    chain = chain_of_sets([[("raw/s", 1, [])], *users])
    yield from chain.append_runs()
    yield from chain.root_runs(1)
    yield from chain.question_runs("fwd", "raw/s", 0, 2)


def long_proof_runs():
    """A proof of more bytes than a frame may have that is made: of 16,000 uses by keys as long as they may be. It is
    verified, and verifiers/verify.py takes it, too."""
    source = ("raw/s", 0)
    users = [
        [(f"raw/{at}-{i}".ljust(MAX_KEY_BYTES, "."), i, [source]) for i in range(4_000)] for at in range(1, 5)
    ]
    chain = chain_of_sets([[("raw/s", 1, [])], *users])
    uses = [(row.key, row.block) for row in chain.rows[1:]]
    proof = chain.ledger.proof_of_uses("raw/s", 0, chain.head, chain.digest, uses)
    assert len(proof) > MAX_FRAME_BYTES
    line, told = proof.hex() + "\n", listed("uses", 0, uses)
    question = "fwd raw/s 0"
    verify = f"verify {chain.roots[-1]} {question}"
    if told_of(verify.split(), line.encode()) != (told.splitlines(), DONE):
        raise ValueError("the second verifier doesn't take a long proof")
    yield run(question.encode(), None, told, log=chain.log)
    yield run(f"prove {question} {chain.head}".encode(), None, line, log=chain.log)
    yield run(verify.encode(), line.encode(), told)


def ancestors_runs(chain, key):
    """All ancestors of the last version of a key, and the proof of them, made and verified."""
    history, head = History(chain.rows), chain.head
    for row in chain.rows:
        # What a row names comes before it, so that no header waits for many others.
        history.header_digest(row.key, row.block)
    told = text_of(trace_of(chain.rows, key, head))
    proof = trace_proof_of(history, block_digests(chain.frames)[head], key, head, head).hex() + "\n"
    yield run(f"trace {key} {head}".encode(), None, told, log=chain.log)
    yield run(f"trace prove {key} {head} {head}".encode(), None, proof, log=chain.log)
    yield run(f"trace verify {chain.roots[head]} {key} {head}".encode(), proof.encode(), told)


def trace_runs():
    """A version with 1,025 ancestors in a line; and one with 448, each derived from all 64 of the block before."""
    last = 1_025
    line = [[(f"raw/{at}", at, [(f"raw/{at - 1}", at - 1)] if at else [])] for at in range(last + 1)]
    yield from ancestors_runs(chain_of_sets(line), f"raw/{last}")
    width = range(MAX_DEPS)
    net = [
        [(f"raw/{at}-{i}", i, [(f"raw/{at - 1}-{j}", at - 1) for j in width] if at else []) for i in width]
        for at in range(8)
    ]
    yield from ancestors_runs(chain_of_sets(net), "raw/7-0")


class LongHistory(History):
    """Rows of a key with many versions, whose links are worked out once."""

    def __init__(self, rows, key):
        super().__init__(rows)
        self.linked = growing_links(self.blocks_of(key))
        for block in self.linked:
            # So no header waits for many others.
            self.header_digest(key, block)

    def links(self, key, block):
        return self.linked[block]


def range_runs():
    """All versions of a key that 600 blocks set, and some of them, and proofs of that: with more headers than a proof
    of an answer may have. A version is left out behind the first 256 headers."""
    key, head = "raw/a", 599
    chain = chain_of_sets([[(key, at, [])] for at in range(head + 1)])
    history, digest, root = LongHistory(chain.rows, key), block_digests(chain.frames)[head], chain.roots[head]
    if chain.ledger.whole_range_proof(key, head, digest) != range_proof_of(history, digest, key, 0, head, head):
        raise ValueError("the proof of a long range differs")
    for first, last in [(0, head), (100, 500), (head - 9, head), (300, 300)]:
        told = text_of(range_of(chain.rows, key, first, last))
        proof = range_proof_of(history, digest, key, first, last, head).hex() + "\n"
        yield run(f"range {key} {first} {last}".encode(), None, told, log=chain.log)
        yield run(f"range prove {key} {first} {last} {head}".encode(), None, proof, log=chain.log)
        yield run(f"range verify {root} {key} {first} {last}".encode(), proof.encode(), told)
    for far in (head + 1_000_001, 2**32 - 1):
        beyond = f"beyond head {head}\n"
        yield run(f"range {key} 0 {far}".encode(), None, beyond, BEYOND, log=chain.log)
        yield run(f"range prove {key} 0 {far} {head}".encode(), None, beyond, BEYOND, log=chain.log)
        question = f"range verify {root} {key} 0 {far}".encode()
        yield run(question, proof.encode(), "rejected query\n", REJECTED)
    blocks = way(history, key, 0, head, head)
    step, verify = 300, f"range verify {root} {key} 0 {head}".encode()
    left = blocks[:step] + blocks[step + 1 :]
    parts = [[part(history, key, block) for block in left] for part in (header_of, body_of)]
    proof = range_proof(history, digest, (key, 0, head), head, key, *parts).hex().encode()
    link = history.header_digest(key, blocks[step + 1]).hex()
    yield run(verify, proof, f"rejected link {step} {link}\n", REJECTED)
    parts = [[part(history, key, block) for block in blocks[:step]] for part in (header_of, body_of)]
    proof = range_proof(history, digest, (key, 0, head), head, key, *parts).hex().encode()
    yield run(verify, proof, f"rejected path {step}\n", REJECTED)


def many_versions_runs():
    """65,537 versions of a key, one in each block, and the proof of them all, made and verified; its hex digits are
    more than 20 million."""
    key, head = "raw/a", 1 << 16
    chain = chain_of_sets([[(key, at, [])] for at in range(head + 1)])
    told = text_of(range_of(chain.rows, key, 0, head))
    proof = chain.ledger.whole_range_proof(key, head, chain.digest).hex() + "\n"
    yield run(f"range {key} 0 {head}".encode(), None, told, log=chain.log)
    yield run(f"range prove {key} 0 {head} {head}".encode(), None, proof, log=chain.log)
    yield run(f"range verify {chain.roots[head]} {key} 0 {head}".encode(), proof.encode(), told)


# ---- long light files, and long inputs behind them

# A proof of more than four million hex digits, and an answer.
LONG_PROOF_BYTES = 2_100_000
FIVE = ["block 0 tx 0 int 5"]


def users_of_bytes(size):
    """Rows whose uses have so many bytes in a proof: of each its key, with a length, and its block."""
    longest = 2 + MAX_KEY_BYTES + 4
    # The last two share what is left.
    count, left = divmod(size, longest)
    sizes = [longest] * (count - 1) + [(longest + left) // 2, (longest + left + 1) // 2]
    return [Row("a" * (of - 2 - 4), at, 0, 1, []) for at, of in enumerate(sizes)]


def drawn_uses_proof(size):
    """A proof of so many bytes of the uses of a version that no chain wrote, and its lines. It leads to a root by
    digests that are right, but for that of the block and the hash of the other leaf."""
    key, body = string("raw/a"), b"\0" + number(5, 8) + number(0, 1)
    header = key + number(0, 4) + number(0, 2) + digest_of(b"\3" + body) + number(0, 8) + uses_digest([]) + number(0, 1)

    def with_uses(uses):
        leaf = key + b"\0" + number(0, 4) + digest_of(b"\2" + header) + number(len(uses), 8) + uses_digest(uses)
        proof = PROOF_MAGIC + number(KINDS.index("fwd"), 1) + key + number(0, 4) + number(0, 4) + bytes(32)
        proof += number(2, 4) + number(1, 4) + leaf + number(1, 1) + bytes(32) + number(1, 1) + header + body
        return proof + number(len(uses), 4) + b"".join(string(use.key) + number(use.block, 4) for use in uses)

    uses = users_of_bytes(size - len(with_uses([])))
    lines = [f"block 0 uses {len(uses)}", *(f"{use.key} {use.block}" for use in uses)]
    return with_uses(uses), lines


def light_runs():
    """The light file of more blocks than a piece has; a proof that takes a whole frame, one of a byte more, which has
    none, and one of twice as many; a long light file; and as many frames as may stand behind one, and one more."""
    made = Generated(2_000, 7)
    chain = Chain(made.file, made.rows, made.plain_lines())
    light = light_file(block_digests(chain.frames), map(bytes.fromhex, chain.roots))
    yield run(b"light make", None, light, log=chain.log)
    for size in (MAX_FRAME_BYTES, MAX_FRAME_BYTES + 1, LONG_PROOF_BYTES):
        proof, lines = drawn_uses_proof(size)
        assert len(proof) == size
        root = root_of(proof)
        yield run(f"verify {root.hex()} fwd raw/a 0".encode(), proof.hex().encode(), text_of(lines))
        one = light_file([bytes(32)], [root])
        if size == MAX_FRAME_BYTES:
            told = text_of(accepted(0, "fwd", "raw/a", 0, 0, lines))
            yield run(b"light", one + frame(proof), told)
        elif size == MAX_FRAME_BYTES + 1:
            yield run(b"light", one + frame(proof), f"refused frame 0 length {size}\n", REFUSED)
    yield from long_light_runs()
    yield from frame_runs()


def long_light_runs():
    """A light file of 20,000 blocks, which is more than a million bytes, and proofs by its first block, by its last
    one, and by the block behind that."""
    count = 20_000
    history, digests = History([Row("raw/a", 0, 0, 5, [])]), [digest_of(number(at, 4)) for at in range(count + 1)]
    blocks = (0, count - 1, count)
    roots_of = {at: history.root(at, digests[at]) for at in blocks}
    light = light_file(digests[:count], [roots_of.get(at, bytes(32)) for at in range(count)])
    proofs = [proof_of(history, digests[at], "hist", "raw/a", at, at) for at in blocks]
    told = [line for at, block in enumerate(blocks[:2]) for line in accepted(at, "hist", "raw/a", block, block, FIVE)]
    told.append(f"proof 2 rejected unknown {count}")
    yield run(b"light", light + b"".join(map(frame, proofs)), text_of(told), REJECTED)


def frame_runs():
    """As many frames as an input may have, none of which is what it should be, and one more."""
    no_proofs = light_file([], []) + frame(b"x") * (MAX_FRAMES + 1)
    told = "".join(f"proof {at} rejected malformed 0\n" for at in range(MAX_FRAMES))
    yield run(b"light", no_proofs, f"{told}refused frame {MAX_FRAMES} many\n", REFUSED)
    told = "".join(f"dropped {at} malformed 0\n" for at in range(MAX_FRAMES))
    yield run(b"follow", frame(b"x") * (MAX_FRAMES + 1), f"{told}refused frame {MAX_FRAMES} many\n", REFUSED)


# ---- limits of a transaction, in a block and in a draft


def set_draft(count, value=1):
    deps = [f"raw/{at}" for at in range(count)]
    return {"set": {"sender": "u", "key": "raw/x", "value": value, "deps": deps}}


def call_draft(args=(), budget=100):
    call = {"contract": "c", "function": "f", "args": list(args), "budget": budget}
    return {"call": {"sender": "u", **call}}


def deploy_draft(size):
    return {"deploy": {"sender": "u", "name": "c", "source": "#" * size}}


def limit_pairs():
    """Transactions, as a draft has them, at the last good value of a limit and one past it, and the
    bytes of each before the field at fault."""
    sender = 1 + len(string("u"))
    names = len(string("c") + string("f"))
    before_deps = sender + len(string("raw/x")) + 9
    yield set_draft(MAX_DEPS), set_draft(MAX_DEPS + 1), before_deps
    ints = range(MAX_ARGS + 1)
    yield call_draft(ints[:-1]), call_draft(ints), sender + names
    yield call_draft(budget=MAX_CALL_BUDGET), call_draft(budget=MAX_CALL_BUDGET + 1), sender + names + 1
    source = sender + len(string("c"))
    yield deploy_draft(MAX_SOURCE_BYTES), deploy_draft(MAX_SOURCE_BYTES + 1), source


def text_pairs(version):
    """The same of the texts in a block of a version."""
    good, bad = ("a" * count for count in (MAX_TEXT_BYTES[version], MAX_TEXT_BYTES[version] + 1))
    sender = 1 + len(string("u"))
    yield call_draft([good]), call_draft([bad]), sender + len(string("c") + string("f")) + 2
    yield set_draft(0, good), set_draft(0, bad), sender + len(string("raw/x")) + 1


def pair_runs(pairs, version):
    """Each of these in a block of a version and in a draft."""
    versions = itertools.repeat(version)
    pack = b"pack" if version == FIRST_VERSION else b"pack %d" % version
    for good, bad, before in pairs:
        file = block_file([[spelled(good)]], versions)
        yield run(b"scan hist raw/none 0", file, "none\n")
        yield run(pack, json.dumps([[good]]).encode(), file)
        yield from refused_runs(block_file([[spelled(bad)]], versions), f"malformed {FRONT_BYTES + before}")
        faulty = json.dumps([[], [good, bad]]).encode()
        yield run(pack, faulty, "badinput draft 1 1\n", BAD_INPUT)


def limit_runs():
    """Limits of transactions, in blocks of either version."""
    for version in (FIRST_VERSION, SECOND_VERSION):
        yield from pair_runs(limit_pairs(), version)
        yield from pair_runs(text_pairs(version), version)


def deps_runs():
    """A version with as many dependencies as it may have."""
    before = [(f"raw/{at}", at, []) for at in range(MAX_DEPS)]
    chain = chain_of_sets([before, [("raw/x", 1, [(key, 0) for key, _, _ in before])]])
    yield from chain.append_runs()
    yield from chain.question_runs("back", "raw/x", 1)
    yield from chain.question_runs("fwd", "raw/63", 1)


def args_runs():
    """A call with as many arguments as it may have, all of which its function takes."""
    names = "abcdefgh"
    source = f"fn f({', '.join(f'{name}: int' for name in names)}) {{ put \"c/x\" = {'+'.join(names)}; }}"
    # A statement, the key, eight names and seven sums, and the put.
    cost = 1 + 1 + 8 + 7 + 16
    called = calls("c", "f", [1, 2, 4, 8, 16, 32, 64, 128], cost, OK, cost)
    file = block_file([[deploys("c", source)], [called]])
    rows = [Row("c/x", 1, 0, 255, [])]
    chain = Chain(file, rows, ["block 0 rows 0 status 0", "block 1 rows 1 status 0"])
    yield from chain.append_runs()
    yield from chain.question_runs("hist", "c/x", 0, 1)


def sum_runs():
    """A draft of a block whose calls have as great a budget together as they may, and of one more."""
    whole = [call_draft(budget=MAX_CALL_BUDGET)] * 10
    file = block_file([[spelled(tx) for tx in whole]])
    lines = [f"block 0 rows 0 status {','.join([str(NO_CONTRACT)] * 10)}"]
    yield run(b"pack", json.dumps([whole]).encode(), file)
    yield from Chain(file, [], lines).append_runs()
    more = [*whole, call_draft(budget=1)]
    yield run(b"pack", json.dumps([[], more]).encode(), "badinput block 1\n", BAD_INPUT)
    over = block_file([[spelled(tx) for tx in more]])
    yield from refused_runs(over, "budget 10000001")


PARTS = [
    generated_runs, level_runs, full_runs, txs_runs, long_block_runs, waiting_runs, uses_runs, long_proof_runs,
    trace_runs, range_runs, many_versions_runs, light_runs, limit_runs, deps_runs, args_runs, sum_runs,
]
