"""Proofs by docs/proofs.md, made from the rows of a chain by going over them all.

The check makes proofs of small chains, and has verifiers/verify.py say what they prove and why it refuses
them once a byte of one is changed; and it has it say of the proofs of crates/run_cases what the program
must tell of them. tools/cases/check-proofs makes it.
"""
import dataclasses

from cases.block_files import GONE, number, string
from cases.generated_chain import Generated
from cases.log_cases import frames_of
from cases.root_cases import History, block_digests
from cases.tree_cases import audit_path
from cases.verifier import told_of, verify
from places import TOP

MAGIC = b"LCP1"
KINDS = ["hist", "back", "fwd"]


def covering_index(keys, key):
    """The index of the leaf of a key, else of that of the greatest smaller one; 0 where there is none."""
    smaller = [other for other in keys if other <= key]
    return 1 + keys.index(max(smaller)) if smaller else 0


def path(history, key, at, root_at):
    """The blocks of the versions that a proof goes through, the newest first."""
    versions = [block for block in history.blocks_of(key) if block <= root_at]
    blocks = versions[-1:]
    while blocks and blocks[-1] > at:
        links = history.links(key, blocks[-1])
        if not links:
            break
        later = [target for target in links if target > at]
        blocks.append(later[-1] if later else links[0])
    return blocks


def proof_of(history, block_digest, kind, key, at, root_at):
    """The proof of a question with the root at a block of this digest."""
    keys = history.keys(root_at)
    leaves = history.leaves(root_at)
    index = covering_index(keys, key)
    audit = audit_path(index, leaves)
    blocks = path(history, key, at, root_at)
    proof = MAGIC + number(KINDS.index(kind), 1) + string(key) + number(at, 4) + number(root_at, 4)
    proof += block_digest + number(len(leaves), 4) + number(index, 4) + leaves[index]
    proof += number(len(audit), 1) + b"".join(audit) + number(len(blocks), 1)
    # Texts are spelled here without the first byte, which says what is hashed.
    proof += b"".join(history.header_text(key, block)[1:] for block in blocks)
    if blocks and blocks[-1] <= at:
        proof += history.body_text(history.row_of(key, blocks[-1]))[1:]
        if kind == "fwd":
            # The next version closes the list; that of the newest is open up to the root block.
            until = blocks[-2] if len(blocks) > 1 else root_at
            uses = history.uses(key, blocks[-1], until)
            proof += number(len(uses), 4)
            proof += b"".join(string(row.key) + number(row.block, 4) for row in uses)
    return proof


def value_told(value):
    """A value as it is printed."""
    if value is GONE:
        return "gone"
    return f"int {value}" if isinstance(value, int) else f"text {value}"


def answer_of(rows, kind, key, at, root_at):
    """The answer to a question by going over the rows up to a block."""
    rows = [row for row in rows if row.block <= root_at]
    versions = [row for row in rows if row.key == key and row.block <= at]
    if not versions:
        return ["none"]
    version = versions[-1]
    if kind == "hist":
        return [f"block {version.block} tx {version.tx} {value_told(version.value)}"]
    if kind == "back":
        word, places = "deps", version.deps
    else:
        users = [row for row in rows if (key, version.block) in row.deps]
        word, places = "uses", [(row.key, row.block) for row in users]
    return [f"block {version.block} {word} {len(places)}", *(f"{dep} {block}" for dep, block in places)]


# ---- the verifier over them


class Checked:
    """The rows of a chain and the digests of its blocks, and what the verifier says of proofs over them."""

    of = verify.OF_ANSWER

    def __init__(self, rows, digests):
        self.rows = rows
        self.history = History(rows)
        self.digests = digests
        self.count, self.wrong = 0, []

    def answer(self, proof, root, question):
        """What the verifier prints."""
        try:
            return verify.proved(verify.read_proof(proof, self.of), root, question)
        except verify.Stop as stop:
            return [stop.line]

    def proof_of(self, kind, key, at, root_at):
        """The proof of a question, with the root at a block."""
        return proof_of(self.history, self.digests[root_at], kind, key, at, root_at)

    def answer_of(self, kind, key, at, root_at):
        """What it proves, by going over the rows."""
        return answer_of(self.rows, kind, key, at, root_at)

    def question_of(self, kind, key, at):
        """The question as the verifier has it."""
        return verify.Question(KINDS.index(kind), key.encode(), at)

    def check(self, *asked):
        """The proof of a question is accepted with its answer, and no change of it is accepted; what is asked has the
        root's block behind what the question has."""
        *question, root_at = asked
        root, words = self.history.root(root_at, self.digests[root_at]), " ".join(map(str, asked))
        proof, question = self.proof_of(*asked), self.question_of(*question)
        self.expect(words, self.answer(proof, root, question), self.answer_of(*asked))
        for offset in range(0, len(proof), 7):
            changed = proof[:offset] + bytes([proof[offset] ^ 1]) + proof[offset + 1 :]
            [line, *_] = self.answer(changed, root, question)
            self.expect(f"{words}, byte {offset}", line.split()[0], "rejected")
        cut = self.answer(proof[:-1], root, question)[0].split()
        self.expect("a proof that is cut", cut[:2], ["rejected", "malformed"])
        longer = self.answer(proof + b"\0", root, question)
        self.expect("a proof and a byte", longer, [f"rejected malformed {len(proof)}"])

    def expect(self, what, given, wanted):
        self.count += 1
        if given != wanted:
            self.wrong.append(f"{what}: {given!r:.200}, not {wanted!r:.200}")


def recorded_cases():
    """The cases of `verify`, `trace verify`, `range verify` and `light` in crates/run_cases: words, input, and what
    must be printed, after the status."""
    with open(f"{TOP}/crates/run_cases/stdin") as stdin, open(f"{TOP}/crates/run_cases/stdout") as stdout:
        printed = stdout.read().removeprefix("== ").split("\n== ")
        for line, told in zip(stdin, printed, strict=True):
            words, *fields = line.rstrip("\n").split("|")
            is_of_proof = words == "light" or words.startswith(("verify ", "trace verify ", "range verify "))
            # A case of a source or a machine that fails has further fields.
            if is_of_proof and len(fields) == 2:
                yield words, bytes.fromhex(fields[1]), told.rstrip("\n").split("\n")


def check_recorded(checked):
    """The verifier tells of each recorded proof what the program must tell."""
    for words, source, [first, *lines] in recorded_cases():
        status = int(first.split()[0])
        checked.expect(words, told_of(words.split(), source), (lines, status))


def check():
    """Whether the verifier says what it must; prints where it doesn't."""
    chain = Generated(40, 7)
    digests = block_digests(frames_of(chain.file))
    some_gone = [dataclasses.replace(row, value=GONE) if row.block % 2 else row for row in chain.rows]
    all_checked = [Checked(rows, digests) for rows in (chain.rows, some_gone)]
    for checked in all_checked:
        keys = [*checked.history.keys(39)[::9], "raw/none", "a", "zz"]
        for kind in KINDS:
            for key in keys:
                for at, root_at in [(0, 0), (5, 39), (20, 20), (38, 39), (39, 39)]:
                    checked.check(kind, key, at, root_at)
    check_recorded(all_checked[0])
    wrong = [line for checked in all_checked for line in checked.wrong]
    for line in wrong:
        print(f"proof_cases: {line}")
    print(f"proof_cases: {sum(checked.count for checked in all_checked)} checks, {len(wrong)} wrong")
    return not wrong
