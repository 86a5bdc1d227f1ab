"""Proofs of wrong answers, of which each is refused by one check of verifiers/verify.py alone.

Each forgery leads to the root of a small chain, and its answer isn't that of the chain's rows. The
verifier refuses it, and takes it once the one check is left out, as the others are: so what an accepted
proof says would be false without that check. tools/cases/check-proofs tries them all.
"""
import dataclasses
import types

from cases.block_files import number, string
from cases.proof_cases import KINDS, MAGIC, answer_of, proof_of
from cases.root_cases import History, Row, digest_of, uses_digest
from cases.tree_cases import audit_path
from places import TOP

BLOCK_DIGEST = bytes(32)
KEY, USER, LATE, ABSENT = "raw/a", "raw/b", "raw/d", "raw/c"
HEAD = 8
# Every block writes the key. In two of them another key is derived from it, and one key comes late.
ROWS = [
    *(Row(KEY, block, 0, 10 + block, []) for block in range(2)),
    Row(USER, 1, 1, 20, [(KEY, 0)]),
    *(Row(KEY, block, 0, 10 + block, []) for block in range(2, HEAD + 1)),
    Row(USER, HEAD, 1, 21, [(KEY, HEAD - 1)]),
    Row(LATE, HEAD, 2, 30, []),
]
FORGED = 99
# What stands for the kind in a question about all versions between two blocks, which come behind the key.
RANGE = "range"


@dataclasses.dataclass
class Forgery:
    """A proof of a wrong answer, and its question; the text of the verifier that is changed, and what it is changed
    to, for the proof to be taken; how the line begins by which it is refused; and the root to which it leads, where
    that isn't the root of the chain."""

    name: str
    question: tuple
    proof: bytes
    old: str
    new: str
    refused: str
    root: object = None


def spelled(history, question, leaf_key, headers, body=b"", uses=None):
    """A proof with these parts that leads to the root of the head by the leaf of a key."""
    kind, key, at = question
    leaves = history.leaves(HEAD)
    index = 1 + history.keys(HEAD).index(leaf_key)
    audit = audit_path(index, leaves)
    proof = MAGIC + number(KINDS.index(kind), 1) + string(key) + number(at, 4) + number(HEAD, 4)
    proof += BLOCK_DIGEST + number(len(leaves), 4) + number(index, 4) + leaves[index]
    proof += number(len(audit), 1) + b"".join(audit) + number(len(headers), 1) + b"".join(headers) + body
    if uses is not None:
        proof += number(len(uses), 4) + b"".join(string(key) + number(block, 4) for key, block in uses)
    return proof


def forged_body():
    return number(0, 1) + number(FORGED, 8) + number(0, 1)


def forged_header(key, block):
    """A header that names the forged body."""
    text = string(key) + number(block, 4) + number(0, 2) + digest_of(b"\3" + forged_body())
    return text + number(0, 8) + uses_digest([]) + number(0, 1)


def forgeries(history):
    def header(key, block):
        return history.header_text(key, block)[1:]

    def body(key, block):
        return history.body_text(history.row_of(key, block))[1:]

    def forge(name, question, leaf_key, parts, old, new, refused):
        return Forgery(name, question, spelled(history, question, leaf_key, *parts), old, new, refused)

    head = "hist", KEY, HEAD
    yield forge(
        "the next key of the leaf is not compared",
        ("hist", USER, HEAD), KEY, ([],),
        "and (leaf.next_key is None or leaf.next_key > key)", "",
        "leaf",
    )
    yield forge(
        "the key of the leaf is not compared with a smaller one",
        ("hist", KEY, HEAD), USER, ([],),
        "is_between = leaf.key < key and", "is_between =",
        "leaf",
    )
    yield forge(
        "headers stand behind the leaf of another key",
        ("hist", ABSENT, HEAD), USER, ([forged_header(ABSENT, 0)], forged_body()),
        "elif proof.headers:", "elif not proof.headers and proof.body:",
        "path 0",
    )
    yield forge(
        "no header stands behind the leaf of the key",
        head, KEY, ([],),
        "    if expected is not None:\n", "    if expected is not None and headers:\n",
        "path 0",
    )
    yield forge(
        "the digest of a header is not compared",
        head, KEY, ([forged_header(KEY, HEAD)], forged_body()),
        "    if digest != expected.digest:\n", "    if not digest:\n",
        "link 0",
    )
    yield forge(
        "a further header is wanting",
        ("hist", KEY, 5), KEY, ([header(KEY, HEAD)],),
        "    if expected is not None:\n", "    if expected is not None and not headers:\n",
        "path 1",
    )
    yield forge(
        "a header follows the version that answers",
        head, KEY, ([header(KEY, HEAD), header(KEY, HEAD - 1)], body(KEY, HEAD - 1)),
        "        if expected is None:\n            raise rejected(f\"path {step}\")\n",
        "        if expected is None:\n            continue\n",
        "path 1",
    )
    yield forge(
        "the highest link is followed, whatever its block",
        ("hist", KEY, 5), KEY, ([header(KEY, HEAD), header(KEY, 0)], body(KEY, 0)),
        "return later[-1] if later else header.links[0]", "return header.links[-1]",
        "link 1",
    )
    yield forge(
        "a version later than the block of the question answers",
        ("hist", LATE, HEAD - 1), LATE, ([header(LATE, HEAD)], body(LATE, HEAD)),
        "bool(headers) and headers[-1].block <= question.block", "bool(headers)",
        "malformed",
    )
    yield forge(
        "the digest of the body is not compared",
        head, KEY, ([header(KEY, HEAD)], forged_body()),
        "    check_body(proof)\n", "",
        "body",
    )
    yield forge(
        "the uses are counted, and their digest is not compared",
        ("fwd", KEY, HEAD - 1), KEY,
        ([header(KEY, HEAD), header(KEY, HEAD - 1)], body(KEY, HEAD - 1), [(ABSENT, HEAD)]),
        "    if Uses(len(proof.uses), digest) != wanted:\n", "    if len(proof.uses) != wanted.count:\n",
        "list",
    )
    yield forge(
        "the uses are neither counted nor compared",
        ("fwd", KEY, HEAD - 1), KEY, ([header(KEY, HEAD), header(KEY, HEAD - 1)], body(KEY, HEAD - 1), []),
        "        check_uses(proof)\n", "        pass\n",
        "list",
    )


def verifier_of(source):
    module = types.ModuleType("verifier")
    exec(compile(source, "verify.py", "exec"), module.__dict__)
    return module


def told_by(verifier, proof, root, question):
    kind, key, *blocks = question
    period, of_kind = verifier.Period, verifier.Question
    asked = period(key.encode(), *blocks) if kind == RANGE else of_kind(KINDS.index(kind), key.encode(), *blocks)
    try:
        return verifier.proved(verifier.read_proof(proof, verifier.kind_of(proof)), root, asked)
    except verifier.Stop as stop:
        return [stop.line]


def wrong_with(forgery, root, made, right):
    """What is wrong with a forgery over a chain with this root, where the proof as it is made has the right answer:
    there is nothing where it shows what it is to show."""
    with open(f"{TOP}/verifiers/verify.py", encoding="utf-8") as file:
        source = file.read()
    whole = verifier_of(source)
    if told_by(whole, made, root, forgery.question) != right:
        yield f"{forgery.name}: the verifier doesn't give the right answer"
    root = forgery.root or root
    [line, *_] = told_by(whole, forgery.proof, root, forgery.question)
    if not line.startswith(f"rejected {forgery.refused}"):
        yield f"{forgery.name}: the verifier tells {line!r}"
    if source.count(forgery.old) != 1:
        yield f"{forgery.name}: the check stands {source.count(forgery.old)} times in the verifier"
    weakened = verifier_of(source.replace(forgery.old, forgery.new))
    given = told_by(weakened, forgery.proof, root, forgery.question)
    if given == right or given[0].startswith("rejected"):
        yield f"{forgery.name}: without the check it tells {given!r}"


def wrong_forgeries(history):
    """How many forgeries there are, and what is wrong with them."""
    root, count, wrong = history.root(HEAD, BLOCK_DIGEST), 0, []
    for forgery in forgeries(history):
        kind, key, at = forgery.question
        right = answer_of(ROWS, kind, key, at, HEAD)
        made = proof_of(history, BLOCK_DIGEST, kind, key, at, HEAD)
        count, wrong = count + 1, [*wrong, *wrong_with(forgery, root, made, right)]
    return count, wrong


def check():
    """Whether each forgery shows what it is to show; prints which doesn't."""
    count, wrong = wrong_forgeries(History(ROWS))
    for line in wrong:
        print(f"forged_proofs: {line}")
    print(f"forged_proofs: {count} forgeries, {len(wrong)} wrong")
    return not wrong
