"""Proofs of wrong versions between two blocks, of which each is refused by one check of verifiers/verify.py alone.

Each leads to the root of a small chain, and leaves a version out, shows one that isn't between the blocks, or another
value of one. The verifier refuses it, and takes it once the one check is left out, as the others are. No chain has a
version that names another one by a wrong block, or one of another key: the two proofs that show what these checks are
for lead to the roots of rows which no chain has. tools/cases/check-proofs tries them all.
"""
from cases.block_files import number
from cases.forged_proofs import ABSENT, BLOCK_DIGEST, HEAD, KEY, RANGE, ROWS, USER
from cases.forged_proofs import Forgery, forged_body, forged_header, wrong_with
from cases.range_cases import body_of, header_of, range_of, range_proof_of, spelled
from cases.root_cases import History

WHOLE = RANGE, KEY, 0, HEAD
MIDDLE = RANGE, KEY, 3, 5
MIDDLE_WAY = [8, 6, 5, 4, 3]
# The block of a version whose lowest link leads to one block that both keys have a version in.
THIRD = 2


class NamedByAnotherBlock(History):
    """The newest version names the one two before it, as if this were that of the block between them."""

    def header_text(self, key, block):
        text = super().header_text(key, block)
        if (key, block) == (KEY, HEAD):
            own, other = (self.header_digest(KEY, HEAD - back) for back in (1, 2))
            between = number(HEAD - 1, 4)
            text = text.replace(between + own, between + other)
        return text


class NamedOfAnotherKey(History):
    """The third version of the key names one of another key, as if this were the one before it."""

    def header_text(self, key, block):
        text = super().header_text(key, block)
        if (key, block) == (KEY, THIRD):
            own, other = (self.header_digest(of, THIRD - 1) for of in (KEY, USER))
            text = text.replace(own, other)
        return text


def forge(history, name, question, blocks, old, new, refused, **other):
    """A forgery with the headers of the key in these blocks; its bodies are those of the ones between the blocks of the
    question, where no others are given."""
    _, key, first, last = question
    given = [header_of(history, key, block) for block in blocks]
    own = [body_of(history, key, block) for block in blocks if first <= block <= last]
    headers, bodies = other.get("headers", given), other.get("bodies", own)
    asked, leaf_key = other.get("told", question)[1:], other.get("leaf_key", key)
    proof = spelled(history, BLOCK_DIGEST, asked, HEAD, leaf_key, headers, bodies)
    return Forgery(name, question, proof, old, new, refused, other.get("root"))


def forgeries_of_leaves(history):
    """A key without a leaf has no version, and the headers begin with that of the newest version."""
    yield forge(
        history, "the next key of the leaf is not compared",
        (RANGE, USER, 0, HEAD), [],
        "and (leaf.next_key is None or leaf.next_key > key)", "",
        "leaf",
        leaf_key=KEY,
    )
    yield forge(
        history, "the key of the leaf is not compared with a smaller one",
        WHOLE, [],
        "is_between = leaf.key < key and", "is_between =",
        "leaf",
        leaf_key=USER,
    )
    yield forge(
        history, "headers stand behind the leaf of another key",
        (RANGE, ABSENT, 0, HEAD), [],
        "    elif proof.headers:\n", "    elif not proof.headers and proof.bodies:\n",
        "path 0",
        headers=[forged_header(ABSENT, 0)], bodies=[forged_body()],
    )
    yield forge(
        history, "no header stands behind the leaf of the key",
        WHOLE, [],
        "    if expected is not None:\n", "    if expected is not None and headers:\n",
        "path 0",
    )


def forgeries_of_ways(history):
    """A version is left out on the way through them, or one comes that isn't one of them."""
    whole = range(HEAD, -1, -1)
    yield forge(
        history, "the proof is from a later block on",
        WHOLE, whole,
        "    if proof.question != question:\n", "    if proof.question[::2] != question[::2]:\n",
        "query",
        told=(RANGE, KEY, 3, HEAD), bodies=[body_of(history, KEY, block) for block in whole if block >= 3],
    )
    yield forge(
        history, "the proof is up to an earlier block",
        WHOLE, whole,
        "    if proof.question != question:\n", "    if proof.question[:2] != question[:2]:\n",
        "query",
        told=(RANGE, KEY, 0, 5), bodies=[body_of(history, KEY, block) for block in whole if block <= 5],
    )
    yield forge(
        history, "the first version is wanting",
        WHOLE, whole[:-1],
        "    if expected is not None:\n", "    if expected is not None and len(headers) < 8:\n",
        "path 8",
    )
    yield forge(
        history, "all versions between the blocks are wanting",
        MIDDLE, [HEAD],
        "    if expected is not None:\n", "    if expected is not None and not headers:\n",
        "path 1",
    )
    yield forge(
        history, "the version in the first block is not asked for",
        MIDDLE, [8, 6, 5, 4],
        "header.links[0].block < period.first", "header.links[0].block <= period.first",
        "path 4",
    )
    yield forge(
        history, "the version in the first block has no body",
        MIDDLE, MIDDLE_WAY,
        "if self.question.first <= header.block <=", "if self.question.first < header.block <=",
        "malformed",
        bodies=[body_of(history, KEY, block) for block in (5, 4)],
    )
    yield forge(
        history, "the version in the last block has no body",
        MIDDLE, MIDDLE_WAY,
        "<= header.block <= self.question.last]", "<= header.block < self.question.last]",
        "malformed",
        bodies=[body_of(history, KEY, block) for block in (4, 3)],
    )
    yield forge(
        history, "a version after the last block has a body",
        MIDDLE, MIDDLE_WAY,
        "if self.question.first <= header.block <= self.question.last]", "if self.question.first <= header.block]",
        "malformed",
        bodies=[body_of(history, KEY, block) for block in MIDDLE_WAY],
    )
    yield forge(
        history, "a version before the first block has a body",
        (RANGE, USER, 3, 5), [8, 1],
        "if self.question.first <= header.block <= self.question.last]", "if header.block <= self.question.last]",
        "malformed",
        bodies=[body_of(history, USER, 1)],
    )
    yield forge(
        history, "the highest link is followed between the blocks",
        WHOLE, [8, 0],
        "    return header.links[0]\n", "    return header.links[-1]\n",
        "link 1",
    )
    yield forge(
        history, "the highest link is followed on the way to the last block",
        MIDDLE, [8, 0],
        "return later[-1] if later else header.links[0]", "return header.links[-1]",
        "link 1",
    )
    yield forge(
        history, "a header follows the last one",
        MIDDLE, [*MIDDLE_WAY, 5],
        "        if expected is None:\n            raise rejected(f\"path {step}\")\n",
        "        if expected is None:\n            continue\n",
        "path 5",
    )
    named = NamedByAnotherBlock(ROWS)
    yield forge(
        named, "the block of a header is not compared",
        (RANGE, KEY, 5, HEAD), [8, 6, 5],
        "    if header.key != question.key or header.block != expected.block:\n",
        "    if header.key != question.key:\n",
        "path 1",
        root=named.root(HEAD, BLOCK_DIGEST),
    )
    named = NamedOfAnotherKey(ROWS)
    yield forge(
        named, "the key of a header is not compared",
        (RANGE, KEY, THIRD - 1, THIRD), [],
        "    if header.key != question.key or header.block != expected.block:\n",
        "    if header.block != expected.block:\n",
        "path 4",
        headers=[*(header_of(named, KEY, block) for block in (8, 4, 3, THIRD)), header_of(named, USER, THIRD - 1)],
        bodies=[body_of(named, KEY, THIRD), body_of(named, USER, THIRD - 1)],
        root=named.root(HEAD, BLOCK_DIGEST),
    )


def forgeries_of_texts(history):
    """A header or a body is another one."""
    bodies = [body_of(history, KEY, block) for block in (5, 4, 3)]
    yield forge(
        history, "the digest of a header is not compared",
        WHOLE, [],
        "    if digest != expected.digest:\n", "    if not digest:\n",
        "link 0",
        headers=[forged_header(KEY, HEAD)], bodies=[forged_body()],
    )
    yield forge(
        history, "the digest of a body is not compared",
        MIDDLE, MIDDLE_WAY,
        "            raise rejected(f\"body {number} {digest.hex()}\")\n", "            continue\n",
        "body 2",
        bodies=[*bodies[:2], forged_body()],
    )
    yield forge(
        history, "a body stands under the header of the next version",
        MIDDLE, MIDDLE_WAY,
        "        if digest != header.body:\n",
        "        if digest not in [other.body for other in proof.between()]:\n",
        "body 0",
        bodies=[bodies[1], bodies[0], bodies[2]],
    )


def forgeries(history):
    for part in (forgeries_of_leaves, forgeries_of_ways, forgeries_of_texts):
        yield from part(history)


def with_roots():
    """Each forgery after the root to which it leads."""
    history = History(ROWS)
    root = history.root(HEAD, BLOCK_DIGEST)
    return [(forgery.root or root, forgery) for forgery in forgeries(history)]


def check():
    """Whether each forgery shows what it is to show; prints which doesn't."""
    history, count, wrong = History(ROWS), 0, []
    root = history.root(HEAD, BLOCK_DIGEST)
    for forgery in forgeries(history):
        _, *asked = forgery.question
        made, right = range_proof_of(history, BLOCK_DIGEST, *asked, HEAD), range_of(ROWS, *asked)
        count, wrong = count + 1, [*wrong, *wrong_with(forgery, root, made, right)]
    for line in wrong:
        print(f"forged_ranges: {line}")
    print(f"forged_ranges: {count} forgeries, {len(wrong)} wrong")
    return not wrong
