"""Proofs of wrong ancestors, of which each is refused by one check of verifiers/verify.py alone.

Each leads to the root of a small chain, and what it shows isn't what the version was made from. The verifier refuses
it, and takes it once the one check is left out, as the others are. No chain has a version that is derived from a later
one, or that is named by two digests: the two proofs that show what these checks are for lead to the roots of rows
which no chain has. tools/cases/check-proofs tries them all.
"""
from cases.forged_proofs import BLOCK_DIGEST, Forgery, forged_body, forged_header, wrong_with
from cases.proof_cases import proof_of
from cases.root_cases import History, Row, digest_of
from cases.trace_cases import item_of, spelled, trace_of, trace_proof_of

FARM, MILL, LOT, SHOP = "raw/farm", "raw/mill", "raw/lot", "raw/shop"
HEAD = 3
ROWS = [
    Row(FARM, 0, 0, 1, []),
    Row(MILL, 1, 0, 2, [(FARM, 0)]),
    Row(LOT, 2, 0, 3, [(MILL, 1)]),
    Row(SHOP, 3, 0, 4, [(LOT, 2), (MILL, 1)]),
]
# What that of the shop was made from; that of the farm was made from nothing.
QUESTION, OF_FARM = ("back", SHOP, HEAD), ("back", FARM, HEAD)
# The version of the lot is derived from one of a later block.
LATE_ROWS = [*ROWS[:2], Row(FARM, 3, 1, 5, []), Row(LOT, 2, 0, 3, [(FARM, 3)]), Row(SHOP, 3, 0, 4, [(LOT, 2)])]


class NamedTwice(History):
    """The shop names the version of the mill by the digest of a forged header, and the lot by that of its own."""

    def body_text(self, row):
        text = super().body_text(row)
        if row.key == SHOP:
            own, forged = self.header_digest(MILL, 1), digest_of(b"\2" + forged_header(MILL, 1))
            text = text.replace(own, forged)
        return text


def start_of(history, question):
    return proof_of(history, BLOCK_DIGEST, *question, HEAD)


def forgeries(history):
    start = start_of(history, QUESTION)
    lot, mill, farm = (item_of(history, *version) for version in [(LOT, 2), (MILL, 1), (FARM, 0)])
    forged_item = forged_header(MILL, 1) + forged_body()
    mill_header = history.header_text(MILL, 1)[1:]

    def forge(name, items, old, new, refused, **other):
        question = other.get("question", QUESTION)
        proof = spelled(other.get("start", start), items)
        return Forgery(name, question, proof, old, new, refused, other.get("root"))

    yield forge(
        "the proof of the version is not checked",
        [],
        "    answer(trace.start, root, question)\n", "",
        "body",
        start=start[: -len(history.body_text(ROWS[3])[1:])] + forged_body(),
    )
    yield forge(
        "the last version that is wanted is not missed",
        [lot, mill],
        "    if wanted.order:\n", "    if False:\n",
        "trace missing 3",
    )
    yield forge(
        "what an ancestor was derived from is not wanted",
        [lot, mill],
        "        wanted.add(item.header.block, item.body.deps, number)\n", "",
        "trace missing 3",
    )
    yield forge(
        "what the version was derived from is not wanted",
        [],
        "        wanted.add(trace.start.headers[-1].block, trace.start.body.deps, 0)\n", "        pass\n",
        "trace missing 1",
    )
    yield forge(
        "an item comes where nothing is wanted",
        [mill, farm],
        "            raise rejected(f\"trace extra {number}\")\n",
        "            return sha256(HEADER, item.header.text)\n",
        "trace extra 1",
        question=OF_FARM, start=start_of(history, OF_FARM),
    )
    yield forge(
        "what is wanted comes in any order, and one of it twice",
        [mill, lot, mill, farm],
        "        if (item.header.block, item.header.key) != self.order[-1]:\n"
        "            raise rejected(f\"trace order {number}\")\n",
        "        self.order.sort(key=(item.header.block, item.header.key).__eq__)\n",
        "trace order 1",
    )
    yield forge(
        "the digest of an ancestor's header is not compared",
        [lot, forged_item],
        "    if header != expected:\n", "    if not header:\n",
        "trace header 2",
    )
    yield forge(
        "the digest of an ancestor's body is not compared",
        [lot, mill_header + forged_body()],
        "    if body != item.header.body:\n", "    if not body:\n",
        "trace body 2",
    )
    late = History(LATE_ROWS)
    yield forge(
        "a version is derived from a later one",
        [item_of(late, LOT, 2), item_of(late, FARM, 3)],
        "            if dep.block >= block:\n", "            if not dep.digest:\n",
        "trace late 1",
        start=start_of(late, QUESTION), root=late.root(HEAD, BLOCK_DIGEST),
    )
    twice = NamedTwice(ROWS)
    yield forge(
        "a version is named by two digests",
        [item_of(twice, LOT, 2), forged_item],
        "            if self.digests.get(place, dep.digest) != dep.digest:\n", "            if not dep.digest:\n",
        "trace two 1",
        start=start_of(twice, QUESTION), root=twice.root(HEAD, BLOCK_DIGEST),
    )


def with_roots():
    """Each forgery after the root to which it leads."""
    history = History(ROWS)
    root = history.root(HEAD, BLOCK_DIGEST)
    return [(forgery.root or root, forgery) for forgery in forgeries(history)]


def check():
    """Whether each forgery shows what it is to show; prints which doesn't."""
    history, count, wrong = History(ROWS), 0, []
    root = history.root(HEAD, BLOCK_DIGEST)
    for forgery in forgeries(history):
        _, key, at = forgery.question
        made, right = trace_proof_of(history, BLOCK_DIGEST, key, at, HEAD), trace_of(ROWS, key, at)
        count, wrong = count + 1, [*wrong, *wrong_with(forgery, root, made, right)]
    for line in wrong:
        print(f"forged_traces: {line}")
    print(f"forged_traces: {count} forgeries, {len(wrong)} wrong")
    return not wrong
