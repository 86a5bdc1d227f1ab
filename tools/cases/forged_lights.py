"""Proofs of wrong answers that are checked by a light file, of which each is refused by one check of
verifiers/verify.py alone.

Those of tools/cases/forged_proofs.py, by a light file of their chain, and those of another chain, by files that have
what is not of theirs. The verifier refuses each, and takes it once the one check is left out, as the others are.
tools/cases/check-proofs tries them all.
"""
import dataclasses
import io

from cases import forged_proofs
from cases.forged_proofs import BLOCK_DIGEST, FORGED, HEAD, KEY, ROWS, Forgery, verifier_of
from cases.light_cases import accepted, frame, light_file
from cases.proof_cases import answer_of, proof_of
from cases.root_cases import History
from places import TOP

# The rows of another chain, in whose blocks the key has other values; and another digest of a block.
OTHER_ROWS = [dataclasses.replace(row, value=FORGED) if row.key == KEY else row for row in ROWS]
OTHER_DIGEST = bytes(31) + b"\1"


def entries(history):
    """The digest and the root of each block."""
    return [(BLOCK_DIGEST, history.root(at, BLOCK_DIGEST)) for at in range(HEAD + 1)]


def file_of(given):
    return light_file(*zip(*given))


def other_chain(history):
    """Each with the light file by which it is checked, and the block of its root."""
    other, whole = History(OTHER_ROWS), entries(history)

    def forge(name, given, digest, at, old, new, refused):
        proof = proof_of(other, digest, "hist", KEY, at, at)
        return file_of(given), Forgery(name, ("hist", KEY, at), proof, old, new, refused), at

    yield forge(
        "the root is not that of the file",
        whole, BLOCK_DIGEST, HEAD,
        "    check_root(proof, root)\n", "",
        "root",
    )
    yield forge(
        "the digest of the block is not that of the file",
        [*whole[:HEAD], (BLOCK_DIGEST, other.root(HEAD, OTHER_DIGEST))], OTHER_DIGEST, HEAD,
        "    if proof.block_digest != digest:\n", "    if not digest:\n",
        "digest",
    )
    yield forge(
        "the root is that of another block",
        [*whole[:HEAD], (BLOCK_DIGEST, other.root(HEAD - 1, BLOCK_DIGEST))], BLOCK_DIGEST, HEAD - 1,
        "light.entry(proof.root_block)", "light.entry(proof.root_block + 1)",
        "root",
    )


def with_files():
    """All of them."""
    history = History(ROWS)
    light = file_of(entries(history))
    for forgery in forged_proofs.forgeries(history):
        yield light, forgery, HEAD
    yield from other_chain(history)


def told_by(verifier, light, proof):
    """What a verifier tells of a proof by a light file."""
    lines = []
    verifier.check_by_light(io.BytesIO(light + frame(proof)).read, lines.extend)
    return lines


def wrong_with(light, forgery, root_at):
    """What is wrong with a forgery; there is nothing where it shows what it is to show."""
    with open(f"{TOP}/verifiers/verify.py", encoding="utf-8") as file:
        source = file.read()
    kind, key, at = forgery.question
    right = accepted(0, kind, key, at, root_at, answer_of(ROWS, kind, key, at, root_at))
    [line, *_] = told_by(verifier_of(source), light, forgery.proof)
    if not line.startswith(f"proof 0 rejected {forgery.refused}"):
        yield f"{forgery.name}: the verifier tells {line!r}"
    if source.count(forgery.old) != 1:
        yield f"{forgery.name}: the check stands {source.count(forgery.old)} times in the verifier"
    given = told_by(verifier_of(source.replace(forgery.old, forgery.new)), light, forgery.proof)
    if given[0] != right[0] or given == right:
        yield f"{forgery.name}: without the check it tells {given!r}"


def check():
    """Whether each forgery shows what it is to show; prints which doesn't."""
    forgeries = list(with_files())
    wrong = [line for forgery in forgeries for line in wrong_with(*forgery)]
    for line in wrong:
        print(f"forged_lights: {line}")
    print(f"forged_lights: {len(forgeries)} forgeries, {len(wrong)} wrong")
    return not wrong
