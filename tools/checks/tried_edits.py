"""What tools/wrong-bodies/TRIED records: of each crate whose wrong bodies were tried, a digest of its sources and of
these edits, how many were refused, and how many weren't.
"""
import hashlib
import os

from checks.wrong_bodies import BODIES, TOP, edits_of

TRIED = f"{TOP}/{BODIES}/TRIED"
PARTS = ("src", "specs", "proofs")


def files_of(folder):
    for at, folders, names in os.walk(folder):
        folders.sort()
        yield from (f"{at}/{name}" for name in sorted(names))


def digest_of(crate):
    """A digest of the sources of a crate and of its edits: of their names, lengths and bytes."""
    digest = hashlib.sha256()
    for folder in [*(f"{TOP}/crates/{crate}/{part}" for part in PARTS), f"{TOP}/{BODIES}/{crate}"]:
        for path in files_of(folder):
            with open(path, "rb") as file:
                content = file.read()
            digest.update(f"{os.path.relpath(path, os.path.dirname(folder))} {len(content)}\n".encode() + content)
    return digest.hexdigest()[:32]


def records():
    """The records, by the names of the crates: of each the digest, and the two counts."""
    if not os.path.exists(TRIED):
        return {}
    with open(TRIED, encoding="ascii") as file:
        lines = [line.split() for line in file]
    return {crate: (digest, int(refused), int(others)) for crate, digest, refused, others in lines}


def record(crate, digest, refused, others):
    """Writes a record in place of the one that the crate had; those of crates without edits are left out."""
    kept = {**records(), crate: (digest, refused, others)}
    lines = [f"{name} {' '.join(map(str, kept[name]))}\n" for name in sorted(kept) if edits_of(name)]
    with open(f"{TRIED}.new", "w", encoding="ascii") as file:
        file.writelines(lines)
    os.replace(f"{TRIED}.new", TRIED)
