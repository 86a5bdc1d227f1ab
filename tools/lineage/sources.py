"""The files that are proved, and those that say what is proved: which they are, and their digest by content."""
import hashlib
import os
import time

from lineage import kept
from places import TOP

LISTS = ("crates.txt", "HANDLES")
CRATES = "crates"
PARTS = ("src", "specs", "proofs")
# What says which files these are.
OWN = os.path.relpath(os.path.realpath(__file__), TOP)


def digest_of(file):
    """The digest of a file, by content."""
    try:
        with open(file, "rb") as it:
            return hashlib.sha256(it.read()).hexdigest()
    except OSError:
        return kept.NONE


class Look:
    """A look at files and folders below the top, each of which is stamped before it is read. A file that has the stamp
    that it had when a record was begun, and had settled then, is not read again."""

    def __init__(self, known):
        self.known, self.begun = known, time.time_ns()
        self.stamps, self.digests = {}, {}

    def stamp(self, path):
        stamp = self.stamps[path] = kept.stamp_of(f"{TOP}/{path}")
        return stamp

    def digest(self, path):
        """The digest of a file that may be there."""
        stamp = self.stamp(path)
        if stamp == kept.NONE:
            return kept.NONE
        found = self.known.get((stamp, path)) or digest_of(f"{TOP}/{path}")
        self.digests[path] = found
        return found

    def names(self, folder):
        """What is in a folder that may be there."""
        self.stamp(folder)
        try:
            return list(os.scandir(f"{TOP}/{folder}"))
        except (FileNotFoundError, NotADirectoryError):
            return []

    def files_below(self, folder):
        """The files in a folder that may be there, and in those in it."""
        for entry in self.names(folder):
            path = f"{folder}/{entry.name}"
            if entry.is_dir():
                yield from self.files_below(path)
            else:
                yield path

    def sources(self):
        """The digest of all sources."""
        files = [path for path in LISTS if self.stamp(path) != kept.NONE]
        for crate in self.names(CRATES):
            self.stamp(f"{CRATES}/{crate.name}")
            for part in PARTS:
                files += self.files_below(f"{CRATES}/{crate.name}/{part}")
        lines = [f"{path} {self.digest(path)}" for path in sorted(files)]
        return hashlib.sha256("\n".join(lines).encode(errors="surrogateescape")).hexdigest()


def digest_of_sources():
    """The digest of all sources, each of which is read."""
    return Look({}).sources()


def files_below(folder):
    """The files in a folder below the top that may be there, and in those in it."""
    return (f"{TOP}/{path}" for path in Look({}).files_below(folder))


def digests(record, files):
    """The digest of all sources, and those of further files below the top that may be there, which a record keeps."""
    look = Look(record.settled_digests())
    look.stamp(OWN)
    found = [look.sources(), *map(look.digest, files)]
    record.keep(look.begun, found, look.stamps, look.digests)
    return found
