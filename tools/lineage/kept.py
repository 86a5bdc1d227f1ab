"""A record of what was worked out of files and folders: it stands as long as none of them changes.

The record has the stamp of each. That of a folder changes where something in it is added, removed or renamed; that of
a file where it is written, also where its time is put back then. What changed shortly before a record was begun may
change once more within one tick of the clock of its file system, and has the same stamp then: a record that has such
a thing doesn't stand, and the thing is read again.

The record is looked at before each answer, by a process that lives for milliseconds: so this needs `os` alone.
"""
import os

SETTLED, UNSETTLED = "settled", "unsettled"
# The longest tick of the clock of a file system, in nanoseconds.
TICK = 2_000_000_000
# The stamp of what isn't there, and the digest of what can't be read.
NONE = "-"


def stamp_of(path):
    """The stamp of a file or folder."""
    try:
        it = os.stat(path)
    except OSError:
        return NONE
    return f"{it.st_mtime_ns}.{it.st_ctime_ns}.{it.st_size}.{it.st_ino}"


def is_settled(stamp, begun):
    """Whether what has this stamp had it for more than a tick when a record was begun, in nanoseconds."""
    return stamp == NONE or max(map(int, stamp.split(".")[:2])) + TICK < begun


def entries_of(text):
    """The values and paths of a part of a record."""
    return (line.split(" ", 1) for line in text.split("\n") if line)


class Record:
    """A record that is kept in a file, and is empty where that isn't there. Its paths are those below a folder."""

    def __init__(self, file, top):
        self.file, self.top = file, top
        # Its state and when it was begun; what was worked out; the stamps with their paths, and the digests of files.
        self.head, self.found, self.stamps, self.digests = [UNSETTLED, "0"], [], "", ""
        try:
            with open(file, encoding="utf-8", errors="surrogateescape") as it:
                head, found, self.stamps, self.digests = it.read().split("\n\n")
            self.head, self.found = head.split(), found.split()
        except (OSError, ValueError):
            pass

    def stands(self):
        """Whether nothing has changed since."""
        if self.head[0] != SETTLED:
            return False
        for line in self.stamps.split("\n"):
            stamp, _, path = line.partition(" ")
            if stamp_of(f"{self.top}/{path}") != stamp:
                return False
        return True

    def settled_digests(self):
        """The digests of the files that had settled, by their stamps and paths; none of a record that isn't whole."""
        known = {}
        try:
            begun = int(self.head[1])
            stamps = {path: stamp for stamp, path in entries_of(self.stamps)}
            for digest, path in entries_of(self.digests):
                if is_settled(stamps[path], begun):
                    known[stamps[path], path] = digest
        except (LookupError, ValueError):
            return {}
        return known

    def keep(self, begun, found, stamps, digests):
        """Keeps what was worked out of paths with these stamps and digests, where it can be."""
        is_all = all(is_settled(stamp, begun) for stamp in stamps.values())
        head = f"{SETTLED if is_all else UNSETTLED} {begun}"
        lines = ["\n".join(f"{value} {path}" for path, value in values.items()) for values in (stamps, digests)]
        if any("\n" in path for path in stamps):
            # Such a path takes two lines.
            return
        part = f"{self.file}.{os.getpid()}"
        try:
            with open(part, "w", encoding="utf-8", errors="surrogateescape") as it:
                it.write("\n\n".join([head, " ".join(found), *lines]))
            os.replace(part, self.file)
        except OSError:
            pass
