"""The programs that ./lineage may run, the proved one and one that was built without its proofs, and whether
each is that of the sources as they are.

A mark beside each says from what it was built: the digest of the sources, its own, and the toolchain. What is proved
and built is worked out from the files themselves (sources.py), which is needed only where one has changed.
"""
import os

from lineage import kept, toolchain
from places import TOP

# What was worked out last of the files, and for which.
KEPT = f"{TOP}/out/lineage.kept"
SOURCES = "sources"


class Program:
    """The program of a crate, proved or built without its proofs, and its mark. The one never stands where the
    other does."""

    def __init__(self, crate, is_proved):
        self.crate, self.is_proved = crate, is_proved
        # Where it stands below the top.
        self.place = f"crates/{crate}/out/{crate}" if is_proved else f"out/unproved/{crate}"
        self.path = f"{TOP}/{self.place}"
        self.mark = f"{TOP}/out/{crate}.built" if is_proved else f"{self.path}.built"

    def words(self):
        """The digest of the sources that it was built from, its own, and the toolchain; nothing where it has
        no mark."""
        try:
            with open(self.mark, encoding="utf-8") as file:
                words = file.read().strip().split(maxsplit=2)
        except (OSError, ValueError):
            return []
        return words if len(words) == 3 else []

    def change(self, found):
        """What isn't as it was when it was built, for a person; nothing where all is."""
        sources, own, kit = self.words()
        if sources != found[SOURCES]:
            return "the sources are others than those that were proved"
        if own != found[self.place]:
            return "the program is another than the one that was proved"
        if toolchain.name() not in ("", kit):
            return "the toolchain is another than the one that proved the sources"
        return ""

    def take_mark(self, sources, kit):
        """Notes that it was built from sources of this digest."""
        from lineage.sources import digest_of

        os.makedirs(os.path.dirname(self.mark), exist_ok=True)
        with open(self.mark, "w", encoding="utf-8") as file:
            file.write(f"{sources} {digest_of(self.path)} {kit}\n")


PROVED, UNPROVED = BOTH = tuple(Program("lineage", is_proved) for is_proved in (True, False))


def digests():
    """The digests of the sources and of both programs, by content. Where nothing has changed since they were worked out
    last, they are those that were kept."""
    places = [program.place for program in BOTH]
    record = kept.Record(KEPT, TOP)
    found = record.found
    if not record.stands() or len(found) != 1 + len(places):
        from lineage import sources

        found = sources.digests(record, places)
    return dict(zip([SOURCES, *places], found))


def is_current(program):
    """Whether any program is that of the sources as they are."""
    from lineage import sources

    if not program.words() or not os.path.exists(program.path):
        return False
    found = {SOURCES: sources.digest_of_sources(), program.place: sources.digest_of(program.path)}
    return not program.change(found)


class Present:
    """Which program answers: the proved one, or else the other one; none where neither is that of the sources as they
    are. And what has changed since the proved one was built, where there was one."""

    def __init__(self):
        candidates = [program for program in BOTH if program.words()]
        found = digests() if candidates else {}
        changes = {program: program.change(found) for program in candidates}
        self.program = next((program for program in candidates if not changes[program]), None)
        self.change = changes.get(PROVED, "")


def present():
    """The program that answers, as it is at this moment."""
    return Present().program
