"""Groups of edits of a crate that one check can judge, since it reports each function by itself.

An edit is of a group only where it changes bodies of functions alone. No two edits of a group change one function, or
functions of one name, and none changes a function that another one's function may call: this is told by names, so of
two functions of a name each is taken for the other. A function that ensures nothing may be known by its body, so what
it calls counts as called by its callers.
"""
import os
import re

from checks.rattle_functions import changed, functions_of
from checks.wrong_bodies import BadEdit, edited_texts

WORD = re.compile(r"\w+")
ENSURES = re.compile(r"\s+ensures\b")
# A function whose answer may be a part of a type or of a definition.
CONSTANT = "const fn "
# What stands right before a function and belongs to it.
ABOVE = re.compile(r" *(#\[|//)")


class Place:
    """A function that an edit changes, by its file and its name: its lines with what stands above them, counted from
    1, and whether its name is that of one function of the file alone."""

    def __init__(self, file, lines, function):
        first = function.at
        while first and ABOVE.match(lines[first - 1]):
            first -= 1
        self.file, self.name = file, function.name
        self.first, self.last = first + 1, function.to
        self.is_alone = sum(other.name == function.name for other in functions_of(lines)) == 1

    def has(self, file, line):
        return file == self.file and self.first <= line <= self.last

    def has_proof(self, path):
        """Whether a file has proofs of the function: it stands in a folder of its name, in that of its module, or of a
        type there."""
        *modules, name = path.split("/")[1:-1] or [""]
        own = self.file.removesuffix(".rt").split("/")[1:]
        own = own[:-1] if own[-1] in ("lib", "main", "mod") else own
        is_of_module = modules[: len(own)] == own and len(modules) <= len(own) + 1
        is_of_type = all(module[:1].isupper() for module in modules[len(own) :])
        return self.is_alone and name == self.name and is_of_module and is_of_type


class Edit:
    """An edit: its path, what it makes of files, the functions that it changes, and the words of their new bodies and
    of the old ones. It has no functions where it changes anything else."""

    def __init__(self, path, texts, crate):
        self.path, self.texts = path, texts
        self.places, self.words = [], set()
        is_of_bodies = True
        for file, text in texts.items():
            before, after = crate[file].split("\n"), text.split("\n")
            both = changed(after, before), changed(before, after)
            is_of_bodies = is_of_bodies and bool(both[1]) and len(before) == len(after)
            is_of_bodies = is_of_bodies and not any(CONSTANT in function.front[0] for function in both[1])
            self.places += [Place(file, after, function) for function in both[1]]
            for function in [*both[0], *both[1]]:
                self.words |= set(WORD.findall("\n".join(function.body)))
        if not is_of_bodies:
            self.places = []

    def names(self):
        return {place.name for place in self.places}

    def is_seen_in(self, file, line):
        """Whether a place is in a function that the edit changes, or in its proofs."""
        if file.startswith("proofs/"):
            return any(place.has_proof(file) for place in self.places)
        return any(place.has(file, line) for place in self.places)


class Sources:
    """The sources of a crate: their texts by path, and of each name of a function what those of that name may call."""

    def __init__(self, folder):
        self.folder, self.texts = folder, {}
        for at, _, names in os.walk(f"{folder}/src"):
            for name in filter(lambda name: name.endswith(".rt"), names):
                with open(f"{at}/{name}", encoding="utf-8") as file:
                    self.texts[os.path.relpath(f"{at}/{name}", folder)] = file.read()
        self.calls, self.unsaid = {}, set()
        for text in self.texts.values():
            for function in functions_of(text.split("\n")):
                words = set(WORD.findall("\n".join(function.body)))
                self.calls.setdefault(function.name, set()).update(words)
                if not any(map(ENSURES.match, function.front)):
                    self.unsaid.add(function.name)

    def edit(self, path):
        """An edit of the crate; none where it can't be applied."""
        try:
            texts = edited_texts(path, self.folder)
        except BadEdit:
            return None
        is_of_code = set(texts) <= set(self.texts)
        return Edit(path, texts, self.texts) if is_of_code else None

    def reached(self, words, is_through_all):
        """The names that some words lead to: themselves, and what is called by functions of these names that ensure
        nothing, or by all of them."""
        seen, ahead = set(), set(words)
        while ahead:
            seen |= ahead
            through = ahead & self.calls.keys() if is_through_all else ahead & self.unsaid
            ahead = set().union(*(self.calls[name] for name in through)) - seen
        return seen


def groups(sources, edits, is_through_all):
    """The edits that change bodies alone, in groups, each of which can stand in one copy of the crate."""
    made = []
    for edit in filter(lambda edit: edit.places, edits):
        reached = sources.reached(edit.words, is_through_all)
        for group in made:
            if not any(meet(edit, reached, *other) for other in group):
                group.append((edit, reached))
                break
        else:
            made.append([(edit, reached)])
    return [[edit for edit, _ in group] for group in made]


def meet(edit, reached, other, other_reached):
    """Whether two edits can't be in one group."""
    names, other_names = edit.names(), other.names()
    return bool(names & other_names or names & other_reached or other_names & reached)


def joined_texts(sources, group):
    """What the edits of a group make of files of the crate: each line comes from the one that changes it."""
    texts = {}
    for edit in group:
        for file, text in edit.texts.items():
            plain = sources.texts[file].split("\n")
            lines = texts.setdefault(file, list(plain))
            for at, (before, after) in enumerate(zip(plain, text.split("\n"))):
                if after != before:
                    lines[at] = after
    return {file: "\n".join(lines) for file, lines in texts.items()}
