"""What is to be read of the definitions, and how long that takes: by chapters, and by commands.

A chapter is a floor of docs/map.md. A route goes from the case of `Wants` of one command through all that
this names; where the case has a decoder or a compiler, through what `IsWanted` says of them too.
"""
import collections
import dataclasses
import re

from pages.crate_map import floors, sections
from pages.spec_reader import Problem

# How many lines of definitions are read in an hour, with the sentence of each.
LINES_PER_HOUR = 180
# The floors, as they are best read: what is printed, what a crash may leave and what an answer is come
# first, the language of contracts last.
CHAPTERS = [
    "Commands",
    "Log",
    "Base",
    "Chain",
    "Blocks",
    "Roots",
    "Proofs",
    "Node",
    "Programs",
    "Language that runs",
    "Language as text",
]
OUTPUT = "crates/cli_output/specs/Output.antt"
WANTS, IS_WANTED, NEXT_BY = ((OUTPUT, name) for name in ("Wants", "IsWanted", "next_by"))


@dataclasses.dataclass
class Chapter:
    """A floor, with the items on it that are reached."""

    title: str
    meaning: str
    keys: list

    @property
    def page(self):
        return f"{self.title.lower().replace(' ', '-')}.md"


@dataclasses.dataclass
class Route:
    """What is to be read by those who rely on something, and what that is."""

    name: str
    keys: set


def crate_of(key):
    return key[0].split("/")[1]


def chapters(graph):
    """The chapters that have definitions."""
    meanings, found = floors(), sections()
    if set(meanings) != set(CHAPTERS):
        raise Problem(f"docs/map.md has other floors than audit_routes.py: {sorted(set(meanings) ^ set(CHAPTERS))}")
    of_crate = {crate: title for title in CHAPTERS for crate, _ in found[title]}
    keys = collections.defaultdict(list)
    for key in graph.items:
        keys[of_crate[crate_of(key)]].append(key)
    return [Chapter(title, meanings[title], keys[title]) for title in CHAPTERS if keys[title]]


def sides_of(graph):
    """What `IsWanted` says of each variable that `Wants` has, by the name of the variable."""
    formula = graph.formula(IS_WANTED)
    named = {key[1]: key for key in graph.edges[IS_WANTED]}
    pairs = re.findall(r"\((\w+) : \w+\) × (\w+) \1 ×", formula)
    return {variable: named[name] for variable, name in pairs}


def variant_of(left):
    """The command of an equation's left side; none where the words are none."""
    names = [token for token in left if re.match(r"[A-Z]\w*$", token)]
    return names[2] if "Some" in names else None


def command_routes(graph):
    """The route of each command, from its case of `Wants` on."""
    sides = sides_of(graph)
    for left, right, references in graph.source(OUTPUT).equations("Wants"):
        variant = variant_of(left)
        starts = graph.keys(references) + [key for variable, key in sides.items() if variable in right]
        yield variant, Route(f"`{variant}`" if variant else "words that are no command", graph.reach(starts))


def clause_routes(graph, clauses, laws):
    """The route of each clause of `run` that is a law, and says what an output is good for: of all laws but those that
    name what is wanted of every command."""
    for name, keys in clauses.items():
        if name in laws and IS_WANTED not in keys:
            yield name, Route(f"clause `{name}`", graph.reach(keys))


def common_route(graph, clauses, special):
    """What every run does: what the other clauses name, but for what is wanted."""
    but = {WANTS, NEXT_BY, *sides_of(graph).values()}
    keys = [key for name, keys in clauses.items() if name not in special for key in keys]
    return Route("what every run does", graph.reach(keys, but))
