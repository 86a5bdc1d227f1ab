"""The definitions of the repository, and which of them lead to which."""
import collections
import functools
import glob
import os
import re

from pages.spec_reader import Definitions, Module, Problem
from places import TOP


def path_of(file):
    """The path by which a file of definitions is named."""
    return "Rattle." + file[len("crates/") : -len(".antt")].replace("/", ".")


def own_path(path, crates):
    """The path by which the crate that has it names a module, where another one hands it on."""
    _, _, *inner = path.split(".")
    while len(inner) > 1 and inner[1] in crates:
        handed, *inner = inner[1:]
        path, inner = ".".join(["Rattle", handed, "specs", *inner]), ["specs", *inner]
    return path


class Graph:
    """All files, read as they are asked for, and what they reach. An item is known by its file and name."""

    def __init__(self):
        self.crates = set(os.listdir(f"{TOP}/crates"))
        self.items, self.edges = {}, {}
        self.library = collections.defaultdict(set)

    @functools.cache
    def definitions(self, path):
        path = own_path(path, self.crates)
        _, crate, _, *parts = path.split(".")
        file = f"crates/{crate}/specs/{'/'.join(parts)}.antt"
        if not os.path.exists(f"{TOP}/{file}"):
            raise Problem(f"no file {file} for {path}")
        return Definitions(file, path, self)

    @functools.cache
    def module(self, file):
        return Module(file, file.split("/")[1])

    def source(self, file):
        """The file of definitions or of types."""
        return self.module(file) if file.endswith(".rt") else self.definitions(path_of(file))

    @functools.cache
    def type_item(self, crate, name):
        """The type of this name in a crate, or one that the crate passes on."""
        files = sorted(glob.glob(f"crates/{crate}/src/**/*.rt", root_dir=TOP, recursive=True))
        for file in files:
            if name in self.module(file).starts:
                return self.module(file).item(name)
        for file in files:
            other, original = self.module(file).uses.get(name, (None, None))
            if other in self.crates and other != crate:
                return self.type_item(other, original)
        return None

    def item(self, target):
        """The item that a target names; None where it is of the library."""
        place, name = target
        if isinstance(place, Module):
            crate, original = place.crate_of(name)
            return self.type_item(crate, original) if crate in self.crates else None
        place = own_path(place, self.crates)
        parts = place.split(".")
        if parts[1] not in self.crates:
            self.library[place].add(name)
            return None
        if parts[2] == "specs" and parts[3] in ("declared", "contracts"):
            return self.declared(place, name)
        file = self.definitions(place)
        found = file.items.get(file.owners.get(name, name))
        if not found and name in file.scope.names:
            return self.item(file.scope.names[name])
        if not found:
            raise Problem(f"{file.file}: nothing here is named {name}")
        return found

    def declared(self, path, name):
        """A type of the program by its path, or a constant by that of its module."""
        _, crate, _, _, *parts = re.sub(r"\.The\w+$", "", path).split(".")
        for candidate in (parts[-1], name):
            found = self.type_item(crate, candidate)
            if found:
                return found
        raise Problem(f"crates/{crate}/src has no type or constant for {path}.{name}")

    def keys(self, references):
        """The items that these name, but for those of the library."""
        found = filter(None, map(self.item, references))
        return [(item.file, item.name) for item in found]

    def read(self, references):
        """Reads all that is named, depth first, and keeps the order."""
        for target in references:
            item = self.item(target)
            key = item and (item.file, item.name)
            if item and key not in self.items:
                self.items[key] = item
                self.edges[key] = []
                self.read(item.references)
                self.edges[key] = self.keys(item.references)

    def reach(self, keys, but=()):
        """The items that these lead to, themselves among them; no way leads through those of `but`."""
        found, waiting = set(), list(keys)
        while waiting:
            key = waiting.pop()
            if key not in found and key not in but:
                found.add(key)
                waiting += self.edges[key]
        return found

    def lines(self, keys):
        """How many lines of definitions these have, without comments."""
        return sum(self.formula(key).count("\n") + 1 for key in keys)

    @functools.cache
    def formula(self, key):
        """An item as it stands in its file, without comments."""
        return self.source(key[0]).formula_of(self.items[key])


def reading_order(nodes, edges):
    """The nodes, each before those that it leads to; else, and in a cycle, as they stand."""
    waiting = {node: set() for node in nodes}
    for node in nodes:
        for other in edges[node]:
            if other != node and other in waiting:
                waiting[other].add(node)
    order = []
    while waiting:
        free = next((node for node, before in waiting.items() if not before), next(iter(waiting)))
        order.append(free)
        del waiting[free]
        for before in waiting.values():
            before.discard(free)
    return order
