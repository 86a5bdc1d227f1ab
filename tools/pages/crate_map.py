"""docs/map.md: its floors, and the crates that stand on each."""
import re

from places import TOP

MAP = "docs/map.md"


def text_of_map():
    with open(f"{TOP}/{MAP}", encoding="utf-8") as file:
        return file.read()


def sections():
    """The sections of the map in their order, each with the first two cells of its rows."""
    found = {}
    for section in text_of_map().split("\n## ")[1:]:
        title, _, rest = section.partition("\n")
        found[title] = re.findall(r"^\| \[?(\w+)(?:\]\([^)]*\))? \| ([^|]*) \|", rest, re.M)
    return found


def floors():
    """The floors in their order, each with what it is, by the table at the head of the map."""
    return dict(re.findall(r"^\| \[([^\]]*)\]\(#[\w-]*\) \| (.*) \|$", text_of_map(), re.M))
