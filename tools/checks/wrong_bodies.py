"""The wrong bodies of tools/wrong-bodies, and the copy of the working tree that they are tried on.

Each is an edit in the format of crates/CRATE/must-fail/*.edit. The prover must refuse those of
tools/wrong-bodies/CRATE, which tools/checks/try-wrong-bodies tries. Those of tools/wrong-bodies/edge/CRATE it lets
through but for a few, since no clause says what a file holds; the runs of tools/checks/edge_checks.py must refuse
them, and tools/checks/try-edge tries that.
"""
import os
import shutil
import subprocess

from places import TOP

BODIES = "tools/wrong-bodies"
EDGE = "edge"


class BadEdit(Exception):
    """An edit that can't be applied, and why."""


def edits_of(name):
    """The edits in a folder of tools/wrong-bodies; none where there is no such folder."""
    folder = f"{TOP}/{BODIES}/{name}"
    names = os.listdir(folder) if os.path.isdir(folder) else []
    return sorted(name for name in names if name.endswith(".edit"))


def copy_tree(scratch):
    """Copies the files that git tracks or would track, as they are now."""
    words = ["git", "ls-files", "-z", "--cached", "--others", "--exclude-standard"]
    listed = subprocess.run(words, cwd=TOP, check=True, capture_output=True).stdout
    for name in set(filter(None, os.fsdecode(listed).split("\0"))):
        if os.path.isfile(f"{TOP}/{name}"):
            os.makedirs(os.path.dirname(f"{scratch}/{name}"), exist_ok=True)
            shutil.copy2(f"{TOP}/{name}", f"{scratch}/{name}")


def edge_edits():
    """The edits of each crate that has lines over the outside: the paths by their names, CRATE/NAME."""
    folder = f"{TOP}/{BODIES}/{EDGE}"
    crates = sorted(os.listdir(folder))
    edits = [f"{crate}/{edit}" for crate in crates for edit in edits_of(f"{EDGE}/{crate}")]
    return {edit.removesuffix(".edit"): f"{folder}/{edit}" for edit in edits}


def must_fail_edits(crate):
    """The edits of a crate that the gate tries: their paths."""
    folder = f"{TOP}/crates/{crate}/must-fail"
    names = os.listdir(folder) if os.path.isdir(folder) else []
    return sorted(f"{folder}/{name}" for name in names if name.endswith(".edit"))


def paths_of(crate):
    """The paths of the edits of a crate that the gate doesn't try."""
    return [f"{TOP}/{BODIES}/{crate}/{name}" for name in edits_of(crate)]


def edited_file(edit, crate):
    """The file of a crate that an edit names, and what it makes of it, where it changes one alone."""
    [(file, text)] = edited_texts(edit, crate).items()
    return f"{crate}/{file}", text


def apply(edit, crate):
    """Makes the changes of an edit in the folder of a crate."""
    for file, text in edited_texts(edit, crate).items():
        with open(f"{crate}/{file}", "w", encoding="utf-8") as changed:
            changed.write(text)


def edited_texts(edit, crate):
    """What an edit makes of files of a crate, by their paths in its folder: of the file that it names, each `old` text,
    which must stand there once, becomes the `new` one."""
    file, old, texts = None, None, {}
    with open(edit, encoding="utf-8") as lines:
        for line in lines:
            word, _, text = line.rstrip("\n").partition(":")
            text = text.removeprefix(" ")
            if word == "file":
                file = text
            elif word == "old":
                old = text
            elif word == "new":
                texts[file] = replaced_once(edit, texts.get(file) or text_of(edit, crate, file), old, text)
    if not texts:
        raise BadEdit(f"{edit} changes nothing")
    return texts


def text_of(edit, crate, file):
    if not file or not os.path.isfile(f"{crate}/{file}"):
        raise BadEdit(f"{edit}: there is no file {file}")
    with open(f"{crate}/{file}", encoding="utf-8") as text:
        return text.read()


def replaced_once(edit, text, old, new):
    if not old or old == new:
        raise BadEdit(f"{edit} has a `new` without an `old`, or the same as the `old`")
    if text.count(old) != 1:
        raise BadEdit(f"{edit}: `{old}` stands {text.count(old)} times in its file")
    return text.replace(old, new)
