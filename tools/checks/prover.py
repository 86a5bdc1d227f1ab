"""What `rt` has to judge edits by, as the gate does; and what a check of several edits shows of each.

`rt` is a tool whose functions are taken as they are: a check of a copy of a crate, and what it says of one edit.
"""
import importlib.machinery
import importlib.util
import os
import re
import shutil
import sys

NAME = "rt"
FLAGS = ["--jobs", "1"]
# What `rt` calls an edit that is refused, by a goal or by a limit of the prover.
REFUSED = ("refused", "limit")
# An error, or a goal that isn't proved, with the place.
TOLD = re.compile(r"(?:note: )?(?:\./)?(\S+?):(\d+):\d+: (.*)")
NOT_PROVED = "it is not proved that "
# What a proof says that names what is gone, or that stands on such a proof.
GONE = re.compile(r"has no field|is not in scope|has no `|was not admitted")


def rt():
    """The functions of `rt`."""
    if NAME not in sys.modules:
        path = os.path.realpath(shutil.which(NAME))
        loader = importlib.machinery.SourceFileLoader(NAME, path)
        sys.modules[NAME] = importlib.util.module_from_spec(importlib.util.spec_from_loader(NAME, loader))
        loader.exec_module(sys.modules[NAME])
        os.environ.pop(sys.modules[NAME].rtlib.ALLOW_C, None)
        sys.modules[NAME].rtlib.guarded()
    return sys.modules[NAME]


def crates(top):
    """The crates of a tree, by their names."""
    return {crate.name: crate for crate in rt().rtlib.crates_below(top)}


def is_proved(crate, kept):
    """Whether a crate is proved as it is; what is below it is built first."""
    if any(below.build_rlib(FLAGS, anew=False) for below in crate.below()):
        return False
    ran = rt().checked(crate, {}, FLAGS, kept)
    if ran.returncode:
        print(ran.stdout[-4000:])
    return ran.returncode == 0


def judged(crate, edit, kept):
    """Whether an edit is refused, and what `rt` says of it: it says so by a truth value, or by a word of its own."""
    kind, text = rt().must_fail(crate, edit, FLAGS, kept)
    return kind is True or kind in REFUSED, text


def try_alone(crate, edit, kept):
    """Whether an edit is refused, and what `rt` says of it. What isn't refused over kept work is tried from nothing."""
    refused = judged(crate, edit, kept)
    return refused if refused[0] or not kept else judged(crate, edit, None)


def try_together(crate, texts, edits, kept):
    """The edits that are seen to be refused where all of them stand in one copy, each with the line that shows it: of a
    function that it changes a goal isn't proved, or there is an error in its proof. None is where anything else is
    wrong too, so that one may stand behind another."""
    ran = rt().checked(crate, texts, FLAGS, kept)
    lines = ran.stdout.rstrip("\n").split("\n")
    is_judged = ran.returncode == 1 and lines[-1].startswith("logic=not-proved")
    if not is_judged or rt().rtlib.STALE.search(ran.stdout) or any(rt().unread(line, texts) for line in lines):
        return {}
    seen = {}
    for line in lines:
        told = TOLD.match(line)
        if told and (told[3].startswith("error") or told[3].startswith(NOT_PROVED)):
            found = [edit for edit in edits if edit.is_seen_in(told[1], int(told[2]))]
            if len(found) != 1:
                return {}
            if not GONE.search(told[3]):
                seen.setdefault(found[0].path, line)
    return seen
