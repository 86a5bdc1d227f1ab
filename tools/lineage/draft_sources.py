"""Drafts that name the files of sources: `"source": {"source_file": "shop.contract"}` stands for the text of that file,
by its path from the present folder on. ./lineage puts the text in its place before the program reads the draft.

All else of the draft stays as it is, byte by byte, and each line where it is: what JSON is, the program decides.
"""
import json
import os
import re
import stat

from lineage.draft_faults import MAX_SOURCE_BYTES as MAX_TEXT_BYTES
from lineage.lineage_input import MAX_SOURCE_BYTES
from lineage.saying import say

WORD = b"source_file"
STRING = rb'"(?:[^"\\]|\\.)*"'
# Within a text of JSON a quote has a backslash before it, so this is found nowhere else.
NAMED = re.compile(rb'("source"\s*:\s*)(\{\s*"source_file"\s*:\s*(' + STRING + rb")\s*\})")
PART_BYTES = 1 << 20


def take_input():
    """Puts a draft with the texts of its files in the place of standard input, a file that has a draft which names
    some."""
    if not stat.S_ISREG(os.fstat(0).st_mode):
        return
    start, parts = os.lseek(0, 0, os.SEEK_CUR), []
    size = 0
    while size <= MAX_SOURCE_BYTES and (part := os.pread(0, PART_BYTES, start + size)):
        parts.append(part)
        size += len(part)
    draft = b"".join(parts)
    if WORD in draft:
        resolved = os.memfd_create("draft")
        with os.fdopen(os.dup(resolved), "wb") as file:
            file.write(NAMED.sub(with_text, draft))
        # The caller's file has been read by then.
        os.lseek(0, size, os.SEEK_CUR)
        os.lseek(resolved, 0, os.SEEK_SET)
        os.dup2(resolved, 0)
        os.close(resolved)


def with_text(found):
    """A member of a draft with the text of the file that it names; as it is where that can't be read."""
    try:
        text = text_of(json.loads(found[3]))
    except (OSError, ValueError) as error:
        say(f"the source_file {found[3].decode(errors='replace')} can't be read: {error}")
        return found[0]
    # A text is one line, and what follows it stands where it stood.
    return found[1] + json.dumps(text).encode() + b"\n" * found[2].count(b"\n")


def text_of(path):
    """The text of a file, or more than a source may have of a longer one."""
    if os.path.exists(path) and not os.path.isfile(path):
        raise ValueError("it is no regular file")
    with open(path, "rb") as file:
        source = file.read(MAX_TEXT_BYTES + 1)
    try:
        return source.decode("utf-8", "strict" if len(source) <= MAX_TEXT_BYTES else "replace")
    except UnicodeDecodeError:
        raise ValueError("it is no UTF-8") from None
