"""Which toolchain this is. `rt version` prints its name, and takes longer than an answer: what it prints stands in a
file of the toolchain.
"""
import os

TOOL = "rt"
NAME_FILE = "KIT-ID"


def tool():
    """The toolchain's own tool, which is on the path; nothing where it isn't."""
    for folder in os.environ.get("PATH", os.defpath).split(os.pathsep):
        path = os.path.join(folder or ".", TOOL)
        if os.access(path, os.X_OK) and os.path.isfile(path):
            return path
    return ""


def name():
    """The name of the toolchain that is there; nothing where none is, or it doesn't say so in its file."""
    found = tool()
    if not found:
        return ""
    top = os.path.dirname(os.path.dirname(os.path.realpath(found)))
    try:
        with open(f"{top}/{NAME_FILE}", encoding="utf-8", errors="replace") as file:
            return file.read().strip()
    except OSError:
        return ""
