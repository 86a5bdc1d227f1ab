"""How ./lineage speaks on standard error."""
import os


def say(text):
    """Writes on standard error, where there is one."""
    lines = text.replace("\n", "\n  ")
    write(f"lineage: {lines}\n")


def renew(line):
    """Writes a line of a terminal in the place of the one that is there."""
    write(f"\r\x1b[K{line}")


def write(text):
    try:
        os.write(2, text.encode(errors="backslashreplace"))
    except OSError:
        pass
