"""What ./lineage does itself: the words that begin with `--`, and help. Each function takes the words that follow
its own, and answers the exit status.
"""
import contextlib
import os
import shutil
import subprocess

from lineage import commands, lineage_build, programs
from lineage.programs import PROVED
from lineage.saying import say
from lineage.statuses import DONE, NOT_BUILT, NOT_INSTALLED, NOT_PROVED, UNTOLD, USAGE
from places import TOP

INSTALL_FOLDER = "/usr/local/bin"
NAME = "lineage"


def print_out(text):
    """Writes on standard output, and answers the status."""
    data = f"{text}\n".encode()
    try:
        while data:
            data = data[os.write(1, data) :]
    except OSError:
        say("standard output can't be written")
        return UNTOLD
    return DONE


def wrong_words(form):
    say(f"these are not the words of `./lineage {form}`")
    return USAGE


def say_not_proved():
    """Says that there is no proved program."""
    change = programs.Present().change
    if change:
        say(f"{change}; `./lineage --prove` proves what changed")
    else:
        say("there is no proved program here; `./lineage --prove` proves and builds it")
    return NOT_PROVED


def prove(words):
    if words:
        return wrong_words("--prove")
    return DONE if lineage_build.prove() else NOT_BUILT


def install(words):
    """Copies the proved program alone, under its name, to a folder."""
    if len(words) > 1:
        return wrong_words("--install [DIR]")
    if programs.present() is not PROVED:
        return say_not_proved()
    folder = words[0] if words else INSTALL_FOLDER
    path = os.path.join(folder, NAME)
    part = f"{path}.{os.getpid()}"
    try:
        shutil.copyfile(PROVED.path, part)
        os.chmod(part, 0o755)
        os.replace(part, path)
    except OSError as error:
        with contextlib.suppress(OSError):
            os.remove(part)
        say(f"the program can't be copied to {path}: {error.strerror}")
        return NOT_INSTALLED
    return print_out(path)


def version(words):
    """Says what the program that answers was built from, and whether it is proved."""
    if words:
        return wrong_words("--version")
    program = programs.present()
    built = program.words() if program else []
    lines = [f"commit {commit()}"]
    if program:
        lines.append(f"proved {'yes' if program is PROVED else 'no'}")
        lines.append(f"kit {built[2].strip() if len(built) > 2 else 'unknown'}")
    else:
        lines += ["proved no", f"kit {lineage_build.kit()}"]
    lines.append(f"sources {programs.digests()[programs.SOURCES]}")
    lines.append(f"program {built[1] if program else 'none'}")
    return print_out("\n".join(lines))


def commit():
    """The commit of this clone, and whether its files are others."""
    words = {"cwd": TOP, "capture_output": True, "text": True}
    with contextlib.suppress(OSError):
        found = subprocess.run(["git", "rev-parse", "--verify", "-q", "HEAD"], **words)
        top = subprocess.run(["git", "rev-parse", "--show-toplevel"], **words).stdout.strip()
        if not found.returncode and os.path.realpath(top) == TOP:
            changed = subprocess.run(["git", "status", "--porcelain"], **words).stdout
            return found.stdout.strip() + (" with changes" if changed else "")
    return "unknown"


def test(words):
    """Runs the tests that need no proof over the program that answers: all, or those parts of them that have a word
    in their name."""
    if len(words) % 2 or not set(words[::2]) <= {"-k", "--jobs"}:
        return wrong_words("--test [-k WORD] [--jobs N]")
    program = programs.present() or lineage_build.ensure_program()
    if not program:
        return NOT_BUILT
    if program is not PROVED:
        say("the program is tested as it is built without its proofs, which weren't checked")
    return subprocess.run([f"{TOP}/tools/checks/run-tests", program.path, *words]).returncode


def show_help(words):
    """Lists the commands, or says all of those that begin with a word."""
    if not words:
        return print_out(commands.listed())
    shown = commands.beginning_with(words)
    own = [f"{form}\n  {meaning}" for form, meaning in commands.OWN_FORMS if form.split()[0] == words[0]]
    if len(words) > 1 or not shown and not own:
        return wrong_words("help [WORD]")
    return print_out("\n\n".join([*map(commands.described, shown), *own]))


OWN = {"--prove": prove, "--install": install, "--version": version, "--test": test}
OWN |= dict.fromkeys(("help", "--help", "-h"), show_help)


def take(words):
    """Does what these words say, if they are the wrapper's own, and answers the status; none else."""
    return OWN[words[0]](words[1:]) if words[0] in OWN else None
