"""The commands on the pages, and whether each prints what stands below it.

An indented line that begins with `$ ` is a command of a shell, indented lines right below it that begin with `> `
go on with it, and the lines below these, up to the next command or the end of the indented lines, are what it
prints on standard output. All pages are walked one after the other in one folder that has `lineage`, `examples`,
`tools` and `verifiers`, as the top of the repository has, each by a shell that begins there. At its end a page
must have left no file, and its shell must stand where it began: a page whose commands need files of their own
makes a folder for them, and removes it. Commands without a `$` are not run. These come from a tree whose `lineage`
has its program already (tools/checks/wrapper_checks.py makes one).
"""
import dataclasses
import os
import shutil
import subprocess
import tempfile

from checks.limits import limited
from places import TOP

PAGES = ["README.md", "examples/README.md", "examples/recall.md"]
PAGES += [f"docs/{name}.md" for name in ("language", "log", "follow", "roots", "proofs", "light")]
PAGES += sorted(f"docs/examples/{name}" for name in os.listdir(f"{TOP}/docs/examples"))
INDENT = "    "
PROMPT = f"{INDENT}$ "
GOES_ON = f"{INDENT}> "
# What the folder has: copies of what commands could write over, and links to the rest.
COPIED = ["examples"]
LINKED = ["lineage", "tools", "verifiers"]
# What stands behind the output of each command, on a line of its own.
END = "the end of a command of a page"
# How many seconds of a processor a command of a page may take.
PAGE_LIMIT = 600


@dataclasses.dataclass
class Command:
    """A command of a page, its line there, and what it prints."""

    line: int
    text: str
    printed: str


def commands_of(text):
    """The commands of a page."""
    commands, is_open = [], False
    for number, line in enumerate(text.split("\n"), 1):
        if line.startswith(PROMPT):
            commands.append(Command(number, line.removeprefix(PROMPT), ""))
            is_open = True
        elif is_open and line.startswith(GOES_ON) and not commands[-1].printed:
            commands[-1].text += "\n" + line.removeprefix(GOES_ON)
        elif line and not line.startswith(INDENT):
            is_open = False
        elif is_open:
            commands[-1].printed += line.removeprefix(INDENT) + "\n"
    for command in commands:
        # An empty line parts a block from what follows it.
        command.printed = command.printed.rstrip("\n") + "\n" if command.printed.strip() else ""
    return commands


def ran_page(commands, folder):
    """What each of these commands prints, one after another, and where their shell stands at the end."""
    script = "".join(f"{command.text}\necho '{END}'\n" for command in commands)
    ran = subprocess.run(
        ["bash", "-c", f"{script}pwd -P"],
        cwd=folder,
        stdin=subprocess.DEVNULL,
        stdout=subprocess.PIPE,
        stderr=subprocess.DEVNULL,
        **limited(PAGE_LIMIT),
    )
    *outputs, place = ran.stdout.decode(errors="backslashreplace").split(f"{END}\n")
    return outputs, place.rstrip("\n")


def make_folder(folder, tree):
    """A folder as the top of the repository is, for all that commands of the pages name."""
    for name in COPIED:
        shutil.copytree(f"{tree}/{name}", f"{folder}/{name}")
    for name in LINKED:
        os.symlink(f"{tree}/{name}", f"{folder}/{name}")


def wrong_in_page(page, commands, folder):
    """A line for each command of a page that prints something else, and for each hindrance that it leaves."""
    outputs, place = ran_page(commands, folder)
    for name in sorted(set(os.listdir(folder)) - {*COPIED, *LINKED}):
        yield f"{page}: its commands leave {name}"
    if len(outputs) != len(commands):
        yield f"{page}: the shell ended after {len(outputs)} of {len(commands)} commands"
    elif place != os.path.realpath(folder):
        yield f"{page}: its commands end in another folder than they began in"
    for command, output in zip(commands, outputs):
        if output != command.printed:
            where = f"{page}:{command.line}: {command.text}"
            yield f"{where}: printed {output!r:.300}, not {command.printed!r:.300}"


def wrong_commands(tree):
    """How many commands the pages have, and a line for each thing that is wrong, page after page in one folder."""
    count, wrong = 0, []
    with tempfile.TemporaryDirectory() as folder:
        make_folder(folder, tree)
        for page in PAGES:
            with open(f"{TOP}/{page}", encoding="utf-8") as file:
                commands = commands_of(file.read())
            count += len(commands)
            wrong += wrong_in_page(page, commands, folder)
    return count, wrong
