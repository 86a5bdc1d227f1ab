"""Builds the program for ./lineage where it must be: without its proofs where none is there, which is quick, and
over its proofs by `--prove`.
"""
import contextlib
import fcntl
import os
import re
import shutil
import subprocess

from lineage import programs, quick_build, sources, toolchain
from lineage.programs import PROVED, UNPROVED
from lineage.progress import Progress, minutes
from lineage.saying import say
from places import TOP

LOG = f"{TOP}/out/lineage.log"
CRATE = "lineage"
# A crate's check from nothing takes up to so many bytes of memory.
CHECK_BYTES = 4 << 30
# What a crate's proof takes at least, in bytes of code whose proof takes as long.
LEAST_BYTES = 5_000
# Of what is to be proved, the part from which on it is estimated what is left: one in so many.
ESTIMATED_FROM = 20
# How often it is said how far a quick build is where there is no terminal, in seconds.
QUICK_PERIOD = 20


def has_toolchain():
    """Whether the toolchain is there, which is said if not."""
    if toolchain.tool():
        return True
    say("the Rattle toolchain isn't there to build the program: no `rt` on the path")
    return False


def kit():
    """Which toolchain this is, in its own words."""
    if name := toolchain.name():
        return name
    words = {"stdin": subprocess.DEVNULL, "capture_output": True, "text": True}
    with contextlib.suppress(OSError):
        return subprocess.run(["rt", "version"], **words).stdout.strip() or "unknown"
    return "unknown"


@contextlib.contextmanager
def one_at_a_time(path):
    """The file of this path, for writing, which is locked: another build has ended then."""
    os.makedirs(os.path.dirname(path), exist_ok=True)
    with open(path, "a+", encoding="utf-8", errors="replace") as file:
        try:
            fcntl.flock(file, fcntl.LOCK_EX | fcntl.LOCK_NB)
        except BlockingIOError:
            say("waiting for another build to end")
            fcntl.flock(file, fcntl.LOCK_EX)
        yield file


def has_changed(digest):
    """Whether the sources are others than those of this digest, which is said."""
    if sources.digest_of_sources() == digest:
        return False
    say("the sources changed meanwhile; start again")
    return True


# ---- without proofs


def ensure_program():
    """The program that answers, which is built without its proofs where none does; none where that fails."""
    present = programs.Present()
    if present.program or not has_toolchain():
        return present.program
    why = present.change or "nothing is proved here"
    slower = "it is some four times slower than the proved one"
    say(f"{why}; building the program without its proofs, which takes some two minutes; {slower}")
    return build_unproved(UNPROVED)


def build_unproved(program):
    """Builds a program without its proofs, if another build hasn't meanwhile; none where that fails."""
    folder = os.path.dirname(program.path)
    with one_at_a_time(f"{folder}/lock"):
        if programs.is_current(program):
            return program
        digest = sources.digest_of_sources()
        room, built = f"{folder}/room", f"{folder}/new"
        shutil.rmtree(room, ignore_errors=True)
        os.mkdir(room)
        try:
            build_quickly(f"{TOP}/crates/{program.crate}", room, built)
        except quick_build.NotBuilt as error:
            say(f"the program wasn't built: {error}")
            return None
        finally:
            shutil.rmtree(room, ignore_errors=True)
        if has_changed(digest):
            return None
        os.replace(built, program.path)
        program.take_mark(digest, kit())
        return program


def build_quickly(crate, room, program):
    """Builds a program without its proofs, and says how far it is."""
    steps = ["before the first step"]

    def text():
        return f"building, {steps[-1]}, after {minutes(progress.seconds())}"

    with Progress(text, say, QUICK_PERIOD) as progress:
        quick_build.build(crate, room, program, steps.append)
    say(f"built it in {minutes(progress.seconds())}")


# ---- over proofs


def jobs():
    """How many crates to prove at a time: one a processor, where there is memory for that."""
    memory = os.sysconf("SC_PHYS_PAGES") * os.sysconf("SC_PAGE_SIZE")
    return max(1, min(len(os.sched_getaffinity(0)), memory // CHECK_BYTES))


def crates_below(name):
    """A crate and those that it stands on: of each how much its proof takes, measured in bytes of code with their
    contracts, by which that goes rather than by bytes of lemmas."""
    with open(f"{TOP}/crates.txt", encoding="utf-8") as file:
        lines = re.findall(r"(?m)^(\w+)\b[^:\n#]*:([^\n#]*)", file.read())
    below = {crate: deps.split() for crate, deps in lines}
    found, waiting = {}, [name]
    while waiting:
        crate = waiting.pop()
        if crate in below and crate not in found:
            code = sources.files_below(f"crates/{crate}/src")
            found[crate] = LEAST_BYTES + sum(map(os.path.getsize, code))
            waiting += below[crate]
    return found


class Proofs:
    """How far the proofs are, by the lines of their log."""

    def __init__(self, sizes):
        self.sizes = sizes
        self.crates = len(sizes)
        self.done = self.functions = 0
        self.whole = self.left = sum(sizes.values())
        # When the first proof began, in seconds: once the compiler has read all sources.
        self.begun = 0
        # What the crates take that were proved since then and not kept from before; the last one.
        self.proved, self.last = 0, None

    def read(self, line, seconds):
        """Takes a line of the log, and when it came. A crate's lines come when it is proved, first
        its name, and last how many functions it has, unless its proof was kept from before."""
        if line.startswith("only="):
            self.begun = seconds
        functions = re.match(r"logic=proved functions=(\d+)", line)
        crate = re.match(r"== (\w+)$", line)
        if functions:
            self.functions += int(functions[1])
            self.proved += self.sizes.get(self.last, 0)
        elif crate and crate[1] != "summary":
            self.done, self.last = self.done + 1, crate[1]
            self.left -= self.sizes.get(self.last, 0)

    def text(self, seconds):
        text = f"proved {self.done} of {self.crates} crates, {self.functions} functions, after {minutes(seconds)}"
        if self.proved * ESTIMATED_FROM < self.whole or self.left <= 0:
            return text
        # If the others go on as those that were proved since the first began.
        left = (seconds - self.begun) * self.left / self.proved
        return f"{text}; some {max(1, round(left / 60))} min left"


def run_logged(words, folder, log, read=len, source=subprocess.DEVNULL):
    """Runs words with their output in the log, which is also read, and answers their status."""
    streams = {"stdin": source, "stdout": subprocess.PIPE, "stderr": subprocess.STDOUT}
    child = subprocess.Popen(words, cwd=folder, text=True, errors="replace", **streams)
    try:
        for line in child.stdout:
            log.write(line)
            log.flush()
            read(line)
        return child.wait()
    finally:
        child.terminate()
        child.wait()


def build_proved(log):
    """Proves the program and the crates that it stands on, and builds it over their proofs."""
    proofs, crate = Proofs(crates_below(CRATE)), f"{TOP}/crates/{CRATE}"
    say(f"proving {proofs.crates} crates; from nothing this takes many minutes. Log: {LOG}")
    with Progress(lambda: proofs.text(progress.seconds()), say) as progress:
        words = ["rt", "all", "check", "--jobs", str(jobs())]
        if run_logged(words, crate, log, lambda line: proofs.read(line, progress.seconds())):
            return False
    say(f"proved {proofs.crates} crates in {minutes(progress.seconds())}; building the program")
    with open(f"{TOP}/examples/one-set.blocks", "rb") as example:
        words = ["rt", "run", "--", "scan", "hist", "raw/a", "0"]
        return run_logged(words, crate, log, source=example) == 0


def report_failure(log):
    """Says that the program wasn't built, and how the log ends."""
    log.seek(0)
    lines = [line.rstrip("\n") for line in log][-12:]
    say("\n".join(["the program wasn't proved and built. The log ends so:", *lines, f"all of it: {LOG}"]))
    return False


def prove():
    """Whether there is a proved program of the sources as they are: proves and builds it where there is none."""
    if programs.present() is PROVED:
        say("the program that is there is that of these sources, and proved")
        return True
    if not has_toolchain():
        return False
    with one_at_a_time(LOG) as log:
        if programs.present() is PROVED:
            return True
        log.truncate(0)
        digest = sources.digest_of_sources()
        if not build_proved(log) or not os.path.exists(PROVED.path):
            return report_failure(log)
        if has_changed(digest):
            return False
        PROVED.take_mark(digest, kit())
    say("proved; from now on `./lineage` runs the proved program")
    return True
