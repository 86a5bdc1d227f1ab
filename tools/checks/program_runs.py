"""Commands of the built program as cases: what each must print, and how it is run."""
import dataclasses
import os
import resource
import subprocess
import tempfile

from checks.limits import by_clock, limited, status_of
from checks.log_runs import LOG, environment, without_roots
from places import TOP

# A user without rights of its own.
NOBODY = 65534


@dataclasses.dataclass
class Case:
    """A command: its words, parted by blanks, and what it must print and end with."""

    words: bytes
    source: object
    # A text, or bytes where it prints frames.
    printed: object
    status: int
    # What the shell does to the streams, in its own words.
    streams: str = ""
    # How much memory the program may have, in bytes.
    memory: int = 0
    # Whether the program may read the log, and write neither it nor its folder.
    is_read_only: bool = False
    # The log before, as bytes; a text where it is a symbolic link to that path; none where there is
    # no such file.
    log: object = None
    # The log after, as bytes; what it was before where it is left out.
    after: object = None
    # Whether the roots that it must print are known; where they are not, `NO_ROOT` stands for each.
    has_roots: bool = True
    # How many seconds of a processor it may take.
    seconds: int = 120


def open_source(source):
    """A file of bytes or of so many zeros, or that of a path; nothing, where the shell gives it."""
    if source is None:
        return subprocess.DEVNULL
    if isinstance(source, str):
        return open(source, "rb")
    file = tempfile.TemporaryFile()
    if isinstance(source, int):
        file.truncate(source)
    else:
        file.write(source)
        file.seek(0)
    return file


def put_log(path, log):
    if isinstance(log, str):
        os.symlink(log, path)
    elif log is not None:
        with open(path, "wb") as file:
            file.write(log)


def read_log(path):
    """What put_log put there; none where there is no such file."""
    if os.path.islink(path):
        return os.readlink(path)
    if not os.path.exists(path):
        return None
    with open(path, "rb") as file:
        return file.read()


def run(program, case):
    """What the program prints on a case, its exit status, and the log after it."""
    with tempfile.TemporaryDirectory() as folder:
        log = os.path.join(folder, LOG)
        put_log(log, case.log)
        if case.is_read_only:
            protect(folder, log)
        printed, status = run_in(folder, program, case)
        return printed, status, read_log(log)


def protect(folder, log):
    """Leaves everyone to read the folder and the log, and nobody to write them."""
    if os.path.exists(log):
        os.chmod(log, 0o444)
    os.chmod(folder, 0o555)


def limit(case):
    """Takes from this process what the program is not to have."""
    if case.memory:
        resource.setrlimit(resource.RLIMIT_AS, (case.memory, case.memory))
    if case.is_read_only:
        take_rights()


def take_rights():
    """Takes root's rights from this process; permissions say nothing to root."""
    if os.geteuid() == 0:
        os.setgroups([])
        os.setgid(NOBODY)
        os.setuid(NOBODY)


def run_in(folder, program, case):
    """What the program prints on a case in a folder, and its exit status."""
    words = ["sh", "-c", f'exec "$0" "$@" {case.streams}', program, *case.words.split()]
    source = open_source(case.source)
    streams = {"stdin": source, "stdout": subprocess.PIPE, "stderr": subprocess.DEVNULL}
    try:
        limits = limited(case.seconds, lambda: limit(case))
        ran = subprocess.run(words, **streams, **limits, cwd=folder, env=environment())
    except subprocess.TimeoutExpired:
        return b"", f"none within {by_clock(case.seconds)} seconds"
    finally:
        if source != subprocess.DEVNULL:
            source.close()
    return ran.stdout, status_of(ran, case.seconds)


def check_case(checks, program, case):
    """Whether a case gives what it must."""
    printed, status, log = run(program, case)
    if not case.has_roots:
        printed = without_roots(printed.decode("ascii")).encode()
    wanted = case.printed.encode() if isinstance(case.printed, str) else case.printed
    after = case.log if case.after is None else case.after
    name = command_text(case)
    checks.same(f"{name} with its status", (printed, status), (wanted, case.status))
    checks.same(f"the log after {name}", log, after)


def command_text(case):
    words = case.words.decode(errors="backslashreplace") or "(no words)"
    source = case.source
    if isinstance(source, int):
        source = f"{source} zeros"
    elif isinstance(source, str):
        source = os.path.relpath(source, TOP)
    elif source is not None:
        source = f"{len(source)} bytes, {source[:40]!r}"
    return f"{words} {case.streams}".strip() + (f" over {source}" if source is not None else "")
