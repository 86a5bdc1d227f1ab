"""A log on a file system that is mounted for reading only, and a log over which a file of another device is mounted
that has the same number there.

Each run has mounts of its own, which the system lets a user make in a namespace. Where it doesn't, the runs are passed
over, and how many these are is printed. What is expected was written from docs/log.md.
"""
import os
import shutil
import subprocess
import tempfile

from cases.log_cases import ALREADY, BEYOND, DISK_FAULT, DONE, SCRATCH_FAULT, SET_LOG, log_of
from checks.disk_calls import Watched, put
from checks.edge_calls import FOLLOWED, FRAMES, KNOWN, MARKED_LOG, QUESTION
from checks.limits import limited
from checks.lock_checks import PLAIN_LINES, QUESTIONS, end, give, running_append
from checks.log_runs import LOG, RUN_LIMIT, SCRATCH_FOLDER, environment, held_frames, known_lines
from checks.program_cases import BATCH, MADE_FROM, OF_PART, RECALL_FILE, RECALL_LIGHT, RECALL_LOG, RECALL_ROOTS, S1

# What stands before a command that has mounts of its own: by a namespace of a user, or by the rights of root.
WAYS = [["unshare", "--user", "--map-root-user", "--mount"], ["unshare", "--mount"]]
# The same of one that gets the mounts of a process.
INTO = [["nsenter", "--user", "--preserve-credentials", "--mount"], ["nsenter", "--mount"]]
TOOLS = ("unshare", "nsenter", "mount")


def way_to_mount():
    """Which of the ways the system lets a run go; none where there is none."""
    if not all(map(shutil.which, TOOLS)):
        return None
    with tempfile.TemporaryDirectory() as folder:
        for at, way in enumerate(WAYS):
            words = [*way, "mount", "-t", "tmpfs", "none", folder]
            if not subprocess.run(words, stderr=subprocess.DEVNULL, check=False).returncode:
                return at
    return None


def pass_over(checks, count, why):
    print(f"{checks.tool}: {count} runs passed over, since {why}")


# ---- a file system that is mounted for reading

# The folder of the mount, the log, where there is one, and the program with its words.
READ_ONLY = """\
set -e
mount -t tmpfs none "$1"
[ ! -e "$2" ] || cp "$2" "$1/chain.log"
mount -o remount,bind,ro "$1"
cd "$1"
shift 2
exec "$@"
"""
ROOT = f"root 2 {RECALL_ROOTS[2]}\n"
# The words, the input, the log before, whether the scratch file has another folder, what is told, and the status.
MOUNTED = [
    *((words, b"", RECALL_LOG, False, told, DONE) for words, told in QUESTIONS if not words.startswith("root")),
    (f"back {QUESTION.split()[1]}", b"", RECALL_LOG, False, "block 0 deps 0\n", DONE),
    (S1.decode(), b"", RECALL_LOG, False, MADE_FROM, DONE),
    (OF_PART.decode(), b"", RECALL_LOG, False, BATCH, DONE),
    (QUESTION, b"", None, False, "beyond empty\n", BEYOND),
    ("root", b"", RECALL_LOG, True, ROOT, DONE),
    ("root", b"", RECALL_LOG, False, "", SCRATCH_FAULT),
    ("light make", b"", RECALL_LOG, True, RECALL_LIGHT.decode("latin-1"), DONE),
    ("append", RECALL_FILE, RECALL_LOG, True, KNOWN, DONE),
    ("append", RECALL_FILE, RECALL_LOG, False, "", SCRATCH_FAULT),
    ("follow", RECALL_FILE, RECALL_LOG, True, KNOWN + FOLLOWED, DONE),
    ("upgrade", b"", MARKED_LOG, False, ALREADY, DONE),
    # What would store a block, or mark the log.
    ("append", RECALL_FILE, log_of(FRAMES[0]), True, "known 0\n", DISK_FAULT),
    ("append", RECALL_FILE, None, True, "", DISK_FAULT),
    ("follow", RECALL_FILE, log_of(FRAMES[0]), True, "known 0\n", DISK_FAULT),
    ("upgrade", b"", RECALL_LOG, False, "", DISK_FAULT),
    ("upgrade", b"", None, False, "", DISK_FAULT),
]


def log_mounted_for_reading(checks, watched):
    """Over a file system that is mounted for reading questions are answered, and nothing is stored."""
    way = way_to_mount()
    if way is None:
        pass_over(checks, len(MOUNTED), "no file system can be mounted here")
        return
    for words, source, log, has_folder, told, status in MOUNTED:
        with tempfile.TemporaryDirectory() as folder, tempfile.TemporaryDirectory() as other:
            put(os.path.join(other, LOG), log)
            script = ["sh", "-c", READ_ONLY, "sh", folder, os.path.join(other, LOG)]
            settings = {SCRATCH_FOLDER: other} if has_folder else {}
            ran = subprocess.run(
                [*WAYS[way], *script, watched.program, *words.split()], input=source, stdout=subprocess.PIPE,
                env=environment(**settings), **limited(RUN_LIMIT),
            )
            name = f"{words} over {len(log or b'')} bytes that are mounted for reading"
            checks.same(name, (ran.stdout.decode("latin-1"), ran.returncode), (told, status))


# ---- another device

# The program in a folder where its log stands on one device, and another log on another, each the first file there. The
# scratch file is made elsewhere.
TWO_DEVICES = """\
#!/bin/sh
exec {way} sh -c '
set -e
for device in here there; do
  mount -t tmpfs none "$1/$device"
  [ ! -e "$1/$device.log" ] || cp "$1/$device.log" "$1/$device/chain.log"
done
cd "$1/here"
TMPDIR="$1" exec "$2" "$3"' sh "$PWD" {program} "$1"
"""


def log_on_another_device(checks, watched):
    """Where a file of another device comes in the place of the log, with the number that the log has on its own,
    nothing is written to either, and no further block is told of."""
    way = way_to_mount()
    if way is None:
        pass_over(checks, 2, "no file system can be mounted here")
        return
    for held in [0, 1]:
        with tempfile.TemporaryDirectory() as folder:
            for device, log in [("here", log_of(b"".join(FRAMES[:held])) if held else None), ("there", SET_LOG)]:
                os.mkdir(os.path.join(folder, device))
                put(os.path.join(folder, f"{device}.log"), log)
            program = os.path.join(folder, "run")
            put(program, TWO_DEVICES.format(way=" ".join(WAYS[way]), program=watched.program).encode())
            os.chmod(program, 0o755)
            covered_run(checks, Watched(program, watched.shim), folder, held, way)


def covered_run(checks, watched, folder, held, way):
    """An append over so many blocks, after two of which the file is mounted over the log."""
    with running_append(watched, folder) as running:
        lines = known_lines(held) + PLAIN_LINES[held:]
        name = f"append over {held} blocks whose log is covered by a file of another device"
        for number, frame in enumerate(FRAMES[:2]):
            checks.same(f"line {number} of {name}", give(running, frame), lines[number])
        logs = [os.path.join(folder, device, LOG) for device in ("here", "there")]
        with open_of(running, logs[0]) as log, open_of(running, logs[1]) as other:
            found = [os.stat(file.fileno()) for file in (log, other)]
            if found[0].st_ino != found[1].st_ino:
                pass_over(checks, 1, "files of two devices have different numbers here")
                return
            checks.holds(f"two devices of {name}", found[0].st_dev != found[1].st_dev)
            cover = [*INTO[way], "--target", str(running.pid), "mount", "--bind", *reversed(logs)]
            if subprocess.run(cover, check=False).returncode:
                pass_over(checks, 1, "no file can be mounted over another here")
                return
            before = log.read(), other.read()
            running.stdin.write(FRAMES[2])
            checks.same(name, end(running), ("", DISK_FAULT))
            for file in (log, other):
                file.seek(0)
            checks.same(f"files after {name}", (log.read(), other.read()), before)
            checks.same(f"blocks after {name}", held_frames(before[0]), FRAMES[:2])


def open_of(running, path):
    """The file that a path is for a process that runs."""
    return open(f"/proc/{running.pid}/root{path}", "rb")
