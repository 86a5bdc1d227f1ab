"""Builds a program without its proofs: for ./lineage where nothing is proved, and for tools/checks/try-edge.

`rt try` writes what the compiler makes of a program, a module, which is taken before that run begins. From
the module it is built as the toolchain builds a program that is proved, at -O3. What is proved away there, as that no
index is out of range, is tested while this one runs: it does the same, some four times slower. Two builds of the
same sources give the same bytes (tools/checks/check-first-answer).
"""
import contextlib
import glob
import os
import shutil
import subprocess
import time

# How often it is looked whether `rt try` has written the module, in seconds.
PERIOD = 0.3
TARGET = "x86_64-unknown-linux-gnu"
OPTIMIZED = "-O3"
# A module of a program is longer than this.
LEAST_BYTES = 4_096


class NotBuilt(Exception):
    """The program can't be built, and why."""


def toolchain():
    """The folder of the toolchain."""
    words = {"stdin": subprocess.DEVNULL, "capture_output": True, "text": True}
    return os.path.dirname(subprocess.run(["rt", "doc"], check=True, **words).stdout.strip())


def call(*words):
    """Runs words, which must end with status 0."""
    ran = subprocess.run(words, stdin=subprocess.DEVNULL, capture_output=True, text=True, errors="replace")
    if ran.returncode:
        raise NotBuilt(f"{os.path.basename(words[0])}: {(ran.stdout + ran.stderr)[-2000:]}")


def module_of(crate, room):
    """The module that `rt try` writes of the program of a crate's folder; it is whole once the compiler, which
    takes it next, has begun a file beside it. The run of `rt try` is ended then."""
    module, log, folder = f"{room}/program.bc", f"{room}/log", f"{room}/try"
    os.mkdir(folder)
    with open(log, "wb") as told:
        words = {"cwd": crate, "stdin": subprocess.DEVNULL}
        words.update(stdout=told, stderr=told, env={**os.environ, "TMPDIR": folder})
        tried = subprocess.Popen(["rt", "try"], **words)
        try:
            while not take_module(folder, module) and tried.poll() is None:
                time.sleep(PERIOD)
        finally:
            tried.terminate()
            tried.wait()
    if not os.path.exists(module):
        with open(log, encoding="utf-8", errors="replace") as told:
            raise NotBuilt(f"rt try: {told.read()[-2000:]}")
    return module


def take_module(folder, module):
    """Copies the module where it is whole, and answers whether it is. One without a program, by which `rt try` sees
    what the compiler can do, comes before it."""
    for written in glob.glob(f"{folder}/**/module.bc", recursive=True):
        with contextlib.suppress(FileNotFoundError):
            if len(os.listdir(os.path.dirname(written))) > 1 and os.path.getsize(written) > LEAST_BYTES:
                shutil.copyfile(written, module)
                return True
    return False


def build(crate, room, program, begin=lambda step: None, further=()):
    """Builds the program of a crate's folder; what it takes meanwhile stands in the room, a folder that has none of
    that. `begin` is told of each step, and further objects are linked with it."""
    begin("reading the sources")
    module, made = module_of(crate, room), f"{room}/program.o"
    begin("compiling")
    kit = toolchain()
    call(f"{kit}/toolchain/bin/clang", OPTIMIZED, "-c", "-x", "ir", module, "-o", made)
    begin("linking")
    words = ["--target", TARGET, "--toolchain", f"{kit}/toolchain", "-o", program, made, *further]
    call(f"{kit}/bin/rattle-link", *words, f"{kit}/c/libos_c.a", f"{kit}/c/liblibc_c.a")
