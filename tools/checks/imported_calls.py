"""Which calls of the C library the built program has: one that could touch a file, or take memory, and that
tools/checks/disk_calls.c doesn't stand in front of would be seen by no check.

So each that is imported is one of those here. A program that imports another one is refused, until it was looked
at what that does.
"""
import shutil
import subprocess
import sys

# Those that touch files, of which tools/checks/disk_calls.c tells, also by the names that the C library has for
# itself.
TOLD = {
    "open", "openat", "read", "write", "pread", "pwrite", "fsync", "fdatasync", "ftruncate", "fchmod", "flock", "fcntl",
    "statx", "unlink", "__open", "__read", "__write", "__pread", "__pwrite", "__fcntl",
}
# Those that give memory, which it refuses.
GIVING = {"malloc", "calloc", "realloc", "memalign", "aligned_alloc", "posix_memalign", "mmap"}
# Those that do neither; one asks what the processor can do, one for random bytes, and one waits. To close a file loses
# nothing that was written; it ends the lock, which lock_checks.py looks at.
HARMLESS = {
    "close", "free", "getenv", "environ", "getentropy", "memcpy", "memmove", "memset", "memcmp", "bcmp", "nanosleep",
    "strlen", "__x86_get_cpuid_feature_leaf",
}
# What each program has for its start and its end.
STARTING = {
    "_ITM_deregisterTMCloneTable", "_ITM_registerTMCloneTable", "__cxa_finalize", "__errno_location", "__gmon_start__",
    "__libc_start_main", "__sysv_signal", "abort", "exit", "_exit",
}


def imports_of(program):
    """The names that a program takes from libraries; a file's size of 64 bits goes without saying."""
    if not shutil.which("nm"):
        sys.exit("no nm to see which calls of the C library the program has")
    told = subprocess.run(["nm", "-D", "--undefined-only", program], stdout=subprocess.PIPE, check=True, text=True)
    names = {line.split()[-1].split("@")[0] for line in told.stdout.splitlines()}
    return {name.removesuffix("64") for name in names}


def unknown_to_checks(program):
    """Those of its calls that are none of these."""
    return sorted(imports_of(program) - TOLD - GIVING - HARMLESS - STARTING)


def imported_calls(checks, watched):
    """Each call that the program imports is one that is known."""
    checks.same("calls of the C library that no check knows", unknown_to_checks(watched.program), [])
