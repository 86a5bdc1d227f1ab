"""Who holds the lock of a file or a folder (`flock`)."""
import contextlib


def holder_of(status):
    """Which process locks the file or folder of this status, as far as the system tells; nothing where none
    does. The process that took the lock may have ended since, and left it to another that it started."""
    number = b":%d" % status.st_ino
    with contextlib.suppress(OSError, IndexError, StopIteration):
        with open("/proc/locks", "rb") as locks:
            held = [line.split() for line in locks if b" FLOCK " in line and b" -> " not in line]
        process = int(next(words[4] for words in held if words[5].endswith(number)))
        with contextlib.suppress(OSError), open(f"/proc/{process}/cmdline", "rb") as file:
            command = file.read().replace(b"\0", b" ").decode(errors="replace").strip()
            return f"process {process} ({command})" if command else f"process {process}"
        return "another process"
    return None
