"""Standard input of ./lineage where it can be read only once: it is kept, so that what is wrong with it
can be said.
"""
import os
import select

# The most bytes that a command reads which reads its whole input.
MAX_SOURCE_BYTES = 67_108_864
# How much of an input is kept that is handed on as it comes, and how much is read of it at once.
MAX_KEPT_BYTES = 1 << 26
PART_BYTES = 1 << 16


def keep_input():
    """Puts what standard input has in its place, as a file in memory: as much as the program reads."""
    kept = os.memfd_create("input")
    size = 0
    while size <= MAX_SOURCE_BYTES:
        part = os.read(0, min(1 << 20, MAX_SOURCE_BYTES + 1 - size))
        if not part:
            break
        size += os.write(kept, part)
    os.lseek(kept, 0, os.SEEK_SET)
    os.dup2(kept, 0)
    os.close(kept)


class Relay:
    """A pipe into which standard input is handed on as it comes, and what was read of it so far."""

    def __init__(self):
        self.kept = os.memfd_create("input")
        self.output, self.input = os.pipe()
        # How many bytes were read, whether all of these were kept, and how many were handed on.
        self.size, self.is_kept, self.count = 0, True, 0

    def hand_on(self, process):
        """Hands on what comes until there is no more, or the process that takes it has ended."""
        end = os.pidfd_open(process)
        os.set_blocking(self.input, False)
        part = b""
        while end not in ready_of(end, self.input if part else None):
            if part:
                count = os.write(self.input, part)
                self.count += count
                part = part[count:]
            else:
                part = os.read(0, PART_BYTES)
                if not part:
                    break
                self.keep(part)
        os.close(self.input)
        os.close(end)

    def keep(self, part):
        """Keeps a part, as long as there is room for all."""
        self.size += len(part)
        self.is_kept = self.is_kept and self.size <= MAX_KEPT_BYTES
        if self.is_kept:
            try:
                self.is_kept = os.write(self.kept, part) == len(part)
            except OSError:
                self.is_kept = False

    def put_back(self):
        """Puts what was read in the place of standard input, as far as the process took it; answers
        whether all of it was kept."""
        if self.is_kept:
            import fcntl
            import struct
            import termios

            (left,) = struct.unpack("i", fcntl.ioctl(self.output, termios.FIONREAD, bytes(4)))
            os.dup2(self.kept, 0)
            os.lseek(0, self.count - left, os.SEEK_SET)
        return self.is_kept


def ready_of(end, output):
    """Which descriptors are ready: that of a process, which has ended then, and one that is written,
    or else standard input. It waits for one of them."""
    poll = select.poll()
    poll.register(end, select.POLLIN)
    if output is None:
        poll.register(0, select.POLLIN)
    else:
        poll.register(output, select.POLLOUT)
    return [descriptor for descriptor, _ in poll.poll()]
