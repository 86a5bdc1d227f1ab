"""The lines of `append` and `follow`, as they come: of the statuses above 0 in them it is said what they mean
(told_statuses.py).

Where standard output is a pipe or a terminal, the lines of the program are read here and handed on as they come;
of a file what was written is read after the run, and the program writes it itself.
"""
import _signal
import fcntl
import os
import stat

from lineage.saying import renew

# The least that a pipe may hold, so that the program is not far ahead of what is handed on.
PIPE_BYTES = 4_096
PART_BYTES = 1 << 16
# In its process it reads them from this descriptor.
INPUT = 0
# The words of the line of a block before each of which one stands, and what follows them: its number, and its statuses.
BLOCK, ROWS, STATUS, ROOT = b"block", b"rows", b"status", b"root"
# One of these stands in a status above 0. A block without transactions has none at all.
ABOVE_ZERO = frozenset(b"123456789")


class Lines:
    """Lines that a program prints."""

    def __init__(self, program):
        self.program, self.words = program, None

    def take(self, line):
        """Takes a line."""
        fields = line.split(b" ")
        if fields[0::2][:4] != [BLOCK, ROWS, STATUS, ROOT]:
            return
        block, _, statuses = fields[1::2][:3]
        if not ABOVE_ZERO.isdisjoint(statuses):
            self.say(int(block), [int(status) for status in statuses.split(b",")])

    def say(self, block, statuses):
        if not self.words:
            from lineage import told_statuses

            self.words = told_statuses.Words(self.program)
        self.words.take(block, statuses)


class Relay:
    """A process that reads what the program prints, hands it on as it comes, and says its words."""

    def __init__(self, lines):
        given, self.output = os.pipe()
        try:
            fcntl.fcntl(given, fcntl.F_SETPIPE_SZ, PIPE_BYTES)
        except OSError:
            pass
        self.process = os.fork()
        if not self.process:
            status = 1
            try:
                take_process(given)
                status = hand_on(INPUT, lines)
            finally:
                os._exit(status)
        os.close(given)

    def end(self):
        """Whether all was handed on; the program has ended by then."""
        return os.waitpid(self.process, 0)[1] == 0


def take_process(given):
    """Leaves this process nothing but what it reads, and its outputs. It ends with the program, whose lines it has,
    and not by a signal."""
    for number in (_signal.SIGINT, _signal.SIGTERM, _signal.SIGHUP):
        _signal.signal(number, _signal.SIG_IGN)
    os.dup2(given, INPUT)
    os.closerange(max(INPUT, 2) + 1, os.sysconf("SC_OPEN_MAX"))


def hand_on(given, told):
    """Hands on line by line what comes, until there is no more, or standard output takes no more; answers the exit
    status of that."""
    rest, is_terminal = b"", os.isatty(2)
    try:
        while part := os.read(given, PART_BYTES):
            if is_terminal:
                # Over what was said of how far the program is.
                renew("")
            *lines, rest = (rest + part).split(b"\n")
            for line in lines:
                write(line + b"\n")
                told.take(line)
        write(rest)
    except OSError:
        return 1
    return 0


def write(part):
    """Writes all of a part on standard output."""
    while part:
        part = part[os.write(1, part) :]


def is_relayed():
    """Whether standard output is one that can't be read again, and takes what it is given: a pipe, a socket or a
    terminal."""
    mode = os.fstat(1).st_mode
    return stat.S_ISFIFO(mode) or stat.S_ISSOCK(mode) or os.isatty(1)


def output_end():
    """Where in the file of standard output the next byte is written; none where it is no file."""
    try:
        found = os.fstat(1)
        if stat.S_ISREG(found.st_mode):
            is_at_end = fcntl.fcntl(1, fcntl.F_GETFL) & os.O_APPEND
            return found.st_size if is_at_end else os.lseek(1, 0, os.SEEK_CUR)
    except OSError:
        pass
    return None


def say_of_file(start, told):
    """Says the words of the lines that were written to the file of standard output from an offset on."""
    try:
        with open("/proc/self/fd/1", "rb") as file:
            file.seek(start)
            for line in file:
                told.take(line)
    except OSError:
        pass
