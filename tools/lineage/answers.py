"""Runs the program on the words and streams of ./lineage, in the caller's folder.

The proved program answers, where there is one of the sources as they are (`--prove` makes it), and else one that
is built without its proofs, which takes some two minutes where that isn't there either. Of each run of that one
standard error says that it isn't proved. Standard output and the exit status are the program's. Standard error
has what helps a person, and no more. The words that begin with `--` are this tool's own (own_words.py), and so are
the statuses from 70 on (statuses.py).

While a command changes the log, its folder is locked (flock), so that a second one waits; the log itself is locked
by the program, which a second one that is started without this tool meets. So that a fault in an
input can be shown that is read only once: `fmt`, `pack` and `verify` read their whole input, and where it
is a pipe or a terminal it is read here first; where that of `scan`, `append`, `follow` or `light` is a pipe, it is read
here and handed on as it comes, and its first 67,108,864 bytes are kept. So of a pipe nothing may be left.

An answer takes the program milliseconds. So what isn't needed for each is imported where it is: `signal` alone, by
way of `enum`, takes as long as the program, and `_signal`, which it stands on, nothing.
"""
import _signal
import os
import stat
import sys

from lineage import commands, programs
from lineage.saying import say, write
from lineage.statuses import (
    BAD_INPUT,
    NOT_BUILT,
    NOT_SHOWN,
    REFUSED,
    REJECTED,
    UNREADABLE,
    UNTOLD,
    USAGE,
    ZEROED_LOG,
)

# ./lineage hands the caller's standard input on as this descriptor, unless it is closed.
INPUT = 9
PROVED_WORD = "--proved"
HELP = "help"
STORING = [["append"], ["follow"]]
PACKS = [["pack"], ["pack", "2"]]
# What is typed by one who wants bytes on a terminal, and how much is read of it.
YES = (b"y", b"yes")
MOST_OF_ANSWER = 80
# The signal that Python ignores, and the program doesn't. It ignores SIGXFSZ as Python does, so that a write past
# a limit of the system (`ulimit -f`) fails and doesn't end it.
NOT_IGNORED = (_signal.SIGPIPE,)
NOT_PROVED_YET = "not proved: this clone has not checked the proofs of this program; `./lineage --prove` does"
NOT_PROVED_ANY_MORE = "not proved any more: {}; `./lineage --prove` proves what changed"


# ---- streams


def take_streams():
    """Takes the caller's streams. Those that are closed stay closed for the program: no other file
    gets their numbers; and nothing else that the caller has open is handed on to it. Answers whether there is a
    standard input."""
    has_input = True
    try:
        os.dup2(INPUT, 0)
        os.close(INPUT)
    except OSError:
        os.close(0)
        has_input = False
    for descriptor in range(3):
        try:
            os.fstat(descriptor)
        except OSError:
            # Nothing can be written there either, and no child inherits it.
            os.open(os.devnull, os.O_RDONLY)
    keep_back()
    return has_input


def keep_back():
    """Keeps what the caller has open, but for these streams, from the program."""
    try:
        found = [int(name) for name in os.listdir("/proc/self/fd")]
    except OSError:
        return
    for descriptor in found:
        try:
            if descriptor > 2:
                os.set_inheritable(descriptor, False)
        except OSError:
            # That of the listing is closed by now.
            pass


def is_read_once(mode):
    """Whether what has this mode is a pipe, a socket or a terminal."""
    return stat.S_ISFIFO(mode) or stat.S_ISSOCK(mode) or stat.S_ISCHR(mode)


def start_offset():
    """Where standard input begins, where it is a file that can be read again."""
    try:
        if stat.S_ISREG(os.fstat(0).st_mode):
            return os.lseek(0, 0, os.SEEK_CUR)
    except OSError:
        pass
    return None


# ---- running


def print_usage(words):
    """Does what the program does where the words are no command."""
    try:
        os.write(1, b"usage\n")
    except OSError:
        from lineage.lineage_messages import SENTENCES

        say(SENTENCES[UNTOLD])
        return UNTOLD
    from lineage.lineage_messages import usage_sentence

    say(usage_sentence(words))
    return USAGE


def lock_folder():
    """Locks the present folder, and waits while another one changes the log there. The lock is that of a descriptor
    which is handed on to the program, and stands until both have ended."""
    import fcntl

    try:
        folder = os.open(".", os.O_RDONLY)
        os.set_inheritable(folder, True)
        try:
            fcntl.flock(folder, fcntl.LOCK_EX | fcntl.LOCK_NB)
        except BlockingIOError:
            from lineage import locks

            holder = locks.holder_of(os.fstat(folder)) or "another process"
            say(f"waiting for {holder}, which changes the log of this folder, to end")
            fcntl.flock(folder, fcntl.LOCK_EX)
    except OSError:
        say("the folder can't be locked; the log itself is, while it is changed")


class Child:
    """The program, on the caller's streams but for those that are given."""

    def __init__(self, program, words, source, output):
        actions = [(os.POSIX_SPAWN_DUP2, given, at) for at, given in ((0, source), (1, output)) if given is not None]
        how = {"file_actions": actions, "setsigdef": NOT_IGNORED}
        self.process = os.posix_spawn(program, [program, *words], os.environ, **how)
        self.has_ended = False

    def wait(self):
        """Its status once it has ended; that of one that a signal ended is negative."""
        _, status = os.waitpid(self.process, 0)
        self.has_ended = True
        return os.waitstatus_to_exitcode(status)

    def take(self, number):
        """Hands a signal on to it."""
        if not self.has_ended:
            os.kill(self.process, number)


def run(program, words, relay):
    """Runs the program on the caller's streams, and answers its status; where there is a relay, its input
    comes from there."""
    shows = commands.command_of(words).uses_log and os.isatty(2)
    told = start = None
    if words in STORING or shows and os.isatty(1):
        from lineage import told_lines

        lines = told_lines.Lines(program)
        start = told_lines.output_end()
        told = told_lines.Relay(lines) if told_lines.is_relayed() else None
    child = Child(program, words, relay and relay.output, told and told.output)
    # The program has the terminal's signals too, and it alone decides how it ends.
    _signal.signal(_signal.SIGINT, _signal.SIG_IGN)
    for number in (_signal.SIGTERM, _signal.SIGHUP):
        _signal.signal(number, lambda number, _: child.take(number))
    if told:
        os.close(told.output)
    shown = Shown(child.process) if shows else None
    if relay:
        relay.hand_on(child.process)
    status = child.wait()
    if shown:
        shown.end()
    if told and not told.end() and status >= 0:
        status = UNTOLD
    if start is not None:
        told_lines.say_of_file(start, lines)
    return 128 - status if status < 0 else status


class Shown:
    """Shows how far a process has read the log, from the end of the first second on."""

    def __init__(self, process):
        self.process, self.progress = process, None
        _signal.signal(_signal.SIGALRM, lambda *_: self.begin())
        _signal.setitimer(_signal.ITIMER_REAL, 1)

    def begin(self):
        from lineage import log_progress

        self.progress = log_progress.shown(self.process)
        self.progress.begin()
        self.progress.show()

    def end(self):
        _signal.setitimer(_signal.ITIMER_REAL, 0)
        if self.progress:
            self.progress.end()


def may_print(words, has_input):
    """Whether the words may print what they do: of bytes who sits at a terminal is asked, where the command reads
    nothing from there."""
    command = commands.command_of(words)
    if not command.prints_bytes or not os.isatty(1) or commands.what_is_wrong(words):
        return True
    say(f"a terminal can't show what this prints, which is for a file: ./lineage {' '.join(words)} > FILE")
    if command.reads_input or not has_input or not os.isatty(0):
        return False
    write("show it nevertheless? y/N ")
    return os.read(0, MOST_OF_ANSWER).strip().lower() in YES


def main():
    has_input = take_streams()
    _signal.signal(_signal.SIGTERM, lambda number, _: sys.exit(128 + number))
    words = sys.argv[1:]
    present = None
    if words[:1] == [PROVED_WORD]:
        words = words[1:]
        present = programs.Present()
        if present.program is not programs.PROVED:
            from lineage import own_words

            return own_words.say_not_proved()
    elif words and (words[0] == HELP or words[0].startswith("-")):
        from lineage import own_words

        status = own_words.take(words)
        return print_usage(words) if status is None else status
    if not commands.has_form(words):
        return print_usage(words)
    if not may_print(words, has_input):
        return NOT_SHOWN
    present = present or programs.Present()
    program = present.program or build_program()
    if not program:
        return NOT_BUILT
    if program is not programs.PROVED:
        say(NOT_PROVED_ANY_MORE.format(present.change) if present.change else NOT_PROVED_YET)
    return answer(program.path, words, has_input)


def build_program():
    """The program, built without its proofs; none where that fails."""
    from lineage import lineage_build

    return lineage_build.ensure_program()


def resolve_draft():
    """Puts the texts of the files that a draft names in their places."""
    from lineage import draft_sources

    try:
        draft_sources.take_input()
    except OSError:
        pass


def is_zeroed():
    """Whether the log begins with a zero, which is said then."""
    from lineage import log_file

    if not log_file.is_zeroed():
        return False
    from lineage.lineage_messages import zeroed_sentence

    say(zeroed_sentence())
    return True


def answer(program, words, has_input):
    """Runs the program, says what its status means, and answers it."""
    command = commands.command_of(words)
    if command.changes_log:
        lock_folder()
        if is_zeroed():
            return ZEROED_LOG
    relay, mode = None, os.fstat(0).st_mode if has_input and command.reads_input else 0
    if mode and os.isatty(0):
        say("reading standard input from the terminal; Ctrl-D ends it")
    if mode and command.reads_whole and is_read_once(mode):
        from lineage import lineage_input

        try:
            lineage_input.keep_input()
        except OSError:
            from lineage.lineage_messages import SENTENCES

            say(SENTENCES[UNREADABLE])
            return UNREADABLE
    elif stat.S_ISFIFO(mode):
        from lineage import lineage_input

        relay = lineage_input.Relay()
    if mode and words in PACKS:
        resolve_draft()
    start = start_offset()
    status = run(program, words, relay)
    if status in (REFUSED, REJECTED, BAD_INPUT) and relay and relay.put_back():
        start = 0
    if status:
        from lineage.lineage_messages import explain

        explain(program, status, words, start)
    return status


def end():
    """Ends with the status of the answer."""
    try:
        sys.exit(main())
    except KeyboardInterrupt:
        say("interrupted")
        sys.exit(130)
