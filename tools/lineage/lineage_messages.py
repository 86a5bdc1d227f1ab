"""What ./lineage says on standard error: what a status means, and what was wrong.

It looks at the words, the folder and the input again, and runs the program again where that only
reads; nothing here decides what the program prints or how it ends.
"""
import contextlib
import fcntl
import os
import re
import resource
import stat
import subprocess

from lineage import commands, kinds, locks
from lineage.log_file import FIRST_BYTES, LOG_FILE, first_bytes, is_zeroed
from lineage.saying import say

MAX_BLOCK_BYTES = 1_048_576
LENGTH_BYTES = 4
# What is longer isn't run again for a message.
MAX_AGAIN_BYTES = 1 << 28
# The offset of the first record's gate in a log, and an open gate.
FIRST_GATE = 8
OPEN = b"\xa5"
MAGIC = b"LCLOG1\n"
# The record of a log that has no block: the blocks after it have the second version.
MARK = bytes(LENGTH_BYTES)
EXAMPLE = "./lineage scan hist raw/a 0 < examples/one-set.blocks"
PACK_FIRST = kinds.advice(b"[", kinds.BLOCK_FILE)
SENTENCES = {
    2: "standard input can't be read",
    3: "standard output can't be written",
    5: "out of memory",
    7: "chain.log was changed or cut: at the offset that was printed stands no record of the next\n"
    "block; docs/log.md says what to do",
    12: "the scratch file of the run can't be made, written or read, in the folder that TMPDIR names, or in\n"
    "the present one where that isn't set; docs/log.md says what to do",
}
OTHER_CAUSES = (
    "a call of the disk failed, see `dmesg`;\n"
    f"or another `append`, `follow` or `upgrade` had {LOG_FILE} locked, and has ended since;\n"
    "or another program made, changed, moved or removed it meanwhile"
)
NO_LOG = "chain.log holds something else than a log"
TOO_LONG = "the input is longer than 67,108,864 bytes"
BAD_CONTRACT = "the input is no contract"
CONTRACT_FAULTS = {
    "byte": "this byte begins no token",
    "literal": "this number, text or name breaks its rule",
    "expected": "this doesn't fit here",
    "end": "the contract ends too early",
    "deep": "blocks, parentheses, prefixes or the parts of an expression are nested too deep",
    "unknown": "no such name is visible here, or there is no such builtin",
    "again": "this name is in use already",
    "count": "this builtin takes another number of arguments",
    "kind": "this is an int where a text must stand, or a text where an int must",
}
# Why a frame is refused: what is printed after the cause, if anything is, and what that means.
CAUSES = {
    "truncated": ("", "the input ends within this frame"),
    "length": ("L", "its length is {}, and a block has 1 to 1,048,576 bytes: here stands no block file"),
    "many": ("", "one input has at most 2,097,152 frames; give the rest as another input"),
    "malformed": ("P", "it spells no block: its first invalid field is at offset {} of the block"),
    "fork": ("H", "the chain has another block of this number, whose digest is {}"),
    "full": ("", "the chain takes no more blocks"),
    "number": ("N", "the chain takes block {} next, and not this one"),
    "parent": ("H", "its parent is not the last block of the chain, whose digest is {}"),
    "version": ("W", "the chain takes a block of version {} next, and this one has another"),
    "budget": ("S", "the budgets of its calls come to {}; those of a block may come to 10,000,000"),
}
REFUSED = "a frame is refused; frames count from 0"
# Those of the form of a frame, for which alone `follow` refuses one.
FORM_CAUSES = {cause: CAUSES[cause] for cause in ("truncated", "length", "many")}
# The same of the frames behind a light file, where a length means something else.
LIGHT_LENGTH = "its length is {}, and a proof behind a light file has 1 to 1,048,576 bytes"
LIGHT_CAUSES = FORM_CAUSES | {"length": ("L", LIGHT_LENGTH)}
# Which check of a proof fails: what is printed after `rejected`, and what that means.
REJECTED = {
    "malformed": "these are not the bytes of a proof: the first invalid field is at offset {}",
    "query": "the proof is of another question",
    "root": "the proof leads to another root, {}",
    "leaf": "the leaf of the proof is not the one that covers the key",
    "link": "a header of the proof has another digest than what stands before it names",
    "path": "a header of the proof is missing, one too many, or of another version",
    "body": "the body of the proof has another digest than its header names",
    "list": "the uses of the proof are others than those that its leaf or header counts",
}
# The same of a proof of ancestors behind its start, whose version is item 0: what stands between `trace` and the number
# of the item.
REJECTED_TRACE = {
    "late": "item {} is derived from a version that isn't of an earlier block",
    "two": "item {} is derived from a version that another item names by another digest",
    "extra": "nothing is left where item {} stands: the proof has an item too many",
    "order": "item {} is not the version that comes next, which is the last one by block and then by key",
    "header": "the header of item {} has another digest than what names it",
    "body": "the body of item {} has another digest than its header names",
    "missing": "an item {} is missing: what others were derived from has not come",
}
# The same of a proof of a range, which has several bodies, by the number of the one at fault.
REJECTED_BODY = "body {}, from 0, of the proof has another digest than its header names"
# Where the key of the question begins in a proof, after the magic, the kind and its length, and in one of a range, that
# has no kind; how many bytes a question and these take at most; and what stands before that in a proof of ancestors,
# the magic of that and a length.
QUESTION_FRONT = 7
RANGE_FRONT = 6
MAX_QUESTION_BYTES = QUESTION_FRONT + 64 + 8
TRACE_FRONT = 8
NOT_ACCEPTED = "the proof is not accepted; docs/proofs.md has the checks"
HEX_FAULTS = {
    "odd": "a proof is in hex, two digits a byte, and the number of digits is odd",
    "at": "a proof is in hex, and the byte at offset {} of the input is no hex digit",
}
NO_HEX = "the input is no hex"
# What else `light` tells of a proof.
REJECTED_BY_LIGHT = {
    "unknown": "its root is that of a block past the {} of the light file",
    "digest": "the digest of its root block is another than that of the light file, {}",
}
NO_LIGHT = "the input doesn't begin with a light file, or ends within it; `./lineage light make` makes one"
IN_HEX = "it is in hex, and a proof stands behind its length as bytes: xxd -r -p < PROOF"


def explain(program, status, words, start):
    """Says what a status other than 0 means. What the program read begins at the offset `start` of
    standard input, where it can be read again."""
    if status == 1:
        say(usage_sentence(words))
    elif status == 4:
        say(disk_sentence(words))
    elif status == 6:
        say(no_log_sentence())
    elif status == 8:
        say(refused_sentence(program, words, start))
    elif status == 9:
        say(beyond_sentence(words))
    elif status == 10:
        say(rejected_sentence(program, words, start))
    elif status == 11:
        say(input_sentence(program, words, start))
    elif status in SENTENCES:
        say(SENTENCES[status])
    elif status > 128:
        say(f"the program was ended by signal {status - 128}")


# ---- words, and what there is none of


def usage_sentence(words):
    """What is wrong with words, and what the commands are, where not even the first word is one's."""
    wrong = commands.input_as_word(words) or commands.what_is_wrong(words)
    shown = commands.beginning_with(words)
    lines = [wrong] if wrong else []
    if shown:
        lines += [f"{command.form}: {command.meaning}" for command in shown]
        return "\n".join([*lines, f"`./lineage help {words[0]}` says more"])
    return "\n".join([*lines, "the commands are", commands.listed(), f"for example: {EXAMPLE}"])


def beyond_sentence(words):
    command = commands.command_of(words)
    if command and command.uses_log and not os.path.exists(LOG_FILE):
        return f"there is no log here: {os.getcwd()} has no {LOG_FILE}, which `append` or `follow` makes"
    if command and command.uses_log and is_zeroed():
        return zeroed_sentence()
    if command and command.uses_log and not any(log_frames()):
        return f"{LOG_FILE} has no block yet"
    if command and command.asks_by_root and int(words[-2]) > int(words[-1]):
        return f"{command.form.split()[-2]} is past ROOTBLOCK, and a root says nothing of later blocks"
    return "there is no such block: the chain ends before it"


# ---- a log whose first byte was zeroed


def no_log_sentence():
    """What stands in the place of the log."""
    with contextlib.suppress(OSError), open(LOG_FILE, "rb") as file:
        advice = kinds.advice(file.read(FIRST_BYTES), kinds.LOG, LOG_FILE)
        if advice:
            return f"{NO_LOG}; move it away\n{advice}"
    return f"{NO_LOG}; docs/log.md says what to do"


def zeroed_sentence():
    size, first = first_bytes()
    found = f"{LOG_FILE} has {size:,} bytes and begins with a zero, as no crash leaves it; it stands for no block"
    if first[1:].startswith(MAGIC):
        done = (
            "its first byte was a5, and what follows is whole; take a copy, and restore that byte:\n"
            f"printf '\\245' | dd of={LOG_FILE} bs=1 count=1 conv=notrunc"
        )
    else:
        done = kinds.advice(first, kinds.LOG, "it") or "it is no log whose first byte alone was changed"
        done = f"{done}\nsee where it comes from, and move it away"
    return "\n".join([f"{found}, and `append`, `follow` and `upgrade` would write over it", done])


# ---- the disk


def disk_sentence(words):
    """What of the log, its folder or the space is in the way, as far as it can be seen."""
    writes = commands.command_of(words).changes_log
    causes = [*log_causes(writes), *folder_causes(writes), *space_causes(writes), *lock_causes(words, writes)]
    causes = causes or [OTHER_CAUSES if writes else "a call of the disk failed; see `dmesg`"]
    stored = "each block of which a line was printed is stored; docs/log.md says what to do"
    return "\n".join([f"the log can't be opened, read, written or synced; {stored}", *causes])


def lock_causes(words, writes):
    """Who has the log locked, which a command that changes it does as long as it runs."""
    if not writes:
        return
    with contextlib.suppress(OSError):
        log = os.open(LOG_FILE, os.O_RDONLY | os.O_NONBLOCK)
        try:
            holder = locks.holder_of(os.fstat(log))
            if holder:
                yield f"{holder} has {LOG_FILE} locked, as `append`, `follow` and `upgrade` do as long as they run"
            else:
                # This takes no lock, and fails where there can be none.
                fcntl.flock(log, fcntl.LOCK_UN)
        except OSError:
            yield f"the file system of {LOG_FILE} has no locks, and `{words[0]}` takes one"
        finally:
            os.close(log)


def log_causes(writes):
    """What is wrong with the file of the log."""
    if os.path.islink(LOG_FILE) and not os.path.exists(LOG_FILE):
        yield f"{LOG_FILE} is a link to {os.readlink(LOG_FILE)}, which is not there"
    with contextlib.suppress(OSError):
        if not stat.S_ISREG(os.stat(LOG_FILE).st_mode):
            yield f"{LOG_FILE} is no regular file"
        if not os.access(LOG_FILE, os.R_OK):
            yield f"this user may not read {LOG_FILE}"
        elif writes and not os.access(LOG_FILE, os.W_OK):
            yield f"this user may not write {LOG_FILE}"


def folder_causes(writes):
    """What is wrong with the folder, which is read to be synced, and written where a log is made."""
    if not os.access(".", os.X_OK) or writes and not os.access(".", os.R_OK):
        yield f"this user may not read the folder {os.getcwd()}"
    if writes and not os.path.lexists(LOG_FILE) and not os.access(".", os.W_OK):
        yield f"this user may not make {LOG_FILE} in the folder {os.getcwd()}"


def space_causes(writes):
    """What lacks for a file to grow."""
    with contextlib.suppress(OSError):
        found = os.statvfs(".")
        free = found.f_bavail * found.f_frsize
        if found.f_flag & os.ST_RDONLY:
            yield "the file system is mounted for reading only"
        elif writes and free < 2 * MAX_BLOCK_BYTES:
            yield f"{free:,} bytes are free on the file system of this folder"
        elif writes and found.f_files and not found.f_favail:
            yield "the file system of this folder takes no more files"
    limit = resource.getrlimit(resource.RLIMIT_FSIZE)[0]
    if writes and limit != resource.RLIM_INFINITY:
        yield f"no file may be longer than {limit:,} bytes here (ulimit -f)"


# ---- frames that are refused


def refused_sentence(program, words, start):
    """Why a frame was refused; where the input can't be read again, why frames are."""
    printed = b"" if start is None else refused_line(program, words, start)
    by_light = commands.command_of(words).checks_by_light
    causes = LIGHT_CAUSES if by_light else FORM_CAUSES if words[0] == "follow" else CAUSES
    refused = re.search(r"^refused frame \d+ (\w+) ?(\w*)\n\Z", printed.decode("ascii", "replace"), re.M)
    if not refused or refused[1] not in causes:
        lines = [f"{REFUSED}, and the cause was printed:"]
        for cause, (letter, text) in causes.items():
            lines.append(f"{' '.join([cause, letter]).strip()}: {text.format(letter)}")
        return "\n".join(lines if by_light else [*lines, f"where {PACK_FIRST}"])
    cause, number = refused[1], refused[2]
    return kind_advice(words, start) or f"{REFUSED}: {causes[cause][1].format(number)}"


def kind_advice(words, start):
    """What the input is, where it is of another kind than the command reads, and what to do then."""
    with contextlib.suppress(OSError):
        return kinds.advice(os.pread(0, FIRST_BYTES, start), kinds.READS.get(words[0]))
    return ""


def refused_line(program, words, start):
    """The line of a frame that is refused, behind those of others: by `scan` and `light`, which only read, over the
    input; or by `scan` over the blocks of the log and the frame, whose number in the input isn't told then."""
    only_reads = words[0] in ("scan", "light")
    again = os.fstat(0).st_size - start if only_reads else log_end()
    if again > MAX_AGAIN_BYTES:
        return b""
    if only_reads:
        return printed_again(program, words, start)
    at = refused_offset(start, os.lseek(0, 0, os.SEEK_CUR))
    frame = os.pread(0, LENGTH_BYTES + MAX_BLOCK_BYTES, at)
    frame = frame[: LENGTH_BYTES + int.from_bytes(frame[:LENGTH_BYTES], "big")]
    printed = printed_over(program, ["scan", "hist", "a", "0"], [*log_frames(), frame])
    return version_line(frame, printed) or printed


def version_line(frame, printed):
    """The line of a frame that `append` refuses for its version, with 0 for the number of the frame, by what `scan`
    prints over the blocks of the log and the frame: that goes by the versions of these blocks and not by the mark,
    and tests the budgets where they may stand so. Nothing where the frame is refused for another cause."""
    version = kinds.SECOND_VERSION if is_marked() else kinds.FIRST_VERSION
    is_other = frame[LENGTH_BYTES : LENGTH_BYTES + 1] != bytes([version])
    is_refused = re.match(rb"refused frame \d+ (?!budget )", printed)
    return b"refused frame 0 version %d\n" % version if is_other and not is_refused else b""


def refused_offset(start, end):
    """Where the frame begins that was taken last of those from the offset `start` on, up to the
    offset `end`."""
    at = start
    while True:
        length = int.from_bytes(os.pread(0, LENGTH_BYTES, at), "big")
        after = at + LENGTH_BYTES + length
        if not 1 <= length <= MAX_BLOCK_BYTES or after >= end:
            return at
        at = after


def log_records():
    """The records of the log, each a length and the bytes of a block; of the mark there is the length 0 alone."""
    with contextlib.suppress(OSError), open(LOG_FILE, "rb") as log:
        log.seek(FIRST_GATE)
        while log.read(1) == OPEN:
            length = log.read(LENGTH_BYTES)
            yield length + log.read(int.from_bytes(length, "big"))


def log_frames():
    """The records of the log that have a block, which are frames of a block file."""
    return (record for record in log_records() if record != MARK)


def is_marked():
    """Whether one of the records of the log is the mark."""
    return MARK in log_records()


def log_end():
    """The offset of the closed gate of the log."""
    return FIRST_GATE + sum(1 + len(record) for record in log_records())


def printed_over(program, words, pieces):
    """What the program prints over an input."""
    streams = {"stdin": subprocess.PIPE, "stdout": subprocess.PIPE, "stderr": subprocess.DEVNULL}
    child = subprocess.Popen([program, *words], **streams)
    with contextlib.suppress(BrokenPipeError):
        for piece in pieces:
            child.stdin.write(piece)
    with contextlib.suppress(BrokenPipeError):
        child.stdin.close()
    printed = child.stdout.read()
    child.wait()
    return printed


def printed_again(program, words, start):
    """What the program prints over standard input from the offset `start` on; the caller's offset stays
    where it is."""
    with open("/proc/self/fd/0", "rb", buffering=0) as source:
        source.seek(start)
        streams = {"stdout": subprocess.PIPE, "stderr": subprocess.DEVNULL}
        return subprocess.run([program, *words], stdin=source, **streams).stdout


# ---- proofs


def rejected_sentence(program, words, start):
    """Which check of a proof fails, where the input can be read again."""
    if commands.command_of(words).checks_by_light:
        return light_sentence(program, words, start)
    printed = b"" if start is None else printed_again(program, words, start)
    line = printed.decode("ascii", "replace")
    of_item = re.match(r"rejected trace (\w+) (\d+)", line)
    if of_item and of_item[1] in REJECTED_TRACE:
        return f"{NOT_ACCEPTED}: {REJECTED_TRACE[of_item[1]].format(of_item[2])}"
    of_body = re.match(r"rejected body (\d+) ", line)
    if of_body:
        return f"{NOT_ACCEPTED}: {REJECTED_BODY.format(of_body[1])}"
    rejected = re.match(r"rejected (\w+) ?(\w*)", line)
    if not rejected or rejected[1] not in REJECTED:
        return NOT_ACCEPTED
    advice = kind_advice(words, start) if rejected[1] == "malformed" else ""
    if advice:
        return advice
    if rejected[1] == "query":
        return f"{NOT_ACCEPTED}: {REJECTED['query']}{question_of(start)}"
    return f"{NOT_ACCEPTED}: {REJECTED[rejected[1]].format(rejected[2])}"


def light_sentence(program, words, start):
    """How many of the proofs behind a light file are not accepted, and which check of the first of them fails."""
    is_known = start is not None and os.fstat(0).st_size - start <= MAX_AGAIN_BYTES
    printed = printed_again(program, words, start).decode("ascii", "replace") if is_known else ""
    lines = re.findall(r"^proof (\d+) rejected (\w+) ?(\w*)", printed, re.M)
    if not lines:
        return NOT_ACCEPTED
    number, cause, kept = lines[0]
    count = "one proof is not accepted" if len(lines) == 1 else f"{len(lines)} proofs are not accepted"
    meaning = (REJECTED | REJECTED_BY_LIGHT).get(cause, "").format(kept)
    if cause == "malformed" and is_in_hex(int(number), start):
        meaning = IN_HEX
    return f"{count}; proofs count from 0, docs/proofs.md and docs/light.md have the checks\nproof {number}: {meaning}"


def is_in_hex(number, start):
    """Whether the proof of a number behind the light file that begins at an offset is in hex digits."""
    with contextlib.suppress(OSError):
        count = int.from_bytes(os.pread(0, 4, start + 4), "big")
        at = start + 8 + 64 * count
        for _ in range(number):
            at += LENGTH_BYTES + int.from_bytes(os.pread(0, LENGTH_BYTES, at), "big")
        magic = kinds.MAGIC_OF_PROOF.hex().encode()
        return os.pread(0, len(magic), at + LENGTH_BYTES).lower() == magic
    return False


def question_of(start):
    """Of which question a proof is, by its first fields (docs/proofs.md); the input has one, in hex."""
    with contextlib.suppress(OSError, ValueError, LookupError):
        digits = os.pread(0, 2 * (TRACE_FRONT + MAX_QUESTION_BYTES), start).decode("ascii").strip()
        proof = bytes.fromhex(digits)
        if proof.startswith(kinds.MAGIC_OF_TRACE):
            proof = proof[TRACE_FRONT:]
        is_range = proof.startswith(kinds.MAGIC_OF_RANGE)
        front = RANGE_FRONT if is_range else QUESTION_FRONT
        end = front + int.from_bytes(proof[front - 2 : front], "big")
        key, block, last = proof[front:end].decode("ascii"), number_at(proof, end), number_at(proof, end + 4)
        return f": range {key} {block} {last}" if is_range else f": {commands.KINDS[proof[4]]} {key} {block}"
    return ""


def number_at(proof, offset):
    return int.from_bytes(proof[offset : offset + 4], "big")


def hex_sentence(printed):
    """Why an input is no hex."""
    fault = re.match(rb"badinput (odd|at) ?(\d*)\n$", printed)
    return HEX_FAULTS[fault[1].decode()].format(fault[2].decode()) if fault else NO_HEX


# ---- inputs that are no contract, no draft or no proof


def input_sentence(program, words, start):
    """What is wrong with an input."""
    from lineage import draft_faults

    command = commands.command_of(words)
    is_proof = command.checks_proof
    if command.checks_by_light:
        return (kind_advice(words, start) if start is not None else "") or NO_LIGHT
    if start is None:
        return NO_HEX if is_proof else BAD_CONTRACT if words[0] == "fmt" else draft_faults.NO_DRAFT
    printed = printed_again(program, words, start)
    if printed == b"badinput long\n":
        return TOO_LONG
    advice = kind_advice(words, start)
    if advice:
        return advice
    if is_proof:
        return hex_sentence(printed)
    with open("/proc/self/fd/0", "rb") as file:
        file.seek(start)
        source = file.read()
    if words[0] == "fmt":
        return contract_sentence(source, printed)
    version = kinds.SECOND_VERSION if words[1:] else kinds.FIRST_VERSION
    return draft_faults.sentence(source, printed.decode("ascii", "replace").split(), version)


def contract_sentence(source, printed, name="the input"):
    """What is wrong with a contract, with line and column."""
    fault = re.match(rb"badinput (?:syntax|check) (\d+) (\w+)\n$", printed)
    if not fault:
        return f"{name} is no contract"
    offset = int(fault[1])
    line = source.count(b"\n", 0, offset) + 1
    column = offset - source.rfind(b"\n", 0, offset)
    return f"line {line}, column {column} of {name}: {CONTRACT_FAULTS[fault[2].decode()]}"
