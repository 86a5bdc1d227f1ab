"""Checks of ./lineage over the built program: that it prints and ends as the program does, what it says
on standard error, its lock, when it builds the program (tools/checks/build_checks.py), and that the pages list
the commands that there are and show what they print.

It is run in a tree of its own, which has the program and what says that it is built.
"""
import errno
import fcntl
import os
import re
import shutil
import subprocess
import tempfile

from cases.block_files import (
    FIRST_VERSION, NO_CONTRACT, SECOND_VERSION, block_digest, block_file, block_frame, calls, sets,
)
from cases.light_cases import frame
from cases.log_cases import CLOSED, CLOSED_HEAD, DISK_FAULT, HEAD, NOT_A_LOG, OPEN, REFUSED, SCRATCH_FAULT, SET_FILE
from cases.log_cases import SET_LINE, SET_LOG, UNTOLD
from checks import build_checks, disk_calls, page_runs, word_checks
from checks.limits import by_clock, limited
from checks.log_runs import LOG
from checks.program_cases import (
    CASES, EVENING_FRAMES, LOT, MAY_PROOF, NO_LIGHT, OTHER_DIGEST, PART, RAW_A_PROOF, RAW_A_ROOT, RECALL_FILE,
    RECALL_LOG, S1_PROOF, SET_FRAME, SET_LIGHT, SHELF_LIGHT, SHELF_LOG, SWAPPED, VERIFY_MAY, VERIFY_S1, WITHOUT_33,
    WITHOUT_44, s1_proof,
)
from checks.program_runs import TOP, check_case, take_rights
from checks.scratch_checks import GATHERED_BYTES, ReadBack
from lineage import commands, lineage_input, lineage_messages, statuses

# A limit of files that is less than what `gen` prints, and than a log with a block.
FEW_BYTES = 40
# How many seconds of a processor a run may take, and how long one waits for another.
RUN_LIMIT = 60
PAUSE = 1
QUIET = {"stdin": subprocess.DEVNULL, "stdout": subprocess.DEVNULL, "stderr": subprocess.DEVNULL}
# The commands that change the log.
CHANGES = [command.form for command in commands.COMMANDS if command.changes_log]
COPIED = ["lineage", "crates.txt", "HANDLES", "tools", "examples", "verifiers"]
# The last line of `follow` over SET_FILE.
FOLLOWED = b"follow blocks 1 waiting 0\n"
# A log whose first byte was zeroed, and a file that begins so and is none.
ZEROED_LOG = CLOSED + SET_LOG[1:]
ZEROED_FILE = bytes(29)
# Blocks of the second version: one as that of SET_FILE, and two after this, of which one may cost too much; and one of
# the first version after that of the second.
SECOND_FILE = block_file([[sets("raw/a", 5)]], [SECOND_VERSION])
SET_DIGEST, SECOND_DIGEST = (block_digest(file[4:]) for file in (SET_FILE, SECOND_FILE))
AFTER_SET = block_frame(SECOND_VERSION, 1, SET_DIGEST, [])
COSTLY = [calls("c", "f", [], 1_000_000, NO_CONTRACT, 0)] * 11
COSTLY_AFTER_SET = block_frame(SECOND_VERSION, 1, SET_DIGEST, COSTLY)
# A draft of one Set, of a text.
LONG_DRAFT = b'[[{"set":{"sender":"u","key":"a","value":"%s"}}]]'
FIRST_AFTER_SET, FIRST_AFTER_SECOND = (
    block_frame(FIRST_VERSION, 1, digest, []) for digest in (SET_DIGEST, SECOND_DIGEST)
)
COSTLY_FIRST = block_frame(FIRST_VERSION, 1, SET_DIGEST, COSTLY)
# The log of SET_FILE and one without any block, with the mark behind; and that of a block of each version.
MARK = OPEN + bytes(4) + CLOSED
MARKED_LOG, MARKED_HEAD = SET_LOG[:-1] + MARK, HEAD + MARK
BOTH_LOG = MARKED_LOG[:-1] + OPEN + AFTER_SET + CLOSED
FIRST_AFTER_BOTH = block_frame(FIRST_VERSION, 2, block_digest(AFTER_SET[4:]), [])
TRACE_VERIFY = VERIFY_S1.decode()
RANGE_VERIFY = VERIFY_MAY.decode()
# Words, input, log before, and a part of what is said.
SAID = [
    ("", b"", None, "the commands are"),
    ("hits raw/a", b"", None, "`hits` is no command"),
    ("hist", b"", None, "this is one word, and the command is `KIND KEY [BLOCK]`"),
    ("scan", b"", None, "`./lineage help scan` says more"),
    ("hist RAW 0", b"", None, "word 2, `RAW`, is not KEY"),
    ("root 00", b"", None, "word 2, `00`, is not BLOCK"),
    ("gen 100001 1", b"", None, "word 2, `100001`, is not N: a number from 1 to 100000"),
    ("gen 1 4294967296", b"", None, "word 3, `4294967296`, is not SEED"),
    ("fmt 1", b"", None, "word 2, `1`, is not `2`"),
    ("root", b"", None, f"has no {LOG}"),
    ("root", b"", SET_LOG[:8] + CLOSED, f"{LOG} has no block yet"),
    ("root 1", b"", SET_LOG, "the chain ends before it"),
    ("append", b'[[{"set":', None, "pack it first"),
    ("append", b"[\n  [\n", None, "pack it first"),
    ("append", RECALL_FILE, SET_LOG, "has another block of this number"),
    ("append", RECALL_FILE[:-1], None, "the input ends within this frame"),
    ("append", RECALL_FILE[113:], None, "takes block 0 next"),
    ("append", RECALL_FILE[113:], SET_LOG, "its parent is not the last block"),
    ("append", SET_FILE[:4] + b"\3" + SET_FILE[5:], None, "its first invalid field is at offset 0"),
    ("append", SECOND_FILE, None, "takes a block of version 1 next"),
    ("append", SECOND_FILE + RECALL_FILE, None, "takes a block of version 1 next"),
    ("append", AFTER_SET, SET_LOG, "takes a block of version 1 next"),
    ("append", COSTLY_AFTER_SET, SET_LOG, "takes a block of version 1 next"),
    ("append", SECOND_FILE, SET_LOG, "has another block of this number"),
    ("append", AFTER_SET, None, "takes block 0 next"),
    ("append", FIRST_AFTER_SET, MARKED_LOG, "takes a block of version 2 next"),
    ("append", COSTLY_FIRST, MARKED_LOG, "takes a block of version 2 next"),
    ("append", SET_FILE, MARKED_HEAD, "takes a block of version 2 next"),
    ("append", COSTLY_AFTER_SET, MARKED_LOG, "come to 11000000"),
    ("append", SECOND_FILE, MARKED_LOG, "has another block of this number"),
    ("append", SET_FILE + AFTER_SET + FIRST_AFTER_SET, BOTH_LOG, "has another block of this number"),
    ("append", FIRST_AFTER_BOTH, BOTH_LOG, "takes a block of version 2 next"),
    ("follow 2", b"", None, "these are 2 words, and the command is `follow`"),
    ("follow", b"[\n  [\n", None, "pack it first"),
    ("follow", RECALL_FILE[:-1], None, "the input ends within this frame"),
    ("follow", bytes(4), SET_LOG, "its length is 0"),
    ("follow", SET_LOG, None, "tools/export-blocks LOG > BLOCKS"),
    ("follow", b"", b"hello", "something else than a log"),
    ("upgrade 2", b"", None, "these are 2 words, and the command is `upgrade`"),
    ("upgrade", b"", b"hello", "something else than a log"),
    ("upgrade", b"", SET_LOG[:40], "was changed or cut"),
    ("upgrade", b"", MARKED_LOG[:-1] + MARK, "was changed or cut"),
    ("root", b"", MARKED_HEAD, f"{LOG} has no block yet"),
    ("scan hist raw/a 0", SET_FILE + COSTLY_AFTER_SET, None, "come to 11000000"),
    ("scan hist raw/a 0", SECOND_FILE + FIRST_AFTER_SECOND, None, "takes a block of version 2 next"),
    ("append", bytes(4), SET_LOG, "its length is 0"),
    ("scan hist raw/a 0", SET_FILE + bytes(4), None, "its length is 0"),
    ("fmt", b"fn f() {\n  a = 1;\n}", None, "line 2, column 3 of the input: no such name"),
    ("fmt", b"fn f()", None, "line 1, column 7 of the input: the contract ends too early"),
    ("fmt 2", b"fn f() {\n  drop 1;\n}", None, "line 2, column 8 of the input: this is an int"),
    ("pack 1", b"", None, "word 2, `1`, is not `2`"),
    ("pack", b"[", None, "the input is no JSON text: line 1, column 2"),
    ("pack", b"{}", None, "no array of blocks"),
    ("pack", b"[[], 1]", None, "block 1 of the draft, from 0, is no array"),
    ("pack", b'[[{"sett":{}}]]', None, "one member `set`, `deploy` or `call`"),
    ("pack", b'[[{"set":{"sender":"u","key":"raw/a"}}]]', None, "`set` has no `value`"),
    ("pack", b'[[{"set":{"sender":"u","key":"raw/A","value":1}}]]', None, "`key` of `set` must be"),
    ("pack", b'[[{"set":{"sender":"u","key":"a","value":-0}}]]', None, "`value` of `set` must be"),
    ("pack", b'[[{"set":{"sender":"u","key":"a","value":1,"x":1}}]]', None, "`set` takes no `x`"),
    ("pack", LONG_DRAFT % (b"a" * 1_025), None, "a text of at most 1,024 printable"),
    ("pack 2", LONG_DRAFT % (b"a" * 8_193), None, "a text of at most 8,192 printable"),
    ("prove hist raw/a 0 00", b"", None, "word 5, `00`, is not ROOTBLOCK"),
    ("prove hist raw/a 0 0", b"", None, f"has no {LOG}"),
    ("prove hist raw/a 0 1", b"", SET_LOG, "the chain ends before it"),
    ("prove hist raw/a 1 0", b"", SET_LOG, "BLOCK is past ROOTBLOCK"),
    (f"verify {RAW_A_ROOT} hist raw/a", b"", None, "`verify ROOT KIND KEY BLOCK`"),
    (f"verify {RAW_A_ROOT.upper()} hist raw/a 0", b"", None, "is not ROOT: a root"),
    (f"verify {RAW_A_ROOT} hist raw/a 0", b"", None, "the first invalid field is at offset 0"),
    (f"verify {RAW_A_ROOT} hist raw/b 0", RAW_A_PROOF, None, "of another question: hist raw/a 0\n"),
    (f"verify {RAW_A_ROOT} hist raw/a 1", RAW_A_PROOF.upper(), None, "of another question: hist raw/a 0\n"),
    (f"verify {'0' * 64} hist raw/a 0", RAW_A_PROOF, None, f"to another root, {RAW_A_ROOT}"),
    (f"verify {RAW_A_ROOT} hist raw/a 0", b"abc", None, "the number of digits is odd"),
    (f"verify {RAW_A_ROOT} hist raw/a 0", b"zz", None, "the byte at offset 0 of the input"),
    (f"expose {RAW_A_ROOT} hist raw/a 0", b"", None, "`expose ROOT KIND KEY BLOCK ROOTBLOCK`"),
    (f"expose {RAW_A_ROOT} hist raw/a 0 0", b"", None, f"has no {LOG}"),
    (f"expose {RAW_A_ROOT} hist raw/a 0 1", b"", SET_LOG, "the chain ends before it"),
    (f"expose {RAW_A_ROOT} hist raw/a 1 0", b"", SET_LOG, "BLOCK is past ROOTBLOCK"),
    (f"expose {RAW_A_ROOT} hist raw/b 0 0", RAW_A_PROOF, SET_LOG, "of another question"),
    (f"expose {RAW_A_ROOT} hist raw/a 0 0", b"abc", SET_LOG, "the number of digits is odd"),
    ("trace raw/a", b"", None, "`trace prove KEY BLOCK ROOTBLOCK` or `trace verify ROOT KEY BLOCK`"),
    ("trace raw/a 00", b"", None, "word 3, `00`, is not BLOCK"),
    ("trace back raw/a 0 0", b"", None, "word 2, `back`, is not `prove` or `verify`"),
    ("trace prove raw/a 0 00", b"", None, "word 5, `00`, is not ROOTBLOCK"),
    ("trace verify raw/a 0 0", b"", None, "word 3, `raw/a`, is not ROOT"),
    ("trace raw/a 0", b"", None, f"has no {LOG}"),
    ("trace raw/a 1", b"", SET_LOG, "the chain ends before it"),
    ("trace prove raw/a 1 0", b"", SET_LOG, "BLOCK is past ROOTBLOCK"),
    ("trace prove raw/shop/s1 2 3", b"", RECALL_LOG, "the chain ends before it"),
    (TRACE_VERIFY, b"", None, "the first invalid field is at offset 0"),
    (TRACE_VERIFY, RAW_A_PROOF, None, "looks like a proof in hex: `./lineage verify ROOT"),
    (f"verify {RAW_A_ROOT} hist raw/a 0", S1_PROOF, None, "looks like a proof of ancestors in hex"),
    (TRACE_VERIFY.replace("s1", "s2"), S1_PROOF, None, "of another question: back raw/shop/s1 2\n"),
    (TRACE_VERIFY.replace("c36b", "c36c"), S1_PROOF, None, "to another root, c36b"),
    (TRACE_VERIFY, s1_proof(1, LOT), None, "an item 2 is missing"),
    (TRACE_VERIFY, s1_proof(1, PART), None, "item 1 is not the version that comes next"),
    (TRACE_VERIFY, s1_proof(3, LOT, PART, PART), None, "nothing is left where item 3 stands"),
    (TRACE_VERIFY, b"abc", None, "the number of digits is odd"),
    (TRACE_VERIFY, SET_FILE, None, "looks like a block file"),
    ("append", S1_PROOF, None, "looks like a proof of ancestors in hex"),
    ("range raw/a 0", b"", None, "`range KEY FROM TO` or `range prove KEY FROM TO ROOTBLOCK`"),
    ("range raw/a 0 00", b"", None, "word 4, `00`, is not TO"),
    ("range raw/a 1 0", b"", None, "FROM, `1`, is past TO, `0`"),
    ("range prove raw/a 1 0 0", b"", None, "FROM, `1`, is past TO, `0`"),
    ("range back raw/a 0 0 0", b"", None, "word 2, `back`, is not `prove` or `verify`"),
    ("range prove raw/a 0 0 00", b"", None, "word 6, `00`, is not ROOTBLOCK"),
    ("range verify raw/a 0 0 0", b"", None, "word 3, `raw/a`, is not ROOT"),
    ("range raw/a 0 0", b"", None, f"has no {LOG}"),
    ("range raw/a 0 1", b"", SET_LOG, "the chain ends before it"),
    ("range prove raw/a 0 1 0", b"", SET_LOG, "TO is past ROOTBLOCK"),
    ("range prove shelf/s7 31 61 66", b"", SHELF_LOG, "the chain ends before it"),
    (RANGE_VERIFY, b"", None, "the first invalid field is at offset 0"),
    (RANGE_VERIFY, RAW_A_PROOF, None, "looks like a proof in hex: `./lineage verify ROOT"),
    (TRACE_VERIFY, MAY_PROOF, None, "looks like a proof of a range in hex"),
    (RANGE_VERIFY.replace("s7", "s8"), MAY_PROOF, None, "of another question: range shelf/s7 31 61\n"),
    (RANGE_VERIFY[:-2] + "62", MAY_PROOF.upper(), None, "of another question: range shelf/s7 31 61\n"),
    (RANGE_VERIFY.replace(" 6714", " 6715"), MAY_PROOF, None, "to another root, 6714"),
    (RANGE_VERIFY, WITHOUT_33, None, "a header of the proof is missing"),
    (RANGE_VERIFY, WITHOUT_44, None, "a header of the proof has another digest"),
    (RANGE_VERIFY, SWAPPED, None, "body 0, from 0, of the proof has another digest"),
    (RANGE_VERIFY, b"abc", None, "the number of digits is odd"),
    (RANGE_VERIFY, SET_FILE, None, "looks like a block file"),
    ("append", MAY_PROOF, None, "looks like a proof of a range in hex"),
    ("light x", b"", None, "word 2, `x`, is not `make`"),
    ("light make x", b"", None, "these are 3 words, and the command is `light make` or `light`"),
    ("light make", b"", SET_LOG[:40], "was changed or cut"),
    ("light", SET_LIGHT[:-1], None, "doesn't begin with a light file, or ends within it"),
    ("light", b"", None, "`./lineage light make` makes one"),
    ("light", SET_FILE, None, "looks like a block file"),
    ("light", RAW_A_PROOF, None, "looks like a proof in hex: `./lineage verify ROOT"),
    ("light", SET_LIGHT + bytes(4), None, "its length is 0, and a proof behind a light file has 1 to 1,048,576 bytes"),
    ("light", SET_LIGHT + SET_FRAME[:-1], None, "the input ends within this frame"),
    ("light", SET_LIGHT + b"\0\0\0\1x" + SET_FRAME + b"\0", None, "the input ends within this frame"),
    ("light", NO_LIGHT + SET_FRAME, None, "proof 0: its root is that of a block past the 0 of the light file"),
    ("light", OTHER_DIGEST + EVENING_FRAMES, None, "4 proofs are not accepted"),
    ("light", OTHER_DIGEST + EVENING_FRAMES, None, "proof 0: the digest of its root block is another than that"),
    ("light", SET_LIGHT + SET_FRAME + b"\0\0\0\1x", None, "proof 1: these are not the bytes of a proof"),
    ("light", SET_LIGHT[:-1] + b"\0" + SET_FRAME, None, "one proof is not accepted"),
    ("light", SET_LIGHT[:-1] + b"\0" + SET_FRAME, None, "proof 0: the proof leads to another root, 41f6"),
    ("light", SET_LIGHT + SET_FRAME + frame(RAW_A_PROOF), None, "proof 1: it is in hex"),
    ("append", SHELF_LIGHT, None, "looks like a light file: `./lineage light` reads it"),
    (f"verify {RAW_A_ROOT} hist raw/a 0", SET_LIGHT, None, "looks like a light file"),
    ("hist raw/a", b"", SET_LIGHT, f"{LOG} looks like a light file"),
    ("hist raw/a", b"", b"hello", "something else than a log"),
    ("hist raw/a", b"", SET_LOG[:40], "was changed or cut"),
    ("scan hist raw/a 0", SET_LOG, None, "looks like a log: ask `hist`"),
    ("append", SET_LOG, None, "tools/export-blocks LOG > BLOCKS"),
    ("append", RAW_A_PROOF, None, "looks like a proof in hex"),
    ("append", b"# One.\nfn f() {}", SET_LOG, "looks like a contract"),
    ("scan hist raw/a 0", b'{"set": {}}', None, "looks like a draft"),
    ("fmt", SET_FILE, None, "looks like a block file"),
    ("fmt", b" [[]]", None, "looks like a draft"),
    ("fmt", b"hello", None, "line 1, column 1 of the input: this doesn't fit"),
    ("pack", SET_FILE, None, "looks like a block file"),
    ("pack", b"fn f() {}", None, "looks like a contract"),
    (f"verify {RAW_A_ROOT} hist raw/a 0", bytes.fromhex(RAW_A_PROOF.decode()), None, "xxd -p < PROOF"),
    (f"expose {RAW_A_ROOT} hist raw/a 0 0", SET_LOG, SET_LOG, "looks like a log"),
    ("hist raw/a", b"", SET_FILE, "it looks like a block file"),
    ("append", SET_FILE, b"fn f() {}", f"{LOG} looks like a contract"),
    ("root", b"", ZEROED_LOG, f"has {len(SET_LOG)} bytes and begins with a zero"),
    ("hist raw/a", b"", ZEROED_LOG, "its first byte was a5"),
    ("prove hist raw/a 0 0", b"", ZEROED_FILE, "has 29 bytes and begins with a zero"),
    ("hist raw/a", b"", CLOSED_HEAD + CLOSED, "has no block yet"),
]


def make_tree(folder, program):
    """A tree whose ./lineage runs this program."""
    tree = os.path.join(folder, "tree")
    os.makedirs(f"{tree}/crates/lineage/out")
    for name in COPIED:
        copy = shutil.copytree if os.path.isdir(f"{TOP}/{name}") else shutil.copy
        copy(f"{TOP}/{name}", f"{tree}/{name}")
    shutil.copy(program, f"{tree}/crates/lineage/out/lineage")
    subprocess.run([f"{tree}/tools/lineage/mark-built"], check=True)
    return tree


def can_be_wrapped(case):
    """Whether a case says the same of ./lineage: it needs more memory than the program, and a user who
    may read its interpreter."""
    return not case.memory and not case.is_read_only


def run(program, words, source, folder):
    """What is printed, the exit status, and what is said, over an input that is a pipe or a file."""
    streams = {"stdout": subprocess.PIPE, "stderr": subprocess.PIPE, **limited(RUN_LIMIT)}
    how = {"stdin": source} if hasattr(source, "fileno") else {"input": source}
    ran = subprocess.run([program, *words.split()], cwd=folder, **how, **streams)
    return ran.stdout, ran.returncode, ran.stderr.decode()


def what_is_said(checks, wrapper, program):
    """./lineage says what is wrong, and prints and ends as the program does; behind a pipe too."""
    for words, source, log, said in SAID:
        wanted = run_over(program, words, source, log, is_pipe=False)[:2]
        printed, status, told = run_over(wrapper, words, source, log, is_pipe=False)
        name = f"{words} over {source[:40]!r}"
        checks.same(f"{name} by ./lineage", (printed, status), wanted)
        checks.holds(f"{name}: {told!r} has {said!r}", said in told)
        piped = run_over(wrapper, words, source, log, is_pipe=True)
        checks.same(f"{name} behind a pipe", piped, (printed, status, told))


def run_over(program, words, source, log, is_pipe):
    """What is printed, the exit status and what is said, over an input and a log, in a folder that is
    called HERE in what is said."""
    with tempfile.TemporaryDirectory() as folder, tempfile.TemporaryFile() as given:
        if log is not None:
            with open(os.path.join(folder, LOG), "wb") as file:
                file.write(log)
        given.write(source)
        given.seek(0)
        printed, status, told = run(program, words, source if is_pipe else given, folder)
        return printed, status, told.replace(os.path.realpath(folder), "HERE")


def pipes(checks, wrapper):
    """What comes through a pipe is handed on as it comes, for as long as the program takes it."""
    with tempfile.TemporaryDirectory() as folder:
        streams = {"stdin": subprocess.PIPE, "stdout": subprocess.PIPE, "stderr": subprocess.PIPE}
        ran = subprocess.Popen([wrapper, "append"], cwd=folder, **streams)
        ran.stdin.write(SET_FILE)
        ran.stdin.flush()
        checks.same("a line while the pipe is open", ran.stdout.readline().decode(), SET_LINE)
        ran.stdin.write(RECALL_FILE)
        ran.stdin.flush()
        checks.same("a frame is refused while the pipe is open", ran.wait(by_clock(RUN_LIMIT)), REFUSED)
        told = ran.stderr.read().decode()
        cause = "a frame is refused; frames count from 0: the chain has another block of this number"
        checks.holds(f"{told!r} has {cause!r}", cause in told)
        ran.stdin.close()
    with tempfile.TemporaryDirectory() as folder:
        with open(os.path.join(folder, LOG), "wb") as file:
            file.write(b"hello")
        ran = subprocess.Popen([wrapper, "append"], cwd=folder, **streams)
        checks.same("no log, and a pipe that stays open", ran.wait(by_clock(RUN_LIMIT)), NOT_A_LOG)
        ran.stdin.close()


def long_pipe(checks, wrapper):
    """Of an input that is longer than what is kept of a pipe it is said what causes may be."""
    source = SET_FILE * (lineage_input.MAX_KEPT_BYTES // len(SET_FILE) + 1)
    printed, status, told = run_over(wrapper, "scan hist raw/a 0", source + b"\0", None, is_pipe=True)
    frames = len(source) // len(SET_FILE)
    refused = f"refused frame {frames} truncated\n".encode()
    checks.same("a long pipe", (printed, status), (refused, REFUSED))
    for cause in ("truncated: the input ends within this frame", "fork H"):
        checks.holds(f"{told!r} has {cause!r}", cause in told)


def what_of_the_disk(checks, wrapper):
    """Where the log can't be used, it is said why."""
    for make, said in [
        (lambda path: os.mkdir(path), "is no regular file"),
        (lambda path: os.mkfifo(path), "is no regular file"),
        (lambda path: os.symlink("none/log", path), "is a link to none/log"),
    ]:
        with tempfile.TemporaryDirectory() as folder:
            make(os.path.join(folder, LOG))
            for words in CHANGES:
                printed, status, told = run(wrapper, words, SET_FILE, folder)
                checks.same(f"{words} over a log that {said}", (printed, status), (b"", 4))
                checks.holds(f"{told!r} has {said!r}", said in told)


# The modes of the log, or none where there is no log, and of its folder; what is said of a command that changes it.
RIGHTS = [
    (0o000, 0o755, "may not read chain.log"),
    (0o444, 0o755, "may not write chain.log"),
    (None, 0o555, "may not make chain.log"),
    (0o666, 0o311, "may not read the folder"),
]


def what_of_rights(checks):
    """Where this user lacks a right, or a file may not grow, it is said so."""
    for log_mode, folder_mode, said in RIGHTS:
        with tempfile.TemporaryDirectory() as folder:
            if log_mode is not None:
                with open(os.path.join(folder, LOG), "wb") as file:
                    os.fchmod(file.fileno(), log_mode)
            os.chmod(folder, folder_mode)
            for words in CHANGES:
                told = disk_sentence_in(folder, take_rights, words)
                checks.holds(f"{told!r} has {said!r}", said in told)
            os.chmod(folder, 0o755)
    with tempfile.TemporaryDirectory() as folder:
        told = disk_sentence_in(folder, lambda: disk_calls.limit_files(100, True))
        checks.holds(f"{told!r} names the limit", "longer than 100 bytes" in told)


def disk_sentence_in(folder, prepare, words="append"):
    """What is said of a log that can't be used, by a process that is prepared first. It is not started
    anew: a user without rights may be unable to start Python."""
    told, teller = os.pipe()
    child = os.fork()
    if not child:
        os.chdir(folder)
        prepare()
        os.write(teller, lineage_messages.disk_sentence([words]).encode())
        os._exit(0)
    os.close(teller)
    with os.fdopen(told, encoding="utf-8") as pipe:
        text = pipe.read()
    os.waitpid(child, 0)
    return text


def lock(checks, wrapper):
    """A command that changes the log waits while another one has the folder, and says who that is; a question
    doesn't."""
    for words in CHANGES:
        waiting_for_folder(checks, wrapper, words)


def waiting_for_folder(checks, wrapper, words):
    """A command that changes the log waits for the folder."""
    with tempfile.TemporaryDirectory() as folder:
        held = os.open(folder, os.O_RDONLY)
        fcntl.flock(held, fcntl.LOCK_EX)
        streams = {"stdin": subprocess.PIPE, "stdout": subprocess.PIPE, "stderr": subprocess.PIPE}
        waiting = subprocess.Popen([wrapper, words], cwd=folder, **streams)
        said = waiting.stderr.readline().decode()
        checks.holds(f"{said!r} names the holder", f"waiting for process {os.getpid()} (" in said)
        checks.same("a question meanwhile", run(wrapper, "root", b"", folder)[1], 9)
        waiting.stdin.write(SET_FILE)
        waiting.stdin.close()
        try:
            checks.holds("it waits", waiting.wait(PAUSE) is None)
        except subprocess.TimeoutExpired:
            checks.holds("it waits", not os.path.exists(os.path.join(folder, LOG)))
        os.close(held)
        checks.same("and then goes on", waiting.wait(by_clock(RUN_LIMIT)), 0)


def locked_log(checks):
    """Of a log that can't be used it is said who has it locked, where that can be known."""
    with tempfile.TemporaryDirectory() as folder, open(os.path.join(folder, LOG), "wb") as log:
        fcntl.flock(log, fcntl.LOCK_EX)
        holder = f"process {os.getpid()} ("
        told = disk_sentence_in(folder, lambda: None)
        checks.holds(f"{told!r} names the holder", holder in told and f"has {LOG} locked" in told)
        fcntl.flock(log, fcntl.LOCK_UN)
        told = disk_sentence_in(folder, lambda: None)
        is_open = "had chain.log locked, and has ended since" in told
        checks.holds(f"{told!r} names no holder", is_open and holder not in told)
        told = disk_sentence_in(folder, take_locks)
        checks.holds(f"{told!r} says that there are no locks", f"of {LOG} has no locks" in told)


def locked_append(checks, wrapper):
    """A command that changes the log ends where another process has the log locked, and says which; a question
    doesn't."""
    with tempfile.TemporaryDirectory() as folder:
        path = os.path.join(folder, LOG)
        with open(path, "wb") as file:
            file.write(SET_LOG)
        with open(path, "rb") as held:
            fcntl.flock(held, fcntl.LOCK_EX)
            for words in CHANGES:
                printed, status, told = run(wrapper, words, RECALL_FILE, folder)
                checks.same(f"{words} over a log that is locked", (printed, status), (b"", statuses.DISK_FAULT))
                holder = f"process {os.getpid()} ("
                checks.holds(f"{told!r} names the holder", holder in told and f"has {LOG} locked" in told)
            checks.same("a question over it", run(wrapper, "root", b"", folder)[1], statuses.DONE)
            checks.same("the log after it", held.read(), SET_LOG)
        known = b"known 0\n"
        for words, line in [("append", known), ("follow", known + FOLLOWED), ("upgrade", b"upgraded 1\n")]:
            printed, status, _ = run(wrapper, words, SET_FILE, folder)
            checks.same(f"{words} over a log that was locked", (printed, status), (line, statuses.DONE))


def take_locks():
    """Takes locks from this process, as a file system without any does."""

    def refuse(*_):
        raise OSError(errno.ENOLCK, "no locks")

    fcntl.flock = refuse


# The logs that begin with a zero, and what is said of a command that would write over it.
ZEROED = [
    (ZEROED_LOG, "its first byte was a5"),
    (CLOSED + SET_LOG[1:10], "its first byte was a5"),
    (ZEROED_FILE, "it is no log"),
    (SET_FILE, "it looks like a block file"),
    (CLOSED * 10, "it is no log"),
]


def zeroed_log(checks, wrapper):
    """A log whose first byte was zeroed is not written over, and what is said restores it; what a crash may
    leave is gone on with."""
    for log, said in ZEROED:
        with tempfile.TemporaryDirectory() as folder:
            path = os.path.join(folder, LOG)
            with open(path, "wb") as file:
                file.write(log)
            for words in CHANGES:
                printed, status, told = run(wrapper, words, SET_FILE, folder)
                checks.same(f"{words} over {log!r}", (printed, status), (b"", statuses.ZEROED_LOG))
                checks.holds(f"{told!r} has {said!r}", said in told)
                with open(path, "rb") as file:
                    checks.same(f"the log after {words} over {log!r}", file.read(), log)
            if log == ZEROED_LOG:
                [line] = [line.strip() for line in told.split("\n") if "dd of=" in line]
                subprocess.run(["sh", "-c", line], cwd=folder, check=True, stderr=subprocess.DEVNULL)
                with open(path, "rb") as file:
                    checks.same("the log that was restored", file.read(), SET_LOG)
    for log in (CLOSED, CLOSED_HEAD, CLOSED_HEAD + CLOSED, CLOSED * 9):
        line = SET_LINE.encode()
        for words, line in [("append", line), ("follow", line + FOLLOWED), ("upgrade", b"upgraded 0\n")]:
            with tempfile.TemporaryDirectory() as folder:
                with open(os.path.join(folder, LOG), "wb") as file:
                    file.write(log)
                printed = run(wrapper, words, SET_FILE, folder)[:2]
                checks.same(f"{words} over {log!r}", printed, (line, 0))


# ---- pages


# What stands for the words in capitals of a form.
FOR_WORDS = {"KEY": "raw/a", "BLOCK": "0", "N": "1", "SEED": "0", "ROOT": RAW_A_ROOT, "ROOTBLOCK": "0"}
FOR_WORDS |= {"FROM": "0", "TO": "0"}


def listed_commands(checks, program):
    """The program takes the words of each command and ends with one of its statuses; docs/formats.md has the
    same commands, each with its lines, and README.md shows their list."""
    with open(f"{TOP}/docs/formats.md", encoding="utf-8") as file:
        formats = file.read().split("\n## Commands\n")[1].split("\n## ")[0]
    made = []
    for command in commands.COMMANDS:
        for form in command.forms():
            kinds = commands.KINDS if "KIND" in form else ["none"]
            for kind in kinds:
                given = " ".join({**FOR_WORDS, "KIND": kind}.get(word, word) for word in form)
                with tempfile.TemporaryDirectory() as folder:
                    printed = run(program, given, b"", folder)[0]
                checks.holds(f"{given} are a command", printed != b"usage\n")
            made.append(" ".join(form))
        for lines, _ in command.lines:
            for line in lines.replace(" CAUSE", "").split(", "):
                has_line = re.search(rf"`{re.escape(line)}[`,]|^\| {re.escape(line)} in", formats, re.M)
                checks.holds(f"docs/formats.md has `{line}` of `{command.form}`", has_line is not None)
    rows = re.findall(r"(?m)^\| (`[^|]*`) \| [^|]* \| ", formats)
    told = [form for row in rows for form in re.findall(r"`([^`]*)`", row)]
    checks.same("commands that docs/formats.md lists", sorted(set(told)), sorted(made))
    with open(f"{TOP}/README.md", encoding="utf-8") as file:
        checks.holds("README.md shows the list", f"\n{page_runs.PROMPT}./lineage --help\n" in file.read())
    for case in CASES:
        command = commands.command_of(case.words.decode(errors="replace").split())
        if command and case.status != statuses.USAGE:
            name = f"{case.words} may end with {case.status}"
            checks.holds(name, case.status in command.statuses())


def help_texts(checks, wrapper):
    """Help is asked for in three ways, says of each command what there is to know, and its examples run."""
    with tempfile.TemporaryDirectory() as folder:
        listed = run(wrapper, "--help", b"", folder)
        checks.same("the status of --help, and what it says", listed[1:], (0, ""))
        for words in ("-h", "help"):
            checks.same(words, run(wrapper, words, b"", folder), listed)
        for form, _ in commands.OWN_FORMS:
            checks.holds(f"--help lists {form}", f"\n{form} " in listed[0].decode())
            checks.same(f"help of {form}", run(wrapper, f"help {form.split()[0]}", b"", folder)[1:], (0, ""))
        for command in commands.COMMANDS:
            checks.holds(f"--help lists {command.form}", f"{command.form} " in listed[0].decode())
            first = command.form.split()[0].replace("KIND", "back")
            printed, status, told = run(wrapper, f"help {first}", b"", folder)
            shown = [command.form, command.example, *(line for line, _ in command.lines), "    0: done"]
            checks.same(f"help of {first}", (status, told), (0, ""))
            for line in shown:
                checks.holds(f"help of {first} has {line!r}", line in printed.decode())
        with open(f"{TOP}/tools/lineage-completion.bash", encoding="utf-8") as file:
            completed = re.search(r'-W "([^"]*)"', file.read())[1].replace("\\", " ").split()
        first = {*commands.first_words(), *(form.split()[0] for form, _ in commands.OWN_FORMS), "--help"}
        checks.same("words that a shell completes", sorted(completed), sorted(first))
        checks.same("help of the words of `root`", run(wrapper, "help root 1", b"", folder)[:2], (b"", 1))
        checks.same("help of no command", run(wrapper, "help me", b"", folder)[:2], (b"", 1))
        shutil.copytree(f"{TOP}/examples", f"{folder}/examples")
        os.symlink(wrapper, f"{folder}/lineage")
        lines = [command.example for command in commands.COMMANDS]
        # The log of the examples comes first, and `expose` comes last, which compares with that of its proof.
        for text in sorted(lines, key=lambda line: ("append" not in line, " expose " in line)):
            if " expose " in text:
                os.remove(f"{folder}/{LOG}")
                run(wrapper, "append", SET_FILE, folder)
            ran = subprocess.run(["bash", "-c", text], cwd=folder, **QUIET)
            checks.same(f"the status of {text}", ran.returncode, 0)


def files_of(tree):
    """The files of a tree, but for what is built."""
    found = set()
    for folder, folders, names in os.walk(tree):
        folders[:] = set(folders) - {"out"}
        found.update(os.path.join(folder, name) for name in names)
    return found


def pages(checks, tree):
    """What stands below a command on a page is what it prints, and the commands leave no file in the tree."""
    before = files_of(tree)
    count, wrong = page_runs.wrong_commands(tree)
    checks.same("files that the commands of the pages leave", sorted(files_of(tree) - before), [])
    checks.holds("the pages have commands", count > 0)
    for line in wrong:
        checks.same(line, False, True)


def limits_of_files(checks, wrapper):
    """Where a file is at the limit of its length the program ends as where that can't be written: the signal that would
    end it is ignored. Such a run leaves nothing that the next one can't use."""
    chain = ReadBack().file
    for words, source, limit, status in [
        (["gen", "200", "7"], b"", FEW_BYTES, UNTOLD),
        (["append"], SET_FILE, FEW_BYTES, DISK_FAULT),
        # The first bodies that are written to the scratch file.
        (["append"], chain, GATHERED_BYTES // 2, SCRATCH_FAULT),
    ]:
        files = tempfile.TemporaryFile(), tempfile.TemporaryFile()
        with tempfile.TemporaryDirectory() as folder, files[0] as given, files[1] as told:
            given.write(source)
            given.seek(0)
            streams = QUIET | {"stdin": given, "stdout": told}
            limits = limited(RUN_LIMIT, lambda: disk_calls.limit_files(limit, False))
            ran = subprocess.run([wrapper, *words], cwd=folder, **streams, **limits)
            name = f"{words} over {len(source)} bytes, where a file has at most {limit}"
            checks.same(name, ran.returncode, status)
            checks.same(f"what is told, {name}", os.fstat(told.fileno()).st_size, limit if status == UNTOLD else 0)
            checks.same(f"files after {name}", set(os.listdir(folder)) - {LOG}, set())


class Wrapped:
    """./lineage over a program, in a tree of its own, which is made in a folder."""

    def __init__(self, program, folder):
        self.program, self.folder, self.tree = program, folder, make_tree(folder, program)
        self.wrapper = f"{self.tree}/lineage"


def wrapped_cases(checks, it):
    for case in filter(can_be_wrapped, CASES):
        check_case(checks, it.wrapper, case)


# What the checks of each part are, by its name.
PARTS = {
    "wrapped_cases": wrapped_cases,
    "what_is_said": lambda checks, it: what_is_said(checks, it.wrapper, it.program),
    "pipes": lambda checks, it: pipes(checks, it.wrapper),
    "long_pipe": lambda checks, it: long_pipe(checks, it.wrapper),
    "what_of_the_disk": lambda checks, it: what_of_the_disk(checks, it.wrapper),
    "what_of_rights": lambda checks, it: what_of_rights(checks),
    "waiting": lambda checks, it: lock(checks, it.wrapper),
    "limits_of_files": lambda checks, it: limits_of_files(checks, it.wrapper),
    "locked_log": lambda checks, it: locked_log(checks),
    "locked_append": lambda checks, it: locked_append(checks, it.wrapper),
    "zeroed_log": lambda checks, it: zeroed_log(checks, it.wrapper),
    "said_of_things": lambda checks, it: word_checks.check(checks, it.wrapper, make_tree),
    "listed_commands": lambda checks, it: listed_commands(checks, it.program),
    "help_texts": lambda checks, it: help_texts(checks, it.wrapper),
    "pages": lambda checks, it: pages(checks, it.tree),
    "builds": lambda checks, it: build_checks.check(checks, it.tree, it.folder),
}
