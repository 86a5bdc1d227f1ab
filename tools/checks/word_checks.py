"""Checks of what ./lineage says of things that are not wrong words or a wrong input: how transactions ended, and
for what a file was taken; of words of which it can be seen what was meant; and of bytes on a terminal. What is
expected was written from docs/language.md and docs/formats.md.
"""
import os
import pty
import re
import select
import subprocess
import sys
import tempfile
import time

from cases.block_files import (
    BAD_ARGS,
    BAD_SOURCE,
    CONFLICT,
    FIRST_VERSION,
    FOREIGN,
    NO_CONTRACT,
    NO_FUNCTION,
    NO_KEY,
    OUT_OF_STEPS,
    SECOND_VERSION,
    TAKEN,
    block_file,
    calls,
    deploys,
    sets,
)
from cases.log_cases import CLOSED, CLOSED_HEAD, HEAD, OPEN, SET_FILE, SET_LOG
from checks.limits import by_clock, limited
from checks.log_runs import LOG
from checks.program_cases import EVENING_FRAMES, EVENING_TOLD, MAY_PROOF, PROVE_S1, RAW_A_PROOF, RAW_A_ROOT
from checks.program_cases import RECALL_FILE, RECALL_LOG, RECALL_ROOTS, SET_LIGHT, SHELF_LIGHT, SHELF_ROOT
from lineage import commands
from lineage.statuses import BAD_INPUT, DAMAGED, DISK_FAULT, DONE, NOT_A_LOG, NOT_SHOWN, REFUSED, REJECTED, UNTOLD
from lineage.statuses import USAGE
from lineage.told_statuses import STATUSES
from places import TOP

# How many seconds of a processor a run may take.
RUN_LIMIT = 60
ADD = 'fn add(d: int) { put "bank/n" = get_int("bank/n") + d; }'
OTHERS = 'fn put_other() { put "shop/n" = 1; }'
FAULTY = "fn f() {\n  a = 1;\n}"
BLOCKS = [
    [
        sets("shop/x", 1, status=FOREIGN),
        deploys("bank", ADD),
        deploys("raw", ADD, TAKEN),
        deploys("bad", FAULTY, BAD_SOURCE),
        deploys("other", OTHERS),
    ],
    [
        calls("nobody", "f", ["x", 1], 10, NO_CONTRACT, 0),
        calls("bank", "nothing", [], 10, NO_FUNCTION, 0),
        calls("bank", "add", [], 10, BAD_ARGS, 0),
        calls("bank", "add", [1], 5, OUT_OF_STEPS, 5),
        calls("bank", "add", [1], 1_000, NO_KEY, 0),
        calls("other", "put_other", [], 1_000, FOREIGN, 0),
    ],
    [],
    [sets("raw/a", 1), sets("raw/a", "text", ["raw/b"], CONFLICT), sets("raw/c", 2)],
]
# What is said of them.
SAID = """\
lineage: block 0 tx 0: Foreign (3): a Set writes keys under raw/ alone, and not `shop/x`
lineage: block 0 tx 2: Taken (15): the name `raw` is raw, or was deployed before
lineage: block 0 tx 3: BadSource (16): its source is no contract: line 2, column 3 of its source: no such name is \
visible here, or there is no such builtin
lineage: block 1 tx 0: NoContract (4): no contract `nobody` was deployed in an earlier block
lineage: block 1 tx 1: NoFunction (5): the contract `bank` has no function `nothing`
lineage: block 1 tx 2: BadArgs (6): the function `add` takes other arguments, by number or kind
lineage: block 1 tx 3: OutOfSteps (7): its budget of 5 steps is too small
lineage: block 1 tx 4: NoKey (2): a key that it reads or asks about has no version there, or one that is gone
lineage: block 1 tx 5: Foreign (3): the contract `other` puts keys under other/ alone
lineage: block 3 tx 1: Conflict (1): an earlier transaction of the block wrote `raw/a`, or one of the keys that it \
is derived from
"""


def told_statuses():
    """The status lists that `append` tells of the blocks."""
    return [",".join(str(tx.status) for tx in block) or "-" for block in BLOCKS]


def statuses_in(printed):
    return re.findall(r"block \d+ rows \d+ status (\S+) root", printed)


def append(wrapper, folder, output, words="append"):
    """What `append` or `follow` of the blocks says, and its status; its standard output is a file or a pipe."""
    streams = {"input": block_file(BLOCKS), "stdout": output, "stderr": subprocess.PIPE, **limited(RUN_LIMIT)}
    return subprocess.run([wrapper, words], cwd=folder, **streams)


def words_for_statuses(checks, wrapper):
    """Of each status above 0 a line says what it means, wherever standard output leads, but nowhere."""
    with open(f"{TOP}/docs/language.md", encoding="utf-8") as file:
        rows = re.findall(r"(?m)^\| (\d+) \| (\w+) \|", file.read().split("\n## Statuses\n")[1].split("\n## ")[0])
    listed = [(str(number), name) for number, (name, _) in STATUSES.items()]
    checks.same("the statuses that have words", listed, rows)
    with tempfile.TemporaryDirectory() as folder:
        ran = append(wrapper, folder, subprocess.PIPE)
        checks.same("the statuses that are printed", statuses_in(ran.stdout.decode()), told_statuses())
        checks.same("what is said of them", (ran.returncode, ran.stderr.decode()), (DONE, SAID))
        again = append(wrapper, folder, subprocess.PIPE)
        checks.same("what is said of known blocks", (again.stdout, again.stderr), (b"known 0\nknown 1\nknown 2\nknown 3\n", b""))
        printed = ran.stdout
    with tempfile.TemporaryDirectory() as folder:
        ran = append(wrapper, folder, subprocess.PIPE, "follow")
        checks.same("what is said of them by `follow`", (ran.returncode, ran.stderr.decode()), (DONE, SAID))
    for mode in ("wb", "ab"):
        with tempfile.TemporaryDirectory() as folder, open(f"{folder}/told", "wb") as before:
            before.write(b"block 7 rows 0 status 3 root of another run\n")
            before.flush()
            size = os.fstat(before.fileno()).st_size
            with open(f"{folder}/told", mode) as told:
                ran = append(wrapper, folder, told)
            with open(f"{folder}/told", "rb") as told:
                told.seek(size if mode == "ab" else 0)
                checks.same(f"what is printed to a file, {mode}", told.read(), printed)
            checks.same(f"what is said of a file, {mode}", (ran.returncode, ran.stderr.decode()), (DONE, SAID))
    with tempfile.TemporaryDirectory() as folder:
        ran = append(wrapper, folder, subprocess.DEVNULL)
        checks.same("what is said where nothing is kept", (ran.returncode, ran.stderr), (DONE, b""))


# A source that is none in either edition, for another reason in each; and what is said of the blocks of it.
DROPS = "fn f() {\n  drop 1;\n}"
EDITIONS = """\
lineage: block 0 tx 0: BadSource (16): its source is no contract: line 2, column 8 of its source: this doesn't fit here
lineage: block 1 tx 0: BadSource (16): its source is no contract: line 2, column 8 of its source: this is an int where \
a text must stand, or a text where an int must
"""


def words_in_both_editions(checks, wrapper):
    """In a log that is marked the blocks are found whose transactions failed, and their sources are looked at in the
    edition of their version."""
    blocks = [[deploys("one", DROPS, BAD_SOURCE)], [deploys("two", DROPS, BAD_SOURCE)]]
    file = block_file(blocks, [FIRST_VERSION, SECOND_VERSION])
    said = ""
    with tempfile.TemporaryDirectory() as folder:
        for words, source in [("append", file), ("upgrade", b""), ("append", file)]:
            streams = {"input": source, "capture_output": True, **limited(RUN_LIMIT)}
            said += subprocess.run([wrapper, words], cwd=folder, **streams).stderr.decode()
    lines = [line for line in said.splitlines(True) if " tx " in line]
    checks.same("what is said of sources of both editions", "".join(lines), EDITIONS)


def output_that_ends(checks, wrapper):
    """Where a pipe takes no more, `append` ends with the status of that, and the log has what was told of."""
    with tempfile.TemporaryDirectory() as folder:
        blocks = block_file([[sets(f"raw/{n}", n)] for n in range(400)])
        command = f"set -o pipefail; {wrapper} append | head -n 1; exit ${{PIPESTATUS[0]}}"
        streams = {"input": blocks, "stdout": subprocess.PIPE, "stderr": subprocess.DEVNULL, **limited(RUN_LIMIT)}
        ran = subprocess.run(["bash", "-c", command], cwd=folder, **streams)
        checks.same("the status where the output ends", ran.returncode, UNTOLD)
        checks.holds("what was told by then", ran.stdout.startswith(b"block 0 rows 1 status 0 root "))
        checks.holds("what was told of is stored", os.path.getsize(f"{folder}/{LOG}") > 0)


def on_terminal(wrapper, words, folder, source=subprocess.DEVNULL, look=lambda text: None, typed=None):
    """What a terminal shows of a run, and its status. What was shown so far is looked at as it comes. What is typed
    there is its input, in place of the source."""
    shown, terminal = pty.openpty()
    if typed is not None:
        os.write(shown, typed)
        source = terminal
    ran = subprocess.Popen([wrapper, *words], cwd=folder, stdin=source, stdout=terminal, stderr=terminal)
    os.close(terminal)
    text, end = b"", time.monotonic() + by_clock(RUN_LIMIT)
    while time.monotonic() < end and select.select([shown], [], [], by_clock(RUN_LIMIT))[0]:
        try:
            text += os.read(shown, 1 << 16)
        except OSError:
            break
        look(text.decode(errors="replace"))
    os.close(shown)
    return text.decode(errors="replace").replace("\r\n", "\n"), ran.wait(by_clock(RUN_LIMIT))


def words_on_terminal(checks, wrapper):
    """On a terminal the words of a block stand below its line."""
    with tempfile.TemporaryDirectory() as folder:
        with open(f"{folder}/blocks", "wb") as file:
            file.write(block_file(BLOCKS))
        with open(f"{folder}/blocks", "rb") as file:
            text, status = on_terminal(wrapper, ["append"], folder, file)
        lines = text.replace("\r\x1b[K", "").split("\n")
        checks.same("the statuses on a terminal", (statuses_in(text), status), (told_statuses(), DONE))
        said = SAID.split("\n")[:-1]
        checks.same("the words on a terminal", [line for line in lines if line.startswith("lineage:")], said)
        order = [line.split()[:2] if line.startswith("block") else line.split()[1:3] for line in lines if line]
        checks.same("their order", order, sorted(order, key=lambda it: int(it[1])))


# Words that are no command, where the folder has these files, and what is said of them: a part, and a part that isn't.
FILES = ["in file", "2", "append"]
DID_YOU_MEAN = "did you mean"
READS_INPUT = "` reads standard input: "
MISTYPED = [
    (["append", "in file"], "`append` reads standard input: ./lineage append < 'in file'\n", DID_YOU_MEAN),
    (["follow", "2"], "`follow` reads standard input: ./lineage follow < 2\n", DID_YOU_MEAN),
    (["scan", "hist", "raw/a", "0", "2"], "standard input: ./lineage scan hist raw/a 0 < 2\n", DID_YOU_MEAN),
    (["scan", "2", "hist", "raw/a", "0"], "standard input: ./lineage scan hist raw/a 0 < 2\n", DID_YOU_MEAN),
    (["light", "in file"], "`light` reads standard input: ./lineage light < 'in file'\n", DID_YOU_MEAN),
    (["pack", "in file"], "`pack [2]` reads standard input: ./lineage pack < 'in file'\n", DID_YOU_MEAN),
    (["pack", "2", "in file"], "standard input: ./lineage pack 2 < 'in file'\n", DID_YOU_MEAN),
    (["fmt", "append"], "`fmt [2]` reads standard input: ./lineage fmt < append\n", DID_YOU_MEAN),
    (["verify", RAW_A_ROOT, "hist", "raw/a", "0", "2"], f"./lineage verify {RAW_A_ROOT} hist raw/a 0 < 2\n", DID_YOU_MEAN),
    (["trace", "verify", RAW_A_ROOT, "raw/a", "0", "2"], f"trace verify {RAW_A_ROOT} raw/a 0 < 2\n", DID_YOU_MEAN),
    (["range", "verify", RAW_A_ROOT, "raw/a", "0", "1", "2"], "raw/a 0 1 < 2\n", DID_YOU_MEAN),
    (["append", "no file"], "these are 2 words, and the command is `append`", READS_INPUT),
    (["append", "2", "2"], "these are 3 words, and the command is `append`", READS_INPUT),
    (["scan", "hist", "RAW", "0", "2"], "these are 5 words", READS_INPUT),
    (["root", "00", "2"], "these are 3 words, and the command is `root [BLOCK]`", READS_INPUT),
    (["hits", "raw/a"], "did you mean `hist`?\n", READS_INPUT),
    (["apend"], "did you mean `append`?\n", READS_INPUT),
    (["ligth", "make"], "did you mean `light`?\n", READS_INPUT),
    (["version"], "did you mean `--version`?\n", READS_INPUT),
    (["--proof"], "did you mean `--prove`?\n", READS_INPUT),
    (["x"], "`x` is no command", DID_YOU_MEAN),
    (["", "2"], "`` is no command", DID_YOU_MEAN),
    (["import"], "`import` is no command", DID_YOU_MEAN),
]


def mistyped_words(checks, wrapper):
    """Of words that are no command it is said what was meant, as far as that can be seen; they end as ever."""
    with tempfile.TemporaryDirectory() as folder:
        for name in FILES:
            with open(f"{folder}/{name}", "wb") as file:
                file.write(SET_FILE)
        for words, said, unsaid in MISTYPED:
            streams = {"stdin": subprocess.DEVNULL, "capture_output": True, **limited(RUN_LIMIT)}
            ran = subprocess.run([wrapper, *words], cwd=folder, **streams)
            told = ran.stderr.decode()
            checks.same(f"the status of {words}", (ran.stdout, ran.returncode), (b"usage\n", USAGE))
            checks.holds(f"{told!r} of {words} has {said!r}", said in told and unsaid not in told)
        streams = {"input": b"fn f() {}", "capture_output": True, **limited(RUN_LIMIT)}
        ran = subprocess.run([wrapper, "fmt", "2"], cwd=folder, **streams)
        checks.same("a command whose word is also a file", (ran.returncode, ran.stderr), (DONE, b""))
        checks.same("files that the words leave", sorted(os.listdir(folder)), sorted(FILES))


# The commands that print bytes; what is typed on the terminal, and whether they are shown then.
FOR_A_FILE = [["gen", "1", "0"], ["light", "make"], ["pack"], ["pack", "2"]]
TYPED = [(b"y\n", True), (b"Yes\n", True), (b"n\n", False), (b"\n", False), (b"yet\n", False), (b"\4", False)]
# Lines on a terminal, which are no bytes.
SHOWN_LINES = [["gen", "0", "0"], ["gen", "1", "00"], ["pack", "1"], ["light", "made"]]
CANNOT_SHOW = "a terminal can't show what this prints"


def bytes_on_terminal(checks, wrapper):
    """What a terminal can't show is written there if it is asked for, and what a command reads is never taken for that;
    elsewhere nothing is asked."""
    printing = [command.form for command in commands.COMMANDS if command.prints_bytes]
    checks.same("the commands that print bytes", sorted(printing), ["gen N SEED", "light make", "pack [2]"])
    with tempfile.TemporaryDirectory() as folder:
        for words in FOR_A_FILE:
            text, status = on_terminal(wrapper, words, folder)
            checks.same(f"the status of {words} on a terminal", status, NOT_SHOWN)
            wanted = f"lineage: {CANNOT_SHOW}, which is for a file: ./lineage {' '.join(words)} > FILE\n"
            checks.same(f"what {words} shows on a terminal", text, wanted)
        for words in FOR_A_FILE:
            for typed, is_shown in TYPED if words[0] != "pack" else [(b"y\n", False)]:
                text, status = on_terminal(wrapper, words, folder, typed=typed)
                name = f"{words} on a terminal where {typed} is typed"
                checks.same(f"the status of {name}", status, DONE if is_shown else NOT_SHOWN)
                checks.same(f"whether bytes are shown, {name}", "\0" in text, is_shown)
        for words in SHOWN_LINES:
            text, status = on_terminal(wrapper, words, folder)
            checks.holds(f"{words} on a terminal: {text!r}", status == USAGE and CANNOT_SHOW not in text)
        for words in (["gen", "1", "0"], ["light", "make"]):
            ran = subprocess.run([wrapper, *words], cwd=folder, capture_output=True, **limited(RUN_LIMIT))
            checks.same(f"the status of {words} elsewhere", (ran.returncode, ran.stderr), (DONE, b""))


# What reads a part of the log, waits until it is told to go on or the log is gone, and prints in place of the program.
GO = "go"
# How often it is shown how far it is until then.
TIMES_SHOWN = 2
SLOW_PROGRAM = f"""\
#!{sys.executable}
import os
import time
with open("{LOG}", "rb", buffering=0) as log:
    log.read(30_000_000)
    while os.path.exists("{LOG}") and not os.path.exists("{GO}"):
        time.sleep(0.05)
    log.read()
    time.sleep(1.5)
print("root 0 " + "0" * 64)
"""
HOW_FAR = re.compile(r"\r\x1b\[Klineage: read 3\d\.\d of 40\.0 MB of chain\.log, [78]\d percent")


def progress_on_terminal(checks, make_tree):
    """On a terminal it is shown how much of a log was read, and what is shown is gone before a line is printed;
    elsewhere nothing is said of it."""
    with tempfile.TemporaryDirectory() as folder:
        program = f"{folder}/program"
        with open(program, "w", encoding="utf-8") as file:
            file.write(SLOW_PROGRAM)
        os.chmod(program, 0o755)
        with open(f"{folder}/{LOG}", "wb") as log:
            log.truncate(40_000_000)
        wrapper = f"{make_tree(folder, program)}/lineage"

        def go_on(text):
            if len(HOW_FAR.findall(text)) == TIMES_SHOWN:
                open(f"{folder}/{GO}", "w").close()

        start = time.monotonic()
        text, status = on_terminal(wrapper, ["root"], folder, look=go_on)
        line, shown = f"root 0 {'0' * 64}", HOW_FAR.findall(text)
        checks.same("the status on a terminal", status, DONE)
        checks.holds(f"{text!r} shows how far it is", len(shown) >= TIMES_SHOWN)
        checks.holds("it is renewed once in a second at most", len(shown) <= time.monotonic() - start)
        checks.same("what is left on the terminal", re.sub(r"[^\n]*\r\x1b\[K", "", text), f"{line}\n")
        ran = subprocess.run([wrapper, "root"], cwd=folder, capture_output=True, text=True, **limited(RUN_LIMIT))
        checks.same("what is said elsewhere", (ran.stdout, ran.stderr), (f"{line}\n", ""))


# The mark of a log, and one that has it after its block.
MARK = OPEN + bytes(4) + CLOSED
MARKED_LOG = SET_LOG[:-1] + MARK
# Logs, and what is exported of each: the blocks, the status, and a part of what is said. Of the versions of its
# blocks nothing is looked at.
EXPORTS = [
    (SET_LOG, SET_FILE, DONE, ""),
    (RECALL_LOG, RECALL_FILE, DONE, ""),
    (SET_LOG + b"junk", SET_FILE, DONE, ""),
    (HEAD + CLOSED + SET_FILE, b"", DONE, ""),
    (MARKED_LOG, SET_FILE, DONE, ""),
    (HEAD + MARK, b"", DONE, ""),
    (HEAD + MARK[:-1] + OPEN + SET_FILE + CLOSED, SET_FILE, DONE, ""),
    (b"", b"", DONE, ""),
    (CLOSED, b"", DONE, ""),
    (CLOSED_HEAD + CLOSED, b"", DONE, ""),
    (b"hello", b"", NOT_A_LOG, "not a log"),
    (SET_FILE, b"", NOT_A_LOG, "begins with a zero"),
    (CLOSED + SET_LOG[1:], b"", NOT_A_LOG, "begins with a zero"),
    (SET_LOG[:40], b"", DAMAGED, "damaged at 8"),
    (SET_LOG[:-1], b"", DAMAGED, "damaged at 8"),
    (SET_LOG[:-1] + OPEN + bytes(4), SET_FILE, DAMAGED, f"damaged at {len(SET_LOG) - 1}"),
    (MARKED_LOG[:-1] + MARK, SET_FILE, DAMAGED, f"damaged at {len(MARKED_LOG) - 1}"),
    (None, b"", DISK_FAULT, "No such file"),
]


def exports(checks, wrapper):
    """The blocks of a log are exported as a block file, which another node takes."""
    for log, blocks, status, said in EXPORTS:
        with tempfile.TemporaryDirectory() as folder:
            if log is not None:
                with open(f"{folder}/{LOG}", "wb") as file:
                    file.write(log)
            ran = subprocess.run([f"{TOP}/tools/export-blocks"], cwd=folder, capture_output=True, **limited(RUN_LIMIT))
            name = f"what is exported of {str(log)[:60]}"
            checks.same(name, (ran.stdout, ran.returncode), (blocks, status))
            checks.holds(f"{ran.stderr!r} has {said!r}", said in ran.stderr.decode() and bool(said) == bool(ran.stderr))
    with tempfile.TemporaryDirectory() as folder:
        with open(f"{folder}/other.log", "wb") as file:
            file.write(RECALL_LOG)
        command = f"{TOP}/tools/export-blocks other.log | {wrapper} append"
        ran = subprocess.run(["bash", "-c", command], cwd=folder, capture_output=True, **limited(RUN_LIMIT))
        with open(f"{folder}/{LOG}", "rb") as file:
            checks.same("the log of another node", (ran.returncode, file.read()), (DONE, RECALL_LOG))


# Texts of a source, and whether a block may have them.
SOURCES = [
    (ADD.encode(), True),
    (b"", True),
    ('fn f() {\n\tput "a\\b" = "\u00e4";\r\n}\n# {"source_file": "x"}\x7f'.encode(), True),
    (b"x" * 16_384, True),
    (b"x" * 16_385, False),
    (b"\xff", False),
    (None, False),
]
NAMED = b'[[{"deploy": {"sender": "u", "name": "bank", "source":\n { "source_file" : "a \\"\\u0062\\".contract"\n} }}]]'
FILE = 'a "b".contract'
# Drafts that name no file, though they have the word, and what is printed of them.
OTHER_DRAFTS = [
    (b'[[{"set":{"sender":"u","key":"raw/a","value":"{\\"source_file\\": \\"x\\"}"}}]]', None),
    (b'[[{"set":{"sender":"u","key":"raw/a","value":{"source_file":"x"}}}]]', b"badinput draft 0 0\n"),
    (b'[[{"deploy":{"sender":"u","name":"b","source":{"source_file":1}}}]]', b"badinput draft 0 0\n"),
    (b'[[{"deploy":{"sender":"u","name":"b","source_file":"x"}}]]', b"badinput draft 0 0\n"),
    (b'[["source":{"source_file":"x"}', b"badinput json\n"),
]


def pack(wrapper, folder, draft, is_pipe):
    """What `pack` prints of a draft, its status, what it says, and whether it took all of its input."""
    streams = {"stdout": subprocess.PIPE, "stderr": subprocess.PIPE, **limited(RUN_LIMIT)}
    with tempfile.TemporaryFile() as source:
        source.write(draft)
        source.flush()
        source.seek(0)
        how = {"input": draft} if is_pipe else {"stdin": source}
        ran = subprocess.run([wrapper, "pack"], cwd=folder, **how, **streams)
        is_read = is_pipe or os.lseek(source.fileno(), 0, os.SEEK_CUR) == len(draft)
    return ran.stdout, ran.returncode, ran.stderr.decode(), is_read


def sources_of_drafts(checks, wrapper):
    """A draft may name the file of a source, whose text stands in the block then."""
    for source, is_good in SOURCES:
        with tempfile.TemporaryDirectory() as folder:
            if source is not None:
                with open(f"{folder}/{FILE}", "wb") as file:
                    file.write(source)
            for is_pipe in (False, True):
                printed, status, said, is_read = pack(wrapper, folder, NAMED, is_pipe)
                name = f"a source of {str(source)[:40]}"
                if is_good:
                    blocks = block_file([[deploys("bank", source.decode())]])
                    checks.same(name, (printed, status, said), (blocks, DONE, ""))
                else:
                    checks.same(name, (printed, status), (b"badinput draft 0 0\n", BAD_INPUT))
                    is_said = "can't be read" in said or len(source or b"") > 16_384
                    checks.holds(f"{said!r} says why", is_said and "`source` of `deploy` must be" in said)
                checks.holds(f"{name} leaves nothing of the input", is_read)
    for draft, printed in OTHER_DRAFTS:
        with tempfile.TemporaryDirectory() as folder:
            with open(f"{folder}/x", "w", encoding="utf-8") as file:
                file.write("fn f() {}")
            wanted = printed or block_file([[sets("raw/a", '{"source_file": "x"}')]])
            checks.same(f"what is packed of {draft}", pack(wrapper, folder, draft, False)[0], wanted)


def verifier_words(checks, wrapper):
    """The second verifier shows its help and what a proof holds, and says of which question one is."""
    verifier = [sys.executable, f"{TOP}/verifiers/verify.py"]
    streams = {"capture_output": True, **limited(RUN_LIMIT)}
    ran = subprocess.run([*verifier, "--help"], **streams)
    checks.same("the status of its help", (ran.returncode, ran.stderr), (DONE, b""))
    for form in (b"ROOT KIND KEY BLOCK", b"trace ROOT KEY BLOCK", b"range ROOT KEY FROM TO"):
        checks.holds(f"its help has the words {form}", b"verify.py " + form + b" < PROOF" in ran.stdout)
    checks.holds("its help has the word `light`", b"verify.py light < LIGHT_FILE_AND_PROOFS" in ran.stdout)
    for words, source, printed, status in [
        (["light"], SHELF_LIGHT + EVENING_FRAMES, EVENING_TOLD, DONE),
        (["light"], SET_LIGHT + EVENING_FRAMES[:-1], REJECTED_THEN_CUT, REFUSED),
        (["light"], SHELF_LIGHT[:-1], "badinput light\n", BAD_INPUT),
        (["light", "make"], b"", "usage\n", USAGE),
        (["light", "x"], SHELF_LIGHT, "usage\n", USAGE),
    ]:
        ran = subprocess.run([*verifier, *words], input=source, **streams)
        name = f"{' '.join(words)} over {len(source)} bytes by the second verifier"
        checks.same(name, (ran.stdout, ran.returncode, ran.stderr), (printed.encode(), status, b""))
    checks.same("the light file of the examples", read(f"{TOP}/examples/shelf.light"), SHELF_LIGHT)
    checks.same("the proofs of the examples", read(f"{TOP}/examples/june-3.proofs"), EVENING_FRAMES)
    words = [RAW_A_ROOT, "fwd", "raw/a", "0"]
    ran = subprocess.run([*verifier, *words], input=RAW_A_PROOF, **streams)
    checks.same("what is printed of another question", (ran.stdout, ran.returncode), (b"rejected query\n", REJECTED))
    checks.same("what is said of it", ran.stderr, b"verify.py: the proof is of another question: hist raw/a 0\n")
    for source, printed, status in [
        (b"", b"rejected malformed 0\n", REJECTED),
        (RAW_A_PROOF[:546], b"rejected malformed 273\n", REJECTED),
        (b"zz", b"badinput at 0\n", BAD_INPUT),
    ]:
        ran = subprocess.run([*verifier, "--show"], input=source, **streams)
        checks.same(f"what is shown of {source[:20]}", (ran.stdout, ran.returncode), (printed, status))
    with tempfile.TemporaryDirectory() as folder:
        with open(f"{folder}/{LOG}", "wb") as log:
            log.write(RECALL_LOG)
        shown_of = [(f"prove {question} 2", question, shown) for question, shown in SHOWN]
        for command, question, shown in [*shown_of, (PROVE_S1.decode(), "back raw/shop/s1 2", SHOWN_OF_TRACE)]:
            made = subprocess.run([wrapper, *command.split()], cwd=folder, **streams).stdout
            ran = subprocess.run([*verifier, "--show"], input=made, **streams)
            lines = ran.stdout.decode().split("\n")
            checks.same(f"the status where {question} is shown", (ran.returncode, ran.stderr), (DONE, b""))
            checks.same(f"the first line of {question}", lines[0], f"question {question}")
            for line in [*shown, f"leads to the root {RECALL_ROOTS[2]}"]:
                checks.holds(f"what is shown of {question} has {line!r}", line in lines)
    ran = subprocess.run([*verifier, "--show"], input=MAY_PROOF, **streams)
    checks.same("the status where a proof of a range is shown", (ran.returncode, ran.stderr), (DONE, b""))
    for line in SHOWN_OF_RANGE:
        checks.holds(f"what is shown of a range has {line!r}", line in ran.stdout.decode().split("\n"))
    ran = subprocess.run([*verifier, "range", SHELF_ROOT, "shelf/s7", "31", "60"], input=MAY_PROOF, **streams)
    checks.same("what is printed of another range", (ran.stdout, ran.returncode), (b"rejected query\n", REJECTED))
    said = b"verify.py: the proof is of another question: range shelf/s7 31 61\n"
    checks.same("what is said of it", ran.stderr, said)


# What is told of three proofs by the light file of another chain, and of a frame that is cut.
REJECTED_THEN_CUT = "".join(f"proof {number} rejected unknown 1\n" for number in range(3))
REJECTED_THEN_CUT += "refused frame 3 truncated\n"


def read(path):
    with open(path, "rb") as file:
        return file.read()


# Questions about the recall log, and lines that are shown of their proofs under the root of its last block.
SHOWN = [
    (
        "fwd raw/part/p1 2",
        [
            "body: text batch 17, derived from 0 versions",
            "uses: 2 versions were derived from it",
            "  raw/lot/l1 1",
            "  raw/lot/l3 2",
        ],
    ),
    (
        "back raw/lot/l3 2",
        ["body: int 200, derived from 2 versions", "  raw/part/p1 0", "  raw/part/p2 0"],
    ),
    # Keys are in the order of their first rows, and the leaf before all keys has the index 0.
    ("hist raw/none 1", ["leaf 5 of 7, from 0: key raw/lot/l3, next key raw/part/p1"]),
    ("hist raw/a 1", ["leaf 0 of 7, from 0: before all keys, next key raw/lot/l1"]),
]
# Lines that are shown of the proof of all ancestors.
SHOWN_OF_TRACE = [
    "body: text l1, derived from 1 versions",
    "item 1: raw/lot/l1 1",
    "body: int 120, derived from 1 versions",
    "item 2: raw/part/p1 0",
    "body: text batch 17, derived from 0 versions",
    "nothing of this was checked: verify.py trace ROOT raw/shop/s1 2 does that",
]
# The same of the proof of the stock of a month. The first two headers lead to its last block.
SHOWN_OF_RANGE = [
    "question range shelf/s7 31 61",
    "leaf 1 of 3, from 0: key shelf/s7, next key shelf/s8",
    "block 61 body: int 18, derived from 1 versions",
    "block 44 body: int 0, derived from 1 versions",
    "  shelf/s7 38",
    "block 33 body: int 22, derived from 1 versions",
    f"leads to the root {SHELF_ROOT}",
    "nothing of this was checked: verify.py range ROOT shelf/s7 31 61 does that",
]


def check(checks, wrapper, make_tree):
    """Makes all these checks; `make_tree` makes a tree with a program, in a folder."""
    progress_on_terminal(checks, make_tree)
    exports(checks, wrapper)
    sources_of_drafts(checks, wrapper)
    verifier_words(checks, wrapper)
    mistyped_words(checks, wrapper)
    bytes_on_terminal(checks, wrapper)
    words_for_statuses(checks, wrapper)
    words_in_both_editions(checks, wrapper)
    output_that_ends(checks, wrapper)
    words_on_terminal(checks, wrapper)
