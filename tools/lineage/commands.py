"""The commands of the program: the list by which ./lineage goes. tools/checks/check-program holds README.md,
docs/formats.md and the program to it. What a word may be is defined in crates/cli_words.
"""
import os

from lineage.statuses import (
    BAD_INPUT,
    BEYOND,
    DAMAGED,
    DISK_FAULT,
    MEANINGS,
    NOT_A_LOG,
    REFUSED,
    REJECTED,
    SCRATCH_FAULT,
    UNREADABLE,
    USAGE,
)

KINDS = ("hist", "back", "fwd")
LOWER, DIGITS = frozenset("abcdefghijklmnopqrstuvwxyz"), frozenset("0123456789")
MAX_KEY_LENGTH = 64
MAX_NUMBER = 4_294_967_295
MAX_GENERATED_BLOCKS = 100_000
EXAMPLE_ROOT = "41f6c6fc6bc756e479b796f7f09689670bee66ffad0189a20e5bf0574966869d"
RECALL_ROOT = "c36b6bfd2dd652a721e6abe9223333c610a5b04e058325b35cf29fcea0a765ab"
SHELF_ROOT = "67147f39e21239af7893de4772fd8c78606b074c5db50b70c793a08bed895c83"


def is_kind(word):
    return word in KINDS


def is_key(word):
    return 1 <= len(word) <= MAX_KEY_LENGTH and LOWER | DIGITS | set("./_-") >= set(word)


def is_root(word):
    return len(word) == 64 and DIGITS | set("abcdef") >= set(word)


def is_decimal(least=0, most=MAX_NUMBER):
    """Whether a word is a number in digits without a leading zero."""

    def is_it(word):
        digits = 1 <= len(word) <= len(str(most)) and DIGITS >= set(word)
        return digits and word == str(int(word)) and least <= int(word) <= most

    return is_it


# What a word in capitals stands for: what it may be, for a person, and whether one is.
WORDS = {
    "KIND": ("hist, back or fwd", is_kind),
    "KEY": ("a key, which has 1 to 64 of a-z 0-9 . / _ -", is_key),
    "BLOCK": ("a number from 0 to 4294967295, in digits without a leading zero", is_decimal()),
    "ROOTBLOCK": ("a number from 0 to 4294967295, in digits without a leading zero", is_decimal()),
    "FROM": ("a number from 0 to TO, in digits without a leading zero", is_decimal()),
    "TO": ("a number from 0 to 4294967295, in digits without a leading zero", is_decimal()),
    "ROOT": ("a root, which is 64 of 0-9 a-f", is_root),
    "N": ("a number from 1 to 100000, in digits without a leading zero", is_decimal(1, MAX_GENERATED_BLOCKS)),
    "SEED": ("a number from 0 to 4294967295, in digits without a leading zero", is_decimal()),
}


class Command:
    """A command: its words, of which those in capitals stand for others, and those in brackets may be left out; and
    what it does."""

    def __init__(self, form, meaning, lines, example, **uses):
        self.form, self.meaning, self.lines, self.example = form, meaning, lines, example
        # What it reads, for a person; nothing where it reads nothing.
        self.input = uses.get("input")
        self.reads_input = self.input is not None
        self.takes_frames = self.input in (BLOCKS, LIGHT)
        # Whether it reads its whole input before it prints anything.
        self.reads_whole = self.reads_input and not self.takes_frames
        self.uses_log = uses.get("uses_log", False)
        # Whether it writes to the log, and so locks it.
        self.changes_log = uses.get("changes_log", False)
        self.uses_scratch = uses.get("uses_scratch", False)
        # Whether it prints bytes that a terminal can't show.
        self.prints_bytes = uses.get("prints_bytes", False)
        # Whether it checks a proof in hex, or proofs by a light file.
        self.checks_proof = self.input in (PROOF, TRACE_PROOF, RANGE_PROOF)
        self.checks_by_light = self.input is LIGHT
        is_of_block = "BLOCK" in form or form.endswith(" TO")
        self.asks_for_block = is_of_block and (self.takes_frames or self.uses_log)
        # Whether it asks about a block by the root at another one, which must not come before it.
        self.asks_by_root = form.endswith((" BLOCK ROOTBLOCK", " TO ROOTBLOCK"))

    def forms(self):
        """Its words, as lists: with what may be left out, and without."""
        long = self.form.replace("[", "").replace("]", "").split()
        short = [word for word in self.form.split() if not word.startswith("[")]
        return [short] if short == long else [short, long]

    def statuses(self):
        """With which statuses it may end."""
        may_be = {
            UNREADABLE: self.reads_input,
            DISK_FAULT: self.uses_log,
            NOT_A_LOG: self.uses_log,
            DAMAGED: self.uses_log,
            REFUSED: self.takes_frames,
            BEYOND: self.asks_for_block,
            REJECTED: self.checks_proof or self.checks_by_light,
            BAD_INPUT: self.reads_whole or self.checks_by_light,
            SCRATCH_FAULT: self.uses_scratch,
        }
        return [status for status in MEANINGS if may_be.get(status, status != USAGE)]


BLOCKS = "a block file"
PROOF = "a proof in hex digits"
TRACE_PROOF = "a proof of ancestors in hex digits"
RANGE_PROOF = "a proof of a range in hex digits"
LIGHT = "a light file, and proofs as frames behind it"
BAD_FRAME = ("refused frame I CAUSE", "the frame with number I of the input, from 0, is refused")
NO_BLOCK = ("beyond empty, beyond head H", "there is no block, or BLOCK is past the last one, H")
NO_LAST_BLOCK = ("beyond empty, beyond head H", "there is no block, or TO is past the last one, H")
NO_LOG = ("not a log, damaged at P", "what the bytes of chain.log are, at the offset P")
ANSWERS = [
    ("none", "there is no version of KEY up to BLOCK"),
    (
        "block B tx T int V, block B tx T text V, block B tx T gone",
        "hist: the version's block, its transaction, and its value, or that it is gone",
    ),
    ("block B deps N", "back: the version's block, and N lines KEY BLOCK, what it was derived from"),
    ("block B uses N", "fwd: the version's block, and N lines KEY BLOCK, what was derived from it"),
]
ANCESTORS = [
    ANSWERS[0],
    ("block B ancestors N", "the version's block, and N lines KEY BLOCK, all that it was made from"),
]
VERSIONS = [
    ("versions N", "N versions, whose lines follow, the oldest first"),
    ("block B tx T int V, block B tx T text V, block B tx T gone", "a version, as `hist` prints it"),
]
BAD_PROOF = [
    ("rejected CAUSE", "the first check of the proof that fails, and what it reports"),
    ("badinput long, badinput odd, badinput at P", "the input is too long, or no hex"),
]
STORED = [
    ("block N rows R status S root H", "block N is stored and wrote R rows; S are its transactions' statuses"),
    ("known N", "the log has this block already"),
]
LOAD_LINE = "blocks N rows R root H lookups L entries E most M"
COMMANDS = [
    Command(
        "scan KIND KEY BLOCK",
        "what KEY was at BLOCK, by a block file",
        [*ANSWERS, NO_BLOCK, BAD_FRAME],
        "./lineage scan fwd raw/part/p1 2 < examples/recall.blocks",
        input=BLOCKS,
    ),
    Command(
        "append",
        "stores the blocks of a block file in chain.log; prints a line each",
        [*STORED, BAD_FRAME, NO_LOG],
        "./lineage append < examples/recall.blocks",
        input=BLOCKS,
        uses_log=True,
        changes_log=True,
        uses_scratch=True,
    ),
    Command(
        "follow",
        "stores blocks that come in any order; prints a line a turn",
        [
            *STORED,
            ("kept N", "block N waits for those before it"),
            ("dropped I CAUSE", "the block of the frame with number I of the input, from 0, is not taken"),
            ("follow blocks N waiting K", "the last line: the log has N blocks, and K wait for others"),
            BAD_FRAME,
            NO_LOG,
        ],
        "./lineage follow < examples/recall.blocks",
        input=BLOCKS,
        uses_log=True,
        changes_log=True,
        uses_scratch=True,
    ),
    Command(
        "upgrade",
        "marks chain.log for good; its next blocks have version 2",
        [
            ("upgraded N", "the log is marked, and has N blocks before the mark"),
            ("already upgraded", "the log was marked before, and stays as it is"),
            NO_LOG,
        ],
        "./lineage upgrade",
        uses_log=True,
        changes_log=True,
    ),
    Command(
        "root [BLOCK]",
        "the root at BLOCK, a digest over all versions up to it, by chain.log",
        [("root N H", "H is the root at block N"), NO_BLOCK, NO_LOG],
        "./lineage root 1",
        uses_log=True,
        uses_scratch=True,
    ),
    Command(
        "KIND KEY [BLOCK]",
        "what KEY was at BLOCK, by chain.log",
        [*ANSWERS, NO_BLOCK, NO_LOG],
        "./lineage fwd raw/part/p1",
        uses_log=True,
    ),
    Command(
        "prove KIND KEY BLOCK ROOTBLOCK",
        "a proof of that, for one who has the root at ROOTBLOCK",
        [("hex digits", "the bytes of the proof"), NO_BLOCK, NO_LOG],
        "./lineage prove hist raw/part/p1 2 2 > p1.proof",
        uses_log=True,
        uses_scratch=True,
    ),
    Command(
        "verify ROOT KIND KEY BLOCK",
        "what KEY was at BLOCK, by a proof, for one who has the root",
        [*ANSWERS, *BAD_PROOF],
        f"./lineage verify {EXAMPLE_ROOT} hist raw/a 0 < examples/raw-a.proof",
        input=PROOF,
    ),
    Command(
        "expose ROOT KIND KEY BLOCK ROOTBLOCK",
        "where a proof that is accepted and chain.log up to ROOTBLOCK clash",
        [
            ("no clash", "there is no clash"),
            ("clash P C", "P is a text of the proof and C one of the chain, which differ and have one digest"),
            *BAD_PROOF,
            NO_BLOCK,
            NO_LOG,
        ],
        f"./lineage expose {EXAMPLE_ROOT} hist raw/a 0 0 < examples/raw-a.proof",
        input=PROOF,
        uses_log=True,
        uses_scratch=True,
    ),
    Command(
        "trace KEY BLOCK",
        "all that KEY at BLOCK was made from, by chain.log",
        [*ANCESTORS, NO_BLOCK, NO_LOG],
        "./lineage trace raw/shop/s1 2",
        uses_log=True,
    ),
    Command(
        "trace prove KEY BLOCK ROOTBLOCK",
        "a proof of that, for one who has the root at ROOTBLOCK",
        [("hex digits", "the bytes of the proof"), NO_BLOCK, NO_LOG],
        "./lineage trace prove raw/shop/s1 2 2 > s1.proof",
        uses_log=True,
        uses_scratch=True,
    ),
    Command(
        "trace verify ROOT KEY BLOCK",
        "all that KEY at BLOCK was made from, by a proof and ROOT",
        [*ANCESTORS, *BAD_PROOF],
        f"./lineage trace verify {RECALL_ROOT} raw/shop/s1 2 < examples/shop-s1.proof",
        input=TRACE_PROOF,
    ),
    Command(
        "range KEY FROM TO",
        "all versions of KEY, FROM to TO, by chain.log",
        [*VERSIONS, NO_LAST_BLOCK, NO_LOG],
        "./lineage range raw/part/p1 0 2",
        uses_log=True,
    ),
    Command(
        "range prove KEY FROM TO ROOTBLOCK",
        "a proof of that, for one who has the root at ROOTBLOCK",
        [("hex digits", "the bytes of the proof"), NO_LAST_BLOCK, NO_LOG],
        "./lineage range prove raw/part/p1 0 2 2 > p1.proof",
        uses_log=True,
        uses_scratch=True,
    ),
    Command(
        "range verify ROOT KEY FROM TO",
        "all versions of KEY, FROM to TO, by a proof and ROOT",
        [*VERSIONS, *BAD_PROOF],
        f"./lineage range verify {SHELF_ROOT} shelf/s7 31 61 < examples/shelf-s7.proof",
        input=RANGE_PROOF,
    ),
    Command(
        "light make",
        "a light file: digest and root of each block, by chain.log",
        [("bytes", "the light file"), NO_LOG],
        "./lineage light make > chain.light",
        uses_log=True,
        uses_scratch=True,
        prints_bytes=True,
    ),
    Command(
        "light",
        "what proofs show, by the light file before them",
        [
            ("proof I KIND KEY T root R", "proof I, from 0, of that question is accepted by the root at R; then"),
            *ANSWERS,
            ("proof I rejected CAUSE", "the first check of proof I that fails, and what it reports"),
            BAD_FRAME,
            ("badinput light", "the input doesn't begin with a light file"),
        ],
        "cat examples/shelf.light examples/june-3.proofs | ./lineage light",
        input=LIGHT,
    ),
    Command(
        "fmt [2]",
        "the canonical text of a contract, with 2 of the second edition, or its first fault",
        [
            ("badinput syntax P K", "the input is no contract; its first fault, of the sort K, is at offset P"),
            ("badinput check P K", "the same of the contract's names and kinds"),
            ("badinput long", "the input is too long"),
        ],
        "./lineage fmt < examples/shop.contract",
        input="a contract",
    ),
    Command(
        "pack [2]",
        "the block file of a draft, which is JSON, with 2 of version 2, or its first fault",
        [
            ("badinput json, badinput top", "the input is no JSON, or no array"),
            ("badinput block B, badinput draft B T", "the first fault is in block B, or its transaction T"),
            ("badinput long", "the input is too long"),
        ],
        "./lineage pack < examples/supply-chain.json > supply-chain.blocks",
        input="a draft",
        prints_bytes=True,
    ),
    Command(
        "gen N SEED",
        "a block file of N blocks, drawn from the number SEED",
        [],
        "./lineage gen 100 7 > drawn.blocks",
        prints_bytes=True,
    ),
    Command(
        "load N SEED",
        "how many versions look-ups look at, over these blocks in memory",
        [(LOAD_LINE, "there are N blocks and R rows; L look-ups looked at E versions, and one at M at most")],
        "./lineage load 100 7",
        uses_scratch=True,
    ),
]
# What ./lineage does itself.
OWN_FORMS = [
    ("help [WORD]", "this list, or more about the commands that begin with WORD; --help does the same"),
    ("--prove", "proves the program and builds it over its proofs; it answers from then on"),
    ("--proved WORDS..", "a command, by the proved program or not at all"),
    ("--install [DIR]", "copies the proved program to DIR, or to /usr/local/bin"),
    ("--test", "runs the tests that need no proof, and says last how many passed and failed"),
    ("--version", "what the program was built from, and whether it is proved"),
]
FORM_COLUMNS = 38
# How near a word that is no command must be to one of a command, by difflib's ratio, so that it may have been meant.
LEAST_NEAR = 0.7


def listed():
    """All commands, each with what it does."""
    rows = [(command.form, command.meaning) for command in COMMANDS] + OWN_FORMS
    lines = [f"{form:{FORM_COLUMNS}}{meaning}" for form, meaning in rows]
    lines.append("KIND is hist, the value of KEY; back, what it was derived from; or fwd, what was derived from it.")
    lines.append("BLOCK left out is the last one. A command reads standard input, where it reads one.")
    return "\n".join(lines)


def described(command):
    """What there is to know of a command."""
    lines = [command.form, f"  {command.meaning}"]
    names = [name for name in WORDS if name in max(command.forms(), key=len)]
    lines += [f"  {name} is {WORDS[name][0]}" for name in names]
    lines.append(f"  reads {command.input or 'no input'}" + (", and chain.log in this folder" * command.uses_log))
    lines.append("  prints" if command.lines else "  prints a block file")
    lines += [f"    {line}: {meaning}" for line, meaning in command.lines]
    lines.append("  ends with status")
    lines += [f"    {status}: {MEANINGS[status]}" for status in command.statuses()]
    return "\n".join([*lines, "  for example", f"    {command.example}"])


def may_be(name, word):
    """Whether a word may stand for a word of a form."""
    return WORDS[name][1](word) if name in WORDS else word == name


def has_form(words):
    """Whether there are as many words as a command has, and the first is its; whether the others are
    what they may be is the program's to say."""
    return command_of(words) is not None


def command_of(words):
    """The command whose form the words have; of several the one that has most of its own words."""

    def own_words(command):
        return sum(name == word for name, word in zip(form_of(command, words), words) if name not in WORDS)

    return max(with_form(words), key=own_words, default=None)


def with_form(words):
    """The commands that have a form of as many words, and begin with the first."""
    return [command for command in beginning_with(words) if form_of(command, words)]


def form_of(command, words):
    """The words of a command that are as many as these; none where it has no such form."""
    return next((form for form in command.forms() if len(form) == len(words)), None)


def beginning_with(words):
    """The commands that may begin with the first of the words."""
    return [command for command in COMMANDS if words and may_be(command.form.split()[0], words[0])]


def first_words():
    """What the first word may be."""
    names = [command.form.split()[0] for command in COMMANDS]
    return sorted(set(KINDS).union(names) - {"KIND"})


def near_word(word):
    """The first word of a command, or of what ./lineage does itself, that this one is nearest to; none where none is
    near."""
    import difflib

    names = [*first_words(), *(form.split()[0] for form, _ in OWN_FORMS)]
    return next(iter(difflib.get_close_matches(word, names, 1, LEAST_NEAR)), None)


def input_as_word(words):
    """How a command is given its input, where one of the words is the name of a file and the others are a command that
    reads standard input; nothing else."""
    for at in reversed(range(1, len(words))):
        others = words[:at] + words[at + 1 :]
        command = command_of(others)
        if command and command.reads_input and os.path.isfile(words[at]) and not what_is_wrong(others):
            import shlex

            return f"`{command.form}` reads standard input: ./lineage {' '.join(others)} < {shlex.quote(words[at])}"
    return None


def what_is_wrong(words):
    """Which of the words is wrong, and what it may be; nothing where there are no words."""
    commands = beginning_with(words)
    if not words:
        return None
    if not commands:
        said = f"`{words[0]}` is no command; the first word is one of {', '.join(first_words())}"
        return f"{said}\ndid you mean `{meant}`?" if (meant := near_word(words[0])) else said
    command = command_of(words)
    if not command:
        forms = " or ".join(f"`{each.form}`" for each in commands)
        count = "this is one word" if len(words) == 1 else f"these are {len(words)} words"
        return f"{count}, and the command is {forms}"
    for number, (name, word) in enumerate(zip(form_of(command, words), words), 1):
        if not may_be(name, word):
            own = " or ".join(f"`{form_of(each, words)[number - 1]}`" for each in with_form(words))
            wanted = f"{name}: {WORDS[name][0]}" if name in WORDS else own
            return f"word {number}, `{word}`, is not {wanted}"
    given = dict(zip(form_of(command, words), words))
    if "FROM" in given and int(given["FROM"]) > int(given["TO"]):
        return f"FROM, `{given['FROM']}`, is past TO, `{given['TO']}`"
    return None
