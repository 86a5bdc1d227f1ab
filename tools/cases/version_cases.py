"""The table of the cases of both versions of blocks, which tools/cases/write-block-cases writes out: keys that are
dropped, which edition of the language a Deploy is read in, how long a text may be, and which version may follow which.
It has the blocks of an example too.

Every status, cost and answer was worked out by hand from docs/language.md and docs/formats.md, as those of
tools/cases/block_cases.py.
"""
from cases.block_cases import ASK, PUT, READ, Call, cost_within, puts, puts_cost, reads, reads_cost
from cases.block_files import (
    BAD_KEY, BAD_SOURCE, CONFLICT, DIV_ZERO, FIRST_VERSION, FOREIGN, NO_CONTRACT, NO_KEY, NOT_READ, OK, OUT_OF_STEPS,
    SECOND_VERSION, TEXT_TOO_LONG, TOO_MANY, WRONG_KIND, Block, Chain, block_digest, block_file, block_frame, calls,
    deploys, sets,
)
from cases.log_cases import BAD_INPUT, LONGEST_TEXT, LogCase, frames_of, log_of
from places import TOP


def second(rows, *txs):
    """A block of the second version."""
    return Block(rows, list(txs), SECOND_VERSION)


# ---- a key that is put, dropped and read

C = 'fn f() { put "c/a" = 1; } fn g() { if has("c/a") { drop "c/a"; } } fn h() { let x = get_int("c/a"); }'
PUT_COST = 1 + 2 + PUT
# Where the key is gone, `g` ends after its `if`.
HAS_COST = 1 + 2 + READ
DROP_COST = HAS_COST + (1 + 1 + PUT)
GET_COST = 1 + 2 + READ
DROP_CHARGES = [1, 1, 1, READ, 1, 1, PUT]
DEPLOYED = second(0, deploys("c", C))


def calls_c(function, status, cost, budget=100):
    return calls("c", function, [], budget, status, cost)


PUT_IT = second(1, calls_c("f", OK, PUT_COST))
DROPPED = second(1, calls_c("g", OK, DROP_COST))
NOT_READ_AGAIN = second(0, calls_c("h", NO_KEY, GET_COST))


def each_budget():
    """A block that drops the key with each budget up to the one that is just enough."""
    short = [calls_c("g", OUT_OF_STEPS, cost_within(budget, DROP_CHARGES), budget) for budget in range(DROP_COST)]
    return second(1, *short, calls_c("g", OK, DROP_COST, DROP_COST))


DROPS = [
    Chain(
        "a key that is dropped",
        [DEPLOYED, PUT_IT, DROPPED, NOT_READ_AGAIN],
        {
            "hist c/a 0": "none",
            "hist c/a 1": "block 1 tx 0 int 1",
            "hist c/a 2": "block 2 tx 0 gone",
            "hist c/a 3": "block 2 tx 0 gone",
            "back c/a 1": "block 1 deps 0",
            "back c/a 3": "block 2 deps 1\nc/a 1",
            "fwd c/a 1": "block 1 uses 1\nc/a 2",
            "fwd c/a 3": "block 2 uses 0",
            "hist c/a 4": "beyond head 3",
        },
    ),
    Chain(
        "a key that was dropped is put again",
        [
            DEPLOYED,
            PUT_IT,
            DROPPED,
            # It has nothing to drop.
            second(0, calls_c("g", OK, HAS_COST)),
            PUT_IT,
            second(0, calls_c("h", OK, GET_COST)),
            # The second of two drops in one block meets what the first has written.
            second(1, calls_c("g", OK, DROP_COST), calls_c("g", CONFLICT, HAS_COST)),
        ],
        {
            "hist c/a 3": "block 2 tx 0 gone",
            "hist c/a 5": "block 4 tx 0 int 1",
            "back c/a 5": "block 4 deps 0",
            "fwd c/a 3": "block 2 uses 0",
            "hist c/a 6": "block 6 tx 0 gone",
            "back c/a 6": "block 6 deps 1\nc/a 4",
        },
    ),
    Chain("a drop with each budget", [DEPLOYED, PUT_IT, each_budget()], {"hist c/a 2": f"block 2 tx {DROP_COST} gone"}),
]

# ---- one call in block 3, after a put of c/a and its drop, and in its own block a put of c/w and a drop of c/v

SEEN = (
    'put "c/b" = text(seen("c/a", 0)) ++ text(seen("c/a", 1)) ++ text(seen("c/a", 2)) ++ text(hist_block("c/a", 2)) '
    '++ text(hist_tx("c/a", 2)) ++ text(back_count("c/a", 2)) ++ text(fwd_count("c/a", 1));'
)
READS_BOTH = 'let x = get_int("raw/a") + has("c/a"); '
READ_BOTH = 1 + 5 + 2 * READ
# raw/a is a Set of block 0 alone.
GONE_BEFORE = [
    # ---- reads and questions
    Call("a read of a key that is gone", 'let x = get_int("c/a");', NO_KEY, 1 + 2 + READ),
    Call("a read of it as a text", 'let x = get_text("c/a");', NO_KEY, 1 + 2 + READ),
    Call(
        "a read of it is recorded", 'put "c/b" = has("c/a");', OK, 1 + 3 + READ + PUT, rows=1,
        asks={
            "hist c/b 3": "block 3 tx 2 int 0",
            "back c/b 3": "block 3 deps 1\nc/a 2",
            "fwd c/a 3": "block 2 uses 1\nc/b 3",
        },
    ),
    Call(
        "a part that is gone", 'if has("c/a") { fail; } put "c/b" = 1 from "c/a";', OK,
        (1 + 2 + READ) + (1 + 3 + PUT), rows=1, asks={"back c/b 3": "block 3 deps 1\nc/a 2"},
    ),
    Call("a version that is gone, as an int", 'let x = hist_int("c/a", 2);', WRONG_KIND, 1 + 3 + ASK),
    Call("a version that is gone, as a text", 'let x = hist_text("c/a", 2);', WRONG_KIND, 1 + 3 + ASK),
    Call(
        "the version before it", 'put "c/b" = hist_int("c/a", 1);', OK, 1 + 4 + ASK + PUT, rows=1,
        asks={"hist c/b 3": "block 3 tx 2 int 1", "back c/b 3": "block 3 deps 0"},
    ),
    Call(
        "what is asked of it", SEEN, OK, 1 + (1 + 7 * 4 + 6) + 7 * ASK + PUT, rows=1,
        asks={"hist c/b 3": "block 3 tx 2 text 0112011"},
    ),
    # ---- what is pending
    Call(
        "a read of a key that is dropped before", 'put "c/b" = 1; drop "c/b"; let x = get_int("c/b");', NO_KEY,
        (1 + 2 + PUT) + (1 + 1 + PUT) + (1 + 2 + READ),
    ),
    Call(
        "a put, then a drop", 'put "c/b" = 1; drop "c/b"; if has("c/b") { fail; }', OK,
        (1 + 2 + PUT) + (1 + 1 + PUT) + (1 + 2 + READ), rows=1,
        asks={"hist c/b 3": "block 3 tx 2 gone", "back c/b 3": "block 3 deps 0"},
    ),
    Call(
        "a drop, then a put", 'drop "c/b"; put "c/b" = 7; let x = get_int("c/b");', OK,
        (1 + 1 + PUT) + (1 + 2 + PUT) + (1 + 2 + READ), rows=1, asks={"hist c/b 3": "block 3 tx 2 int 7"},
    ),
    # Its place is that of the put.
    Call(
        "a drop of what was put first", 'let x = get_int("raw/a"); put "c/b" = 1; put "c/d" = 2; drop "c/b";', OK,
        (1 + 2 + READ) + (1 + 2 + PUT) * 2 + (1 + 1 + PUT), rows=2,
        asks={"hist c/b 3": "block 3 tx 2 gone", "fwd raw/a 3": "block 0 uses 2\nc/b 3\nc/d 3"},
    ),
    # ---- what a drop leaves
    Call(
        "a drop of no version", 'drop "c/n";', OK, 1 + 1 + PUT, rows=1,
        asks={"hist c/n 3": "block 3 tx 2 gone", "back c/n 3": "block 3 deps 0", "hist c/n 2": "none"},
    ),
    Call(
        "a drop of what is gone", 'drop "c/a";', OK, 1 + 1 + PUT, rows=1,
        asks={"hist c/a 3": "block 3 tx 2 gone", "hist c/a 2": "block 2 tx 0 gone", "fwd c/a 2": "block 2 uses 0"},
    ),
    Call(
        "a drop from all that was read", READS_BOTH + 'drop "c/b";', OK, READ_BOTH + (1 + 1 + PUT), rows=1,
        asks={"back c/b 3": "block 3 deps 2\nraw/a 0\nc/a 2"},
    ),
    Call(
        "a drop from fewer keys", READS_BOTH + 'drop "c/b" from "c/a", "c/a";', OK, READ_BOTH + (1 + 3 + PUT), rows=1,
        asks={"back c/b 3": "block 3 deps 1\nc/a 2"},
    ),
    # ---- the order of what ends a drop
    Call("drop: steps, then key", 'drop "c/A";', OUT_OF_STEPS, 1 + 1, budget=17),
    Call("drop: just enough steps", 'drop "c/A";', BAD_KEY, 1 + 1 + PUT, budget=18),
    Call("drop: key, then owner", 'drop "d/A";', BAD_KEY, 1 + 1 + PUT),
    Call("drop: owner, then conflict", 'drop "raw/w";', FOREIGN, 1 + 1 + PUT),
    Call("drop: a key that this block put", 'drop "c/w" from "A";', CONFLICT, 1 + 2 + PUT),
    Call("drop: a key that this block dropped", 'drop "c/v";', CONFLICT, 1 + 1 + PUT),
    Call("put: a key that this block dropped", 'put "c/v" = 1;', CONFLICT, 1 + 2 + PUT),
    Call("read: a key that this block dropped", 'let x = has("c/v");', CONFLICT, 1 + 2 + READ),
    Call("drop: all parts are keys, then read", 'drop "c/b" from "raw/x", "A";', BAD_KEY, 1 + 3 + PUT),
    Call("drop: a part that was not read", 'drop "c/b" from "raw/x";', NOT_READ, 1 + 2 + PUT),
    Call("drop: its parts before its key", 'drop "c/A" from text(1 / 0);', DIV_ZERO, 1 + 5),
    Call("drop: 257 keys", puts(256) + 'drop "c/a" from "A";', TOO_MANY, puts_cost(256) + (1 + 2 + PUT)),
    Call(
        "drop: 256 keys", puts(256) + 'drop "c/7";', OK, puts_cost(256) + (1 + 1 + PUT), rows=256,
        asks={"hist c/7 3": "block 3 tx 2 gone"},
    ),
]
# What the contract has beside the function of such a call.
BESIDE = (
    'fn first() { put "c/a" = 1; } fn gone() { if has("c/a") { drop "c/a"; } } '
    'fn w() { put "c/w" = 1; drop "c/v"; }'
)


def after_a_drop(call):
    deployed = deploys("c", f"fn f() {{ {call.body} }} {BESIDE}")
    blocks = [
        second(1, deployed, sets("raw/a", 5)),
        second(1, calls_c("first", OK, PUT_COST)),
        second(1, calls_c("gone", OK, DROP_COST)),
        second(3 + call.rows, sets("raw/w", 1), calls_c("w", OK, PUT_COST + (1 + 1 + PUT)), call.called()),
    ]
    return Chain(call.name, blocks, call.asks)


def after_many(name, count, status, rows):
    """A drop after so many keys were read, each of which has a version."""
    many = [sets(f"raw/{part}", part) for part in range(count)]
    call = Call(name, reads(count) + 'drop "c/a";', status, reads_cost(count) + (1 + 1 + PUT), rows)
    return Chain(name, [second(count, call.deployed(), *many), second(rows, call.called())])


# ---- the edition of a Deploy

NAMED = 'fn drop() { let drop = 1; put "d/a" = drop; }'
NAMED_COST = (1 + 1) + (1 + 2 + PUT)


def first(rows, *txs):
    return Block(rows, list(txs))


EDITIONS = Chain(
    "the edition of a Deploy",
    [
        first(
            0,
            deploys("c", C, BAD_SOURCE),
            deploys("d", NAMED),
            # No such name is visible there.
            deploys("e", "fn f() { drop = 1; }", BAD_SOURCE),
        ),
        first(1, calls("d", "drop", [], 100, OK, NAMED_COST), calls_c("f", NO_CONTRACT, 0)),
        second(
            1,
            # A Deploy that failed took no name.
            deploys("c", C),
            deploys("e", NAMED, BAD_SOURCE),
            deploys("f", "fn f(drop: int) { }", BAD_SOURCE),
            # A contract is what it was when it was deployed.
            calls("d", "drop", [], 100, OK, NAMED_COST),
        ),
        PUT_IT,
        DROPPED,
    ],
    {
        "hist d/a 4": "block 2 tx 3 int 1",
        "hist d/a 1": "block 1 tx 0 int 1",
        "hist c/a 3": "block 3 tx 0 int 1",
        "hist c/a 4": "block 4 tx 0 gone",
    },
)

# ---- long texts: one call in block 1, after a Set of raw/t to the longest text in block 0

TEXT = "t: text"
JOINED = "a" * 1_024
READ_IT = 'get_text("raw/t")'
LONG_TEXTS = [
    Call(
        "an argument of 8,192 bytes that is put", 'put "c/a" = t;', OK, 1 + 2 + PUT, rows=1, params=TEXT,
        args=(LONGEST_TEXT,), asks={"hist c/a 1": f"block 1 tx 0 text {LONGEST_TEXT}"},
    ),
    Call(
        "a text of 8,192 bytes that is read and put", f'put "c/a" = {READ_IT};', OK, 1 + 3 + READ + PUT, rows=1,
        asks={
            "hist c/a 1": f"block 1 tx 0 text {LONGEST_TEXT}",
            "back c/a 1": "block 1 deps 1\nraw/t 0",
            "fwd raw/t 1": "block 0 uses 1\nc/a 1",
        },
    ),
    Call(
        "a text of 8,192 bytes that is asked for and put", 'put "c/a" = hist_text("raw/t", 0);', OK,
        1 + 4 + ASK + PUT, rows=1,
        asks={"hist c/a 1": f"block 1 tx 0 text {LONGEST_TEXT}", "back c/a 1": "block 1 deps 0"},
    ),
    Call(
        "a text of 8,192 bytes that is put and read", f'put "c/a" = {READ_IT}; put "c/b" = get_text("c/a");', OK,
        (1 + 3 + READ + PUT) * 2, rows=2, asks={"hist c/b 1": f"block 1 tx 0 text {LONGEST_TEXT}"},
    ),
    Call(
        "the length of a text of 8,192 bytes", f'put "c/a" = len({READ_IT});', OK, 1 + 4 + READ + PUT, rows=1,
        asks={"hist c/a 1": "block 1 tx 0 int 8192"},
    ),
    Call(
        "two alike of 8,192 bytes", f'put "c/a" = {READ_IT} == t;', OK, 1 + 5 + READ + PUT, rows=1, params=TEXT,
        args=(LONGEST_TEXT,), asks={"hist c/a 1": "block 1 tx 0 int 1"},
    ),
    Call(
        "two of 8,192 bytes whose last one differs", f'put "c/a" = {READ_IT} == t;', OK, 1 + 5 + READ + PUT, rows=1,
        params=TEXT, args=(LONGEST_TEXT[:-1] + "!",), asks={"hist c/a 1": "block 1 tx 0 int 0"},
    ),
    Call("a text of 8,192 bytes as a key", f"let x = has({READ_IT});", BAD_KEY, 1 + 3 + READ + READ),
    # What `++` returns is as long as in the first edition, whatever its sides are.
    Call("8,192 bytes and none", f'let x = {READ_IT} ++ "";', TEXT_TOO_LONG, 1 + 4 + READ),
    Call("none and 8,192 bytes", f'let x = "" ++ {READ_IT};', TEXT_TOO_LONG, 1 + 4 + READ),
    Call("8,192 bytes twice", f"let x = {READ_IT} ++ {READ_IT};", TEXT_TOO_LONG, 1 + 5 + READ * 2),
    Call("1,025 bytes and none", 'let x = t ++ "";', TEXT_TOO_LONG, 1 + 3, params=TEXT, args=(JOINED + "a",)),
    Call("1,024 bytes and one", 'let x = t ++ "a";', TEXT_TOO_LONG, 1 + 3, params=TEXT, args=(JOINED,)),
    Call(
        "1,024 bytes and none", 'put "c/a" = t ++ "";', OK, 1 + 4 + PUT, rows=1, params=TEXT, args=(JOINED,),
        asks={"hist c/a 1": f"block 1 tx 0 text {JOINED}"},
    ),
]


def after_a_long_text(call):
    return Chain(
        call.name,
        [second(1, call.deployed(), sets("raw/t", LONGEST_TEXT)), second(call.rows, call.called())],
        call.asks,
    )


def with_literal(size):
    return f'fn f() {{ put "c/a" = "{"a" * size}"; }}'


def of_literals(version):
    """Deploys of sources with a literal of 1,024 bytes and of one more, in a block of a version, and then a call."""
    deployed = [deploys("c", with_literal(1_024)), deploys("d", with_literal(1_025), BAD_SOURCE)]
    called = [calls_c("f", OK, 1 + 2 + PUT), calls("d", "f", [], 100, NO_CONTRACT, 0)]
    return Chain(
        f"literals in version {version}", [Block(0, deployed, version), Block(1, called, version)],
        {"hist c/a 1": f"block 1 tx 0 text {JOINED}"},
    )


# ---- the chain of docs/language.md in which a lot that was recalled is dropped

with open(f"{TOP}/examples/lot.contract", encoding="ascii") as lot:
    LOT = lot.read()
MAKE_COST = (1 + 2 + READ) + (1 + 4 + PUT)
RECALL_COST = (1 + 4 + READ) + (1 + 3 + PUT)
# Its statement, its key, and the question; then the put is charged.
NOTE_COST = 1 + 3 + (1 + 3 + 1 + ASK)


def calls_lot(function, args, status, cost):
    return calls("lot", function, args, 1_000, status, cost)


LOTS = Chain(
    "a lot that is dropped",
    [
        second(1, deploys("lot", LOT), sets("raw/farm1", "f1")),
        second(1, calls_lot("make", ["l1", "raw/farm1"], OK, MAKE_COST)),
        second(1, calls_lot("make", ["l2", "lot/l1"], OK, MAKE_COST)),
        second(1, sets("raw/recall/l1", "glass")),
        second(1, calls_lot("recall", ["l1"], OK, RECALL_COST)),
        second(0, calls_lot("make", ["l3", "lot/l1"], NO_KEY, 1 + 2 + READ)),
        second(1, calls_lot("note", ["l1", 3], OK, NOTE_COST + PUT)),
        second(0, calls_lot("note", ["l1", 5], WRONG_KIND, NOTE_COST)),
    ],
    {
        "hist lot/l1 3": "block 1 tx 0 text f1",
        "hist lot/l1 7": "block 4 tx 0 gone",
        "back lot/l1 7": "block 4 deps 1\nraw/recall/l1 3",
        "fwd lot/l1 3": "block 1 uses 1\nlot/l2 2",
        "hist lot/l2 7": "block 2 tx 0 text f1",
        "hist lot/l3 7": "none",
        "hist lot/was/l1 7": "block 6 tx 0 text f1",
        "back lot/was/l1 7": "block 6 deps 0",
        "fwd raw/recall/l1 7": "block 3 uses 1\nlot/l1 4",
    },
)
# The block files among the examples that stand in this table.
EXAMPLES = {"examples/lot.blocks": LOTS.file()}

CHAINS = [
    *DROPS,
    *map(after_a_drop, GONE_BEFORE),
    after_many("a drop of 64 dependencies", 64, OK, 1),
    after_many("a drop of 65 dependencies", 65, TOO_MANY, 0),
    EDITIONS,
    LOTS,
    *map(after_a_long_text, LONG_TEXTS),
    *map(of_literals, (FIRST_VERSION, SECOND_VERSION)),
]

# ---- which version may follow which

ONE_SET = [sets("raw/a", 5)]
ELEVEN_CALLS = [calls("c", "f", [], 1_000_000, NO_CONTRACT, 0)] * 11
SET_ANSWER = "block 0 tx 0 int 5"


def of_versions(*versions):
    """The frames of blocks of these versions, of which the first has a Set, and the others no transaction."""
    return frames_of(block_file([ONE_SET, *[[]] * (len(versions) - 1)], versions))


def after(frame, version, txs=(), number=1, parent=None):
    """The frame of a block after this one, unless another number or parent is given."""
    return block_frame(version, number, block_digest(frame[4:]) if parent is None else parent, list(txs))


FIRST_SET, *_ = of_versions(FIRST_VERSION)
SECOND_SET, *_ = of_versions(SECOND_VERSION)
SECOND_DIGEST = block_digest(SECOND_SET[4:]).hex()
FILES = [
    # The first byte of a block.
    ([block_frame(0, 0, bytes(32), ONE_SET)], "refused frame 0 malformed 0"),
    ([block_frame(3, 0, bytes(32), ONE_SET)], "refused frame 0 malformed 0"),
    ([SECOND_SET], SET_ANSWER),
    # The second version may follow the first, and not the first the second.
    (of_versions(1, 2), SET_ANSWER),
    (of_versions(1, 1, 2, 2, 2), SET_ANSWER),
    (of_versions(2, 1), "refused frame 1 version 2"),
    (of_versions(1, 2, 1), "refused frame 2 version 2"),
    (of_versions(2, 2, 2, 1, 2), "refused frame 3 version 2"),
    # A block that is held is passed over, and so is its version; another of its number is another block.
    ([*of_versions(1, 2), FIRST_SET], SET_ANSWER),
    ([*of_versions(2, 2), SECOND_SET], SET_ANSWER),
    ([SECOND_SET, FIRST_SET], f"refused frame 1 fork {SECOND_DIGEST}"),
    ([FIRST_SET, SECOND_SET], f"refused frame 1 fork {block_digest(FIRST_SET[4:]).hex()}"),
    # The number and the parent come before the version, and the version before the budgets.
    ([SECOND_SET, after(SECOND_SET, 1, number=2)], "refused frame 1 number 1"),
    ([SECOND_SET, after(SECOND_SET, 1, parent=bytes(32))], f"refused frame 1 parent {SECOND_DIGEST}"),
    ([SECOND_SET, after(SECOND_SET, 1, ELEVEN_CALLS)], "refused frame 1 version 2"),
    ([SECOND_SET, after(SECOND_SET, 2, ELEVEN_CALLS)], "refused frame 1 budget 11000000"),
    ([FIRST_SET, after(FIRST_SET, 2, ELEVEN_CALLS)], "refused frame 1 budget 11000000"),
    ([block_frame(2, 0, bytes(32), ELEVEN_CALLS)], "refused frame 0 budget 11000000"),
]


# ---- texts at the limit of each version and one past it


def set_of(version, size):
    return block_file([[sets("raw/a", "a" * size)]], [version])


def call_with(version, size):
    return block_file([[calls("c", "f", ["a" * size], 100, NO_CONTRACT, 0)]], [version])


# In a block the first transaction begins at 39; of the Set and of the call alike 11 bytes stand before the value, and
# the length of its text follows the tag.
MALFORMED = "refused frame 0 malformed 51"
TEXTS = [
    (set_of(FIRST_VERSION, 8_192), MALFORMED),
    (set_of(SECOND_VERSION, 1_025), f"block 0 tx 0 text {'a' * 1_025}"),
    (set_of(SECOND_VERSION, 8_192), f"block 0 tx 0 text {'a' * 8_192}"),
    (set_of(SECOND_VERSION, 8_193), MALFORMED),
    (set_of(SECOND_VERSION, 65_535), MALFORMED),
    (call_with(FIRST_VERSION, 1_024), "none"),
    (call_with(FIRST_VERSION, 1_025), MALFORMED),
    (call_with(SECOND_VERSION, 8_192), "none"),
    (call_with(SECOND_VERSION, 8_193), MALFORMED),
    # Each block has the limit of its own version.
    (
        block_file([[sets("raw/a", "a" * 1_024)], [sets("raw/a", LONGEST_TEXT)]], [FIRST_VERSION, SECOND_VERSION]),
        f"block 0 tx 0 text {'a' * 1_024}",
    ),
    (
        block_file([[sets("raw/a", LONGEST_TEXT)], [sets("raw/a", "a" * 1_025)]], [SECOND_VERSION, FIRST_VERSION]),
        "refused frame 1 malformed 51",
    ),
    (
        block_file([[], [sets("raw/a", LONGEST_TEXT + "a")]], [FIRST_VERSION, SECOND_VERSION]),
        "refused frame 1 malformed 51",
    ),
]
PLACED = [("hist raw/a 0", answer, b"".join(frames)) for frames, answer in FILES]
PLACED += [("hist raw/a 0", answer, file) for file, answer in TEXTS]

# ---- over a log, and of sources


# The log of the first chain, whose mark stands before all of its blocks.
DROPPED_LOG = log_of(b"", DROPS[0].file())
OVER_LOG = {
    "trace c/a 0": "none\n",
    "trace c/a 1": "block 1 ancestors 0\n",
    # The version that is gone was made from the one before it.
    "trace c/a 2": "block 2 ancestors 1\nc/a 1\n",
    "trace c/a 3": "block 2 ancestors 1\nc/a 1\n",
    "fwd c/a 1": "block 1 uses 1\nc/a 2\n",
    "range c/a 0 1": "versions 1\nblock 1 tx 0 int 1\n",
    "range c/a 0 3": "versions 2\nblock 1 tx 0 int 1\nblock 2 tx 0 gone\n",
    "range c/a 2 3": "versions 1\nblock 2 tx 0 gone\n",
}
# Faults of a `drop`: its key comes before what it is derived from.
DROP_FAULTS = {
    "fn f() { drop 1 from x; }": "badinput check 14 kind\n",
    "fn f() { drop x from 1; }": "badinput check 14 unknown\n",
    'fn f() { drop "c/a" from 1, x; }': "badinput check 25 kind\n",
    'fn f() { drop "c/a" from x, 1; }': "badinput check 25 unknown\n",
}


def further_cases():
    """Questions over that log, and sources with more than one fault."""
    for words, told in OVER_LOG.items():
        yield LogCase(words, DROPPED_LOG, told).case()
    for source, told in DROP_FAULTS.items():
        yield LogCase("fmt 2", b"", told, BAD_INPUT, file=source.encode()).case()
