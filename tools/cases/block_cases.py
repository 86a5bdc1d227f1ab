"""The table of the cases of contracts that run, which tools/cases/write-block-cases writes out.

Every status, cost and answer was worked out by hand from docs/language.md. A cost is written as a
sum of the charges that are taken: first how many statements begin, of a `while` its tests instead,
then how many parts of expressions, then each further charge by its name. Where there are more
statements than one, each has a sum of its own. A charge that is larger than what is left isn't
taken, so it isn't in the sum.
"""
import dataclasses

from cases.block_files import (
    BAD_ARGS, BAD_BLOCK, BAD_INDEX, BAD_KEY, BAD_SOURCE, CONFLICT, DIV_ZERO, FAILED, FOREIGN, GONE,
    NO_CONTRACT, NO_FUNCTION, NO_KEY, NOT_READ, OK, OUT_OF_STEPS, OVERFLOW, TAKEN, TEXT_TOO_LONG,
    TOO_MANY, WRONG_KIND, Block, Chain, block_file, calls, deploys, sets,
)

READ, ASK, PUT = 8, 80, 16
ENOUGH = 10_000


@dataclasses.dataclass
class Call:
    """A call of the function `f` of a contract `c`, which has this body and these parameters."""

    name: str
    body: str
    status: int
    cost: int
    rows: int = 0
    budget: int = ENOUGH
    params: str = ""
    args: tuple = ()
    # Questions about the chain, and their answers.
    asks: dict = dataclasses.field(default_factory=dict)

    def deployed(self):
        return deploys("c", f"fn f({self.params}) {{ {self.body} }}")

    def called(self):
        return calls("c", "f", self.args, self.budget, self.status, self.cost)


# ---- the bank: block 0 deploys it, block 1 begins

BANK = (
    'fn begin() { put "bank/n" = get_int("raw/a"); } '
    'fn add(d: int) { let n = get_int("bank/n"); put "bank/n" = n + d; '
    'put "bank/log" = d from "bank/n"; }'
)
BEGIN_COST = 1 + 3 + READ + PUT
ADD_COST = (1 + 2 + READ) + (1 + 4 + PUT) + (1 + 3 + PUT)
DEPLOYED = Block(1, [deploys("bank", BANK), sets("raw/a", 5)])
BEGUN = Block(1, [calls("bank", "begin", [], 100, OK, BEGIN_COST)])
# The charges in their order.
BEGIN_CHARGES = [1, 1, 1, 1, READ, PUT]
ADD_CHARGES = [1, 1, 1, READ, 1, 1, 1, 1, 1, PUT, 1, 1, 1, 1, PUT]


def add_within(budget, status, cost, rows):
    added = Block(rows, [calls("bank", "add", [3], budget, status, cost)])
    return Chain(f"add with a budget of {budget}", [DEPLOYED, BEGUN, added])


def cost_within(budget, charges):
    """What the charges before the first that doesn't fit add up to."""
    cost = 0
    for charge in charges:
        if cost + charge > budget:
            break
        cost += charge
    return cost


def each_budget(blocks, function, args, rows, charges):
    """A block that calls a function with each budget up to the one that is just enough."""
    whole = sum(charges)
    short = [(budget, OUT_OF_STEPS, cost_within(budget, charges)) for budget in range(whole)]
    txs = [calls("bank", function, args, *ends) for ends in [*short, (whole, OK, whole)]]
    return Chain(f"{function} with each budget", [*blocks, Block(rows, txs)])


BANK_CHAINS = [
    Chain(
        "the bank",
        [
            DEPLOYED,
            BEGUN,
            Block(
                2,
                [
                    calls("bank", "add", [3], 100, OK, ADD_COST),
                    # The add before has written bank/n in this block.
                    calls("bank", "add", [1], 100, CONFLICT, 1 + 2 + READ),
                ],
            ),
            Block(1, [sets("raw/b", "x", ["raw/a", "raw/a", "raw/z"])]),
        ],
        {
            "hist bank/n 3": "block 2 tx 0 int 8",
            "hist bank/n 0": "none",
            "hist bank/n 1": "block 1 tx 0 int 5",
            "hist bank/log 3": "block 2 tx 0 int 3",
            "back bank/n 1": "block 1 deps 1\nraw/a 0",
            "back bank/n 2": "block 2 deps 1\nbank/n 1",
            "back bank/log 3": "block 2 deps 1\nbank/n 1",
            "back raw/b 3": "block 3 deps 1\nraw/a 0",
            "fwd bank/n 1": "block 1 uses 2\nbank/n 2\nbank/log 2",
            "fwd raw/a 3": "block 0 uses 2\nbank/n 1\nraw/b 3",
            "hist raw/b 4": "beyond head 3",
        },
    ),
    add_within(52, OK, ADD_COST, rows=2),
    add_within(51, OUT_OF_STEPS, ADD_COST - PUT, rows=0),
    each_budget([DEPLOYED], "begin", [], 1, BEGIN_CHARGES),
    each_budget([DEPLOYED, BEGUN], "add", [3], 2, ADD_CHARGES),
]

# ---- one call in block 1, after a Set of raw/a to 5 in block 0

LEAST = "let m = 0 - 9223372036854775807 - 1; "
# What it costs.
SETS_LEAST = 1 + 5
READS_257 = 'let i = 0; while i < 257 { if has("raw/" ++ text(i)) { } i = i + 1; }'
LONG = "a" * 1_024
ONE_SET = [
    Call("a put of a foreign key", 'put "d/a" = 1;', FOREIGN, 1 + 2 + PUT),
    Call("a put of no key", 'put "c/A" = 1;', BAD_KEY, 1 + 2 + PUT),
    Call("a read of no version", 'let x = get_int("raw/q");', NO_KEY, 1 + 2 + READ),
    Call("an int read as a text", 'let x = get_text("raw/a");', WRONG_KIND, 1 + 2 + READ),
    Call("a quotient by zero", "let x = 1 / 0;", DIV_ZERO, 1 + 3),
    Call("its own block", 'let x = hist_int("raw/a", block());', BAD_BLOCK, 1 + 3 + ASK),
    Call("a block below zero", 'let x = hist_int("raw/a", 0 - 1);', BAD_BLOCK, 1 + 5 + ASK),
    Call("the first of no deps", 'let x = back_key("raw/a", 0, 0);', BAD_INDEX, 1 + 4 + ASK),
    # The tenth turn joins two texts of 1,024 bytes.
    Call(
        "a text that doubles", 'let t = "ab"; while 1 { t = t ++ t; }', TEXT_TOO_LONG,
        (1 + 1) + 10 * ((1 + 1) + (1 + 3)),
    ),
    Call("fail", "fail;", FAILED, 1),
    Call("a loop", "while 1 { }", OUT_OF_STEPS, 50 * (1 + 1), budget=100),
    Call("a part not read", 'put "c/a" = 1 from "raw/x";', NOT_READ, 1 + 3 + PUT),
    Call(
        "a part without a version", 'if has("raw/x") { fail; } put "c/a" = 1 from "raw/x";', OK,
        (1 + 2 + READ) + (1 + 3 + PUT), rows=1, asks={"back c/a 1": "block 1 deps 0"},
    ),
    Call("the least by -1", LEAST + "let x = m / (0 - 1);", OVERFLOW, SETS_LEAST + 1 + 5),
    Call("the least negated", LEAST + "let x = -m;", OVERFLOW, SETS_LEAST + 1 + 2),
    # 256 whole turns, and the next as far as its read.
    Call(
        "257 keys read", READS_257, TOO_MANY,
        (1 + 1) + 256 * ((1 + 3) + (1 + 5 + READ) + (1 + 3)) + (1 + 3) + (1 + 5 + READ),
    ),
    Call("fail with no budget", "fail;", OUT_OF_STEPS, 0, budget=0),
    Call("a long loop", "while 1 { }", OUT_OF_STEPS, 1_000_000, budget=1_000_000),
    # Eleven whole turns, and the next as far as its question.
    Call(
        "a loop of questions", 'while 1 { let x = hist_block("raw/a", 0); }', OUT_OF_STEPS,
        11 * ((1 + 1) + (1 + 3 + ASK)) + (1 + 1) + (1 + 3), budget=1_000,
    ),
    Call("a put within its budget", 'put "c/a" = 1;', OK, 1 + 2 + PUT, rows=1, budget=19),
    Call("a put past its budget", 'put "c/a" = 1;', OUT_OF_STEPS, 1 + 2, budget=18),
    Call("nothing with no budget", "", OK, 0, budget=0),
    Call("return", "return; fail;", OK, 1),
    Call("return from two loops", "while 1 { while 1 { return; } fail; }", OK, (1 + 1) * 2 + 1),
    Call(
        "the branch that isn't taken", "if 0 { fail; } else { } if 2 { } else { fail; }", OK,
        (1 + 1) * 2,
    ),
    # ---- numbers
    Call("a remainder by zero", "let x = 1 % 0;", DIV_ZERO, 1 + 3),
    Call("the least modulo -1", LEAST + "let x = m % (0 - 1);", OVERFLOW, SETS_LEAST + 1 + 5),
    Call("the least by zero", LEAST + "let x = m / 0;", DIV_ZERO, SETS_LEAST + 1 + 3),
    Call("the least modulo zero", LEAST + "let x = m % 0;", DIV_ZERO, SETS_LEAST + 1 + 3),
    Call("the least times -1", LEAST + "let x = m * (0 - 1);", OVERFLOW, SETS_LEAST + 1 + 5),
    Call("the least less 1", LEAST + "let x = m - 1;", OVERFLOW, SETS_LEAST + 1 + 3),
    Call("the greatest and 1", "let x = 9223372036854775807 + 1;", OVERFLOW, 1 + 3),
    Call("a product too great", "let x = 3037000500 * 3037000500;", OVERFLOW, 1 + 3),
    Call("a product that fits", "let x = 3037000499 * 3037000499;", OK, 1 + 3),
    # ---- operators that leave their right side out
    Call("and, decided", "let x = 0 && 1 / 0;", OK, 1 + 2),
    Call("and, not decided", "let x = 1 && 1 / 0;", DIV_ZERO, 1 + 5),
    Call("or, decided", "let x = 5 || 1 / 0;", OK, 1 + 2),
    Call("or, not decided", "let x = 0 || 1 / 0;", DIV_ZERO, 1 + 5),
    # ---- texts of 1,024 bytes, and of one more
    Call("a join of 1,024", 'let t = a ++ "";', OK, 1 + 3, params="a: text", args=(LONG,)),
    Call(
        "a join of 1,025", 'let t = a ++ "b";', TEXT_TOO_LONG, 1 + 3, params="a: text", args=(LONG,)
    ),
    Call(
        "joined before", 'let t = "b" ++ a;', TEXT_TOO_LONG, 1 + 3, params="a: text", args=(LONG,)
    ),
    # ---- keys
    Call("a key of 64 bytes", f'put "c/{LONG[:62]}" = 1;', OK, 1 + 2 + PUT, rows=1),
    Call("a key of 65 bytes", f'put "c/{LONG[:63]}" = 1;', BAD_KEY, 1 + 2 + PUT),
    Call("an empty key", 'put "" = 1;', BAD_KEY, 1 + 2 + PUT),
    Call("a read of 64 bytes", f'let x = has("{LONG[:64]}");', OK, 1 + 2 + READ),
    Call("a read of 65 bytes", f'let x = has("{LONG[:65]}");', BAD_KEY, 1 + 2 + READ),
    Call("a read of the empty key", 'let x = has("");', BAD_KEY, 1 + 2 + READ),
    Call("the own name alone", 'put "c" = 1;', FOREIGN, 1 + 2 + PUT),
    Call("the own name and a letter", 'put "ca/x" = 1;', FOREIGN, 1 + 2 + PUT),
    Call("the own name and a slash", 'put "c/" = 1;', OK, 1 + 2 + PUT, rows=1),
    Call("a raw key", 'put "raw/b" = 1;', FOREIGN, 1 + 2 + PUT),
]


def after_one_set(call):
    deployed = Block(1, [call.deployed(), sets("raw/a", 5)])
    return Chain(call.name, [deployed, Block(call.rows, [call.called()])], call.asks)


# ---- one call in block 2, after a Set of raw/w in its own block

READS_BOTH = 'let x = get_int("raw/b") + get_int("raw/a"); '
READ_BOTH = 1 + 5 + 2 * READ
# raw/a, raw/t and raw/w are Sets alone, raw/b of block 1 was derived from raw/a.
PAST = [
    # ---- the order of what ends a read
    Call("read: steps, then key", 'let x = get_int("A");', OUT_OF_STEPS, 1 + 2, budget=10),
    Call("read: just enough steps", 'let x = get_int("A");', BAD_KEY, 1 + 2 + READ, budget=11),
    Call("read: a key of this block", 'let x = get_text("raw/w");', CONFLICT, 1 + 2 + READ),
    Call("has: a key of this block", 'let x = has("raw/w");', CONFLICT, 1 + 2 + READ),
    Call("a text read as an int", 'let x = get_int("raw/t");', WRONG_KIND, 1 + 2 + READ),
    Call(
        "a pending value of the other kind", 'put "c/a" = "x"; let x = get_int("c/a");', WRONG_KIND,
        (1 + 2 + PUT) + (1 + 2 + READ),
    ),
    Call(
        "a pending value", 'put "c/a" = 2; put "c/b" = get_int("c/a") + has("c/a");', OK,
        (1 + 2 + PUT) + (1 + 6 + 2 * READ + PUT), rows=2,
        asks={"hist c/b 2": "block 2 tx 1 int 3", "back c/b 2": "block 2 deps 0"},
    ),
    # ---- the order of what ends a question
    Call("question: steps, then key", 'let x = seen("A", 9);', OUT_OF_STEPS, 1 + 3, budget=83),
    Call("question: key, then block", 'let x = seen("A", 9);', BAD_KEY, 1 + 3 + ASK),
    Call("question: block, then version", 'let x = hist_tx("raw/q", 2);', BAD_BLOCK, 1 + 3 + ASK),
    Call(
        "question: version, then index", 'let x = back_key("raw/q", 1, 0 - 1);', NO_KEY, 1 + 6 + ASK
    ),
    Call("question: no version yet", 'let x = hist_int("raw/b", 0);', NO_KEY, 1 + 3 + ASK),
    Call("an int asked as a text", 'let x = hist_text("raw/a", 1);', WRONG_KIND, 1 + 3 + ASK),
    Call("a text asked as an int", 'let x = hist_int("raw/t", 1);', WRONG_KIND, 1 + 3 + ASK),
    Call("an index below zero", 'let x = back_block("raw/b", 1, 0 - 1);', BAD_INDEX, 1 + 6 + ASK),
    Call("an index at the count", 'let x = back_block("raw/b", 1, 1);', BAD_INDEX, 1 + 4 + ASK),
    Call("an index of 2 ^ 32", 'let x = back_key("raw/b", 1, 4294967296);', BAD_INDEX, 1 + 4 + ASK),
    Call("uses: an index below 0", 'let x = fwd_key("raw/a", 1, 0 - 1);', BAD_INDEX, 1 + 6 + ASK),
    Call("uses: an index at the count", 'let x = fwd_key("raw/a", 1, 1);', BAD_INDEX, 1 + 4 + ASK),
    Call(
        "uses: the greatest index", 'let x = fwd_block("raw/a", 1, 9223372036854775807);',
        BAD_INDEX, 1 + 4 + ASK,
    ),
    Call("a block of 2 ^ 32", 'let x = seen("raw/a", 4294967296);', BAD_BLOCK, 1 + 3 + ASK),
    # ---- the order of what ends a put
    Call("put: steps, then key", 'put "c/A" = 1;', OUT_OF_STEPS, 1 + 2, budget=18),
    Call("put: key, then owner", 'put "d/A" = 1;', BAD_KEY, 1 + 2 + PUT),
    Call("put: owner, then conflict", 'put "raw/w" = 1;', FOREIGN, 1 + 2 + PUT),
    Call("put: key before its parts", 'put "c/A" = 1 from "raw/x";', BAD_KEY, 1 + 3 + PUT),
    Call(
        "put: all parts are keys, then read", 'put "c/a" = 1 from "raw/x", "A";', BAD_KEY,
        1 + 4 + PUT,
    ),
    Call("put: its value before its key", 'put "c/A" = 1 / 0;', DIV_ZERO, 1 + 4),
    Call("put: its parts before its key", 'put "c/A" = 1 from text(1 / 0);', DIV_ZERO, 1 + 6),
    # ---- dependencies
    Call(
        "all keys read so far", f'{READS_BOTH}put "c/a" = 1; let y = get_text("raw/t");', OK,
        READ_BOTH + (1 + 2 + PUT) + (1 + 2 + READ), rows=1,
        asks={"back c/a 2": "block 2 deps 2\nraw/b 1\nraw/a 0"},
    ),
    Call(
        "fewer keys than were read", f'{READS_BOTH}put "c/a" = 1 from "raw/a";', OK,
        READ_BOTH + (1 + 3 + PUT), rows=1, asks={"back c/a 2": "block 2 deps 1\nraw/a 0"},
    ),
    Call(
        "the order of the parts", f'{READS_BOTH}put "c/a" = 1 from "raw/a", "raw/b", "raw/a";', OK,
        READ_BOTH + (1 + 5 + PUT), rows=1, asks={"back c/a 2": "block 2 deps 2\nraw/a 0\nraw/b 1"},
    ),
    Call(
        "a read of the put's key", 'put "c/" ++ get_text("raw/t") = 1;', OK,
        1 + 5 + READ + PUT, rows=1, asks={"back c/tt 2": "block 2 deps 1\nraw/t 0"},
    ),
    Call(
        "a question is no read", 'let x = hist_int("raw/a", 1); put "c/a" = x;', OK,
        (1 + 3 + ASK) + (1 + 2 + PUT), rows=1,
        asks={"hist c/a 2": "block 2 tx 1 int 5", "back c/a 2": "block 2 deps 0"},
    ),
    Call(
        "a part that was asked about", 'let x = seen("raw/a", 1); put "c/a" = x from "raw/a";',
        NOT_READ, (1 + 3 + ASK) + (1 + 3 + PUT),
    ),
    Call(
        "a part that was put", 'put "c/a" = 1; put "c/b" = 2 from "c/a";', NOT_READ,
        (1 + 2 + PUT) + (1 + 3 + PUT),
    ),
    Call(
        "a part that is pending",
        'put "c/a" = 1; let x = get_int("c/a"); put "c/b" = x from "c/a";', NOT_READ,
        (1 + 2 + PUT) + (1 + 2 + READ) + (1 + 3 + PUT),
    ),
    # Its value and its dependencies are those of the second put, its place that of the first.
    Call(
        "a second put",
        'put "c/b" = 1; let x = get_int("raw/a"); put "c/a" = 2; put "c/b" = 3;', OK,
        (1 + 2 + PUT) + (1 + 2 + READ) + (1 + 2 + PUT) + (1 + 2 + PUT), rows=2,
        asks={
            "hist c/b 2": "block 2 tx 1 int 3",
            "back c/b 2": "block 2 deps 1\nraw/a 0",
            "fwd raw/a 2": "block 0 uses 3\nraw/b 1\nc/b 2\nc/a 2",
        },
    ),
    Call(
        "a second put of fewer keys",
        f'{READS_BOTH}put "c/a" = 1; put "c/a" = "x" from "raw/b";', OK,
        READ_BOTH + (1 + 2 + PUT) + (1 + 3 + PUT), rows=1,
        asks={"hist c/a 2": "block 2 tx 1 text x", "back c/a 2": "block 2 deps 1\nraw/b 1"},
    ),
    # ---- values
    Call(
        "what a call knows",
        'put "c/a" = caller() ++ " " ++ text(block()) ++ " " ++ text(len("abc")) '
        '++ " " ++ text(-12);',
        OK, 1 + (1 + 18) + PUT, rows=1, asks={"hist c/a 2": "block 2 tx 1 text u 2 3 -12"},
    ),
    Call(
        "what history says",
        'put "c/a" = text(hist_int("raw/a", 1)) ++ " " ++ hist_text("raw/t", 0) ++ " " '
        '++ text(hist_block("raw/b", 1)) ++ " " ++ text(hist_tx("raw/t", 1)) ++ " " '
        '++ text(seen("raw/b", 0)) ++ text(seen("raw/b", 1));',
        OK, 1 + (1 + 4 + 3 + 4 * 4 + 4 + 9) + 6 * ASK + PUT, rows=1,
        asks={"hist c/a 2": "block 2 tx 1 text 5 tt 1 2 01"},
    ),
    Call(
        "what a version came from",
        'put "c/a" = text(back_count("raw/b", 1)) ++ " " ++ back_key("raw/b", 1, 0) ++ " " '
        '++ text(back_block("raw/b", 1, 0));',
        OK, 1 + (1 + 4 + 4 + 5 + 2 + 4) + 3 * ASK + PUT, rows=1,
        asks={"hist c/a 2": "block 2 tx 1 text 1 raw/a 0"},
    ),
    Call(
        "what came from a version",
        'put "c/a" = text(fwd_count("raw/a", 0)) ++ " " ++ fwd_key("raw/a", 1, 0) ++ " " '
        '++ text(fwd_block("raw/a", 0, 0));',
        OK, 1 + (1 + 4 + 4 + 5 + 2 + 4) + 3 * ASK + PUT, rows=1,
        asks={"hist c/a 2": "block 2 tx 1 text 1 raw/b 1"},
    ),
    Call(
        "quotients and remainders",
        'put "c/a" = text((0 - 7) / 2) ++ " " ++ text((0 - 7) % 2) ++ " " ++ text(7 / (0 - 2)) '
        '++ " " ++ text(7 % (0 - 2));',
        OK, 1 + (1 + 4 * 6 + 3 + 6) + PUT, rows=1,
        asks={"hist c/a 2": "block 2 tx 1 text -3 -1 -3 1"},
    ),
    Call(
        "comparisons",
        'put "c/a" = text(1 < 2) ++ text(2 < 2) ++ text(2 <= 2) ++ text(3 <= 2) '
        "++ text(3 > 2) ++ text(2 > 2) ++ text(2 >= 2) ++ text(1 >= 2);",
        OK, 1 + (1 + 8 * 4 + 7) + PUT, rows=1, asks={"hist c/a 2": "block 2 tx 1 text 10101010"},
    ),
    Call(
        "equalities",
        'put "c/a" = text(1 == 1) ++ text(1 == 2) ++ text(1 != 2) ++ text(1 != 1) '
        '++ text("a" == "a") ++ text("a" == "b") ++ text("a" != "b") ++ text("a" != "a");',
        OK, 1 + (1 + 8 * 4 + 7) + PUT, rows=1, asks={"hist c/a 2": "block 2 tx 1 text 10101010"},
    ),
    Call(
        "truth",
        'put "c/a" = text(!0) ++ text(!5) ++ text(2 && 3) ++ text(2 && 0) ++ text(0 && 1) '
        "++ text(0 || 7) ++ text(0 || 0) ++ text(5 || 0);",
        OK, 1 + (1 + 2 * 3 + 2 * 4 + 3 + 2 * 4 + 3 + 7) + PUT, rows=1,
        asks={"hist c/a 2": "block 2 tx 1 text 10100101"},
    ),
    Call(
        "the least", LEAST + 'put "c/a" = text(m); put "c/b" = m;', OK,
        SETS_LEAST + (1 + 3 + PUT) + (1 + 2 + PUT), rows=2,
        asks={
            "hist c/a 2": "block 2 tx 1 text -9223372036854775808",
            "hist c/b 2": "block 2 tx 1 int -9223372036854775808",
        },
    ),
    Call(
        "a sum of ten",
        'let i = 0; let s = 0; while i < 10 { i = i + 1; s = s + i; } put "c/a" = s;', OK,
        (1 + 1) * 2 + 10 * ((1 + 3) * 3) + (1 + 3) + (1 + 2 + PUT), rows=1,
        asks={"hist c/a 2": "block 2 tx 1 int 55"},
    ),
    Call(
        "a name of an outer block",
        'let x = 1; if x == 1 { let y = x + 1; x = y * 3; } else { x = 9; } put "c/a" = x;', OK,
        (1 + 1) + (1 + 3) + (1 + 3) + (1 + 3) + (1 + 2 + PUT), rows=1,
        asks={"hist c/a 2": "block 2 tx 1 int 6"},
    ),
    Call(
        "parameters", 'put "c/" ++ b = a; put "c/c" = c;', OK,
        (1 + 4 + PUT) + (1 + 2 + PUT), rows=2,
        params="a: int, b: text, c: text", args=(-3, "k", ""),
        asks={"hist c/k 2": "block 2 tx 1 int -3", "hist c/c 2": "block 2 tx 1 text "},
    ),
]


def in_block_two(call):
    first = [call.deployed(), sets("raw/a", 5), sets("raw/t", "tt")]
    second = [sets("raw/b", 7, ["raw/a", "raw/q"])]
    third = [sets("raw/w", 1), call.called()]
    blocks = [Block(2, first), Block(1, second), Block(1 + call.rows, third)]
    return Chain(call.name, blocks, call.asks)


# ---- one call in block 1 of a chain with many keys, after a Set of raw/w and a put of c/w

# It reads so many keys, of which the first 65, raw/0 to raw/64, have a version.
def reads(count):
    return f'let i = 0; while i < {count} {{ if has("raw/" ++ text(i)) {{ }} i = i + 1; }} '


def reads_cost(count):
    return (1 + 1) + count * ((1 + 3) + (1 + 5 + READ) + (1 + 3)) + (1 + 3)


# It puts so many keys, c/0 and so on.
def puts(count):
    return f'let k = 0; while k < {count} {{ put "c/" ++ text(k) = k; k = k + 1; }} '


def puts_cost(count):
    return (1 + 1) + count * ((1 + 3) + (1 + 5 + PUT) + (1 + 3)) + (1 + 3)


def parts(*numbers):
    return ", ".join(f'"raw/{part}"' for part in numbers)


def dependencies(count):
    lines = "".join(f"\nraw/{part} 0" for part in range(count))
    return {"back c/a 1": f"block 1 deps {count}{lines}"}


MANY = [
    Call("256 keys read", reads(256), OK, reads_cost(256)),
    Call(
        "a 257th key, got", reads(256) + 'let x = get_int("raw/q");', TOO_MANY,
        reads_cost(256) + (1 + 2 + READ),
    ),
    Call(
        "a 257th key, of this block", reads(256) + 'let x = has("raw/w");', CONFLICT,
        reads_cost(256) + (1 + 2 + READ),
    ),
    Call(
        "a key that was read, once more", reads(256) + 'let x = get_int("raw/64");', OK,
        reads_cost(256) + (1 + 2 + READ),
    ),
    Call(
        "a 257th key, pending", 'put "c/a" = 1; ' + reads(256) + 'let x = get_int("c/a");', OK,
        (1 + 2 + PUT) + reads_cost(256) + (1 + 2 + READ), rows=1,
    ),
    Call("256 keys put", puts(256), OK, puts_cost(256), rows=256),
    Call("257 keys put", puts(256) + 'put "c/a" = 1;', TOO_MANY, puts_cost(256) + (1 + 2 + PUT)),
    Call(
        "a 257th key, no key", puts(256) + 'put "c/A" = 1;', BAD_KEY, puts_cost(256) + (1 + 2 + PUT)
    ),
    Call(
        "a 257th key, foreign", puts(256) + 'put "d/a" = 1;', FOREIGN,
        puts_cost(256) + (1 + 2 + PUT),
    ),
    Call(
        "a 257th key, put by another call", puts(256) + 'put "c/w" = 1;', CONFLICT,
        puts_cost(256) + (1 + 2 + PUT),
    ),
    Call(
        "a 257th key with a wrong part", puts(256) + 'put "c/a" = 1 from "A";', TOO_MANY,
        puts_cost(256) + (1 + 3 + PUT),
    ),
    Call(
        "a key that was put, once more", puts(256) + 'put "c/7" = 1;', OK,
        puts_cost(256) + (1 + 2 + PUT), rows=256, asks={"hist c/7 1": "block 1 tx 2 int 1"},
    ),
    Call(
        "64 dependencies", reads(64) + 'put "c/a" = 1;', OK, reads_cost(64) + (1 + 2 + PUT), rows=1,
        asks=dependencies(64),
    ),
    Call("65 dependencies", reads(65) + 'put "c/a" = 1;', TOO_MANY, reads_cost(65) + (1 + 2 + PUT)),
    Call(
        "64 dependencies, and a key without a version",
        reads(64) + 'if has("raw/none") { } put "c/a" = 1;', OK,
        reads_cost(64) + (1 + 2 + READ) + (1 + 2 + PUT), rows=1, asks=dependencies(64),
    ),
    Call(
        "64 dependencies of 65 parts",
        reads(65) + f'put "c/a" = 1 from {parts(*range(64), 0)};', OK,
        reads_cost(65) + (1 + 2 + 65 + PUT), rows=1, asks=dependencies(64),
    ),
    Call(
        "65 dependencies of 65 parts", reads(65) + f'put "c/a" = 1 from {parts(*range(65))};',
        TOO_MANY, reads_cost(65) + (1 + 2 + 65 + PUT),
    ),
    Call(
        "65 dependencies, and a part not read",
        reads(65) + f'put "c/a" = 1 from {parts(*range(65), "none")};', NOT_READ,
        reads_cost(65) + (1 + 2 + 66 + PUT),
    ),
    Call(
        "a second put of too many",
        reads(64) + 'put "c/a" = 1; let x = has("raw/64"); put "c/a" = 2;',
        TOO_MANY, reads_cost(64) + (1 + 2 + PUT) + (1 + 2 + READ) + (1 + 2 + PUT),
    ),
]


def among_many(call):
    contract = f'fn f() {{ {call.body} }} fn w() {{ put "c/w" = 1; }}'
    first = [deploys("c", contract), *(sets(f"raw/{part}", part) for part in range(65))]
    second = [sets("raw/w", 1), calls("c", "w", [], 19, OK, 1 + 2 + PUT), call.called()]
    return Chain(call.name, [Block(65, first), Block(2 + call.rows, second)], call.asks)


# ---- transactions of one block

TWO = 'fn f() { put "c/a" = 1; fail; } fn g(n: int, k: text) { put "c/" ++ k = n; }'
# A put of the key `"c/" ++ k`.
G_COST = 1 + 4 + PUT
EIGHT = ", ".join(f"{name}: int" for name in "abcdefgh")


def calls_g(args, status, cost, budget=100):
    return calls("c", "g", args, budget, status, cost)


BLOCKS = [
    Chain(
        "deploys",
        [
            Block(
                0,
                [
                    deploys("c", TWO),
                    deploys("c", TWO, TAKEN),
                    deploys("raw", TWO, TAKEN),
                    # That a name is taken comes before what is wrong with the source.
                    deploys("raw", "fn", TAKEN),
                    deploys("c", "fn", TAKEN),
                    # A Deploy that fails takes no name.
                    deploys("d", "fn", BAD_SOURCE),
                    deploys("d", TWO),
                    deploys("e", "", BAD_SOURCE),
                    deploys("e", "fn f() { let x = y; }", BAD_SOURCE),
                    # A contract can be called from the next block on.
                    calls_g([1, "x"], NO_CONTRACT, 0),
                ],
            ),
            Block(
                1,
                [
                    deploys("c", TWO, TAKEN),
                    deploys("c", "fn", TAKEN),
                    deploys("f", "fn", BAD_SOURCE),
                    calls("e", "f", [], 100, NO_CONTRACT, 0),
                    calls("raw", "f", [], 100, NO_CONTRACT, 0),
                    calls_g([1, "x"], OK, G_COST),
                    # The contract d has the keys that begin with d.
                    calls("d", "g", [1, "y"], 100, FOREIGN, G_COST),
                ],
            ),
        ],
        {"hist c/x 1": "block 1 tx 5 int 1", "hist d/y 1": "none"},
    ),
    Chain(
        "calls",
        [
            Block(0, [deploys("c", TWO), deploys("h", f"fn h({EIGHT}) {{ }}")]),
            Block(
                1,
                [
                    calls("x", "g", [1, "x"], 0, NO_CONTRACT, 0),
                    calls("c", "x", [], 0, NO_FUNCTION, 0),
                    calls("c", "c", [1, "x", 1], 100, NO_FUNCTION, 0),
                    calls_g([], BAD_ARGS, 0, budget=0),
                    calls_g([1], BAD_ARGS, 0),
                    calls_g([1, "x", 1], BAD_ARGS, 0),
                    calls_g([1, 1], BAD_ARGS, 0),
                    calls_g(["x", "x"], BAD_ARGS, 0),
                    calls_g(["x", 1], BAD_ARGS, 0),
                    calls_g([1, "x"], OUT_OF_STEPS, 0, budget=0),
                    calls_g([1, "x"], OK, G_COST, budget=G_COST),
                    calls("h", "h", list(range(8)), 0, OK, 0),
                    calls("h", "h", list(range(7)), 0, BAD_ARGS, 0),
                ],
            ),
        ],
        {"hist c/x 1": "block 1 tx 10 int 1"},
    ),
    Chain(
        "a call that fails leaves nothing",
        [
            Block(0, [deploys("c", TWO)]),
            Block(
                1,
                [
                    calls("c", "f", [], 100, FAILED, (1 + 2 + PUT) + 1),
                    calls_g([2, "a"], OK, G_COST),
                    calls_g([3, "a"], CONFLICT, G_COST),
                    calls("c", "f", [], 100, CONFLICT, 1 + 2 + PUT),
                ],
            ),
            Block(1, [calls_g([4, "a"], OK, G_COST)]),
        ],
        {"hist c/a 1": "block 1 tx 1 int 2", "hist c/a 2": "block 2 tx 0 int 4"},
    ),
    Chain(
        "sets",
        [
            Block(
                3,
                [
                    sets("bank/a", 1, status=FOREIGN),
                    sets("raw", 1, status=FOREIGN),
                    sets("rawa/a", 1, status=FOREIGN),
                    sets("raw/", 1),
                    sets("raw/a", 1),
                    sets("raw/a", 2, status=CONFLICT),
                    sets("raw/b", 2, ["raw/z", "raw/a"], CONFLICT),
                    sets("raw/b", 3),
                    # That a key is foreign comes before a conflict.
                    sets("c/x", 1, ["raw/a"], FOREIGN),
                ],
            ),
            Block(1, [sets("raw/c", "", ["raw/b", "raw/z", "raw/a", "raw/b"])]),
            Block(0, []),
        ],
        {
            "hist raw/b 2": "block 0 tx 7 int 3",
            "hist raw/c 2": "block 1 tx 0 text ",
            "back raw/c 2": "block 1 deps 2\nraw/b 0\nraw/a 0",
            "hist c/x 0": "none",
        },
    ),
    # A question is about earlier blocks alone, and is no read, so there is no conflict.
    Chain(
        "questions see no row of their own block",
        [
            Block(
                1,
                [
                    deploys(
                        "c",
                        'fn f() { put "c/n" = hist_int("raw/a", block() - 1); '
                        'put "c/uses" = fwd_count("raw/a", 0); }',
                    ),
                    sets("raw/a", 5),
                ],
            ),
            Block(
                4,
                [
                    sets("raw/a", 6),
                    sets("raw/b", 1, ["raw/q"]),
                    calls("c", "f", [], 300, OK, (1 + 6 + ASK + PUT) + (1 + 4 + ASK + PUT)),
                ],
            ),
            Block(1, [sets("raw/d", 1, ["raw/a", "c/n"])]),
        ],
        {
            "hist c/n 1": "block 1 tx 2 int 5",
            "hist c/uses 2": "block 1 tx 2 int 0",
            "back c/n 1": "block 1 deps 0",
            "back raw/d 2": "block 2 deps 2\nraw/a 1\nc/n 1",
        },
    ),
]

# ---- a supply chain

LOT = 'fn make(id: text, src: text) { let x = get_text(src); put "lot/" ++ id = x; }'
SHIP = (
    'fn send(id: text, to: text) { let x = get_text("lot/" ++ id); put "ship/" ++ id = to; }'
)
SHOP = (
    'fn take(id: text) { let s = "ship/" ++ id; let t = block() - 1; let l = back_key(s, t, 0); '
    "let lb = back_block(s, t, 0); let n = back_count(l, lb); let i = 0; while i < n { "
    'let r = back_key(l, lb, i); if has("raw/recall/" ++ r) { fail; } i = i + 1; } '
    'put "shop/" ++ id = get_text(s); }'
)
CODES = {"lot": LOT, "ship": SHIP, "shop": SHOP}
MAKE_COST = (1 + 2 + READ) + (1 + 4 + PUT)
SEND_COST = (1 + 4 + READ) + (1 + 4 + PUT)
# The lets before the loop, the one turn as far as the `if`, and then either `fail` or the rest.
LETS_COST = (1 + 3) + (1 + 3) + 2 * (1 + 4 + ASK) + (1 + 3 + ASK) + (1 + 1)
TURN_COST = (1 + 3) + (1 + 4 + ASK) + (1 + 4 + READ)
RECALLED_COST = LETS_COST + TURN_COST + 1
TAKE_COST = LETS_COST + TURN_COST + (1 + 3) + (1 + 3) + (1 + 5 + READ + PUT)
LOTS = 9
RECALLED = 5


def by_op(contract, function, args, status, cost):
    return calls(contract, function, args, 1_000, status, cost, sender="op")


def lot_blocks(lot):
    """A lot is made, shipped and taken; the recall comes in the fifth pause."""
    made = by_op("lot", "make", [f"l{lot}", f"raw/farm{lot % 4}"], OK, MAKE_COST)
    sent = by_op("ship", "send", [f"l{lot}", "town"], OK, SEND_COST)
    status, cost = (FAILED, RECALLED_COST) if lot == RECALLED else (OK, TAKE_COST)
    taken = by_op("shop", "take", [f"l{lot}"], status, cost)
    recall = [sets("raw/recall/raw/farm1", 1, sender="farm")] if lot == 4 else []
    pause = Block(len(recall), recall)
    return [Block(1, [made]), Block(1, [sent]), pause, Block(int(status == OK), [taken])]


SUPPLY = Chain(
    "a supply chain",
    [
        Block(0, [deploys(name, source, sender="op") for name, source in CODES.items()]),
        Block(4, [sets(f"raw/farm{farm}", f"f{farm}", sender="farm") for farm in range(4)]),
        *(block for lot in range(LOTS) for block in lot_blocks(lot)),
        Block(0, []),
        Block(0, []),
    ],
    {
        "fwd raw/farm1 39": "block 1 uses 2\nlot/l1 6\nlot/l5 22",
        "back shop/l4 39": "block 21 deps 1\nship/l4 19",
        "hist shop/l5 39": "none",
        "hist shop/l1 39": "block 9 tx 0 text town",
        "hist raw/farm1 40": "beyond head 39",
    },
)
assert len(SUPPLY.blocks) == 40 and sum(block.rows for block in SUPPLY.blocks) == 31

CHAINS = [
    *BANK_CHAINS,
    *map(after_one_set, ONE_SET),
    *map(in_block_two, PAST),
    *map(among_many, MANY),
    *BLOCKS,
    SUPPLY,
]

# ---- block files that are refused, and the same just within the limit


def eleven_calls(last):
    """Eleven calls of the greatest budget but the last."""
    budgets = [*[1_000_000] * 10, last]
    return block_file([[calls("c", "f", [], budget, NO_CONTRACT, 0) for budget in budgets]])


def one_call(budget):
    return block_file([[calls("c", "f", [], budget, NO_CONTRACT, 0)]])


def one_deploy(length):
    return block_file([[deploys("c", "#" * length, BAD_SOURCE)]])


def one_text(length):
    return block_file([[sets("raw/a", "a" * length)]])


def one_set(count):
    """A Set from so many keys."""
    return block_file([[sets("raw/a", 1, [f"raw/{dep}" for dep in range(count)])]])


def one_call_with(count):
    """A call with so many arguments."""
    return block_file([[calls("c", "f", list(range(count)), 100, NO_CONTRACT, 0)]])


SET_GONE = block_file([[sets("raw/a", GONE)]])
CALL_GONE = block_file([[calls("c", "f", [GONE], 100, NO_CONTRACT, 0)]])


# In a block the kind of the first transaction is at 39, and its sender takes 3 bytes. The fields of
# the call before its budget take 1 + 3 + 3 + 3 + 1 bytes, those of the Deploy before its source
# 1 + 3 + 3, and those of the Set before the tag of its value 1 + 3 + 7. The length of a text follows
# its tag, and a number takes 9 bytes with its tag.
PLACED = [
    ("hist raw/a 0", "refused frame 0 budget 11000000", eleven_calls(1_000_000)),
    ("hist raw/a 0", "refused frame 0 budget 10000001", eleven_calls(1)),
    ("hist raw/a 0", "none", eleven_calls(0)),
    ("hist raw/a 0", "refused frame 0 malformed 50", one_call(1_000_001)),
    ("hist raw/a 0", "none", one_call(1_000_000)),
    ("hist raw/a 0", "refused frame 0 malformed 46", one_deploy(16_385)),
    ("hist raw/a 0", "none", one_deploy(16_384)),
    ("hist raw/a 0", "refused frame 0 malformed 51", one_text(1_025)),
    ("hist raw/a 0", f"block 0 tx 0 text {LONG}", one_text(1_024)),
    ("hist raw/a 0", "refused frame 0 malformed 59", one_set(65)),
    ("hist raw/a 0", "block 0 tx 0 int 1", one_set(64)),
    ("hist raw/a 0", "refused frame 0 malformed 49", one_call_with(9)),
    ("hist raw/a 0", "none", one_call_with(8)),
    ("hist raw/a 0", "refused frame 0 malformed 50", SET_GONE),
    ("hist raw/a 0", "refused frame 0 malformed 50", CALL_GONE),
]
