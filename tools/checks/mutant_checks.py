"""What the program must tell of changed inputs, by docs/formats.md, for tools/checks/try-mutants.

Nothing of it comes from what the program told: blocks, files and logs are read by
tools/cases/block_reader.py, followers are those of follow_model.py there, proofs are read by
verifiers/verify.py, roots and proofs of chains without calls worked out by tools/cases/root_cases.py,
proof_cases.py, trace_cases.py, range_cases.py and light_cases.py there from the rows of their Sets, and
drafts read by Python's reader of JSON.
"""
import dataclasses
import itertools
import json
import re

from cases.block_files import CONFLICT, FIRST_VERSION, FOREIGN, NO_CONTRACT, OK, SECOND_VERSION, block_file
from cases.block_files import block_digest, calls, deploys, number, sets
from cases.block_reader import MAX_BUDGETS, MAX_NUMBER, MAX_TXS, Call, Deploy, Set, stands_for, Chain
from cases.follow_model import BLOCK, follow_over
from cases.light_cases import ENTRY_BYTES, HEAD_BYTES, light_file
from cases.log_cases import ALREADY, BAD_INPUT, BEYOND, DAMAGED, DONE, NOT_A_LOG, REFUSED, REJECTED, USAGE, upgraded
from cases.proof_cases import answer_of, proof_of
from cases.range_cases import range_of, range_proof_of
from cases.root_cases import History, Row, block_digests
from cases.trace_cases import trace_of, trace_proof_of
from cases.verifier import LIGHT, text_of, told_by_light, told_of, verify
from checks.mutants import KINDS, LIGHT_MAKE, is_made
from lineage import draft_faults

MAX_DEPTH = 127
# Roots are worked out by going over all rows, for chains of so many rows and blocks at most.
MAX_ROWS = 30
MAX_BLOCKS = 12
SURROGATE = re.compile("[\ud800-\udfff]")
STATUSES = {
    "verify": {DONE, USAGE, REJECTED, BAD_INPUT},
    "expose": {DONE, USAGE, NOT_A_LOG, DAMAGED, BEYOND, REJECTED, BAD_INPUT},
    "trace": {DONE, USAGE, REJECTED, BAD_INPUT},
    "range": {DONE, USAGE, REJECTED, BAD_INPUT},
    "light": {DONE, USAGE, REFUSED, REJECTED, BAD_INPUT},
    "log": {DONE, USAGE, NOT_A_LOG, DAMAGED, BEYOND},
    "scan": {DONE, USAGE, REFUSED, BEYOND},
    "append": {DONE, USAGE, NOT_A_LOG, DAMAGED, REFUSED},
    "follow": {DONE, USAGE, NOT_A_LOG, DAMAGED, REFUSED},
    "upgrade": {DONE, USAGE, NOT_A_LOG, DAMAGED},
    "fmt": {DONE, BAD_INPUT},
    "pack": {DONE, BAD_INPUT},
}
VERSION = r"block (\d+) tx \d+ (?:int -?\d+|text [ -~]{0,8192}|gone)\n"
ITEM = r"[a-z0-9./_-]{1,64} \d+\n"
FMT_FAULT = re.compile(
    r"badinput syntax (\d+) (?:byte|literal|expected|end|deep)\n|badinput check (\d+) (?:unknown|again|count|kind)\n"
)
BLOCK_LINE = re.compile(r"block (\d+) rows (\d+) status (-|\d+(?:,\d+)*) root ([0-9a-f]{64})\n")


class Wrong(Exception):
    """What a run did is not what it must do."""


def expect(what, given, wanted):
    if given != wanted:
        raise Wrong(f"{what}: {given!r:.300}, not {wanted!r:.300}")


def hold(what, is_so):
    if not is_so:
        raise Wrong(what)


# ---- what must be told


def is_trace(told, at):
    """Whether lines are the ancestors of a version at a block, by block and then by key, each once."""
    versions = [(int(block), key) for key, block in re.findall(r"(\S+) (\d+)\n", told.partition("\n")[2])]
    first = int(told.split()[1])
    return first <= at and versions == sorted(set(versions)) and all(block < first for block, _ in versions)


def is_answer(kind, told, at):
    """Whether lines are an answer to a question of this kind at a block."""
    if told == "none\n":
        return True
    if kind == "hist":
        found = re.fullmatch(VERSION, told)
        return bool(found) and int(found[1]) <= at
    word = {"back": "deps", "fwd": "uses", "trace": "ancestors"}[kind]
    found = re.fullmatch(rf"block (\d+) {word} (\d+)\n((?:{ITEM})*)", told)
    is_formed = bool(found) and int(found[1]) <= at and int(found[2]) == found[3].count("\n")
    return is_formed and (kind != "trace" or is_trace(told, at))


def is_range(told, first, last):
    """Whether lines are versions from a block to another one, in their order."""
    head, *lines = told.splitlines(keepends=True)
    found = [re.fullmatch(VERSION, line) for line in lines]
    blocks = [int(version[1]) for version in found if version]
    are_between = all(first <= block <= last for block in blocks) and blocks == sorted(set(blocks))
    return all(found) and head == f"versions {len(lines)}\n" and are_between


@dataclasses.dataclass
class Plain:
    """What the blocks of a chain without calls do: their rows, and the statuses of the transactions of each block;
    none stands for that of a Deploy."""

    rows: list
    statuses: list

    def history(self):
        return History(self.rows)


def plain(chain):
    """What a chain does of which nothing is called that was deployed; none for any other. A Deploy writes no
    row."""
    txs = [tx for block in chain.blocks for tx in block]
    if any(isinstance(tx, Call) for tx in txs) and any(isinstance(tx, Deploy) for tx in txs):
        return None
    rows, statuses, newest = [], [], {}
    for at, block in enumerate(chain.blocks):
        written, ended = {}, []
        for index, tx in enumerate(block):
            if isinstance(tx, Set) and tx.key.startswith("raw/") and not written.keys() & {tx.key, *tx.deps}:
                kind, _, value = tx.value.partition(" ")
                deps = [(key, newest[key]) for key in dict.fromkeys(tx.deps) if key in newest]
                rows.append(Row(tx.key, at, index, int(value) if kind == "int" else value, deps))
                written[tx.key] = at
                ended.append(OK)
            elif isinstance(tx, Set):
                ended.append(CONFLICT if tx.key.startswith("raw/") else FOREIGN)
            else:
                ended.append(NO_CONTRACT if isinstance(tx, Call) else None)
        newest.update(written)
        statuses.append(ended)
    return Plain(rows, statuses)


def small(chain):
    """What a chain does of which roots can be worked out here, and its digests; none for any other."""
    done = plain(chain)
    if done is None or len(done.rows) > MAX_ROWS or len(chain.blocks) > MAX_BLOCKS:
        return None
    return done, block_digests([number(len(frame), 4) + frame for frame in chain.frames])


def check_root(chain, at, told):
    """The root at a block, in hex."""
    known = small(chain)
    if known:
        done, digests = known
        expect(f"root at {at}", told, done.history().root(at, digests[at]).hex())


def check_block_line(chain, at, told):
    """The line of a block that is stored."""
    found = BLOCK_LINE.fullmatch(told)
    hold(f"no line of block {at}: {told!r:.200}", found and int(found[1]) == at)
    check_root(chain, at, found[4])
    statuses = found[3].split(",") if found[3] != "-" else []
    expect(f"number of statuses of block {at}", len(statuses), len(chain.blocks[at]))
    done = plain(chain)
    if done:
        expect(f"rows of block {at}", int(found[2]), sum(row.block == at for row in done.rows))
        for status, wanted in zip(statuses, done.statuses[at]):
            if wanted is not None:
                expect(f"status in block {at}", int(status), wanted)


def check_answer(chain, kind, key, blocks, told):
    """The answer to a question over a chain that has its block; or all ancestors, for `trace`, and all versions between
    two blocks, for `range`."""
    done = plain(chain)
    if done is None:
        is_formed = is_range(told, *blocks) if kind == "range" else is_answer(kind, told, *blocks)
        return hold(f"no answer: {told!r:.300}", is_formed)
    if kind == "range":
        wanted = range_of(done.rows, key, *blocks)
    elif kind == "trace":
        wanted = trace_of(done.rows, key, *blocks)
    else:
        wanted = answer_of(done.rows, kind, key, *blocks, len(chain.blocks) - 1)
    return expect("answer", told, text_of(wanted))


def beyond(chain):
    head = len(chain.blocks) - 1
    return "beyond empty\n" if head < 0 else f"beyond head {head}\n"


def is_number(word):
    return re.fullmatch(r"0|[1-9]\d{0,9}", word) is not None and int(word) <= MAX_NUMBER


def is_question(kind, key):
    return kind in KINDS and re.fullmatch("[a-z0-9./_-]{1,64}", key) is not None


def is_command(words):
    """Whether the words of a question or of a `scan` are a command."""
    if words[0] == "root":
        return len(words) == 1 or len(words) == 2 and is_number(words[1])
    if words[0] == "trace":
        asked = words[1 + is_made(words) :]
        is_of_key = len(asked) == 2 + is_made(words) and is_question("back", asked[0])
        return is_of_key and all(map(is_number, asked[1:]))
    if words[0] == "light":
        return words in (LIGHT, LIGHT_MAKE)
    if words[0] == "range":
        asked = words[1 + is_made(words) :]
        is_of_key = len(asked) == 3 + is_made(words) and is_question("back", asked[0])
        return is_of_key and all(map(is_number, asked[1:])) and int(asked[1]) <= int(asked[2])
    counts = {"scan": [3], "prove": [4]}.get(words[0], [2, 3])
    words = words[words[0] in ("scan", "prove") :]
    return len(words) in counts and is_question(*words[:2]) and all(map(is_number, words[2:]))


def check_usage(words, result):
    """Whether the words are no command: nothing is read then."""
    if is_command(words):
        return False
    expect("usage", (result.told, result.status, result.read), ("usage\n", USAGE, 0))
    return True


# ---- commands


def verified(mutant):
    """What verifiers/verify.py tells of a proof, and its status."""
    words = mutant.words if mutant.kind in ("trace", "range") else ["verify", *mutant.words[1:5]]
    lines, status = told_of(words, mutant.source)
    return text_of(lines), status


def check_verify(mutant, result):
    told, status = verified(mutant)
    read = 0 if status == USAGE else len(mutant.source)
    expect("verify", (result.told, result.status, result.read), (told, status, read))


def check_light(mutant, result):
    if check_usage(mutant.words, result):
        return
    lines, status, left = told_by_light(mutant.source)
    wanted = text_of(lines), status, len(mutant.source) - left
    expect("light", (result.told, result.status, result.read), wanted)


def accepted_by_light(source, told):
    """The proofs that were accepted by the light file of an input: the root of each, its question, and the answer."""
    for part in re.split(r"^(?=proof )", told, flags=re.M):
        found = re.match(r"proof \d+ (hist|back|fwd) (\S+) (\d+) root (\d+)\n", part)
        if found:
            start = HEAD_BYTES + ENTRY_BYTES * int(found[4]) + ENTRY_BYTES // 2
            root = source[start : start + ENTRY_BYTES // 2].hex()
            yield (root, *found.groups()[:3]), re.split(r"^refused ", part[found.end() :], flags=re.M)[0]


def check_light_file(chain, made):
    """A light file that was made has the digest of each block, and the roots; those of small chains are worked out."""
    digests = [block_digest(frame) for frame in chain.frames]
    expect("length of the light file", len(made), HEAD_BYTES + ENTRY_BYTES * len(digests))
    entries = [made[at : at + ENTRY_BYTES] for at in range(HEAD_BYTES, len(made), ENTRY_BYTES)]
    roots = [entry[ENTRY_BYTES // 2 :] for entry in entries]
    expect("light file", made, light_file(digests, roots))
    for at, root in enumerate(roots):
        check_root(chain, at, root.hex())


def check_expose(mutant, result):
    words, size = mutant.words, len(mutant.source)
    told, status = verified(mutant)
    chain, line = stands_for(mutant.log)
    if status == USAGE or not is_number(words[5]):
        wanted = "usage\n", USAGE, 0
    elif line:
        wanted = line, NOT_A_LOG if line.startswith("not") else DAMAGED, 0
    elif int(words[5]) >= len(chain.blocks) or int(words[4]) > int(words[5]):
        wanted = beyond(chain), BEYOND, 0
    elif status == DONE:
        wanted = "no clash\n", DONE, size
    else:
        wanted = told, status, size
    expect("expose", (result.told, result.status, result.read), wanted)


def check_log(mutant, result):
    words = mutant.words
    if check_usage(words, result):
        return
    chain, line = stands_for(mutant.log)
    if line:
        status = NOT_A_LOG if line.startswith("not") else DAMAGED
        return expect("log", (result.told, result.status), (line, status))
    if words == LIGHT_MAKE:
        expect("status", result.status, DONE)
        return check_light_file(chain, result.frames)
    numbers = [int(word) for word in words[1 if words[0] == "root" else 3 if is_made(words) else 2 :]]
    head = len(chain.blocks) - 1
    is_past = is_made(words) and numbers[-2] > numbers[-1]
    if head < 0 or is_past or max(numbers, default=0) > head:
        return expect("log", (result.told, result.status), (beyond(chain), BEYOND))
    expect("status", result.status, DONE)
    if words[0] == "root":
        at = numbers[0] if numbers else head
        found = re.fullmatch(rf"root {at} ([0-9a-f]{{64}})\n", result.told)
        hold(f"no root: {result.told!r:.300}", found)
        return check_root(chain, at, found[1])
    if is_made(words):
        return check_made_proof(chain, words, numbers, result.told)
    return check_answer(chain, words[0], words[1], numbers or [head], result.told)


def check_made_proof(chain, words, numbers, told):
    """A proof that is made is accepted under the root to which it leads, with an answer over the blocks up to
    that of the root."""
    kind, key = words[0] if words[0] in MADE else words[1], words[2]
    of, make = MADE.get(kind, (verify.OF_ANSWER, None))
    *blocks, root_at = numbers
    try:
        proof = verify.read_proof(bytes.fromhex(told.removesuffix("\n")), of)
        start = proof.start if of == verify.OF_TRACE else proof
        lines = verify.proved(proof, verify.root_of(start), question_of(kind, key, blocks))
    except (ValueError, verify.Stop) as stop:
        raise Wrong(f"a proof that is made: {stop}") from stop
    expect("root block", start.root_block, root_at)
    known = small(chain)
    if known:
        done, digests = known
        made, digest = done.history(), digests[root_at]
        wanted = make(made, digest, key, *numbers) if make else proof_of(made, digest, kind, key, *numbers)
        expect("proof", told, f"{wanted.hex()}\n")
    until = Chain()
    for frame in chain.frames[: root_at + 1]:
        until.take_in(frame)
    check_answer(until, kind, key, blocks, text_of(lines))


# The proofs of more than an answer: what the verifier reads each as, and how it is made from rows.
MADE = {"trace": (verify.OF_TRACE, trace_proof_of), "range": (verify.OF_RANGE, range_proof_of)}


def question_of(kind, key, blocks):
    """A question as the verifier has it; that of all ancestors is what the version was derived from."""
    if kind == "range":
        return verify.Period(key.encode(), *blocks)
    return verify.Question(KINDS.index("back" if kind == "trace" else kind), key.encode(), *blocks)


def check_scan(mutant, result):
    words, size = mutant.words, len(mutant.source)
    if check_usage(words, result):
        return
    chain = Chain()
    _, line, read = chain.fold(mutant.source)
    if line:
        return expect("scan", (result.told, result.status, result.read), (line, REFUSED, read))
    at = int(words[3])
    expect("all is read", result.read, size)
    if at >= len(chain.blocks):
        return expect("scan", (result.told, result.status), (beyond(chain), BEYOND))
    expect("status", result.status, DONE)
    return check_answer(chain, words[1], words[2], [at], result.told)


def check_append(mutant, result):
    if mutant.words != ["append"]:
        return
    chain, line = stands_for(mutant.log)
    if line:
        status = NOT_A_LOG if line.startswith("not") else DAMAGED
        return expect("append", (result.told, result.status, result.read), (line, status, 0))
    taken, line, read = chain.fold(mutant.source)
    lines = result.told.splitlines(keepends=True)
    expect("status, and what is read", (result.status, result.read), (REFUSED if line else DONE, read))
    expect("last line", lines[len(taken) :], [line] if line else [])
    for (at, is_new), told in zip(taken, lines):
        if is_new:
            check_block_line(chain, at, told)
        else:
            expect("line of a block that is there", told, f"known {at}\n")
    check_what_is_left(result.log, chain)


def check_follow(mutant, result):
    if mutant.words != ["follow"]:
        return
    followed, follower = follow_over(mutant.log, mutant.source)
    expect("status, and what is read", (result.status, result.read), (followed.status, followed.read))
    turns, lines = followed.all_turns(), result.told.splitlines(keepends=True)
    expect("last line", lines[len(turns) :], [followed.line])
    for turn, told in zip(turns, lines):
        if turn.what == BLOCK:
            check_block_line(follower.chain, turn.number, told)
        else:
            expect("line of a turn", told, turn.line([]))
    if follower:
        check_what_is_left(result.log, follower.chain)
    else:
        expect("log", result.log, mutant.log)


def check_what_is_left(log, chain):
    """A log has the blocks of a chain, and is marked as that is."""
    left, line = stands_for(log)
    expect("log", (line, left and left.frames), (None, chain.frames))
    expect("whether the log is marked", left.is_marked, chain.is_marked)


def check_upgrade(mutant, result):
    chain, line = stands_for(mutant.log)
    if mutant.words != ["upgrade"]:
        wanted = "usage\n", USAGE
    elif line:
        wanted = line, NOT_A_LOG if line.startswith("not") else DAMAGED
    else:
        wanted = ALREADY if chain.is_marked else upgraded(len(chain.frames)), DONE
    expect("upgrade", (result.told, result.status, result.read), (*wanted, 0))
    if wanted[1] != DONE or chain.is_marked:
        return expect("log", result.log, mutant.log)
    chain.is_marked = True
    return check_what_is_left(result.log, chain)


def check_fmt(mutant, result):
    if result.status == DONE:
        return hold("a text with its end", result.told.endswith("}\n"))
    found = FMT_FAULT.fullmatch(result.told)
    hold(f"no fault: {result.told!r:.200}", found and int(found[1] or found[2]) <= len(mutant.source))
    return expect("all is read", result.read, len(mutant.source))


def check_pack(mutant, result):
    expect("all is read", result.read, len(mutant.source))
    version = SECOND_VERSION if mutant.words[1:] else FIRST_VERSION
    expect("pack", (result.frames, result.status), packed(mutant.source, version))


COMMANDS = {
    "verify": check_verify,
    "expose": check_expose,
    "trace": check_verify,
    "range": check_verify,
    "light": check_light,
    "log": check_log,
    "scan": check_scan,
    "append": check_append,
    "follow": check_follow,
    "upgrade": check_upgrade,
    "fmt": check_fmt,
    "pack": check_pack,
}


# ---- drafts


class NoJson(Exception):
    """The input is no JSON text."""


def no_constant(text):
    raise NoJson(text)


def json_number(text):
    """A number of 64 bits, or something that is no whole number."""
    if float(text) in (float("inf"), float("-inf")):
        raise NoJson(text)
    return 0.0 if text == "-0" else int(text) if re.fullmatch(r"-?\d{1,20}", text) else 0.0


def depth_of(text):
    """How deep a JSON text nests."""
    depth = deepest = 0
    for sign in re.sub(r'"(?:[^"\\]|\\.)*"', "", text):
        depth += (sign in "[{") - (sign in "]}")
        deepest = max(deepest, depth)
    return deepest


def json_value(source):
    """The value of a JSON text, as serde_json reads it."""
    settings = {"parse_int": json_number, "parse_float": json_number, "parse_constant": no_constant}
    try:
        text = source.decode("utf-8")
        if depth_of(text) > MAX_DEPTH:
            raise NoJson(text)
        if "\\u" in text.lower() and SURROGATE.search(json.dumps(pairs_of(text), ensure_ascii=False)):
            raise NoJson(text)
        return json.loads(text, **settings)
    except (ValueError, RecursionError) as fault:
        raise NoJson(source) from fault


def pairs_of(text):
    """The value of a text, in which no member that is given twice is lost."""
    return json.loads(text, object_pairs_hook=list)


def packed_tx(tx, version):
    """A transaction of a draft in a block of a version; none where it is none."""
    if not isinstance(tx, dict) or len(tx) != 1:
        return None
    ((kind, fields),) = tx.items()
    rules = draft_faults.FIELDS[version].get(kind)
    if not rules or not isinstance(fields, dict) or fields.keys() - rules.keys():
        return None
    for name, (_, is_right) in rules.items():
        if name not in fields and name not in draft_faults.MAY_BE_LEFT_OUT:
            return None
        if name in fields and not is_right(fields[name]):
            return None
    sender = fields["sender"]
    if kind == "set":
        return sets(fields["key"], fields["value"], fields.get("deps", ()), sender=sender)
    if kind == "deploy":
        return deploys(fields["name"], fields["source"], sender=sender)
    contract, function, args, budget = (fields[name] for name in ("contract", "function", "args", "budget"))
    return calls(contract, function, args, budget, OK, 0, sender=sender)


def packed(source, version):
    """What `pack` prints of a draft for blocks of a version, and its status."""
    try:
        draft = json_value(source)
    except NoJson:
        return b"badinput json\n", BAD_INPUT
    if not isinstance(draft, list):
        return b"badinput top\n", BAD_INPUT
    blocks = []
    for at, block in enumerate(draft):
        if not isinstance(block, list) or len(block) > MAX_TXS:
            return b"badinput block %d\n" % at, BAD_INPUT
        txs = []
        for index, tx in enumerate(block):
            made = packed_tx(tx, version)
            if made is None:
                return b"badinput draft %d %d\n" % (at, index), BAD_INPUT
            txs.append(made)
        if sum(tx["call"]["budget"] for tx in block if "call" in tx) > MAX_BUDGETS:
            return b"badinput block %d\n" % at, BAD_INPUT
        blocks.append(txs)
    return block_file(blocks, itertools.repeat(version)), DONE


# ---- all of them


def check_run(mutant, ran):
    """Raises what is wrong with a run."""
    hold(f"status {ran.status}", ran.status in STATUSES[mutant.kind])
    if mutant.kind not in ("append", "follow", "upgrade"):
        hold("the log was changed", ran.log == mutant.log)
    COMMANDS[mutant.kind](mutant, ran)
