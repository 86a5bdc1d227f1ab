#!/usr/bin/env python3
"""Checks a proof of LineageChain, and prints the answer that it proves or why it is refused.

    verify.py ROOT KIND KEY BLOCK < PROOF     checks a proof
    verify.py trace ROOT KEY BLOCK < PROOF    checks a proof of all ancestors
    verify.py range ROOT KEY FROM TO < PROOF  checks a proof of all versions between two blocks
    verify.py light < LIGHT_FILE_AND_PROOFS   checks proofs by a light file
    verify.py --show < PROOF                  shows what a proof holds, and checks nothing of it
    verify.py --help                          prints this

ROOT is the root of a block, 64 hex digits, which has to come from elsewhere; KIND is hist, back or fwd;
PROOF is in hex. docs/proofs.md has the bytes of a proof, the checks in their order, and what is printed;
docs/light.md has those of a light file. This file was written from these pages alone and shares no code
with the program. It needs nothing but Python 3 and its standard library.
"""
import bisect
import hashlib
import os
import re
import sys
from typing import NamedTuple

MAX_INPUT_BYTES = 67_108_864
MAX_NUMBER = 2**32 - 1
MAX_KEY_BYTES = 64
MAX_TEXT_BYTES = 8_192
MAX_LINKS = 32
MAX_DEPS = 64
MAX_ITEMS = 2**32 - 2
MAX_FRAME_BYTES = 1_048_576
MAX_FRAMES = 2_097_152
DIGEST_BYTES = 32
# How many bytes are read at once.
PIECE_BYTES = 1_048_576

MAGIC = b"LCP1"
TRACE_MAGIC = b"LCT1"
RANGE_MAGIC = b"LCR1"
LIGHT_MAGIC = b"LCH1"
# What a proof is of.
OF_ANSWER, OF_TRACE, OF_RANGE = range(3)
KINDS = ["hist", "back", "fwd"]
HIST, BACK, FWD = range(3)
INT, TEXT, GONE = range(3)
# The first byte of what is hashed.
LEAF, NODE, HEADER, BODY, NO_USES, USE, ROOT = (bytes([tag]) for tag in range(7))

KEY = re.compile(rb"[a-z0-9./_-]+")
PRINTABLE = re.compile(rb"[ -~]*")
# Words are compared as the bytes that they are.
KEY_WORD = re.compile(rb"[a-z0-9./_-]{1,64}")
ROOT_WORD = re.compile(rb"[0-9a-f]{64}")
NUMBER_WORD = re.compile(rb"0|[1-9][0-9]{0,9}")

DONE, USAGE, UNREADABLE, UNTOLD, OUT_OF_MEMORY, REFUSED, REJECTED, BAD_INPUT = 0, 1, 2, 3, 5, 8, 10, 11


class Stop(Exception):
    """The run ends with a line and a status."""

    def __init__(self, line, status):
        super().__init__(line)
        self.line, self.status = line, status


def rejected(cause):
    return Stop(f"rejected {cause}", REJECTED)


def bad_input(cause):
    return Stop(f"badinput {cause}", BAD_INPUT)


def sha256(*parts):
    return hashlib.sha256(b"".join(parts)).digest()


# ---- what a proof has


class Question(NamedTuple):
    kind: int
    key: bytes
    block: int


class Period(NamedTuple):
    """What a proof of a range is of: a key, and the first and the last block."""

    key: bytes
    first: int
    last: int


class Named(NamedTuple):
    """A version by its block and the digest of its header."""

    block: int
    digest: bytes


class Uses(NamedTuple):
    """How many uses there are, and their digest."""

    count: int
    digest: bytes


class Leaf(NamedTuple):
    text: bytes
    key: bytes
    next_key: object
    newest: Named
    uses: Uses


class Header(NamedTuple):
    text: bytes
    key: bytes
    block: int
    tx: int
    body: bytes
    closed: Uses
    links: list


class Dep(NamedTuple):
    """A version that a body names: its key and its block, and the digest of its header."""

    key: bytes
    block: int
    digest: bytes

    def place(self):
        return self.key, self.block


class Body(NamedTuple):
    text: bytes
    value: str
    deps: list

    def places(self):
        """The key and the block of each dependency."""
        return [dep.place() for dep in self.deps]


class Proof(NamedTuple):
    question: Question
    root_block: int
    block_digest: bytes
    leaf_count: int
    leaf_index: int
    leaf: Leaf
    audit: list
    headers: list
    body: object
    uses: object


class Item(NamedTuple):
    """An ancestor."""

    header: Header
    body: Body

    def place(self):
        return self.header.key, self.header.block


class Trace(NamedTuple):
    """A proof of all ancestors: the proof of what a version was derived from, and its ancestors, the last one
    first."""

    start: Proof
    items: list


class Range(NamedTuple):
    """A proof of all versions of a key between two blocks: the headers from the newest version on, and the bodies of
    those that are between the blocks."""

    question: Period
    root_block: int
    block_digest: bytes
    leaf_count: int
    leaf_index: int
    leaf: Leaf
    audit: list
    headers: list
    bodies: list

    def between(self):
        """The headers of the versions between the blocks."""
        return [header for header in self.headers if self.question.first <= header.block <= self.question.last]


# ---- reading


class Fields:
    """The bytes of a proof, read field by field. The first of them has the offset `first` in the input."""

    def __init__(self, proof, first=0):
        self.proof, self.offset, self.first = proof, 0, first

    def malformed(self):
        return rejected(f"malformed {self.first + self.offset}")

    def take(self, size, is_good=lambda field: True):
        """The next field; a proof is malformed where it is cut short or breaks its rule."""
        field = self.proof[self.offset : self.offset + size]
        if len(field) < size or not is_good(field):
            raise self.malformed()
        self.offset += size
        return field

    def end(self):
        """Nothing follows the last field."""
        if self.offset < len(self.proof):
            raise self.malformed()

    def number(self, size, least=0, most=None):
        def is_good(field):
            read = int.from_bytes(field, "big")
            return least <= read and (most is None or read <= most)

        return int.from_bytes(self.take(size, is_good), "big")

    def digest(self):
        return self.take(DIGEST_BYTES)

    def string(self, least, most, pattern):
        length = self.number(2, least, most)
        return self.take(length, lambda field: pattern.fullmatch(field) is not None)

    def key(self):
        return self.string(1, MAX_KEY_BYTES, KEY)

    def uses(self):
        return Uses(self.number(8), self.digest())

    def named(self):
        return Named(self.number(4), self.digest())

    def leaf(self, index):
        start = self.offset
        key = self.key() if index else self.string(0, 0, PRINTABLE)
        next_key = self.key() if self.number(1, 0, 1) else None
        newest, uses = self.named(), self.uses()
        return Leaf(self.proof[start : self.offset], key, next_key, newest, uses)

    def header(self):
        start = self.offset
        key, block, tx, body, closed = self.key(), self.number(4), self.number(2), self.digest(), self.uses()
        links = [self.named() for _ in range(self.number(1, 0, MAX_LINKS))]
        return Header(self.proof[start : self.offset], key, block, tx, body, closed, links)

    def value(self):
        """A value as it is printed."""
        tag = self.number(1, INT, GONE)
        if tag == INT:
            return f"int {int.from_bytes(self.take(8), 'big', signed=True)}"
        if tag == TEXT:
            return "text " + self.string(0, MAX_TEXT_BYTES, PRINTABLE).decode("ascii")
        return "gone"

    def place(self):
        """The key and the block of a use."""
        return self.key(), self.number(4)

    def dependency(self):
        return Dep(*self.place(), self.digest())

    def body(self):
        start = self.offset
        value = self.value()
        deps = [self.dependency() for _ in range(self.number(1, 0, MAX_DEPS))]
        return Body(self.proof[start : self.offset], value, deps)

    def magic(self, magic):
        self.take(len(magic), lambda field: field == magic)

    def leaf_place(self, least):
        """The root block, which is at least this one, and a leaf of its tree with its place there."""
        root_block, block_digest = self.number(4, least=least), self.digest()
        leaf_count = self.number(4, least=1)
        leaf_index = self.number(4, most=leaf_count - 1)
        leaf = self.leaf(leaf_index)
        steps = audit_length(leaf_index, leaf_count)
        audit = [self.digest() for _ in range(self.number(1, steps, steps))]
        return root_block, block_digest, leaf_count, leaf_index, leaf, audit

    def whole_proof(self):
        self.magic(MAGIC)
        question = Question(self.number(1, HIST, FWD), self.key(), self.number(4))
        place = self.leaf_place(least=question.block)
        headers = [self.header() for _ in range(self.number(1))]
        has_body = bool(headers) and headers[-1].block <= question.block
        body = self.body() if has_body else None
        has_uses = has_body and question.kind == FWD
        uses = [self.place() for _ in range(self.number(4))] if has_uses else None
        self.end()
        return Proof(question, *place, headers, body, uses)

    def start(self):
        """The proof within a proof of all ancestors, behind the number of its bytes."""
        size = self.number(4)
        first = self.first + self.offset
        return Fields(self.take(size), first).whole_proof()

    def whole_trace(self):
        self.magic(TRACE_MAGIC)
        start = self.start()
        items = [Item(self.header(), self.body()) for _ in range(self.number(4, most=MAX_ITEMS))]
        self.end()
        return Trace(start, items)

    def whole_range(self):
        self.magic(RANGE_MAGIC)
        key, first = self.key(), self.number(4)
        period = Period(key, first, self.number(4, least=first))
        place = self.leaf_place(least=period.last)
        headers = [self.header() for _ in range(self.number(4))]
        proof = Range(period, *place, headers, [])
        bodies = [self.body() for _ in proof.between()]
        self.end()
        return proof._replace(bodies=bodies)


# ---- the tree


def left_part(count):
    """How many of so many leaves are in the left part of their tree."""
    return 1 << (count - 1).bit_length() - 1


def turns(index, count):
    """The way from the top of a tree to a leaf: whether it is in the left part, at each turn."""
    while count > 1:
        left = left_part(count)
        is_left = index < left
        yield is_left
        index, count = (index, left) if is_left else (index - left, count - left)


def audit_length(index, count):
    return sum(1 for _ in turns(index, count))


def tree_hash(proof):
    hashed = sha256(LEAF, proof.leaf.text)
    upward = reversed(list(turns(proof.leaf_index, proof.leaf_count)))
    for is_left, beside in zip(upward, proof.audit):
        hashed = sha256(NODE, hashed, beside) if is_left else sha256(NODE, beside, hashed)
    return hashed


def root_of(proof):
    places = proof.root_block.to_bytes(4, "big"), proof.block_digest, proof.leaf_count.to_bytes(4, "big")
    return sha256(ROOT, *places, tree_hash(proof))


# ---- the checks


def check_root(proof, root):
    made = root_of(proof)
    if made != root:
        raise rejected(f"root {made.hex()}")


def check_leaf(leaf, key):
    """Whether the leaf covers the key: no other leaf can have it."""
    is_between = leaf.key < key and (leaf.next_key is None or leaf.next_key > key)
    if leaf.key != key and not is_between:
        raise rejected("leaf")


def next_version(header, block):
    """The version that the next header must be of, on the way to the last one up to a block; none where this header is
    the last one."""
    if header.block <= block or not header.links:
        return None
    later = [link for link in header.links if link.block > block]
    return later[-1] if later else header.links[0]


def check_header(header, step, expected, question):
    digest = sha256(HEADER, header.text)
    if digest != expected.digest:
        raise rejected(f"link {step} {digest.hex()}")
    if header.key != question.key or header.block != expected.block:
        raise rejected(f"path {step}")


def check_path(headers, newest, question, following):
    """The headers lead from the newest version on, each to the one that is following."""
    expected = newest
    for step, header in enumerate(headers):
        if expected is None:
            raise rejected(f"path {step}")
        check_header(header, step, expected, question)
        expected = following(header)
    if expected is not None:
        raise rejected(f"path {len(headers)}")


def check_body(proof):
    digest = sha256(BODY, proof.body.text)
    if digest != proof.headers[-1].body:
        raise rejected(f"body {digest.hex()}")


def uses_digest(uses):
    digest = sha256(NO_USES)
    for key, block in uses:
        length = len(key).to_bytes(2, "big")
        digest = sha256(USE, digest, length, key, block.to_bytes(4, "big"))
    return digest


def check_uses(proof):
    """A version's uses are closed by the next version of its key; those of the newest are in the leaf."""
    wanted = proof.headers[-2].closed if len(proof.headers) > 1 else proof.leaf.uses
    digest = uses_digest(proof.uses)
    if Uses(len(proof.uses), digest) != wanted:
        raise rejected(f"list {digest.hex()}")


def check_headers(proof, root, question, following):
    """The proof is of the question and leads to the root, and its headers are those of the key that follow one
    another, from its newest version on."""
    if proof.question != question:
        raise rejected("query")
    check_root(proof, root)
    check_leaf(proof.leaf, question.key)
    if proof.leaf.key == question.key:
        check_path(proof.headers, proof.leaf.newest, question, following)
    elif proof.headers:
        raise rejected("path 0")


def answer(proof, root, question):
    """The lines of the answer that a proof proves."""
    check_headers(proof, root, question, lambda header: next_version(header, question.block))
    if proof.body is None:
        return ["none"]
    check_body(proof)
    if question.kind == FWD:
        check_uses(proof)
    return told(proof)


def told(proof):
    version = proof.headers[-1]
    kind = proof.question.kind
    if kind == HIST:
        return [version_told(version, proof.body)]
    word, places = ("deps", proof.body.places()) if kind == BACK else ("uses", proof.uses)
    return listed(version, word, places)


def version_told(header, body):
    return f"block {header.block} tx {header.tx} {body.value}"


def listed(version, word, places):
    """A line with the block of a version and a count, and a line for each key and block."""
    lines = [f"{key.decode('ascii')} {block}" for key, block in places]
    return [f"block {version.block} {word} {len(places)}", *lines]


# ---- the checks of all ancestors


class Wanted:
    """The versions that were named and whose items have not come, each with the digest of its header."""

    def __init__(self):
        # By block and then by key: the item that comes next is that of the last one.
        self.order, self.digests = [], {}

    def add(self, block, deps, number):
        """What a version in this block was derived from, which the item of this number names."""
        for dep in deps:
            place = dep.block, dep.key
            if dep.block >= block:
                raise rejected(f"trace late {number}")
            if self.digests.get(place, dep.digest) != dep.digest:
                raise rejected(f"trace two {number}")
            if place not in self.digests:
                bisect.insort(self.order, place)
                self.digests[place] = dep.digest

    def take(self, item, number):
        """Takes the last one away, of which the item must be, and answers the digest of its header."""
        if not self.order:
            raise rejected(f"trace extra {number}")
        if (item.header.block, item.header.key) != self.order[-1]:
            raise rejected(f"trace order {number}")
        return self.digests.pop(self.order.pop())


def check_item(item, number, expected):
    """The item has the header of this digest, and the body that the header names."""
    header = sha256(HEADER, item.header.text)
    if header != expected:
        raise rejected(f"trace header {number} {header.hex()}")
    body = sha256(BODY, item.body.text)
    if body != item.header.body:
        raise rejected(f"trace body {number} {body.hex()}")


def check_items(trace):
    """The items are all that the version of the start was made from."""
    wanted = Wanted()
    if trace.start.body:
        wanted.add(trace.start.headers[-1].block, trace.start.body.deps, 0)
    for number, item in enumerate(trace.items, 1):
        check_item(item, number, wanted.take(item, number))
        wanted.add(item.header.block, item.body.deps, number)
    if wanted.order:
        raise rejected(f"trace missing {len(trace.items) + 1}")


def trace_answer(trace, root, question):
    """The lines of all ancestors that a proof proves."""
    answer(trace.start, root, question)
    check_items(trace)
    if trace.start.body is None:
        return ["none"]
    return listed(trace.start.headers[-1], "ancestors", [item.place() for item in reversed(trace.items)])


# ---- the checks of a range


def next_in_range(header, period):
    """The version that the next header must be of: on the way to the last block, or the one before this one where
    both are between the blocks; none where this header is the last one."""
    if header.block > period.last:
        return next_version(header, period.last)
    if header.block < period.first or not header.links or header.links[0].block < period.first:
        return None
    return header.links[0]


def check_bodies(proof):
    """Each version between the blocks has the body that its header names."""
    for number, (header, body) in enumerate(zip(proof.between(), proof.bodies)):
        digest = sha256(BODY, body.text)
        if digest != header.body:
            raise rejected(f"body {number} {digest.hex()}")


def range_answer(proof, root, period):
    """The lines of all versions between two blocks that a proof proves."""
    check_headers(proof, root, period, lambda header: next_in_range(header, period))
    check_bodies(proof)
    versions = [version_told(*version) for version in zip(proof.between(), proof.bodies)]
    return [f"versions {len(versions)}", *reversed(versions)]


# ---- proofs that are checked by a light file


class LightFile(NamedTuple):
    """The digest of each block and the root at it, block by block, as they stand in the file."""

    count: int
    entries: bytes

    def entry(self, block):
        """The digest and the root of a block below the count."""
        start = block * 2 * DIGEST_BYTES
        middle, end = start + DIGEST_BYTES, start + 2 * DIGEST_BYTES
        return self.entries[start:middle], self.entries[middle:end]


def read_light(take):
    """The light file that the input begins with."""
    head = take(len(LIGHT_MAGIC) + 4)
    if len(head) < len(LIGHT_MAGIC) + 4 or not head.startswith(LIGHT_MAGIC):
        raise bad_input("light")
    count = int.from_bytes(head[len(LIGHT_MAGIC) :], "big")
    entries = take(count * 2 * DIGEST_BYTES)
    if len(entries) < count * 2 * DIGEST_BYTES:
        raise bad_input("light")
    return LightFile(count, entries)


def frames(take):
    """The bytes of each frame, up to the end of the input."""
    number = 0
    while length := take(4):
        size = int.from_bytes(length, "big")
        if len(length) < 4:
            raise refused(number, "truncated")
        if not 1 <= size <= MAX_FRAME_BYTES:
            raise refused(number, f"length {size}")
        if number == MAX_FRAMES:
            raise refused(number, "many")
        frame = take(size)
        if len(frame) < size:
            raise refused(number, "truncated")
        yield frame
        number += 1


def refused(number, cause):
    return Stop(f"refused frame {number} {cause}", REFUSED)


def light_answer(light, proof):
    """The lines of what a proof proves by a light file: its own question with the root block, and the answer."""
    if proof.root_block >= light.count:
        raise rejected(f"unknown {light.count}")
    digest, root = light.entry(proof.root_block)
    if proof.block_digest != digest:
        raise rejected(f"digest {digest.hex()}")
    lines = answer(proof, root, proof.question)
    return [f"{question_text(proof.question)} root {proof.root_block}", *lines]


def check_by_light(take, say):
    """Checks each proof of the input by the light file before them, says what it proves or why it is refused, and
    answers the status. The bytes are taken as they are needed, by their number; fewer are left where fewer come."""
    status = DONE
    try:
        light = read_light(take)
        for number, frame in enumerate(frames(take)):
            try:
                first, *lines = light_answer(light, read_proof(frame, OF_ANSWER))
            except Stop as stop:
                first, lines, status = stop.line, [], REJECTED
            say([f"proof {number} {first}", *lines])
    except Stop as stop:
        say([stop.line] if stop.line else [])
        return stop.status
    return status


# ---- what a proof holds


def question_text(question):
    key = question.key.decode("ascii")
    if isinstance(question, Period):
        return f"range {key} {question.first} {question.last}"
    return f"{KINDS[question.kind]} {key} {question.block}"


def header_lines(header):
    lines = [f"header of block {header.block} tx {header.tx}: {sha256(HEADER, header.text).hex()}"]
    lines.append(f"  body {header.body.hex()}")
    lines.append(f"  closes {header.closed.count} uses, digest {header.closed.digest.hex()}")
    return lines + [f"  links to block {link.block}, header {link.digest.hex()}" for link in header.links]


def body_lines(body):
    lines = [f"body: {body.value}, derived from {len(body.deps)} versions"]
    return lines + [f"  {dep.key.decode('ascii')} {dep.block}" for dep in body.deps]


def leaf_lines(proof):
    leaf, question = proof.leaf, question_text(proof.question)
    key = f"key {leaf.key.decode('ascii')}" if leaf.key else "before all keys"
    following = f"next key {leaf.next_key.decode('ascii')}" if leaf.next_key else "no next key"
    lines = [f"question {question}", f"root block {proof.root_block}, digest {proof.block_digest.hex()}"]
    lines.append(f"leaf {proof.leaf_index} of {proof.leaf_count}, from 0: {key}, {following}")
    lines.append(f"  newest version in block {leaf.newest.block}, header {leaf.newest.digest.hex()}")
    lines.append(f"  its uses {leaf.uses.count}, digest {leaf.uses.digest.hex()}")
    lines += [f"audit hash {digest.hex()}" for digest in proof.audit]
    for header in proof.headers:
        lines += header_lines(header)
    return lines


def proof_lines(proof):
    lines = leaf_lines(proof)
    if proof.body:
        lines += body_lines(proof.body)
    if proof.uses is not None:
        lines.append(f"uses: {len(proof.uses)} versions were derived from it")
        lines += [f"  {key.decode('ascii')} {block}" for key, block in proof.uses]
    return [*lines, root_line(proof)]


def root_line(proof):
    return f"leads to the root {root_of(proof).hex()}"


def range_lines(proof):
    lines = leaf_lines(proof)
    for header, body in zip(proof.between(), proof.bodies):
        value, *deps = body_lines(body)
        lines += [f"block {header.block} {value}", *deps]
    return [*lines, root_line(proof)]


def item_lines(number, item):
    key = item.header.key.decode("ascii")
    return [f"item {number}: {key} {item.header.block}", *header_lines(item.header), *body_lines(item.body)]


def shown(proof):
    """What a proof holds, line by line."""
    if isinstance(proof, Range):
        period = proof.question
        words = f"range ROOT {period.key.decode('ascii')} {period.first} {period.last}"
        lines = range_lines(proof)
    elif isinstance(proof, Trace):
        question = proof.start.question
        words = f"trace ROOT {question.key.decode('ascii')} {question.block}"
        lines = proof_lines(proof.start)
        for number, item in enumerate(proof.items, 1):
            lines += item_lines(number, item)
    else:
        words, lines = f"ROOT {question_text(proof.question)}", proof_lines(proof)
    return [*lines, f"nothing of this was checked: verify.py {words} does that"]


# ---- words and streams


def read_words(words):
    """What the words ask for: what a proof is of, the root, and the question, which is of all ancestors what the
    version was derived from."""
    words = [os.fsencode(word) for word in words]
    if words[:1] == [b"range"] and len(words) == 5:
        _, root, key, first, last = words
        if are_formed(root, key, first, last) and int(first) <= int(last):
            return OF_RANGE, bytes.fromhex(root.decode()), Period(key, int(first), int(last))
    elif len(words) == 4:
        is_trace = words[0] == b"trace"
        root, kind, key, block = [words[1], b"back", *words[2:]] if is_trace else words
        kinds = [name.encode() for name in KINDS]
        if kind in kinds and are_formed(root, key, block):
            question = Question(kinds.index(kind), key, int(block))
            return OF_TRACE if is_trace else OF_ANSWER, bytes.fromhex(root.decode()), question
    raise Stop("usage", USAGE)


def are_formed(root, key, *blocks):
    """Whether the words are those of a root, a key and blocks."""
    numbers = [(NUMBER_WORD, block) for block in blocks]
    patterns = (ROOT_WORD, root), (KEY_WORD, key), *numbers
    is_formed = all(pattern.fullmatch(word) for pattern, word in patterns)
    return is_formed and all(int(block) <= MAX_NUMBER for block in blocks)


def take_input(size):
    """So many bytes of standard input, or what is left of it."""
    taken = bytearray()
    try:
        while len(taken) < size:
            part = os.read(0, min(size - len(taken), PIECE_BYTES))
            if not part:
                break
            taken += part
    except OSError as fault:
        raise Stop(None, UNREADABLE) from fault
    return bytes(taken)


def read_input():
    """Standard input; no more than one byte past the limit is read."""
    read = take_input(MAX_INPUT_BYTES + 1)
    if len(read) > MAX_INPUT_BYTES:
        raise bad_input("long")
    return read


def read_hex(source):
    """The bytes that hex digits stand for."""
    digits = source[:-1] if source.endswith(b"\n") else source
    if len(digits) % 2:
        raise bad_input("odd")
    other = re.search(rb"[^0-9a-fA-F]", digits)
    if other:
        raise bad_input(f"at {other.start()}")
    return bytes.fromhex(digits.decode("ascii"))


def read_proof(proof, of):
    fields = Fields(proof)
    return [fields.whole_proof, fields.whole_trace, fields.whole_range][of]()


def kind_of(proof):
    """What the bytes are a proof of, by the first of them."""
    of = {TRACE_MAGIC: OF_TRACE, RANGE_MAGIC: OF_RANGE}
    return of.get(proof[: len(MAGIC)], OF_ANSWER)


def own_question(proof):
    """The question that a proof is of."""
    return proof.start.question if isinstance(proof, Trace) else proof.question


def proved(proof, root, question):
    """The lines of the answer, of all ancestors or of a range that a proof proves."""
    if isinstance(proof, Range):
        return range_answer(proof, root, question)
    return trace_answer(proof, root, question) if isinstance(proof, Trace) else answer(proof, root, question)


def outcome(words):
    """The lines that are printed, and the status; those of a light file and proofs are printed as they come."""
    if words == ["--help"]:
        return __doc__.rstrip("\n").split("\n"), DONE
    try:
        if words == ["light"]:
            return [], check_by_light(take_input, write)
        if words == ["--show"]:
            proof = read_hex(read_input())
            return shown(read_proof(proof, kind_of(proof))), DONE
        of, root, question = read_words(words)
        proof = read_proof(read_hex(read_input()), of)
        own = own_question(proof)
        if own != question:
            note(f"the proof is of another question: {question_text(own)}")
        return proved(proof, root, question), DONE
    except Stop as stop:
        return [stop.line] if stop.line else [], stop.status
    except MemoryError:
        return [], OUT_OF_MEMORY


def note(text):
    """Says something on standard error, where there is one: what is printed is fixed."""
    try:
        os.write(2, f"verify.py: {text}\n".encode("ascii"))
    except OSError:
        pass


def write(lines):
    text = "".join(f"{line}\n" for line in lines).encode("ascii")
    while text:
        text = text[os.write(1, text) :]


def main():
    try:
        lines, status = outcome(sys.argv[1:])
        write(lines)
    except OSError:
        status = UNTOLD
    sys.exit(status)


if __name__ == "__main__":
    main()
