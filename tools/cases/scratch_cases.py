"""Cases of the scratch device: each call of it fails once, or its room is too small.

Which calls are made is worked out from docs/log.md: a block that runs has the body of each of its rows put, in
their order, before it is stored; the 1,024 bodies that were used last are at hand, and any other is got from the
device where it is read. A lineage of the first blocks of another has no body at hand. Roots and proofs are those
of tools/cases/growing_roots.py and tools/cases/proof_cases.py.
"""
from cases.block_files import OK, block_file, calls, deploys, sets
from cases.fault_cases import EXPOSE, FILE, FRAMES, HEAD_BLOCK, KNOWN, LINES, LOG, PROOF, QUESTIONS, ROOTS, ROWS
from cases.fault_cases import ANCESTORS, RANGE_PROOF, RANGE_VERIFY, TRACE_PROOF, TRACE_VERIFY, USES, VERIFY, VERSIONS
from cases.fault_cases import LIGHT_INPUT, LIGHT_LINES, log_of_first
from cases.generated_loads import load_line
from cases.growing_roots import growing_roots
from cases.log_cases import ALREADY, DONE, REJECTED, SCRATCH_FAULT, LogCase, frames_of, log_of, upgraded
from cases.proof_cases import proof_of
from cases.range_cases import range_proof_of
from cases.root_cases import History, Row, block_digests
from cases.trace_cases import trace_proof_of

# How many rows each block of the file has.
ROWS_OF_BLOCKS = [sum(row.block == at for row in ROWS) for at in range(len(FRAMES))]
# How many bytes the bodies of its rows have: a number of 8 bytes behind its kind, and a count of none; and one
# dependency more, of a key of five bytes with its length, a block and a digest.
BODY = 1 + 8 + 1
BODIES = [BODY, BODY + 2 + 5 + 4 + 32]
# What can be read of a body without the device: the ones that were used last.
AT_HAND = 1024
MANY_CALLS, MANY_BYTES = 1_000, 100_000
# How many blocks are loaded, and their seed.
LOAD = 6, 7


def failing_appends():
    """The append of the three blocks over a log of the first ones, with each put failing. What is stored by then
    stays, and its line has been told; nothing is written for the block at work."""
    for held in range(len(FRAMES) + 1):
        image = log_of_first(held)
        put = 0
        for at in range(len(FRAMES)):
            for _ in range(ROWS_OF_BLOCKS[at]):
                told, after, left = "", image, len(FILE)
                if at >= held:
                    told = "".join(KNOWN[:held] + LINES[held:at])
                    after = log_of_first(at)
                    left -= len(b"".join(FRAMES[: at + 1]))
                yield LogCase("append", image, told, SCRATCH_FAULT, after, FILE, left=left, scratch=f"{put}")
                put += 1
        told = "".join(KNOWN[:held] + LINES[held:])
        yield LogCase("append", image, told, DONE, LOG, FILE, scratch=f"{put}")


def small_rooms():
    """The append of the three blocks to an empty disk, with a device that is too small for a body, or for a call."""
    left = [len(FILE) - len(b"".join(FRAMES[: at + 1])) for at in range(len(FRAMES))]
    none = LogCase("append", b"", "", SCRATCH_FAULT, b"", FILE, left=left[0])
    two = LogCase("append", b"", "".join(LINES[:2]), SCRATCH_FAULT, log_of_first(2), FILE, left=left[2])
    whole = LogCase("append", b"", "".join(LINES), DONE, LOG, FILE)
    rooms = [(0, 0), (BODIES[0] - 1, 0), (BODIES[0], 1), (sum(BODIES) - 1, 1), (sum(BODIES), 2)]
    for room, fit in rooms:
        yield with_room([none, two, whole][fit], MANY_CALLS, room)
    for room in range(3):
        yield with_room([none, two, whole][room], room, MANY_BYTES)


def with_room(case, room_calls, room_bytes):
    """The same case over a device with room for so many calls and bytes."""
    words = f"/{room_calls}/{room_bytes}"
    return LogCase(case.words, case.image, case.told, case.status, case.after, case.file, case.left, scratch=words)


def failing_questions():
    """The commands over the log with each call of the device failing. A question about rows, `trace` and `range` make
    none; `root`, `light make` and the proofs put each body; and one at an earlier block reads a body of a lineage of
    the first blocks."""
    rows = len(ROWS)
    digests = block_digests(FRAMES)
    earlier = proof_of(History(ROWS[:1]), digests[0], "hist", "raw/a", 0, 0).hex() + "\n"
    earlier_trace = trace_proof_of(History(ROWS[:1]), digests[0], "raw/a", 0, 0).hex() + "\n"
    earlier_range = range_proof_of(History(ROWS[:1]), digests[0], "raw/a", 0, 0, 0).hex() + "\n"
    others = {
        "root": [f"root {HEAD_BLOCK} {ROOTS[HEAD_BLOCK]}\n"],
        "prove hist raw/a 0 0": [earlier],
        "trace prove raw/a 0 0": [earlier_trace],
        "range prove raw/a 0 0 0": [earlier_range],
    }
    gets = {"prove hist raw/a 0 0": 1, "trace prove raw/a 0 0": 1, "range prove raw/a 0 0 0": 1}
    for words, lines in (QUESTIONS | others).items():
        asks_rows = words.startswith(("hist", "back", "fwd", "trace raw", "range raw"))
        made = 0 if asks_rows else rows + gets.get(words, 0)
        for call in range(made + 1):
            told, status = ("".join(lines), DONE) if call == made else ("", SCRATCH_FAULT)
            yield LogCase(words, LOG, told, status, file=b"x", left=1, pulls="0", scratch=f"{call}")


def failing_expose():
    """`expose` with each put failing, before anything is read; and at an earlier block the get of the one body there,
    once the proof was read."""
    source = PROOF.encode("ascii")
    puts = len(ROWS)
    for call in range(puts):
        yield LogCase(EXPOSE, LOG, "", SCRATCH_FAULT, file=source, left=len(source), scratch=f"{call}")
    yield LogCase(EXPOSE, LOG, "no clash\n", file=source, scratch=f"{puts}")
    earlier = proof_of(History(ROWS[:1]), block_digests(FRAMES)[0], "hist", "raw/a", 0, 0).hex() + "\n"
    words, source = f"expose {ROOTS[0]} hist raw/a 0 0", earlier.encode("ascii")
    for call, told, status in [(puts, "", SCRATCH_FAULT), (puts + 1, "no clash\n", DONE)]:
        yield LogCase(words, LOG, told, status, file=source, scratch=f"{call}")


def failing_loads():
    """`load` with each put failing. Its look-ups find all bodies at hand."""
    line = load_line(*LOAD)
    puts = int(line.split()[3])
    for call in range(puts + 1):
        told, status = (line, DONE) if call == puts else ("", SCRATCH_FAULT)
        yield LogCase("load {} {}".format(*LOAD), b"", told, status, scratch=f"{call}")


def bodies_not_at_hand():
    """A block of one row more than there are bodies at hand: the first one is got where it is read."""
    keys = [f"raw/{at}" for at in range(AT_HAND + 1)]
    rows = [Row(key, 0, at, 5, []) for at, key in enumerate(keys)]
    asks = 'fn old() { let x = hist_int("raw/0", 0); } fn last() { let x = hist_int("raw/1024", 0); }'
    blocks = [
        [sets(key, 5) for key in keys],
        [deploys("ask", asks)],
        [calls("ask", "last", [], 100, OK, 83), calls("ask", "old", [], 100, OK, 83)],
    ]
    file = block_file(blocks)
    frames = frames_of(file)
    statuses = [",".join("0" * len(block)) for block in blocks]
    lines = [
        f"block {at} rows {0 if at else len(rows)} status {status} root {root}\n"
        for at, (status, root) in enumerate(zip(statuses, growing_roots(frames, rows)))
    ]
    # The call after all puts.
    got = len(rows)
    proof = proof_of(History(rows), block_digests(frames)[0], "hist", "raw/0", 0, 0).hex() + "\n"
    for call, told, status in [(got, "", SCRATCH_FAULT), (got + 1, proof, DONE)]:
        yield LogCase("prove hist raw/0 0 0", log_of(frames[0]), told, status, scratch=f"{call}")
    for call, held, status in [(got, 2, SCRATCH_FAULT), (got + 1, 3, DONE)]:
        after = log_of(b"".join(frames[:held]))
        yield LogCase("append", b"", "".join(lines[:held]), status, after, file, scratch=f"{call}")


def ancestor_not_at_hand():
    """A version that was derived from one whose body is got where it is read: for the proof, and not for the answer."""
    rows = [Row(f"raw/{at}", 0, at, 5, []) for at in range(AT_HAND)] + [Row("raw/x", 1, 0, 5, [("raw/0", 0)])]
    file = block_file([[sets(row.key, 5) for row in rows[:-1]], [sets("raw/x", 5, ["raw/0"])]])
    image, got = log_of(file), len(rows)
    proof = trace_proof_of(History(rows), block_digests(frames_of(file))[1], "raw/x", 1, 1).hex() + "\n"
    yield LogCase("trace raw/x 1", image, "block 1 ancestors 1\nraw/0 0\n", scratch="0")
    yield LogCase("trace raw/0 1", image, "block 0 ancestors 0\n", scratch="0")
    yield LogCase("trace prove raw/x 1 1", image, "", SCRATCH_FAULT, scratch=f"{got}")
    yield LogCase("trace prove raw/x 1 1", image, proof, scratch=f"{got + 1}")


def versions_not_at_hand():
    """Two versions of a key with so many others between them that the body of the first is got where it is read, for
    the proof and not for the answer; and where both are proved by the root at an earlier block, the body of each is."""
    rows = [Row("raw/x", 0, 0, 5, [])]
    rows += [Row(f"raw/{at}", 1, at, 5, []) for at in range(AT_HAND)] + [Row("raw/x", 2, 0, 6, [])]
    blocks = [[sets("raw/x", 5)], [sets(row.key, 5) for row in rows[1:-1]], [sets("raw/x", 6)], []]
    file = block_file(blocks)
    frames, image = frames_of(file), log_of(file)
    got, history, digests = len(rows), History(rows), block_digests(frames)
    yield LogCase("range raw/x 0 3", image, "versions 2\nblock 0 tx 0 int 5\nblock 2 tx 0 int 6\n", scratch="0")
    yield LogCase("range raw/x 2 3", image, "versions 1\nblock 2 tx 0 int 6\n", scratch="0")
    whole = range_proof_of(history, digests[3], "raw/x", 0, 3, 3).hex() + "\n"
    yield LogCase("range prove raw/x 0 3 3", image, "", SCRATCH_FAULT, scratch=f"{got}")
    yield LogCase("range prove raw/x 0 3 3", image, whole, scratch=f"{got + 1}")
    late = range_proof_of(history, digests[3], "raw/x", 2, 3, 3).hex() + "\n"
    yield LogCase("range prove raw/x 2 3 3", image, late, scratch=f"{got}")
    proof = range_proof_of(history, digests[2], "raw/x", 0, 2, 2).hex() + "\n"
    for call in range(2):
        yield LogCase("range prove raw/x 0 2 2", image, "", SCRATCH_FAULT, scratch=f"{got + call}")
    yield LogCase("range prove raw/x 0 2 2", image, proof, scratch=f"{got + 2}")


def without_device():
    """Commands that call no scratch device, over one of which the first call fails."""
    source = PROOF.encode("ascii")
    yield LogCase(VERIFY, b"hello", "".join(USES), file=source, scratch="0")
    source = TRACE_PROOF.encode("ascii")
    yield LogCase(TRACE_VERIFY, b"hello", "".join(ANCESTORS), file=source, scratch="0")
    source = RANGE_PROOF.encode("ascii")
    yield LogCase(RANGE_VERIFY, b"hello", "".join(VERSIONS), file=source, scratch="0")
    yield LogCase("light", b"hello", "".join(LIGHT_LINES), REJECTED, file=LIGHT_INPUT, scratch="0")
    yield LogCase("scan hist raw/b 2", b"", "block 2 tx 0 int 2\n", file=FILE, scratch="0")
    yield LogCase("fmt", b"", "fn f() {\n}\n", file=b"fn f(){}", scratch="0")
    yield LogCase("pack", b"", "", file=b"[]", scratch="0")
    for held in range(len(FRAMES) + 1):
        marked = log_of(b"".join(FRAMES[:held]), b"")
        yield LogCase("upgrade", log_of_first(held), upgraded(held), DONE, marked, scratch="0")
        yield LogCase("upgrade", marked, ALREADY, DONE, marked, scratch="0")


def scratch_cases():
    """All cases, as tools/cases/log_cases.py gives its own."""
    parts = [
        failing_appends(), small_rooms(), failing_questions(), failing_expose(), failing_loads(),
        bodies_not_at_hand(), ancestor_not_at_hand(), versions_not_at_hand(), without_device(),
    ]
    for part in parts:
        for case in part:
            yield case.case()
