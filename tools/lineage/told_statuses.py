"""What `append` and `follow` tell of transactions that failed, in words: one line on standard error for each status
above 0. What a transaction is, is read from its block in the log, by docs/formats.md; what cannot be read there is
left out.
"""
import contextlib

from lineage import kinds
from lineage.lineage_messages import FIRST_GATE, LENGTH_BYTES, MARK, OPEN, contract_sentence, printed_over
from lineage.log_file import LOG_FILE
from lineage.saying import say

OK = 0
SET, DEPLOY, CALL = 1, 2, 3
BAD_SOURCE = 16
# The fields of a block before its transactions, and those of a value that is an int, in bytes.
FRONT_BYTES = 39
COUNT_OFFSET = 37
# The number and the name of each status, and what it means; where that depends on the kind of the transaction, for
# each. What stands in braces are fields of the transaction.
STATUSES = {
    0: ("Ok", "it did what it does"),
    1: (
        "Conflict",
        {
            SET: "an earlier transaction of the block wrote `{key}`, or one of the keys that it is derived from",
            CALL: "it reads or puts a key that an earlier transaction of the block wrote",
        },
    ),
    2: ("NoKey", "a key that it reads or asks about has no version there, or one that is gone"),
    3: (
        "Foreign",
        {
            SET: "a Set writes keys under raw/ alone, and not `{key}`",
            CALL: "the contract `{contract}` puts keys under {contract}/ alone",
        },
    ),
    4: ("NoContract", {CALL: "no contract `{contract}` was deployed in an earlier block"}),
    5: ("NoFunction", {CALL: "the contract `{contract}` has no function `{function}`"}),
    6: ("BadArgs", {CALL: "the function `{function}` takes other arguments, by number or kind"}),
    7: ("OutOfSteps", {CALL: "its budget of {budget} steps is too small"}),
    8: ("Overflow", "a result is no number of 64 bits"),
    9: ("DivZero", "it divides by 0"),
    10: (
        "WrongKind",
        "a value that it reads or asks for is an int where a text must be, or the other way round, or one is gone"
        " that it asks for",
    ),
    11: ("BadBlock", "it asks about a negative block, its own or a later one"),
    12: ("BadIndex", "it asks with an index that is negative or not below the count"),
    13: ("TextTooLong", "a text would have more than 1,024 bytes"),
    14: ("BadKey", "a text is no key, which has 1 to 64 of a-z 0-9 . / _ -"),
    15: ("Taken", {DEPLOY: "the name `{name}` is raw, or was deployed before"}),
    16: ("BadSource", "its source is no contract"),
    17: ("TooMany", "it reads or puts more keys, or has more dependencies, than the limits"),
    18: ("NotRead", "a `from` names a key that it did not read"),
    19: ("Failed", "it came to `fail`"),
}


# ---- transactions, in a block of the log


class Fields:
    """The bytes of a block, read field by field."""

    def __init__(self, block):
        self.block, self.offset = block, FRONT_BYTES

    def take(self, count):
        field = self.block[self.offset : self.offset + count]
        if len(field) < count:
            raise ValueError("a block ends within a field")
        self.offset += count
        return field

    def number(self, count):
        return int.from_bytes(self.take(count), "big")

    def string(self):
        return self.take(self.number(2))

    def name(self):
        return self.string().decode("ascii")

    def value(self):
        if self.number(1):
            self.string()
        else:
            self.take(8)

    def tx(self):
        """The next transaction: its kind, and the fields that words speak of."""
        kind = self.number(1)
        self.string()
        if kind == SET:
            fields = {"key": self.name()}
            self.value()
            for _ in range(self.number(1)):
                self.string()
        elif kind == DEPLOY:
            fields = {"name": self.name(), "source": self.string(), "version": self.block[0]}
        else:
            fields = {"contract": self.name(), "function": self.name()}
            for _ in range(self.number(1)):
                self.value()
            fields["budget"] = f"{self.number(4):,}"
        return kind, fields


class Log:
    """The blocks of the log, each after those that were asked for before."""

    def __init__(self):
        # The gate of the record that is read next, and how many blocks stand before it.
        self.gate, self.number = FIRST_GATE, 0

    def frame(self, block):
        """The block of a number, which is stored by now; nothing where it can't be read."""
        found = b""
        # What was read before may have changed since: a gate that was closed is open now.
        with contextlib.suppress(OSError), open(LOG_FILE, "rb") as log:
            log.seek(self.gate)
            while self.number <= block and log.read(1) == OPEN:
                length = log.read(LENGTH_BYTES)
                found = log.read(int.from_bytes(length, "big"))
                self.gate, self.number = log.tell(), self.number + (length != MARK)
        return found if self.number == block + 1 else b""

    def txs(self, block):
        """The transactions of a block, as far as they can be read; a block is asked for once."""
        fields, txs = Fields(self.frame(block)), []
        with contextlib.suppress(ValueError):
            count = int.from_bytes(fields.block[COUNT_OFFSET:FRONT_BYTES], "big")
            txs.extend(fields.tx() for _ in range(count))
        return txs


# ---- words


class Words:
    """Says what the statuses of blocks mean."""

    def __init__(self, program):
        self.program, self.log = program, Log()

    def take(self, block, statuses):
        """Takes the statuses of a block's transactions."""
        txs = self.log.txs(block)
        for tx, status in enumerate(statuses):
            if status != OK:
                kind, fields = txs[tx] if tx < len(txs) else (None, {})
                say(f"block {block} tx {tx}: {self.words(status, kind, fields)}")

    def words(self, status, kind, fields):
        """What a status means, of a transaction of a kind."""
        name, text = STATUSES.get(status, ("unknown", "see docs/language.md"))
        if isinstance(text, dict):
            text = text.get(kind, "docs/language.md says when").format(**fields)
        if status == BAD_SOURCE and "source" in fields:
            edition = ["2"] if fields["version"] == kinds.SECOND_VERSION else []
            printed = printed_over(self.program, ["fmt", *edition], [fields["source"]])
            text += f": {contract_sentence(fields['source'], printed, 'its source')}"
        return f"{name} ({status}): {text}"
