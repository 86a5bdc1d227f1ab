"""The blocks that `gen` makes, as a draft, and the rows that they write, by docs/formats.md."""
import collections

from cases.block_files import CONFLICT, OK, block_file, calls, deploys, sets
from cases.root_cases import Row

MIX = (
    'fn step(a: int) { let k = "raw/" ++ text(a); if has(k) { put "mix/" ++ text(a) = '
    "hist_block(k, block() - 1); } }"
)
SENDER = "gen"
BUDGET = 10_000
SETS_PER_BLOCK = 4
FEW_KEYS = 16
MANY_KEYS = 4_096


class Draws:
    """Numbers that are drawn from a state of 64 bits."""

    def __init__(self, seed):
        self.state = seed

    def below(self, limit):
        self.state = (self.state * 6364136223846793005 + 1442695040888963407) % 2**64
        return self.state // 2**33 % limit

    def key(self):
        many = self.below(2)
        return f"raw/{self.below(MANY_KEYS if many else FEW_KEYS)}"


def generated_draft(count, draws):
    """The blocks of `gen`, each a list of transactions as a draft has them."""
    blocks = [[{"deploy": {"sender": SENDER, "name": "mix", "source": MIX}}]]
    while len(blocks) < count:
        step = {"contract": "mix", "function": "step", "args": [draws.below(16)]}
        txs = [{"call": {"sender": SENDER, **step, "budget": BUDGET}}]
        for _ in range(SETS_PER_BLOCK):
            key, value = draws.key(), draws.below(1_000)
            deps = [draws.key() for _ in range(draws.below(3))]
            txs.append({"set": {"sender": SENDER, "key": key, "value": value, "deps": deps}})
        blocks.append(txs)
    return blocks


class Generated:
    """The chain of `gen`: its draft, its block file, its rows, and how its transactions end."""

    def __init__(self, count, seed):
        # What else is drawn is drawn after the blocks.
        self.draws = Draws(seed)
        self.draft = generated_draft(count, self.draws)
        self.rows = []
        self.statuses = []
        # The block of the newest version of each key.
        self.newest = {}
        for number, txs in enumerate(self.draft):
            self.run_block(number, txs)
        self.file = block_file(map(spelled, txs) for txs in self.draft)

    def run_block(self, number, txs):
        """The Call comes first in its block, so it meets no key that the block has written."""
        rows, statuses = [], []
        for at, tx in enumerate(txs):
            written = {row.key for row in rows}
            row, status = self.effect(number, at, tx, written)
            rows += [row] if row else []
            statuses.append(status)
        self.rows += rows
        self.newest |= {row.key: row.block for row in rows}
        self.statuses.append(statuses)

    def effect(self, number, at, tx, written):
        """The row that a transaction writes, if it writes one, and how it ends."""
        if "deploy" in tx:
            return None, OK
        if "call" in tx:
            [drawn] = tx["call"]["args"]
            key = f"raw/{drawn}"
            if key not in self.newest:
                return None, OK
            block = self.newest[key]
            return Row(f"mix/{drawn}", number, at, block, [(key, block)]), OK
        fields = tx["set"]
        if written & {fields["key"], *fields["deps"]}:
            return None, CONFLICT
        known = dict.fromkeys(dep for dep in fields["deps"] if dep in self.newest)
        deps = [(dep, self.newest[dep]) for dep in known]
        return Row(fields["key"], number, at, fields["value"], deps), OK

    def plain_lines(self):
        """What `append` tells of each block, but for its root."""
        rows = collections.Counter(row.block for row in self.rows)
        for number, statuses in enumerate(self.statuses):
            yield f"block {number} rows {rows[number]} status {','.join(map(str, statuses))}"


def spelled(tx):
    """A transaction of a draft as bytes."""
    [(kind, fields)] = tx.items()
    if kind == "set":
        return sets(fields["key"], fields["value"], fields["deps"], sender=fields["sender"])
    if kind == "deploy":
        return deploys(fields["name"], fields["source"], sender=fields["sender"])
    parts = [fields[name] for name in ("contract", "function", "args", "budget")]
    return calls(*parts, OK, 0, sender=fields["sender"])
