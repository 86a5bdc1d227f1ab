"""What `load` prints, worked out from docs/formats.md: the paths of its look-ups by the levels of the
versions, as they are defined.
"""
from cases.generated_chain import Generated
from cases.growing_roots import growing_roots
from cases.log_cases import frames_of
from cases.root_cases import LEVELS


def load_line(count, seed):
    """The line of `load` of so many blocks of a seed."""
    made = Generated(count, seed)
    [*_, root] = growing_roots(frames_of(made.file), made.rows)
    blocks = {}
    for row in made.rows:
        blocks.setdefault(row.key, []).append(row.block)
    linked = {key: growing_links(versions) for key, versions in blocks.items()}
    paths = []
    for _ in range(count):
        key = made.draws.key()
        paths.append(len(path(linked.get(key, {}), made.draws.below(count))))
    counts = f"lookups {count} entries {sum(paths)} most {max(paths)}"
    return f"blocks {count} rows {len(made.rows)} root {root} {counts}\n"


def path(linked, at):
    """The blocks of the versions that a look-up looks at, where these are those of the key's versions, each with
    those to which it links."""
    looked = []
    block = max(linked, default=None)
    while block is not None:
        looked.append(block)
        block = next_block(linked[block], block, at)
    return looked


def next_block(blocks, block, at):
    """The block that a look-up goes on to from one with these links, if it goes on."""
    if block <= at or not blocks:
        return None
    above = [link for link in blocks if link > at]
    return above[-1] if above else blocks[0]


def growing_links(blocks):
    """Of the version in each block, in rising order, the blocks to which it links, from what is kept of those
    before it: `links` goes over all of them, which takes too long for a long chain; tools/checks/size_runs.py holds
    the two against each other over a short one."""
    linked, last_at = {}, []
    for older, block in zip([None, *blocks], blocks):
        # Intervals lie within one another: no older version is in one where the newest of them isn't.
        at = [level for level in range(LEVELS) if older is None or older >> level != block >> level]
        linked[block] = last_at[: len(at)]
        last_at = [block] * len(at) + last_at[len(at) :]
    return linked


def links(blocks, block):
    """The blocks that the version in a block links to, one for each level from 0 to its height."""
    older = [other for other in blocks if other < block]
    if not older:
        return []
    height = max(level for level in range(LEVELS) if is_at_level(older, block, level))
    return [max(b for b in older if is_at_level(blocks, b, level)) for level in range(height + 1)]


def is_at_level(blocks, block, level):
    """Whether no older version is in the block's interval of 2^level blocks."""
    return not any(b < block and b >> level == block >> level for b in blocks)
