"""Cases of trees: the tree hash of leaves, and their audit paths, by RFC 6962, section 2.1.

The first leaves and the hashes of their trees are those that certificate transparency publishes as
test data.
"""
import hashlib

# The leaves, in hex.
LEAVES = [
    "",
    "00",
    "10",
    "2021",
    "3031",
    "40414243",
    "5051525354555657",
    "606162636465666768696a6b6c6d6e6f",
]
# The tree hash of no leaf, of the first one, of the first two, and so on.
ROOTS = [
    "e3b0c44298fc1c149afbf4c8996fb92427ae41e4649b934ca495991b7852b855",
    "6e340b9cffb37a989ca544e6bb780a2c78901d3fb33738768511a30617afa01d",
    "fac54203e7cc696cf0dfcb42c92a1d9dbaf70ad9e621f4bd8d98662f00e3c125",
    "aeb6bcfe274b70a14fb067a5e5578264db0fa9b51af5e0ba159158f329e06e77",
    "d37ee418976dd95753c1c73862b9398fa2a2cf9b4ff0fdfe8b30cd95209614b7",
    "4e3bbb1f7b478dcfe71fb631631519a3bca12c9aefca1612bfce4c13a86264d4",
    "76e67dadbcdf1e10e1b74ddc608abd2f98dfb16fbce75277b5232a127f2087ef",
    "ddb89be403809e325750d3d263cd78929c2942b7942a34b77e122c9594a74c8c",
    "5dc9da79a70659a9ad559cb701ded9a2ab9d823aad2f4960cfe370eff4604328",
]
# Further trees have so many leaves: around each power of 2, where paths have other lengths.
COUNTS = [9, 10, 11, 12, 13, 14, 15, 16, 17, 31, 32, 33]


def split(leaves):
    """The two parts of a tree: the first has as many leaves as the greatest power of 2 that is less
    than their number."""
    half = 1
    while 2 * half < len(leaves):
        half *= 2
    return leaves[:half], leaves[half:]


def tree_hash(leaves):
    """Section 2.1: of no leaf, of one, and of more."""
    if not leaves:
        return hashlib.sha256().digest()
    if len(leaves) == 1:
        return hashlib.sha256(b"\0" + leaves[0]).digest()
    first, rest = split(leaves)
    return hashlib.sha256(b"\1" + tree_hash(first) + tree_hash(rest)).digest()


def audit_path(index, leaves):
    """Section 2.1.1: the audit path of a leaf, from the leaf upward."""
    if len(leaves) == 1:
        return []
    first, rest = split(leaves)
    if index < len(first):
        return [*audit_path(index, first), tree_hash(rest)]
    return [*audit_path(index - len(first), rest), tree_hash(first)]


def case(name, leaves):
    """The words of a case, what must be printed, and its leaves, each with a comma behind it."""
    root = tree_hash(leaves).hex()
    lines = [f"== tree {name}", f"root {root}", f"levels {root}"]
    for index in range(len(leaves)):
        path = [f"beside {node.hex()}" for node in audit_path(index, leaves)]
        lines += [f"leaf {index}", *path, f"to {root}"]
    printed = "".join(f"{line}\n" for line in lines)
    return f"tree {name}", printed, "".join(f"{leaf.hex()}," for leaf in leaves)


def tree_cases():
    """All cases."""
    published = [bytes.fromhex(leaf) for leaf in LEAVES]
    for count, root in enumerate(ROOTS):
        if tree_hash(published[:count]).hex() != root:
            raise ValueError(f"the tree hash of {count} leaves isn't the published one")
        yield case(f"published {count}", published[:count])
    for count in COUNTS:
        yield case(f"of {count}", [bytes([index] * index) for index in range(count)])
