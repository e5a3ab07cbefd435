"""The hash tree over a content."""

from packing.contents import BLOCK, DIGEST, digest_of, whole_block

# Digests in a hash block.
WIDTH = BLOCK // DIGEST


def blocks_of(content):
    """The content in blocks, the last one filled up with zeros."""
    starts = range(0, len(content), BLOCK)
    return [whole_block(content[at : at + BLOCK]) for at in starts]


def tree_of(leaves):
    """The root, and the hash blocks in their order in the hash area, over the digests of the data blocks."""
    hash_blocks = []
    while len(leaves) > DIGEST:
        level = blocks_of(leaves)
        # The top level comes first in the hash area, and it is made last.
        hash_blocks = level + hash_blocks
        leaves = b"".join(digest_of(block) for block in level)
    # An empty content has no digest; its root is written as zeros.
    root = leaves or bytes(DIGEST)
    return root, hash_blocks


def level_counts(data_count):
    """How many hash blocks each level has, the leaf level first."""
    counts = []
    while data_count > 1:
        data_count = -(-data_count // WIDTH)
        counts.append(data_count)
    return counts


def hash_numbers(data_count, first, last):
    """The numbers of the hash blocks over the data blocks from one to another, the top one first."""
    numbers, start = [], 0
    counts = level_counts(data_count)
    for level in reversed(range(len(counts))):
        width = WIDTH ** (level + 1)
        numbers += range(start + first // width, start + last // width + 1)
        start += counts[level]
    return numbers


def leaves_under(hash_blocks, root, data_count):
    """The digests of the data blocks, from the hash blocks in their order in the hash area."""
    counts = level_counts(data_count)
    if not counts:
        return root[: DIGEST * data_count]
    return b"".join(hash_blocks[-counts[0] :])[: DIGEST * data_count]
