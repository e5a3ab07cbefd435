"""What the tests of the tools know of streams by themselves: nothing here is shared with what they test."""

import hashlib
import struct
from typing import NamedTuple

HELLO = b"INCLDR\1\0"
END = b"\2"
HASH_KIND = 1
# The byte 1, id of the file, kind, compression, number of the block, length.
FRAME = struct.Struct("<B16sBBIH")


def generated(number, size):
    """The content of a number: from one byte to the next one more, and one more again at each block, by the modulus 251."""
    turns = bytes(range(251)) * 18
    begins = ((number + start + start // 4096) % 251 for start in range(0, size, 4096))
    return b"".join(turns[begin : begin + 4096] for begin in begins)[:size]


class Fault(Exception):
    """How a stream is otherwise than the format has it."""


class Piece(NamedTuple):
    """A block of a file."""

    file_id: str
    kind: int
    number: int
    block: bytes


class Blocks(NamedTuple):
    """What a stream has of one file: the pieces' kinds in order, and the bytes of the blocks by their numbers."""

    kinds: list
    data: dict
    hashes: dict


def exactly(take, count):
    taken = take(count)
    if len(taken) != count:
        raise Fault("it is cut")
    return taken


def pieces_of(take):
    """The pieces of a stream whose bytes a function gives."""
    if exactly(take, len(HELLO)) != HELLO:
        raise Fault("its hello is another")
    while (first := exactly(take, 1)) != END:
        frame, file_id, kind, compression, number, length = FRAME.unpack(first + exactly(take, FRAME.size - 1))
        if frame != 1 or kind not in (0, HASH_KIND) or compression != 0 or not 1 <= length <= 4096:
            raise Fault("a piece is of no form")
        yield Piece(file_id.hex(), kind, number, exactly(take, length))


def blocks_of(pieces, file_id):
    """The blocks of one file among these pieces, none of which comes twice."""
    found = Blocks([], {}, {})
    for piece in pieces:
        if piece.file_id != file_id:
            continue
        blocks = found.hashes if piece.kind == HASH_KIND else found.data
        if piece.number in blocks:
            raise Fault("a block comes twice")
        found.kinds.append(piece.kind)
        blocks[piece.number] = piece.block
    return found


def path_of(count, index):
    """The hash block at each level over a data block, and the place of the digest in it, the top level first."""
    counts = []
    while count > 1:
        count = -(-count // 128)
        counts.append(count)
    start = 0
    for level in reversed(range(len(counts))):
        yield start + index // 128 ** (level + 1), index // 128**level % 128
        start += counts[level]


def has_path(root, count, index, found):
    """Whether a stream's own hash blocks lead from the root to a data block of it."""
    wanted = bytes.fromhex(root)
    for number, slot in path_of(count, index):
        node = found.hashes.get(number, b"")
        if hashlib.sha256(node).digest() != wanted:
            return False
        wanted = node[32 * slot : 32 * slot + 32]
    return hashlib.sha256(found.data[index].ljust(4096, b"\0")).digest() == wanted


def holds(found, content, root, indices):
    """Whether a stream has these data blocks, each with its path, and no other block."""
    count = -(-len(content) // 4096)
    over = {number for index in indices for number, _ in path_of(count, index)}
    return (
        list(found.data) == list(indices)
        and set(found.hashes) == over
        and all(found.data[index] == content[4096 * index : 4096 * index + 4096] for index in indices)
        and all(has_path(root, count, index, found) for index in indices)
    )


