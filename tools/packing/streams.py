"""Loader streams: a hello, pieces of files, and an end."""

import struct
from typing import NamedTuple

HELLO = struct.Struct("<6sH")
MAGIC = b"INCLDR"
# The byte 1, id of the file, kind, compression, number of the block, length.
PIECE = struct.Struct("<B16sBBIH")
PIECE_FRAME = 1
DATA = 0
HASH = 1
END = b"\2"

# A stream of version 1 is refused where so many bytes have come without an end.
LIMIT_OF_VERSION_1 = 1 << 33


class Span(NamedTuple):
    """The data blocks from one to another, both included."""

    first: int
    last: int


def hello_of(length):
    """The hello of a stream of so many bytes, with the least version that fits."""
    return HELLO.pack(MAGIC, 1 if length < LIMIT_OF_VERSION_1 else 2)


def piece(file_id, kind, number, block):
    """One block of a file, not compressed."""
    return PIECE.pack(PIECE_FRAME, file_id, kind, 0, number, len(block)) + block


def stream_length(pieces, content_bytes):
    """The bytes of a stream of so many pieces with so many bytes of blocks in all."""
    return HELLO.size + PIECE.size * pieces + content_bytes + len(END)
