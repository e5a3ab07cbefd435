"""The content of a real file, block by block."""

import hashlib
import os
import stat
from typing import NamedTuple

from packing.refusals import Refusal, refusal_of

BLOCK = 4096
DIGEST = 32
MOST_CONTENT = 1 << 34


class Survey(NamedTuple):
    """What a first reading of a content tells: all but the content itself."""

    size: int
    # The digests of the data blocks, one after another.
    leaves: bytes
    digest: bytes

    @property
    def data_count(self):
        return len(self.leaves) // DIGEST


def digest_of(block):
    return hashlib.sha256(block).digest()


def whole_block(block):
    """A block as it is hashed and stored: the last one filled up with zeros."""
    return block.ljust(BLOCK, b"\0")


def open_content(path):
    """A regular file, to be read."""
    try:
        # Asked before the opening, which would wait at a pipe for its writer.
        if not stat.S_ISREG(os.stat(path).st_mode):
            raise Refusal(f"{path}: not a regular file")
        return open(path, "rb")
    except OSError as error:
        raise refusal_of(path, "cannot be read", error) from None


def size_of(path):
    with open_content(path) as file:
        return os.fstat(file.fileno()).st_size


def content_blocks(path):
    """The blocks of a file within the limit, as they stand: the last one may be shorter."""
    left = MOST_CONTENT
    try:
        with open_content(path) as file:
            while block := file.read(BLOCK):
                left -= len(block)
                if left < 0:
                    raise Refusal(f"{path}: too large: over {MOST_CONTENT} bytes")
                yield block
    except OSError as error:
        raise refusal_of(path, "cannot be read", error) from None


def survey_of(path):
    """Reads a content once. No more than a digest of each block is kept."""
    size, leaves, whole = 0, bytearray(), hashlib.sha256()
    for block in content_blocks(path):
        size += len(block)
        whole.update(block)
        leaves += digest_of(whole_block(block))
    return Survey(size, bytes(leaves), whole.digest())


def refuse_changed(path):
    raise Refusal(f"{path}: changed while it was read")


class Content:
    """A content whose blocks are read in any order. A block that has another digest than it had is refused, where the digests are known."""

    def __init__(self, path, size, leaves):
        self.path = path
        self.size = size
        # The digests of the data blocks, or None.
        self.leaves = leaves
        self.file = open_content(path)

    def block(self, index):
        """A data block as it stands: the last one may be shorter."""
        length = min(BLOCK, self.size - BLOCK * index)
        try:
            self.file.seek(BLOCK * index)
            block = self.file.read(length)
        except OSError as error:
            raise refusal_of(self.path, "cannot be read", error) from None
        if len(block) != length or not self.is_known(index, block):
            raise Refusal(f"{self.path}: block {index} has changed, or has another digest than was signed")
        return block

    def is_known(self, index, block):
        if self.leaves is None:
            return True
        return digest_of(whole_block(block)) == self.leaves[DIGEST * index : DIGEST * (index + 1)]

    def __enter__(self):
        return self

    def __exit__(self, *_):
        self.file.close()
