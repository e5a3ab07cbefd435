"""Request streams: what the other side of a loader asks for."""

import struct
from typing import NamedTuple

from packing.refusals import Refusal

MAGIC = b"INCREQ"
HELLOS = {MAGIC + b"\1\0": 1, MAGIC + b"\2\0": 2}
HELLO_SIZE = 8
# Id of the file, when it was asked, number of the block, serial; then in version 2 the uid and zeros.
RECORD = struct.Struct("<16sQII")
RECORD_SIZES = {1: RECORD.size, 2: RECORD.size + 8}
REQUEST = 1
END = 2


class Asked(NamedTuple):
    """A block for which a read waits."""

    file_id: bytes
    index: int


class RequestReader:
    """Takes the bytes of a request stream as they come."""

    def __init__(self):
        self.left = b""
        self.place = 0
        self.version = None
        self.ended = False

    def take(self, piece):
        """The requests that are whole with these further bytes."""
        self.left += piece
        asked = []
        while not self.ended and (frame := self.frame()) is not None:
            asked += frame
        return asked

    def cut(self, size):
        """The next bytes, or None where they aren't there."""
        if len(self.left) < size:
            return None
        piece, self.left = self.left[:size], self.left[size:]
        self.place += size
        return piece

    def frame(self):
        """The next part of the stream as a list of requests, or None where it isn't whole."""
        if self.version is None:
            return self.hello()
        if not self.left:
            return None
        if self.left[0] == END:
            self.ended = True
            return []
        if self.left[0] != REQUEST:
            raise Refusal(f"no request stream: byte {self.place} begins no request")
        piece = self.cut(1 + RECORD_SIZES[self.version])
        if piece is None:
            return None
        file_id, _, index, _ = RECORD.unpack_from(piece, 1)
        return [Asked(file_id, index)]

    def hello(self):
        piece = self.cut(HELLO_SIZE)
        if piece is None:
            return None
        self.version = HELLOS.get(piece)
        if self.version is None:
            raise Refusal("no request stream: its hello is another")
        return []
