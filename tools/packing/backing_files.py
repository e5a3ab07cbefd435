"""The bytes of a complete backing file. All numbers are little-endian and packed."""

import struct
from typing import NamedTuple

from packing.contents import BLOCK, open_content
from packing.refusals import Refusal, refusal_of
from packing.signatures import root_of, signature_blob
from packing.trees import tree_of

MOST_IMAGE = 1 << 47

# Magic, version, header size, block size, flags, first record, content size, id.
HEADER = struct.Struct("<8sQHHIQQ16s")
# Type, record size, unused, offset of the next record, unused.
RECORD = struct.Struct("<BHIQQ")
# Offset of the block map, number of its entries.
MAP_FIELDS = struct.Struct("<QI")
# Blob size, blob offset, hash area size, hash area offset.
SIGNATURE_FIELDS = struct.Struct("<IQIQ")
# Numbers of data and of hash blocks, then spare words.
STATUS_FIELDS = struct.Struct("<II24x")
# Low 4 bytes of the offset, high 2 bytes of it, size, flags.
ENTRY = struct.Struct("<IHHH")

MAGIC = b"INCFS\0\0\0"
MAP_TYPE = 1
SIGNATURE_TYPE = 3
STATUS_TYPE = 4
MOST_RECORDS = 1024


class Packed(NamedTuple):
    """A complete backing file before its data blocks, and what the tool tells of it."""

    front: bytes
    size: int
    data_count: int
    hash_count: int
    # None where the file is unsigned.
    root: bytes | None


class Layout:
    """Where each part of a backing file begins. An unsigned one has no signature record and no blob."""

    def __init__(self, data_count, hash_count, blob):
        self.map_record = HEADER.size
        self.signature_record = self.map_record + RECORD.size + MAP_FIELDS.size
        self.status_record = self.signature_record
        if blob is not None:
            self.status_record += RECORD.size + SIGNATURE_FIELDS.size
        self.blob = self.status_record + RECORD.size + STATUS_FIELDS.size
        self.block_map = self.blob + len(blob or b"")
        map_end = self.block_map + ENTRY.size * (data_count + hash_count)
        # Without hash blocks there is no hash area. Its offset is 0 then, and the
        # data blocks follow the map at once.
        self.hash_area = 0
        self.data = map_end
        if hash_count:
            self.hash_area = -(-map_end // BLOCK) * BLOCK
            self.data = self.hash_area + BLOCK * hash_count


def record(kind, fields, following):
    return RECORD.pack(kind, RECORD.size + len(fields), 0, following, 0) + fields


def records(layout, entry_count, blob, hash_count):
    """The chain of records, in file order."""
    block_map = MAP_FIELDS.pack(layout.block_map, entry_count)
    chain = record(MAP_TYPE, block_map, layout.signature_record)
    if blob is not None:
        signature = SIGNATURE_FIELDS.pack(
            len(blob), layout.blob, BLOCK * hash_count, layout.hash_area
        )
        chain += record(SIGNATURE_TYPE, signature, layout.status_record)
    # A fill writes there how many blocks it found when it began. A file that one
    # fill completed therefore has zeros, and so has this one.
    status = STATUS_FIELDS.pack(0, 0)
    return chain + record(STATUS_TYPE, status, 0)


def map_entries(layout, data_count, hash_count):
    """The entries of the data blocks, then those of the hash blocks."""
    places = [layout.data + BLOCK * i for i in range(data_count)]
    places += [layout.hash_area + BLOCK * k for k in range(hash_count)]
    return b"".join(
        ENTRY.pack(place & 0xFFFFFFFF, place >> 32, BLOCK, 0) for place in places
    )


def pack(survey, file_id, unsigned):
    """The backing file of a content in which every block is stored, up to the first data block."""
    data_count = survey.data_count
    root, hash_blocks = (None, []) if unsigned else tree_of(survey.leaves)
    hash_count = len(hash_blocks)
    blob = None if unsigned else signature_blob(root)
    layout = Layout(data_count, hash_count, blob)
    front = (
        HEADER.pack(
            MAGIC, 1, HEADER.size, BLOCK, 0, layout.map_record, survey.size, file_id
        )
        + records(layout, data_count + hash_count, blob, hash_count)
        + (blob or b"")
        + map_entries(layout, data_count, hash_count)
    )
    front = front.ljust(layout.hash_area, b"\0")
    front = b"".join([front, *hash_blocks])
    size = len(front) + BLOCK * data_count
    return Packed(front, size, data_count, hash_count, root)


# The flag of a header that shows a part of another file.
MAPPED = 2


def mapped_header(file_id, offset, size):
    """The whole backing file of a mapped name: a header without blocks, which shows so many bytes of another file from an offset on."""
    return HEADER.pack(MAGIC, 1, HEADER.size, BLOCK, MAPPED, offset, size, file_id)


class Told(NamedTuple):
    """What a backing file says of its content."""

    size: int
    file_id: bytes
    # None where the file is unsigned.
    root: bytes | None


def fields_at(file, at, fields):
    """The fields that stand at a place of a file, or None where it ends before."""
    file.seek(at)
    piece = file.read(fields.size)
    return fields.unpack(piece) if len(piece) == fields.size else None


def told_root(file, first):
    """The root that the chain of records leads to, or None where the file is unsigned."""
    at, left = first, MOST_RECORDS
    while at and left:
        found = fields_at(file, at, RECORD)
        if found is None:
            return None
        kind, _, _, following, _ = found
        signature = fields_at(file, at + RECORD.size, SIGNATURE_FIELDS)
        if kind == SIGNATURE_TYPE and signature is not None:
            file.seek(signature[1])
            return root_of(file.read(signature[0]))
        at, left = following, left - 1
    return None


def told_by(path):
    """What a backing file says of its content. The program judges the file; here only what is needed of it is read."""
    try:
        with open_content(path) as file:
            found = fields_at(file, 0, HEADER)
            if found is None or found[:5] != (MAGIC, 1, HEADER.size, BLOCK, 0):
                raise Refusal(f"{path}: no backing file with a content of its own")
            first, size, file_id = found[5:]
            return Told(size, file_id, told_root(file, first))
    except OSError as error:
        raise refusal_of(path, "cannot be read", error) from None
