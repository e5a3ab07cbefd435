"""Signature blobs, and the v4 signature files that begin with one."""

import struct

from packing.contents import DIGEST
from packing.refusals import Refusal

# The size of a section of a signature file, and its version.
SECTION_SIZE = struct.Struct("<I")

# Where the root stands in a blob without salt.
ROOT_AT = 21


def signature_blob(root):
    """The blob of a root, with no salt and empty signing info."""
    sha256, log_of_block = 1, 12
    hash_info = struct.pack("<IBII", sha256, log_of_block, 0, len(root)) + root
    return struct.pack("<II", 2, len(hash_info)) + hash_info + struct.pack("<I", 0)


def root_of(blob):
    """The root that a blob without salt has, as `incfs make` takes it."""
    return blob[ROOT_AT : ROOT_AT + DIGEST]


def sized_end(path, content, at):
    """Where the section ends whose size stands at a place."""
    if len(content) < at + SECTION_SIZE.size:
        raise Refusal(f"{path}: no v4 signature: it ends inside a section's size")
    end = at + SECTION_SIZE.size + SECTION_SIZE.unpack_from(content, at)[0]
    if len(content) < end:
        raise Refusal(f"{path}: no v4 signature: it ends inside a section")
    return end


def leading_blob(path, content):
    """The signature blob that a v4 signature file begins with: its version, the hash info and the signing info."""
    if not content.startswith(SECTION_SIZE.pack(2)):
        raise Refusal(f"{path}: no v4 signature: its version isn't 2")
    hash_info_end = sized_end(path, content, SECTION_SIZE.size)
    return content[: sized_end(path, content, hash_info_end)]


def following_tree(path, content):
    """The hash blocks that stand in a v4 signature file behind its blob."""
    at = len(leading_blob(path, content))
    return content[at + SECTION_SIZE.size : sized_end(path, content, at)]
