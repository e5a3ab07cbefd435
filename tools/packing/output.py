"""What a tool writes: lines and bytes to standard output, and a file that appears under its name when it is whole."""

import contextlib
import hashlib
import os
import secrets
import stat

from packing.contents import content_blocks, refuse_changed, whole_block
from packing.refusals import Refusal, refusal_of

STANDARD_OUTPUT = 1


def write_bytes(piece):
    """All of the bytes to standard output."""
    while piece:
        try:
            # Past Python's buffer, so that a failing output is met here and not at the end.
            piece = piece[os.write(STANDARD_OUTPUT, piece) :]
        except OSError as error:
            raise refusal_of("standard output", "cannot be written", error) from None


def say(line):
    # The name of a file need not be UTF-8, so it is written as it came.
    write_bytes(os.fsencode(line + "\n"))


def refuse_taken(out):
    if os.path.lexists(out):
        raise Refusal(f"{out}: exists already; --force replaces it")


def refuse_unfit(out, source):
    """Refuses to replace what nobody can mean to replace by a backing file."""
    if not os.path.lexists(out):
        return
    taken = os.lstat(out)
    if not stat.S_ISREG(taken.st_mode):
        raise Refusal(f"{out}: exists and is not a regular file")
    if os.path.samestat(taken, os.stat(source)):
        raise Refusal(f"{out}: the same file as {source}")


def give_name(temporary, out, force):
    """Lets a whole file appear under its name in one step."""
    if force:
        os.replace(temporary, out)
        return
    try:
        # A link refuses a name that was taken meanwhile; a rename would replace it.
        os.link(temporary, out)
    except FileExistsError:
        refuse_taken(out)
        raise
    except OSError:
        # Some file systems have no links. A look and a rename are the next best.
        refuse_taken(out)
        os.rename(temporary, out)


def write_parts(file, packed, source, survey):
    """The whole backing file. What is copied has to be what was surveyed."""
    whole = hashlib.sha256()
    file.write(packed.front)
    for block in content_blocks(source):
        whole.update(block)
        file.write(whole_block(block))
    if whole.digest() != survey.digest:
        refuse_changed(source)


def write_image(out, packed, source, survey, force):
    """Writes beside OUT first, so that a failure leaves no half file there."""
    name = f".incfs-pack-{secrets.token_hex(8)}"
    temporary = os.path.join(os.path.dirname(out), name)
    try:
        with open(temporary, "xb") as file:
            write_parts(file, packed, source, survey)
            file.flush()
            # Else a power cut could leave OUT's name with half of the bytes.
            os.fsync(file.fileno())
        give_name(temporary, out, force)
    except OSError as error:
        raise refusal_of(out, "cannot be written", error) from None
    finally:
        # It is gone where it was renamed, and never came where opening failed.
        with contextlib.suppress(OSError):
            os.unlink(temporary)
