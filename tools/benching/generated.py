"""Times `big`, which makes, fills and checks a file for a generated content."""

import shutil
import subprocess
import sys

from benching.running import BLOCK, FILE_ID, FRESH_FRONT, MEBIBYTE, PACKER, PROGRAM
from benching.running import best, fresh_length, hash_blocks, measured, tell
from benching.streams import best_on, built_calls, most_memory

NUMBER = 7
SIZES = (64, 1024)
# How often a content is hashed: for its tree, as it is filled in, and as it is checked.
HASHED = 3

# What `big` may take of as many times sha256sum and the bare calls together.
MOST_TIME = 1.3
# What a block of the largest content may take of one of the smallest.
MOST_GROWTH = 1.2


class Content:
    """A generated content, and a fresh file for it, in a folder in memory."""

    def __init__(self, folder, mebibytes):
        self.folder = folder
        self.size = mebibytes * MEBIBYTE
        self.data = self.size // BLOCK
        self.hashes = hash_blocks(self.data)
        self.tree = fresh_length(self.size) - BLOCK * self.hashes
        turns = bytes(range(251)) * 18
        with (folder / "content").open("wb") as file:
            for block in range(self.data):
                begin = (NUMBER + (BLOCK + 1) * block) % 251
                file.write(turns[begin : begin + BLOCK])
        blob = subprocess.run([PACKER, "sign", "content"], cwd=folder, check=True, capture_output=True).stdout
        words = [PROGRAM, "make", "fresh", str(self.size), FILE_ID]
        subprocess.run(words, cwd=folder, check=True, input=blob, stdout=subprocess.DEVNULL)

    def copy(self, source, target):
        shutil.copyfile(self.folder / source, self.folder / target)

    def bare_calls(self, program):
        return measured(self.folder, program, "taken", FRESH_FRONT, self.tree, self.data, self.hashes)

    def big(self):
        (self.folder / "whole").unlink(missing_ok=True)
        return measured(self.folder, PROGRAM, "big", "whole", NUMBER, self.size)

    def is_whole(self):
        """Whether the blocks of the filled file are the content, which stands behind the tree."""
        with (self.folder / "whole").open("rb") as whole, (self.folder / "content").open("rb") as content:
            whole.seek(fresh_length(self.size))
            while part := content.read(MEBIBYTE):
                if whole.read(MEBIBYTE) != part:
                    return False
            return not whole.read(1)


def time_generated(folder, mebibytes, repeats):
    """One size. Answers the seconds of `big`."""
    content = Content(folder, mebibytes)
    summed = best(repeats, folder, shutil.which("sha256sum"), "content")[0]
    bare, _ = best_on(content, repeats, "fresh", lambda: content.bare_calls(built_calls(folder)))
    (folder / "taken").unlink()
    rows = [content.big() for _ in range(repeats)]
    if not content.is_whole():
        sys.exit("bench: the file's blocks aren't the content")
    seconds, held = min(seconds for seconds, _ in rows), max(memory for _, memory in rows)
    blocks = content.data + content.hashes
    memory = most_memory(blocks, blocks)
    whole = HASHED * summed + bare
    print(f"a generated content of {mebibytes} MiB")
    tell("sha256sum of the content", summed, 0)
    tell("the bare calls", bare, 0)
    tell("big", seconds, held, f"  {seconds / whole:.2f} of {HASHED} sums and the calls (goal {MOST_TIME})")
    print(f"  {'':<26} {held / memory:.2f} of the memory that it may hold, {memory / 1e6:.2f} MB (goal 1)")
    return seconds


def tell_growth(times):
    """The time of a block by the content's size. `times` has the seconds by the size in MiB."""
    growth = (times[max(times)] / max(times)) / (times[min(times)] / min(times))
    print(f"a block of the largest content takes {growth:.2f} of one of the smallest (goal {MOST_GROWTH})")
