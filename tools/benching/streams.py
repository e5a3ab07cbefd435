"""Times fills from streams."""

import pathlib
import shutil
import subprocess
import sys

from benching.running import BLOCK, ENTRY, FILE_ID, FRESH_FRONT, MEBIBYTE, PACKER, PROGRAM
from benching.running import fresh_length, hash_blocks, measured, tell, write_content

MEBIBYTES = 64
# A stream without a piece: filling from it opens the file and no more.
EMPTY = b"INCLDR\1\0\2"

# What a fill may take of sha256sum and the bare calls together.
MOST_TIME = 0.75
# What going on with a half-filled file may take of a fill of as many blocks and one opening together.
MOST_RESUME = 1.1


def most_memory(blocks, filled):
    """What a fill may hold, in bytes: that for each block of the file, and that for each block that is filled."""
    return 12_000_000 + 120 * blocks + 450 * filled


class Files:
    """A content, its streams, and the backing files that fills begin with, in a folder in memory."""

    def __init__(self, folder):
        self.folder = folder
        size = MEBIBYTES * MEBIBYTE
        self.data = size // BLOCK
        self.hashes = hash_blocks(self.data)
        self.map = FRESH_FRONT
        self.tree = fresh_length(size) - BLOCK * self.hashes
        write_content(folder, MEBIBYTES)
        half = self.data // 2
        self.write_stream("whole")
        self.write_stream("first", "--only", f"0-{half - 1}")
        self.write_stream("second", "--only", f"{half}-{self.data - 1}")
        (folder / "empty").write_bytes(EMPTY)
        self.make("fresh", size)
        self.copy("fresh", "half")
        self.fill("half", "first")

    def write_stream(self, name, *options):
        with (self.folder / name).open("wb") as file:
            words = [PACKER, "stream", "content", "--id", FILE_ID, *options]
            subprocess.run(words, cwd=self.folder, check=True, stdout=file)

    def make(self, name, size):
        blob = subprocess.run([PACKER, "sign", "content"], cwd=self.folder, check=True, capture_output=True).stdout
        words = [PROGRAM, "make", name, str(size), FILE_ID]
        subprocess.run(words, cwd=self.folder, check=True, input=blob, stdout=subprocess.DEVNULL)

    def copy(self, source, target):
        shutil.copyfile(self.folder / source, self.folder / target)

    def fill(self, name, stream):
        return measured(self.folder, PROGRAM, "fill", name, put_in=self.folder / stream)

    def bare_calls(self, program):
        return measured(self.folder, program, "taken", self.map, self.tree, self.data, self.hashes)

    def check(self, name):
        measured(self.folder, PROGRAM, "check", name)


def built_calls(folder):
    """The program of the bare calls."""
    compiler = shutil.which("cc")
    if compiler is None:
        sys.exit("bench: no cc to build the bare calls with")
    program = folder / "bare-calls"
    subprocess.run([compiler, "-O2", "-o", program, pathlib.Path(__file__).with_name("bare-calls.c")], check=True)
    return program


def best_on(files, repeats, begin, run):
    """The least seconds and the most memory of several runs, each on a new copy of a file."""
    rows = []
    for _ in range(repeats):
        files.copy(begin, "taken")
        rows.append(run())
    return min(seconds for seconds, _ in rows), max(memory for _, memory in rows)


def time_fill_stream(folder, repeats):
    """Fills of a whole stream, and of its second half where the first half is there."""
    files = Files(folder)
    calls = built_calls(folder)
    summed = min(measured(folder, shutil.which("sha256sum"), "content")[0] for _ in range(repeats))
    bare, _ = best_on(files, repeats, "fresh", lambda: files.bare_calls(calls))
    whole = best_on(files, repeats, "fresh", lambda: files.fill("taken", "whole"))
    files.check("taken")
    second = best_on(files, repeats, "fresh", lambda: files.fill("taken", "second"))
    opened = best_on(files, repeats, "half", lambda: files.fill("taken", "empty"))
    resumed = best_on(files, repeats, "half", lambda: files.fill("taken", "second"))
    files.check("taken")
    blocks = files.data + files.hashes
    memory = most_memory(blocks, blocks)
    print(f"a stream of {MEBIBYTES} MiB")
    tell("sha256sum of the content", summed, 0)
    tell("the bare calls", bare, 0)
    tell("fill of all blocks", *whole, f"  {whole[0] / (summed + bare):.2f} of both (goal {MOST_TIME})")
    print(f"  {'':<26} {whole[1] / memory:.2f} of the memory that it may hold, {memory / 1e6:.2f} MB (goal 1)")
    tell("fill of the second half", *second)
    tell("fill of none, the half there", *opened)
    both = second[0] + opened[0]
    tell("the second half goes on", *resumed, f"  {resumed[0] / both:.2f} of both (goal {MOST_RESUME})")
