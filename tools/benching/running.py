"""How the commands are timed, and the files that they are timed on."""

import pathlib
import random
import subprocess
import sys

TOP = pathlib.Path(__file__).resolve().parent.parent.parent
PROGRAM = TOP / "crates" / "incfs" / "out" / "incfs"
PACKER = TOP / "tools" / "incfs-pack"
FILE_ID = "00112233445566778899aabbccddeeff"
BLOCK = 4096
MEBIBYTE = 1 << 20
FRESH_FRONT = 250
ENTRY = 10


# Runs a command, and prints its seconds, the most memory that it held in bytes, and its exit status. It stands in a process of its own,
# since a child's peak counts what its parent held when the child began.
RUNNER = """
import os, sys, time
put_in = os.open(sys.argv[1], os.O_RDONLY)
begin = time.perf_counter()
actions = [(os.POSIX_SPAWN_OPEN, 1, os.devnull, os.O_WRONLY, 0), (os.POSIX_SPAWN_DUP2, put_in, 0)]
child = os.posix_spawn(sys.argv[2], sys.argv[2:], os.environ, file_actions=actions)
_, status, usage = os.wait4(child, 0)
print(time.perf_counter() - begin, usage.ru_maxrss * 1024, os.waitstatus_to_exitcode(status))
"""


def measured(folder, *command, put_in="/dev/null"):
    """The seconds that a command took, and the most memory that it held, in bytes; at least what a small Python process holds."""
    run = [sys.executable, "-S", "-c", RUNNER, put_in, *map(str, command)]
    told = subprocess.run(run, cwd=folder, check=True, capture_output=True, text=True)
    seconds, memory, status = told.stdout.split()
    if status != "0":
        sys.exit(f"bench: {command[0]} ended with status {status}")
    return float(seconds), int(memory)


def best(times, folder, *command):
    """The least seconds and the most memory of several runs."""
    rows = [measured(folder, *command) for _ in range(times)]
    return min(seconds for seconds, _ in rows), max(memory for _, memory in rows)


def tell(what, seconds, memory, more=""):
    print(f"  {what:<26} {seconds * 1000:9.1f} ms  {memory / 1e6:7.2f} MB{more}")


def write_content(folder, mebibytes):
    """A file of random bytes, always the same."""
    numbers = random.Random(7)
    with (folder / "content").open("wb") as file:
        for _ in range(mebibytes):
            file.write(numbers.randbytes(MEBIBYTE))


def hash_blocks(blocks):
    """How many hash blocks a content of so many data blocks has."""
    count = 0
    while blocks > 1:
        blocks = -(-blocks // 128)
        count += blocks
    return count


def fresh_length(size):
    """The bytes of a fresh signed file without signing info, for a content of this size."""
    blocks = -(-size // BLOCK)
    hashes = hash_blocks(blocks)
    map_end = FRESH_FRONT + ENTRY * (blocks + hashes)
    return map_end if hashes == 0 else -(-map_end // BLOCK) * BLOCK + BLOCK * hashes
