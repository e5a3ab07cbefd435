"""Times commands in a folder of many files."""

import subprocess
import sys

from benching.running import FILE_ID, PACKER, PROGRAM
from benching.running import best, tell, write_content

OTHERS = 100
MEBIBYTES = 16
# The last name, so that every other one comes before it.
NAME = "zz"
# Where a header has the file's id.
ID_AT = 40
ID_END = 56

# What a read beside the others may take of one in a folder of its own.
MOST_READ = 1.5
# What a list of all of them may take, in seconds.
MOST_LIST = 0.2


def lay_out(folder):
    """A full file in a folder of its own, and the same file beside many others of its size, each with an id of its own."""
    write_content(folder, MEBIBYTES)
    subprocess.run(
        [PACKER, "image", "content", "packed", "--id", FILE_ID], cwd=folder, check=True, stdout=subprocess.DEVNULL
    )
    packed = (folder / "packed").read_bytes()
    alone, crowded = folder / "alone", folder / "crowded"
    alone.mkdir()
    crowded.mkdir()
    (alone / NAME).write_bytes(packed)
    (crowded / NAME).write_bytes(packed)
    for number in range(OTHERS):
        # Nothing that the signature covers names the id.
        own = number.to_bytes(ID_END - ID_AT, "little")
        with (crowded / f"other-{number:03}").open("wb") as file:
            file.write(packed[:ID_AT])
            file.write(own)
            file.write(packed[ID_END:])
    return alone, crowded


def require_listed(folder):
    """Ends the tool where a name of the folder isn't listed, so that only a whole list is timed."""
    told = subprocess.run([PROGRAM, "list"], cwd=folder, check=True, capture_output=True, text=True).stdout
    words = set(told.split())
    for path in folder.iterdir():
        if path.name not in words:
            sys.exit(f"bench: {path.name} isn't listed")


def time_many(folder, repeats):
    """A read of one block and a list, in a folder of one file and in one of many."""
    alone, crowded = lay_out(folder)
    require_listed(crowded)
    print(f"a full file of {MEBIBYTES} MiB, alone and beside {OTHERS} others of its size")
    single = best(repeats, alone, PROGRAM, "read", NAME, "0")
    beside = best(repeats, crowded, PROGRAM, "read", NAME, "0")
    listed = best(repeats, crowded, PROGRAM, "list")
    tell("read of one block, alone", *single)
    tell("read beside the others", *beside, f"  {beside[0] / single[0]:.2f} of it (goal {MOST_READ})")
    tell("list of all", *listed, f"  (goal {1000 * MOST_LIST:.0f} ms)")
