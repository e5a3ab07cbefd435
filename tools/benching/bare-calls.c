/* The calls of the device that a fill of a fresh file makes, and nothing else: for each group of 64 blocks a block and its place are written
   for each, then comes a sync, then the gate is written for each, then comes a sync. Hash blocks go first.

   bare-calls FILE MAP TREE DATA HASHES: MAP and TREE are the places of the block map and of the tree, then follow the numbers of blocks. */

#define _XOPEN_SOURCE 700
#include <fcntl.h>
#include <stdlib.h>
#include <string.h>
#include <unistd.h>

enum { BLOCK = 4096, ENTRY = 10, PLACE = 6, GATE_AT = 7, GROUP = 64 };

static unsigned char block[BLOCK];

/* Writes all of some bytes, or gives up. */
static void put(int file, const void *bytes, size_t count, off_t at)
{
    if (pwrite(file, bytes, count, at) != (ssize_t)count)
        exit(1);
}

static void settle(int file)
{
    if (fsync(file) != 0)
        exit(1);
}

int main(int count, char **words)
{
    if (count != 6)
        return 2;
    int file = open(words[1], O_RDWR);
    off_t map = atoll(words[2]), tree = atoll(words[3]);
    long data = atol(words[4]), hashes = atol(words[5]), all = data + hashes;
    if (file < 0)
        return 1;
    off_t end = lseek(file, 0, SEEK_END);
    memset(block, 7, sizeof block);
    for (long first = 0; first < all; first += GROUP) {
        long last = first + GROUP < all ? first + GROUP : all;
        for (long i = first; i < last; i++) {
            /* The entries of the data blocks stand first in the map. */
            long entry = i < hashes ? data + i : i - hashes;
            off_t place = i < hashes ? tree + BLOCK * i : end + BLOCK * (i - hashes);
            put(file, block, BLOCK, place);
            put(file, &place, PLACE, map + ENTRY * entry);
        }
        settle(file);
        for (long i = first; i < last; i++) {
            long entry = i < hashes ? data + i : i - hashes;
            put(file, "\x10", 1, map + ENTRY * entry + GATE_AT);
        }
        settle(file);
    }
    return close(file) == 0 ? 0 : 1;
}
