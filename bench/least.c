/*
 * What opening costs at the least: a plain loop over the leaves of a cloud of floats that make_cloud.cc wrote. It takes the steps that no reader can leave
 * out: it counts the ones of the topology's mask, by the processor's own instruction, compares the block's mask with it, reads the node byte and goes on to
 * the next block. Where the topology's masks stand it is told.
 *
 *     least FILE REPETITIONS    each repetition copies the file first, as ours.c does; the first one is not timed
 */
#include <stdlib.h>
#include <string.h>

#include "record.h"
#include "vdb.h"

static uint8_t *file, *copy;
static size_t len, leaves, first_block;
static size_t *masks; /* where the topology's mask of each leaf stands */

static void stop(const char *what)
{
    fprintf(stderr, "least: %s\n", what);
    exit(1);
}

static uint64_t word(const uint8_t *s)
{
    uint64_t w;
    memcpy(&w, s, 8);
    return w;
}

static size_t count(const uint8_t *mask, size_t n)
{
    size_t ones = 0;
    for (size_t i = 0; i < n; i += 8) ones += (size_t)__builtin_popcountll(word(mask + i));
    return ones;
}

/* Behind a node byte and what it says is there. */
static size_t behind_form(size_t at, size_t n)
{
    const uint8_t form = file[at];
    if (form == 6) stop("a node that stores every place");
    return at + 1 + (form == 2 || form == 4 ? 4 : 0) + (form == 5 ? 8 : 0) + (form >= 3 ? n : 0);
}

/* Behind the header of a node with masks of n bytes. */
static size_t behind_node(size_t at, size_t n) { return behind_form(at + 2 * n, n) + 4 * count(file + at + n, n); }

static int has(size_t mask, size_t place) { return file[mask + place / 8] >> place % 8 & 1; }

static void find_masks(void)
{
    uint64_t grid[VDB_GRID_WORDS], opened[VDB_OPENED_WORDS], place[VDB_PLACE_WORDS];
    if (vdb_grid_numbered(file, len, 0, grid) != 0 || vdb_open_grid_numbered(file, len, 0, opened, place) != 0) stop("refused");
    first_block = grid[VDB_GRID_BLOCK_POSITION];
    /* behind the transform, whose doubles end it: four numbers, the last of them how many roots there are */
    size_t at = opened[VDB_OPENED_DOUBLES_AT] + 8 * opened[VDB_OPENED_MAP] + 16;
    const uint32_t roots = (uint32_t)word(file + at - 4);
    for (uint32_t root = 0; root < roots; root++) {
        const size_t node5 = at + 12;
        at = behind_node(node5, 4096);
        for (size_t p = 0; p < 32768; p++) {
            if (!has(node5, p)) continue;
            const size_t node4 = at;
            at = behind_node(node4, 512);
            for (size_t q = 0; q < 4096; q++)
                if (has(node4, q)) masks[leaves++] = at, at += 64;
        }
    }
    if (leaves != opened[VDB_OPENED_LEAF_COUNT]) stop("another number of leaves");
}

static __attribute__((noinline)) void loop(void)
{
    size_t at = first_block;
    for (size_t leaf = 0; leaf < leaves; leaf++) {
        const uint8_t *mask = file + masks[leaf];
        uint64_t differ = 0;
        if (len - at < 65) stop("past the end");
        for (size_t i = 0; i < 64; i += 8) differ |= word(mask + i) ^ word(file + at + i);
        if (differ != 0) stop("another mask");
        const uint8_t form = file[at + 64];
        at += 65;
        /* a branch: were it a sum, each block would wait for the byte of the one before */
        if (form > 1) {
            if (form != 3) stop("a form that these clouds do not have");
            at += 64;
        }
        at += 4 * count(mask, 64);
    }
    if (at > len) stop("past the end");
}

static void measure(int timed)
{
    memcpy(copy, file, len);
    __asm__ volatile("" : : "r"(copy) : "memory");
    const struct moment from = start();
    loop();
    if (timed) print_time("least", from);
}

int main(int argc, char **argv)
{
    FILE *f = argc == 3 ? fopen(argv[1], "rb") : NULL;
    if (f == NULL || fseek(f, 0, SEEK_END) != 0) stop("usage: least FILE REPETITIONS");
    len = (size_t)ftell(f);
    rewind(f);
    file = malloc(len), copy = malloc(len), masks = malloc(len);
    if (file == NULL || copy == NULL || masks == NULL || fread(file, 1, len, f) != len) stop("not read");
    fclose(f);
    find_masks();
    print_number("leaves", leaves);
    for (int i = 0; i <= atoi(argv[2]); i++) measure(i > 0);
    return 0;
}
