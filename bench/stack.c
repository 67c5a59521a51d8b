/*
 * How much stack the functions of libvdb.a use: each is called on a stack that was painted before; what is no longer painted was used.
 *
 *     stack FILE
 */
#include <pthread.h>
#include <stdlib.h>
#include <string.h>

#include "record.h"
#include "vdb.h"

enum { SIZE = 1 << 20, PAINT = 0xa5, SLOTS = 4096 };

static uint8_t *file;
static size_t len;
static uint8_t *area; /* the thread's stack, from its end on */
static uint64_t words[64], place[VDB_PLACE_WORDS], counts[VDB_WALK_COUNTS];
static int32_t x[SLOTS], y[SLOTS], z[SLOTS];
static uint32_t level[SLOTS], value[SLOTS], refused;
static uint32_t *filled;

static void nothing(void) {}
static void open_file(void) { refused |= vdb_open_file(file, len, words); }
static void grid_numbered(void) { refused |= vdb_grid_numbered(file, len, 0, words); }
static void grid_entry(void) { refused |= vdb_grid_entry_numbered(file, len, 0, (const uint8_t *)"class", 5, words); }
static void open_grid(void) { refused |= vdb_open_grid_numbered(file, len, 0, words, place); }
static void fill_leaf(void) { refused |= vdb_fill_leaf_numbered(file, len, 0, 0, filled, 512); }
static void fill_leaves(void) { refused |= vdb_fill_leaves_numbered(file, len, 0, 0, filled, 512 * words[VDB_OPENED_LEAF_COUNT]); }

static void walk(void)
{
    do refused |= vdb_walk(file, len, place, x, SLOTS, y, SLOTS, z, SLOTS, level, SLOTS, value, SLOTS, counts);
    while (refused == 0 && counts[VDB_LEFT] > 0);
}

/* Paints what lies below this frame, calls, and looks how far down the paint is gone. */
static __attribute__((noinline)) size_t used(void (*call)(void))
{
    volatile uint8_t *here = (volatile uint8_t *)__builtin_frame_address(0) - 256, *at = area;
    for (; at < here; at++) *at = PAINT;
    call();
    for (at = area; at < here && *at == PAINT; at++) {}
    return (size_t)(here + 256 - at);
}

static void *measure(void *unused)
{
    const size_t bare = used(nothing);
    const struct {
        const char *name;
        void (*call)(void);
    } calls[] = {{"stack_open_file", open_file}, {"stack_grid", grid_numbered}, {"stack_entry", grid_entry},  {"stack_open", open_grid},
                 {"stack_walk", walk},           {"stack_fill", fill_leaf},     {"stack_fills", fill_leaves}};
    for (size_t i = 0; i < sizeof calls / sizeof *calls; i++) {
        size_t n = used(calls[i].call);
        print_number(calls[i].name, n > bare ? n - bare : 0);
        if (calls[i].call == open_grid) filled = malloc(4 * 512 * (words[VDB_OPENED_LEAF_COUNT] + 1));
    }
    return unused;
}

int main(int count, char **argument)
{
    pthread_attr_t attributes;
    pthread_t thread;
    FILE *f = count == 2 ? fopen(argument[1], "rb") : NULL;
    if (f == NULL || fseek(f, 0, SEEK_END) != 0) return 2;
    len = (size_t)ftell(f);
    rewind(f);
    file = malloc(len + 1);
    if (file == NULL || fread(file, 1, len, f) != len) return 2;
    area = aligned_alloc(4096, SIZE);
    if (area == NULL || pthread_attr_init(&attributes) != 0 || pthread_attr_setstack(&attributes, area, SIZE) != 0) return 2;
    if (pthread_create(&thread, &attributes, measure, NULL) != 0 || pthread_join(thread, NULL) != 0) return 2;
    return refused != 0;
}
