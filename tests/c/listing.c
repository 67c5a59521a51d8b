/*
 * Lists the records of a file's first grid through libvdb.a, as the program `listing` does.
 *
 *     listing FILE           lists FILE
 *     listing FILE PLACE     the same, one record a call; between two calls the place is written to the file PLACE and read back
 *     listing FILE - OTHER   walks over the bytes of OTHER from the place of FILE's first grid, with one slot
 */
#include <inttypes.h>
#include <stdio.h>
#include <stdlib.h>
#include <string.h>

#include "vdb.h"

enum { SLOTS = 64 };

struct bytes {
    uint8_t *at;
    size_t len;
};

static void stop(const char *what)
{
    fprintf(stderr, "listing: %s\n", what);
    exit(1);
}

static struct bytes load(const char *path)
{
    struct bytes file = {NULL, 0};
    FILE *f = fopen(path, "rb");
    size_t room = 1 << 16, n;
    if (f == NULL) stop(path);
    file.at = (uint8_t *)malloc(room);
    if (file.at == NULL) stop("no memory");
    while ((n = fread(file.at + file.len, 1, room - file.len, f)) > 0) {
        file.len += n;
        if (file.len == room) {
            room *= 2;
            file.at = (uint8_t *)realloc(file.at, room);
            if (file.at == NULL) stop("no memory");
        }
    }
    fclose(f);
    return file;
}

/* The place through a file: what is read back must be what was written. */
static void carry(const char *path, uint64_t place[VDB_PLACE_WORDS])
{
    const size_t words = VDB_PLACE_WORDS;
    FILE *f = fopen(path, "wb");
    if (f == NULL || fwrite(place, sizeof *place, words, f) != words || fclose(f) != 0) stop(path);
    memset(place, 0xff, words * sizeof *place);
    f = fopen(path, "rb");
    if (f == NULL || fread(place, sizeof *place, words, f) != words || fclose(f) != 0) stop(path);
}

static int refused(uint32_t k)
{
    printf("refused %" PRIu32 "\n", k);
    return 0;
}

int main(int count, char **argument)
{
    uint64_t opened[VDB_OPENED_WORDS], place[VDB_PLACE_WORDS], counts[VDB_WALK_COUNTS];
    int32_t x[SLOTS], y[SLOTS], z[SLOTS];
    uint32_t level[SLOTS], value[SLOTS];
    const char *through = count == 3 ? argument[2] : NULL;
    size_t slots = count == 2 ? SLOTS : 1;
    struct bytes file;
    uint32_t k;

    if (vdb_layout() != VDB_LAYOUT) stop("the library has another layout than vdb.h");
    if (count < 2 || count > 4) stop("usage: listing FILE [PLACE | - OTHER]");
    file = load(argument[1]);
    k = vdb_open_grid_numbered(file.at, file.len, 0, opened, place);
    if (k != 0) return refused(k);
    if (count == 4) {
        free(file.at);
        file = load(argument[3]);
    } else {
        printf("records %" PRIu64 "\n", opened[VDB_OPENED_ACTIVE_COUNT]);
    }
    do {
        if (through != NULL) carry(through, place);
        k = vdb_walk(file.at, file.len, place, x, slots, y, slots, z, slots, level, slots, value, slots, counts);
        if (k != 0) return refused(k);
        for (uint64_t i = 0; i < counts[VDB_FILLED]; i++)
            printf("%" PRId32 " %" PRId32 " %" PRId32 " %" PRIu32 " %08" PRIx32 "\n", x[i], y[i], z[i], level[i], value[i]);
    } while (counts[VDB_LEFT] > 0);
    free(file.at);
    return 0;
}
