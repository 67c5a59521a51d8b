/*
 * The library with a fault put in on purpose, the one whose number BROKEN holds: what damage.c must notice. Linked with --wrap for the functions below.
 */
#include <stdlib.h>
#include <string.h>

#include "vdb.h"

#define ORIGINS const uint8_t *file, size_t file_len, uint32_t n, uint64_t first, int32_t *x, size_t x_len, int32_t *y, size_t y_len, int32_t *z, size_t z_len
#define WALK const uint8_t *file, size_t file_len, uint64_t place[VDB_PLACE_WORDS], int32_t *x, size_t x_len, int32_t *y, size_t y_len, int32_t *z, \
    size_t z_len, uint32_t *level, size_t level_len, uint32_t *value, size_t value_len, uint64_t counts[VDB_WALK_COUNTS]

uint32_t __real_vdb_open_file(const uint8_t *file, size_t file_len, uint64_t *out);
uint32_t __real_vdb_fill_leaf_numbered(const uint8_t *file, size_t file_len, uint32_t n, uint64_t leaf, uint32_t *slots, size_t slots_len);
uint32_t __real_vdb_walk(WALK);
uint32_t __real_vdb_leaf_origins_numbered(ORIGINS);

static int broken(int number)
{
    const char *found = getenv("BROKEN");
    return found != NULL && atoi(found) == number;
}

static volatile uint8_t seen;

uint32_t __wrap_vdb_open_file(const uint8_t *file, size_t file_len, uint64_t *out)
{
    uint32_t k = __real_vdb_open_file(file, file_len, out);
    if (broken(1)) seen = file[file_len];                                                    /* reads a byte past the end */
    if (broken(2) && file_len > 0) *(volatile uint8_t *)(uintptr_t)file = file[0];           /* writes to the file */
    if (broken(3) && k != 0) memset(out, 0, 8 * VDB_FILE_WORDS);                             /* a refusal clears what was lent */
    if (broken(4) && k == 9) return 2;                                                       /* another refusal than the other calls' */
    return k;
}

uint32_t __wrap_vdb_fill_leaf_numbered(const uint8_t *file, size_t file_len, uint32_t n, uint64_t leaf, uint32_t *slots, size_t slots_len)
{
    uint32_t k = __real_vdb_fill_leaf_numbered(file, file_len, n, leaf, slots, slots_len);
    if (broken(5) && k == 21 && slots_len > 0) slots[slots_len - 1]++; /* a refusal changes a slot */
    if (broken(6) && k == 0) slots[511] ^= 1;                          /* by number another value than by name */
    if (broken(7) && k == 0) slots[slots_len] = 0;                     /* writes a slot too many */
    return k;
}

uint32_t __wrap_vdb_walk(WALK)
{
    uint64_t kept[VDB_PLACE_WORDS];
    uint32_t k;
    memcpy(kept, place, sizeof kept);
    if (broken(14)) place[0] = VDB_LAYOUT;                                                /* words of another layout are walked from */
    k = __real_vdb_walk(file, file_len, place, x, x_len, y, y_len, z, z_len, level, level_len, value, value_len, counts);
    if (broken(8) && k == 0 && counts[VDB_FILLED] < x_len) x[counts[VDB_FILLED]]++;       /* changes a slot past the filled ones */
    if (broken(9) && k == 0 && counts[VDB_LEFT] > 0) memcpy(place, kept, sizeof kept);    /* a later call repeats the records */
    if (broken(10) && k == 0) counts[VDB_LEFT] = 0;                                       /* nothing left before all is handed out */
    if (broken(11) && k == 0 && counts[VDB_FILLED] == 1) z[0] ^= 1;                       /* with one slot another record */
    if (broken(12) && k == 22) place[0]++;                                                /* a refusal changes the place */
    if (broken(13) && k == 0 && x_len > 0) x[-1] = x[0];                                  /* writes before the slots */
    return k;
}

uint32_t __wrap_vdb_leaf_origins_numbered(ORIGINS)
{
    uint32_t k = __real_vdb_leaf_origins_numbered(file, file_len, n, first, x, x_len, y, y_len, z, z_len);
    if (broken(15) && k == 0 && y_len > 0) y[y_len - 1] += 8; /* by number another origin than by name */
    if (broken(16) && k == 21 && z_len > 0) z[0] = 0;         /* a refusal changes a slot */
    return k;
}
