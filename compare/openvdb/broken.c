/*
 * The library with a fault put in on purpose, the one whose number BROKEN holds: what whole.cc must notice. Linked with --wrap for the functions below.
 */
#include <stdlib.h>
#include <string.h>

#include "vdb.h"

#define ORIGINS const uint8_t *file, size_t file_len, uint32_t n, uint64_t first, int32_t *x, size_t x_len, int32_t *y, size_t y_len, int32_t *z, size_t z_len
#define WALK const uint8_t *file, size_t file_len, uint64_t place[VDB_PLACE_WORDS], int32_t *x, size_t x_len, int32_t *y, size_t y_len, int32_t *z, \
    size_t z_len, uint32_t *level, size_t level_len, uint32_t *value, size_t value_len, uint64_t counts[VDB_WALK_COUNTS]

uint32_t __real_vdb_open_file(const uint8_t *file, size_t file_len, uint64_t *out);
uint32_t __real_vdb_grid_numbered(const uint8_t *file, size_t file_len, uint32_t n, uint64_t *out);
uint32_t __real_vdb_grid_named(const uint8_t *file, size_t file_len, const uint8_t *name, size_t name_len, uint64_t *out);
uint32_t __real_vdb_grid_entry_numbered(const uint8_t *file, size_t file_len, uint32_t n, const uint8_t *name, size_t name_len, uint64_t *out);
uint32_t __real_vdb_grid_entry_named(const uint8_t *file, size_t file_len, const uint8_t *grid, size_t grid_len, const uint8_t *name, size_t name_len,
                                     uint64_t *out);
uint32_t __real_vdb_open_grid_numbered(const uint8_t *file, size_t file_len, uint32_t n, uint64_t *out, uint64_t *place);
uint32_t __real_vdb_open_grid_named(const uint8_t *file, size_t file_len, const uint8_t *name, size_t name_len, uint64_t *out, uint64_t *place);
uint32_t __real_vdb_fill_leaves_numbered(const uint8_t *file, size_t file_len, uint32_t n, uint64_t first, uint32_t *slots, size_t slots_len);
uint32_t __real_vdb_leaf_origins_numbered(ORIGINS);
uint32_t __real_vdb_walk(WALK);

static int broken(int number)
{
    const char *found = getenv("BROKEN");
    return found != NULL && atoi(found) == number;
}

uint32_t __wrap_vdb_open_file(const uint8_t *file, size_t file_len, uint64_t *out)
{
    uint32_t k = __real_vdb_open_file(file, file_len, out);
    if (broken(1) && k == 0) out[VDB_FILE_IDENTITY_START]++;
    if (broken(2) && k == 0) out[VDB_FILE_GRID_COUNT]++;
    return k;
}

/* What is asked by name is as wrong as what is asked by number: comparing the two shows nothing. */
static uint32_t described(uint32_t k, uint64_t *out)
{
    if (broken(3) && k == 0) out[VDB_GRID_FLAGS] ^= 2;
    if (broken(4) && k == 0) out[VDB_GRID_BLOCK_POSITION]++;
    if (broken(5) && k == 0 && out[VDB_GRID_PARENT_LEN] > 0) out[VDB_GRID_PARENT_LEN]--;
    if (broken(27) && k == 0 && out[VDB_GRID_WIDTH] == 2) out[VDB_GRID_WIDTH] = 4;
    return k;
}

uint32_t __wrap_vdb_grid_numbered(const uint8_t *file, size_t file_len, uint32_t n, uint64_t *out)
{
    return described(__real_vdb_grid_numbered(file, file_len, n, out), out);
}

uint32_t __wrap_vdb_grid_named(const uint8_t *file, size_t file_len, const uint8_t *name, size_t name_len, uint64_t *out)
{
    return described(__real_vdb_grid_named(file, file_len, name, name_len, out), out);
}

static uint32_t entry(uint32_t k, uint64_t *out)
{
    if (broken(6) && k == 0 && out[VDB_ENTRY_KIND] == VDB_INT64) out[VDB_ENTRY_VALUE] &= 0xffffffff;   /* its low half alone */
    if (broken(7) && k == 0 && out[VDB_ENTRY_KIND] == VDB_VEC3I) out[VDB_ENTRY_VALUE + 2] ^= 1;
    if (broken(8) && k == 0 && out[VDB_ENTRY_KIND] == VDB_OTHER && out[VDB_ENTRY_LEN] > 0) out[VDB_ENTRY_LEN]--;
    return k;
}

uint32_t __wrap_vdb_grid_entry_numbered(const uint8_t *file, size_t file_len, uint32_t n, const uint8_t *name, size_t name_len, uint64_t *out)
{
    return entry(__real_vdb_grid_entry_numbered(file, file_len, n, name, name_len, out), out);
}

uint32_t __wrap_vdb_grid_entry_named(const uint8_t *file, size_t file_len, const uint8_t *grid, size_t grid_len, const uint8_t *name, size_t name_len,
                                     uint64_t *out)
{
    return entry(__real_vdb_grid_entry_named(file, file_len, grid, grid_len, name, name_len, out), out);
}

static uint32_t opened(uint32_t k, uint64_t *out)
{
    if (broken(9) && k == 0) out[VDB_OPENED_DOUBLES + 14] ^= 1;            /* the last bit of the fifth vector's z, or of the fourth's */
    if (broken(10) && k == 0) out[VDB_OPENED_BACKGROUND] ^= 0x80000000;
    if (broken(11) && k == 0) out[VDB_OPENED_ACTIVE_COUNT]++;
    if (broken(12) && k == 0) out[VDB_OPENED_LEAF_COUNT]--;
    if (broken(13) && k == 0 && out[VDB_OPENED_MAP] == VDB_SCALE_TRANSLATE) memmove(out + VDB_OPENED_DOUBLES, out + VDB_OPENED_DOUBLES + 3, 15 * 8);
    if (broken(14) && k == 14) return 12;                                  /* another refusal */
    if (broken(28) && k == 6) return 25;                                   /* a packed run taken for a raw one of another length */
    return k;
}

/* Of the grid opened last, whose leaves and records are asked for next: whether it has a packing flag, the width of its values, its background, how many
   records it has, and the place before them. */
static int flagged;
static uint64_t width, background, records, fresh[VDB_PLACE_WORDS];

uint32_t __wrap_vdb_open_grid_numbered(const uint8_t *file, size_t file_len, uint32_t n, uint64_t *out, uint64_t *place)
{
    uint64_t words[VDB_GRID_WORDS];
    uint32_t k = opened(__real_vdb_open_grid_numbered(file, file_len, n, out, place), out);
    flagged = __real_vdb_grid_numbered(file, file_len, n, words) == 0 && (words[VDB_GRID_FLAGS] & 5) != 0;
    if (k == 0) {
        width = words[VDB_GRID_WIDTH], background = out[VDB_OPENED_BACKGROUND], records = out[VDB_OPENED_ACTIVE_COUNT];
        memcpy(fresh, place, sizeof fresh);
    }
    return broken(29) && k == 0 && flagged ? 6 : k;                        /* refused by its flags alone */
}

uint32_t __wrap_vdb_open_grid_named(const uint8_t *file, size_t file_len, const uint8_t *name, size_t name_len, uint64_t *out, uint64_t *place)
{
    uint32_t k = opened(__real_vdb_open_grid_named(file, file_len, name, name_len, out, place), out);
    return broken(29) && k == 0 && flagged ? 6 : k;
}

enum { PORTION = 1000, INACTIVE = 32 };

/* Which places of a run of leaves are active, by a walk over all records. */
static uint8_t *active_places(const uint8_t *file, size_t file_len, uint32_t n, uint64_t first, size_t leaves)
{
    int32_t *at = malloc(3 * leaves * sizeof *at), x[PORTION], y[PORTION], z[PORTION];
    uint32_t level[PORTION], value[PORTION];
    uint64_t place[VDB_PLACE_WORDS], counts[VDB_WALK_COUNTS] = {0, records};
    uint8_t *active = calloc(leaves, 512);
    memcpy(place, fresh, sizeof place);
    if (__real_vdb_leaf_origins_numbered(file, file_len, n, first, at, leaves, at + leaves, leaves, at + 2 * leaves, leaves) != 0) abort();
    for (size_t leaf = 0; counts[VDB_LEFT] > 0;) {
        if (__real_vdb_walk(file, file_len, place, x, PORTION, y, PORTION, z, PORTION, level, PORTION, value, PORTION, counts) != 0) abort();
        for (size_t i = 0; i < counts[VDB_FILLED]; i++) {
            size_t l = leaf;
            if (level[i] > 0) continue;
            while (l < leaves && (at[l] != (x[i] & ~7) || at[leaves + l] != (y[i] & ~7) || at[2 * leaves + l] != (z[i] & ~7))) l++;
            if (l == leaves) continue;
            leaf = l;
            active[512 * l + 64 * (x[i] & 7) + 8 * (y[i] & 7) + (z[i] & 7)] = 1;
        }
    }
    free(at);
    return active;
}

/* The low two bytes of a pattern taken for a half, zero or a normal one. */
static uint32_t widened(uint32_t pattern)
{
    uint32_t size = pattern & 0x7fff;
    return (pattern & 0x8000) << 16 | (size == 0 ? 0 : (size << 13) + 0x38000000);
}

/* Other values for the inactive places of a leaf. */
static void inactive(uint32_t *slots, const uint8_t *active)
{
    uint32_t plus = (uint32_t)background, minus = plus ^ 0x80000000, other = plus;
    int with_plus = 0, with_minus = 0, others = 0;
    for (int i = 0; i < 512; i++) {
        if (active[i]) continue;
        with_plus |= slots[i] == plus;
        with_minus |= slots[i] == minus;
        if (slots[i] == plus || slots[i] == other) continue;
        other = slots[i];
        others++;
    }
    for (int i = 0; i < 512; i++) {
        if (active[i]) continue;
        if (slots[i] == plus) {
            if (broken(INACTIVE)) slots[i] = 0;                            /* zero in place of the background */
            if (broken(INACTIVE + 2) && with_minus) slots[i] = minus;      /* the background and minus it exchanged */
            if (broken(INACTIVE + 3) && others == 1 && !with_minus) slots[i] = other; /* the value read where the background is selected */
            if (broken(INACTIVE + 4) && width == 2) slots[i] = widened(plus); /* the background taken for a half */
        } else if (slots[i] == minus) {
            if (broken(INACTIVE + 1)) slots[i] = plus;                     /* the background in place of minus it */
            if (broken(INACTIVE + 2) && with_plus) slots[i] = plus;
        }
    }
}

uint32_t __wrap_vdb_fill_leaves_numbered(const uint8_t *file, size_t file_len, uint32_t n, uint64_t first, uint32_t *slots, size_t slots_len)
{
    uint32_t k = __real_vdb_fill_leaves_numbered(file, file_len, n, first, slots, slots_len);
    uint32_t kept[512];
    for (int fault = INACTIVE; k == 0 && fault < INACTIVE + 5; fault++) {
        if (!broken(fault)) continue;
        uint8_t *active = active_places(file, file_len, n, first, slots_len / 512);
        for (size_t l = 0; l < slots_len / 512; l++) inactive(slots + 512 * l, active + 512 * l);
        free(active);
    }
    if (k != 0 || slots_len < 1024) return k;
    if (broken(15)) slots[slots_len - 1] ^= 1;                             /* one bit of the last leaf's last value */
    if (broken(16)) {                                                      /* two leaves exchanged */
        memcpy(kept, slots, sizeof kept);
        memcpy(slots, slots + 512, sizeof kept);
        memcpy(slots + 512, kept, sizeof kept);
    }
    for (size_t i = 0; broken(17) && i < slots_len; i++) slots[i] += slots[i] == 0x80000000 ? 0x80000000 : 0; /* the sign of zero is lost */
    if (broken(30) && flagged) memmove(slots, slots + 2, 510 * sizeof *slots); /* a run taken from eight bytes behind its start */
    return k;
}

uint32_t __wrap_vdb_leaf_origins_numbered(ORIGINS)
{
    uint32_t k = __real_vdb_leaf_origins_numbered(file, file_len, n, first, x, x_len, y, y_len, z, z_len);
    if (broken(26) && k == 0 && z_len > 0) z[z_len - 1] += 8; /* another origin for the last leaf */
    return k;
}

static void exchange(uint32_t *one, uint32_t *other)
{
    uint32_t kept = *one;
    *one = *other;
    *other = kept;
}

uint32_t __wrap_vdb_walk(WALK)
{
    uint32_t k = __real_vdb_walk(file, file_len, place, x, x_len, y, y_len, z, z_len, level, level_len, value, value_len, counts);
    uint64_t last = counts[VDB_FILLED] - 1, tile = 0;
    if (k != 0 || counts[VDB_FILLED] < 2) return k;
    while (tile < last && level[tile] == 0) tile++;
    if (broken(18) || (broken(31) && flagged)) value[last] ^= 1;
    if (broken(19)) z[last] ^= 1;
    if (broken(20) && level[tile] > 0) level[tile]--;
    if (broken(21)) x[last] = x[last - 1], y[last] = y[last - 1], z[last] = z[last - 1], level[last] = level[last - 1], value[last] = value[last - 1];
    if (broken(22)) {                                                      /* two records exchanged */
        exchange((uint32_t *)x + last, (uint32_t *)x + last - 1);
        exchange((uint32_t *)y + last, (uint32_t *)y + last - 1);
        exchange((uint32_t *)z + last, (uint32_t *)z + last - 1);
        exchange(level + last, level + last - 1);
        exchange(value + last, value + last - 1);
    }
    if (broken(23)) counts[VDB_FILLED]--;
    if (broken(24) && counts[VDB_LEFT] > 0) counts[VDB_LEFT]--;
    if (broken(25) && counts[VDB_LEFT] > 1) {                              /* the next record is left out */
        uint64_t more[VDB_WALK_COUNTS];
        int32_t a[3];
        uint32_t b[2];
        return __real_vdb_walk(file, file_len, place, a, 1, a + 1, 1, a + 2, 1, b, 1, b + 1, 1, more);
    }
    return k;
}
