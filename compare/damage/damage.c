/*
 * Makes calls to the library over damaged copies of clouds, and looks at all that was lent after each of them.
 *
 *     damage [SEED] < LINES
 *
 *     file PATH                  the cloud of the next copies
 *     copy LENGTH [AT HEX] ..    its first LENGTH bytes, with other bytes at some positions
 *
 * For the cloud itself and for each copy a line is printed: the CRC-32 of the copy's text (compare/README.md, with --more), for a comparison with other readers. The last line
 * counts the calls. Exits with 1 if a call did something that include/vdb.h rules out. What a call must not read or write is memory that ends the
 * program: a copy stands before an unreadable page and cannot be written, and what is lent stands before an unreadable page, behind marked bytes.
 */
#include <inttypes.h>
#include <stdlib.h>
#include <string.h>
#include <sys/mman.h>
#include <unistd.h>

#include "text.h"
#include "vdb.h"

enum { PAGE = 4096, ROOM = 1 << 22, LENT = 8, EDGE = 64, SECONDS = 120, KEPT_PLACES = 8 };

static uint64_t calls, copies, wrong, strange_walks, strange_refused;
static uint64_t state;

/* Says what does not hold, of which copy. */
#define HOLD(condition) ((condition) ? (void)0 : (void)(wrong++, fprintf(stderr, "copy %" PRIu64 ", line %d: not so: %s\n", copies, __LINE__, #condition)))

static uint64_t any(void)
{
    state ^= state << 13, state ^= state >> 7, state ^= state << 17;
    return state;
}

static uint64_t below(uint64_t n)
{
    return n == 0 ? 0 : any() % n;
}

/* ---- Memory before an unreadable page ---- */

/* The end of ROOM bytes between two unreadable pages. */
static uint8_t *guarded(void)
{
    uint8_t *at = mmap(NULL, ROOM + 2 * PAGE, PROT_NONE, MAP_PRIVATE | MAP_ANONYMOUS, -1, 0);
    if (at == MAP_FAILED || mprotect(at + PAGE, ROOM, PROT_READ | PROT_WRITE) != 0) abort();
    return at + PAGE + ROOM;
}

static uint8_t *file_end, *name_end, *lent_end[LENT], mark;
static size_t lent_len[LENT];
static int lent;

/* Lends so many bytes, marked; before them stand some more. `lend_anew` forgets what was lent before. */
static void *lend(size_t len)
{
    uint8_t *at = lent_end[lent] - len;
    if (lent == LENT || len > ROOM - EDGE) abort();
    memset(at - EDGE, mark, EDGE + len);
    lent_len[lent++] = len;
    return at;
}

static void *lend_anew(size_t len)
{
    lent = 0;
    mark = (uint8_t)any();
    return lend(len);
}

static int marked(const uint8_t *at, size_t len)
{
    return len == 0 || (*at == mark && memcmp(at, at + 1, len - 1) == 0);
}

/* Counts a call and looks at what was lent: nothing before it is changed and, after a refusal, nothing at all. */
static uint32_t answer(uint32_t k)
{
    calls++;
    HOLD(k <= 22 || k == 25);
    for (int i = 0; i < lent; i++) HOLD(marked(lent_end[i] - lent_len[i] - EDGE, EDGE + (k == 0 ? 0 : lent_len[i])));
    return k;
}

/* A name before an unreadable page. */
static const uint8_t *named(const void *name, size_t len)
{
    return memcpy(name_end - len, name, len);
}

/* ---- The copy ---- */

static uint8_t *base;
static size_t base_len;
static const uint8_t *file;
static size_t file_len;

static void load(const char *path)
{
    FILE *f = fopen(path, "rb");
    if (f == NULL) abort();
    base_len = fread(base, 1, ROOM, f);
    fclose(f);
}

static void copy(size_t len)
{
    file_len = len;
    file = memcpy(file_end - len, base, len);
}

/* Puts bytes at positions, AT HEX and so on; what lies behind the end is left out. */
static void put(const char *words)
{
    size_t at;
    unsigned byte;
    for (int used; sscanf(words, "%zu %n", &at, &used) == 1;)
        for (words += used; sscanf(words, "%2x", &byte) == 1 && *words != ' '; words += 2, at++)
            if (at < file_len) file_end[(ptrdiff_t)at - (ptrdiff_t)file_len] = (uint8_t)byte;
}

/* ---- Walks ---- */

struct slots {
    size_t len[5], shortest;
    int32_t *x, *y, *z;
    uint32_t *level, *value;
    uint64_t *place, *counts;
};

struct record {
    int32_t x, y, z;
    uint32_t level, value;
};

/* One walk call from a place, with slots of these lengths. */
static uint32_t walk(struct slots *s, const uint64_t place[VDB_PLACE_WORDS], const size_t len[5])
{
    uint32_t k;
    memcpy(s->len, len, sizeof s->len);
    s->shortest = len[0];
    for (int i = 1; i < 5; i++) if (len[i] < s->shortest) s->shortest = len[i];
    s->x = lend_anew(4 * len[0]);
    s->y = lend(4 * len[1]), s->z = lend(4 * len[2]), s->level = lend(4 * len[3]), s->value = lend(4 * len[4]);
    s->counts = lend(8 * VDB_WALK_COUNTS);
    s->place = memcpy(lend(8 * VDB_PLACE_WORDS), place, 8 * VDB_PLACE_WORDS);
    lent--; /* these words are not marked */
    k = answer(vdb_walk(file, file_len, s->place, s->x, len[0], s->y, len[1], s->z, len[2], s->level, len[3], s->value, len[4], s->counts));
    HOLD(marked((const uint8_t *)s->place - EDGE, EDGE));
    if (k != 0) HOLD(memcmp(s->place, place, 8 * VDB_PLACE_WORDS) == 0);
    if (k != 0) return k;
    HOLD(s->counts[VDB_FILLED] <= s->shortest);
    for (int i = 0; i < 5; i++) HOLD(marked(lent_end[i] - 4 * (s->len[i] - s->counts[VDB_FILLED]), 4 * (s->len[i] - s->counts[VDB_FILLED])));
    return 0;
}

static void some_lengths(size_t len[5], size_t most)
{
    size_t n = below(most + 1);
    for (int i = 0; i < 5; i++) len[i] = below(4) == 0 ? n + below(3) : n;
}

/* The whole list with one call, and then again in portions. */
static struct record *whole_walk(const uint64_t fresh[VDB_PLACE_WORDS], uint64_t count)
{
    struct slots s;
    size_t n = count + below(3), len[5] = {n, n, n, n, n};
    struct record *found = calloc(count + 1, sizeof *found);
    uint32_t k = walk(&s, fresh, len);
    HOLD(k == 0 && s.counts[VDB_FILLED] == count && s.counts[VDB_LEFT] == 0);
    for (uint64_t i = 0; k == 0 && i < count; i++) found[i] = (struct record){s.x[i], s.y[i], s.z[i], s.level[i], s.value[i]};
    return found;
}

/* Puts some of the places that were reached into `reached`, for use over other bytes. */
static void portions(const uint64_t fresh[VDB_PLACE_WORDS], const struct record *list, uint64_t count, uint64_t reached[][VDB_PLACE_WORDS])
{
    uint64_t place[VDB_PLACE_WORDS], done = 0;
    memcpy(place, fresh, sizeof place);
    for (int call = 0; call < 12; call++) {
        struct slots s;
        size_t len[5];
        uint64_t filled;
        some_lengths(len, below(3) == 0 ? 2 : count / 4 + 2);
        if (walk(&s, place, len) != 0) {
            HOLD(!"a reached place is refused");
            return;
        }
        filled = s.counts[VDB_FILLED];
        HOLD(filled == (s.shortest < count - done ? s.shortest : count - done));
        HOLD(s.counts[VDB_LEFT] == count - done - filled);
        if (s.shortest == 0) HOLD(memcmp(place, s.place, sizeof place) == 0);
        for (uint64_t i = 0; i < filled; i++) {
            struct record r = {s.x[i], s.y[i], s.z[i], s.level[i], s.value[i]};
            HOLD(memcmp(&r, &list[done + i], sizeof r) == 0);
        }
        done += filled;
        memcpy(place, s.place, sizeof place);
        if (reached != NULL) memcpy(reached[below(KEPT_PLACES)], place, sizeof place);
    }
}

/* A place that need not be one of these bytes: records or 22, and again from where it leads. */
static void strange_walk(const uint64_t from[VDB_PLACE_WORDS])
{
    struct slots s;
    uint64_t place[VDB_PLACE_WORDS];
    memcpy(place, from, sizeof place);
    for (int call = 0; call < 3; call++) {
        size_t len[5];
        uint32_t k;
        some_lengths(len, below(8) == 0 ? 20000 : 40);
        k = walk(&s, place, len);
        strange_walks++, strange_refused += k == 22;
        HOLD(k == 22 || (k == 0 && place[0] == VDB_LAYOUT));
        if (k != 0) return;
        memcpy(place, s.place, sizeof place);
    }
}

static uint64_t strange_word(uint64_t now)
{
    switch (below(6)) {
    case 0: return any();
    case 1: return now + below(9) - 4;
    case 2: return below(file_len + 9);
    case 3: return below(40000);
    case 4: return (uint64_t)-1 >> below(64);
    default: return now ^ (uint64_t)1 << below(64);
    }
}

static void strange_walks_from(const uint64_t place[VDB_PLACE_WORDS])
{
    for (int i = 0; i < 3; i++) {
        uint64_t other[VDB_PLACE_WORDS];
        memcpy(other, place, sizeof other);
        for (uint64_t n = below(3) == 0 ? VDB_PLACE_WORDS : 1 + below(3); n > 0; n--) {
            uint64_t *word = &other[below(VDB_PLACE_WORDS)];
            *word = strange_word(*word);
        }
        if (below(8) != 0) other[0] = VDB_LAYOUT; /* words of another layout are refused before they are looked at */
        strange_walk(other);
    }
}

/* ---- A grid ---- */

/* A fill that must be refused with this number. */
static void refused_fill(uint32_t n, uint64_t leaf, size_t slots, uint32_t expected)
{
    uint32_t *at = lend_anew(4 * slots);
    HOLD(answer(vdb_fill_leaf_numbered(file, file_len, n, leaf, at, slots)) == expected);
}

/* Runs of leaves: each leaf as it is filled alone; no leaf behind the last, and whole leaves only. */
static void runs(uint32_t n, const uint8_t *name, size_t name_len, uint64_t leaves)
{
    uint64_t first = below(leaves), run = below((leaves - first < 20 ? leaves - first : 20) + 1);
    uint32_t alone[512], *slots = lend_anew(2048 * run);
    HOLD(answer(vdb_fill_leaves_numbered(file, file_len, n, first, slots, 512 * run)) == 0);
    for (uint64_t i = 0; i < run; i++) {
        HOLD(vdb_fill_leaf_numbered(file, file_len, n, first + i, alone, 512) == 0);
        HOLD(memcmp(alone, slots + 512 * i, sizeof alone) == 0);
    }
    calls += run;
    slots = lend_anew(2048 * run + 4 + 4 * below(511));
    HOLD(answer(vdb_fill_leaves_named(file, file_len, name, name_len, first, slots, lent_len[0] / 4)) == 21);
    slots = lend_anew(2048 * 3);
    HOLD(answer(vdb_fill_leaves_named(file, file_len, name, name_len, leaves - below(3), slots, 512 * 3)) == 21);
    HOLD(answer(vdb_fill_leaves_numbered(file, file_len, n, (uint64_t)-1 >> below(16), slots, 512 * 3)) == 21);
}

/* Where a run of leaves lies: the same by name and by number; no leaf behind the last, and slices of one length only. */
static void origins(uint32_t n, const uint8_t *name, size_t name_len, uint64_t leaves)
{
    enum { MOST = 20 };
    uint64_t first = below(leaves), run = below((leaves - first < MOST ? leaves - first : MOST) + 1);
    int32_t kept[3][MOST], *x = lend_anew(4 * run), *y = lend(4 * run), *z = lend(4 * run);
    HOLD(answer(vdb_leaf_origins_named(file, file_len, name, name_len, first, x, run, y, run, z, run)) == 0);
    memcpy(kept[0], x, 4 * run), memcpy(kept[1], y, 4 * run), memcpy(kept[2], z, 4 * run);
    for (uint64_t i = 0; i < run; i++) HOLD(x[i] % 8 == 0 && y[i] % 8 == 0 && z[i] % 8 == 0);
    x = lend_anew(4 * run), y = lend(4 * run), z = lend(4 * run);
    HOLD(answer(vdb_leaf_origins_numbered(file, file_len, n, first, x, run, y, run, z, run)) == 0);
    HOLD(memcmp(kept[0], x, 4 * run) == 0 && memcmp(kept[1], y, 4 * run) == 0 && memcmp(kept[2], z, 4 * run) == 0);
    x = lend_anew(4 * run), y = lend(4 * run + 4), z = lend(4 * run);
    HOLD(answer(vdb_leaf_origins_numbered(file, file_len, n, first, x, run, y, run + 1, z, run)) == 21);
    x = lend_anew(12), y = lend(12), z = lend(12);
    HOLD(answer(vdb_leaf_origins_named(file, file_len, name, name_len, leaves - below(3), x, 3, y, 3, z, 3)) == 21);
    HOLD(answer(vdb_leaf_origins_numbered(file, file_len, n, (uint64_t)-1 >> below(16), x, 3, y, 3, z, 3)) == 21);
}

static void fills(uint32_t n, const uint8_t *name, size_t name_len, uint64_t leaves)
{
    static const size_t other[] = {0, 1, 511, 513, 1024};
    static uint32_t first[512];
    uint64_t leaf = below(leaves);
    refused_fill(n, leaves, 512, 21);
    refused_fill(n, (uint64_t)-1 >> below(32), 512, 21);
    if (leaves == 0) return;
    refused_fill(n, leaf, other[below(5)], 21);
    HOLD(answer(vdb_fill_leaf_named(file, file_len, name, name_len, leaf, lend_anew(2048), 512)) == 0);
    memcpy(first, lent_end[0] - 2048, 2048);
    HOLD(answer(vdb_fill_leaf_numbered(file, file_len, n, leaf, lend_anew(2048), 512)) == 0);
    HOLD(memcmp(first, lent_end[0] - 2048, 2048) == 0);
    runs(n, name, name_len, leaves);
    origins(n, name, name_len, leaves);
}

/* The same answer by name and by number. */
static void entries(uint32_t n, const uint8_t *grid, size_t grid_len, uint64_t metadata)
{
    size_t count;
    struct span *names = metadata_names(file, metadata, &count);
    for (size_t i = 0; i < count && i < 8; i++) {
        uint64_t words[VDB_ENTRY_WORDS];
        const uint8_t *name = file + names[i].start;
        uint64_t *out = lend_anew(sizeof words);
        HOLD(answer(vdb_grid_entry_named(file, file_len, grid, grid_len, name, names[i].len, out)) == 0);
        memcpy(words, out, sizeof words);
        out = lend_anew(sizeof words);
        HOLD(answer(vdb_grid_entry_numbered(file, file_len, n, named(name, names[i].len), names[i].len, out)) == 0);
        HOLD(memcmp(words, out, sizeof words) == 0);
    }
    free(names);
}

/* An accepted grid. */
static void opened(uint32_t n, const uint8_t *name, size_t name_len, uint64_t reached[][VDB_PLACE_WORDS])
{
    uint64_t words[VDB_OPENED_WORDS], fresh[VDB_PLACE_WORDS];
    struct record *list;
    memcpy(words, lent_end[0] - sizeof words, sizeof words);
    memcpy(fresh, lent_end[1] - sizeof fresh, sizeof fresh);
    fills(n, name, name_len, words[VDB_OPENED_LEAF_COUNT]);
    list = whole_walk(fresh, words[VDB_OPENED_ACTIVE_COUNT]);
    portions(fresh, list, words[VDB_OPENED_ACTIVE_COUNT], reached);
    strange_walks_from(fresh);
    free(list);
}

static void grid(uint32_t n, uint64_t reached[][VDB_PLACE_WORDS])
{
    uint64_t words[VDB_GRID_WORDS], other[VDB_OPENED_WORDS + VDB_PLACE_WORDS], *out = lend_anew(sizeof words), *place;
    const uint8_t *name;
    size_t name_len;
    uint32_t k;
    HOLD(answer(vdb_grid_numbered(file, file_len, n, out)) == 0);
    memcpy(words, out, sizeof words);
    name = file + words[VDB_GRID_NAME_START], name_len = words[VDB_GRID_NAME_LEN];
    out = lend_anew(sizeof words);
    HOLD(answer(vdb_grid_named(file, file_len, named(name, name_len), name_len, out)) == 0);
    HOLD(memcmp(words, out, sizeof words) == 0);
    entries(n, name, name_len, words[VDB_GRID_METADATA]);
    out = lend_anew(8 * VDB_OPENED_WORDS), place = lend(8 * VDB_PLACE_WORDS);
    k = answer(vdb_open_grid_named(file, file_len, name, name_len, out, place));
    memcpy(other, out, 8 * VDB_OPENED_WORDS), memcpy(other + VDB_OPENED_WORDS, place, 8 * VDB_PLACE_WORDS);
    out = lend_anew(8 * VDB_OPENED_WORDS), place = lend(8 * VDB_PLACE_WORDS);
    HOLD(answer(vdb_open_grid_numbered(file, file_len, n, out, place)) == k);
    if (k != 0) {
        refused_fill(n, below(3), 512 + (below(3) == 0), k);
    } else {
        HOLD(memcmp(other, out, 8 * VDB_OPENED_WORDS) == 0 && memcmp(other + VDB_OPENED_WORDS, place, 8 * VDB_PLACE_WORDS) == 0);
        opened(n, name, name_len, reached);
    }
}

/* ---- A copy ---- */

/* What each call must answer that asks for what is not there: the file's refusal, or 11. */
static void absent(uint32_t n, uint32_t expected)
{
    static char q[300];
    const uint8_t *name = named(memset(q, 'q', sizeof q), sizeof q);
    uint64_t *out = lend_anew(8 * VDB_GRID_WORDS);
    HOLD(answer(vdb_grid_numbered(file, file_len, n, out)) == expected);
    HOLD(answer(vdb_grid_named(file, file_len, name, sizeof q, out)) == expected);
    out = lend_anew(8 * VDB_ENTRY_WORDS);
    HOLD(answer(vdb_file_entry(file, file_len, name, sizeof q, out)) == expected);
    HOLD(answer(vdb_grid_entry_named(file, file_len, name, sizeof q, name, sizeof q, out)) == expected);
    HOLD(answer(vdb_grid_entry_numbered(file, file_len, n, name, sizeof q, out)) == expected);
    HOLD(answer(vdb_grid_entry_numbered(file, file_len, 0, name, sizeof q, out)) == expected);
    out = lend_anew(8 * VDB_OPENED_WORDS);
    HOLD(answer(vdb_open_grid_named(file, file_len, name, sizeof q, out, lend(8 * VDB_PLACE_WORDS))) == expected);
    HOLD(answer(vdb_open_grid_numbered(file, file_len, n, out, (uint64_t *)lent_end[1] - VDB_PLACE_WORDS)) == expected);
    refused_fill(n, 0, below(2) * 512, expected);
    HOLD(answer(vdb_fill_leaf_named(file, file_len, name, sizeof q, 0, lend_anew(2048), 512)) == expected);
}

static uint32_t crc32_of(const char *text, size_t len)
{
    uint32_t found = 0xffffffff;
    for (size_t i = 0; i < len; i++) {
        found ^= (uint8_t)text[i];
        for (int bit = 0; bit < 8; bit++) found = found >> 1 ^ (found & 1 ? 0xedb88320 : 0);
    }
    return ~found;
}

static void print_crc(void)
{
    char *text = NULL;
    size_t len = 0;
    FILE *out = open_memstream(&text, &len);
    if (out == NULL) abort();
    calls += print_text(out, file, file_len, (struct options){0, 1, 1 + below(300)});
    fclose(out);
    printf("%08" PRIx32 "\n", crc32_of(text, len));
    free(text);
}

/* Places reached over the cloud itself, whole. */
static uint64_t reached[KEPT_PLACES][VDB_PLACE_WORDS];

static void ask(int whole)
{
    uint64_t *words = lend_anew(8 * VDB_FILE_WORDS);
    uint32_t k, count = 0;
    alarm(SECONDS);
    copies++;
    if (mprotect(file_end - ROOM, ROOM, PROT_READ) != 0) abort();
    k = answer(vdb_open_file(file, file_len, words));
    if (k == 0) count = (uint32_t)words[VDB_FILE_GRID_COUNT];
    absent(below(2) ? count : (uint32_t)-1, k == 0 ? 11 : k);
    for (uint32_t n = 0; n < count; n++) grid(n, whole ? reached : NULL);
    if (!whole) strange_walk(reached[below(KEPT_PLACES)]);
    print_crc();
    if (mprotect(file_end - ROOM, ROOM, PROT_READ | PROT_WRITE) != 0) abort();
}

int main(int arguments, char **argument)
{
    static char line[4096], path[4096];
    size_t len;
    int used;
    state = 0x9e3779b97f4a7c15 ^ (arguments > 1 ? strtoull(argument[1], NULL, 10) : 1);
    base = malloc(ROOM);
    file_end = guarded(), name_end = guarded();
    for (int i = 0; i < LENT; i++) lent_end[i] = guarded();
    while (fgets(line, sizeof line, stdin) != NULL) {
        if (sscanf(line, "file %4095[^\n]", path) == 1) {
            load(path);
            memset(reached, 0, sizeof reached);
            copy(base_len);
            ask(1);
        } else if (sscanf(line, "copy %zu %n", &len, &used) == 1 && len <= base_len) {
            copy(len);
            put(line + used);
            ask(0);
        } else {
            abort();
        }
    }
    printf("%" PRIu64 " copies, %" PRIu64 " calls; %" PRIu64 " walks from other places, %" PRIu64 " of them refused; %" PRIu64 " things not as they must be\n", copies,
           calls, strange_walks, strange_refused, wrong);
    return wrong != 0;
}
