/*
 * Asks libvdb.a the questions of the program `questions` about the files of crates/questions/data, and writes each with the answer behind it.
 *
 *     questions DATA < QUESTIONS
 *
 * A question is a line of crates/questions/stdin: a word, numbers, and behind a colon bytes, in quotes or as hexadecimal digits, with a comma between a
 * grid's name and an entry's. An opened grid is shown without the number of its roots.
 */
#include <inttypes.h>
#include <stdio.h>
#include <stdlib.h>
#include <string.h>

#include "vdb.h"

enum { ROOM = 1 << 18, SLOTS = 1600 };

static uint8_t file[ROOM];
static size_t file_len;

/* A question: its command, its numbers, and the bytes of the grid's name and of the name. */
struct question {
    char command[16];
    uint64_t n[5];
    int numbers;
    uint8_t bytes[2][256];
    size_t len[2];
    int names;
};

static void stop(const char *what)
{
    fprintf(stderr, "questions: %s\n", what);
    exit(1);
}

static struct question parse(const char *line)
{
    struct question q;
    int used = 0, digit = -1;
    memset(&q, 0, sizeof q);
    sscanf(line, "%15[A-Za-z]%n", q.command, &used);
    line += used;
    while (q.numbers < 5 && sscanf(line, " %" SCNu64 "%n", &q.n[q.numbers], &used) == 1) {
        q.numbers++;
        line += used;
    }
    if (*line != ':') return q;
    q.names = 1;
    for (line++; *line != '\0' && *line != '\n'; line++) {
        uint8_t *to = q.bytes[q.names - 1];
        size_t *len = &q.len[q.names - 1];
        if (*len == sizeof q.bytes[0]) stop("a long name");
        if (*line == '"') {
            for (line++; *line != '"'; line++) to[(*len)++] = (uint8_t)*line;
        } else if (*line == ',') {
            q.names = 2;
        } else if (*line != ' ') {
            int value = *line <= '9' ? *line - '0' : *line - 'a' + 10;
            if (digit >= 0) to[(*len)++] = (uint8_t)(16 * digit + value);
            digit = digit >= 0 ? -1 : value;
        }
    }
    return q;
}

static void load(const char *folder, const struct question *q)
{
    char path[1024];
    FILE *f;
    snprintf(path, sizeof path, "%s/%.*s", folder, (int)q->len[0], (const char *)q->bytes[0]);
    f = fopen(path, "rb");
    if (f == NULL) stop(path);
    file_len = fread(file, 1, ROOM, f);
    fclose(f);
}

static void span(uint64_t start, uint64_t len)
{
    printf(" %" PRIu64 " %" PRIu64 " \"", start, len);
    for (uint64_t i = start; i < start + len; i++) {
        if (file[i] >= ' ' && file[i] <= '~') putchar(file[i]);
        else printf("\\%02x", file[i]);
    }
    putchar('"');
}

static int refused(uint32_t k)
{
    if (k != 0) printf(" refused %" PRIu32, k);
    return k != 0;
}

static void header(void)
{
    uint64_t h[VDB_FILE_WORDS];
    if (refused(vdb_open_file(file, file_len, h))) return;
    printf(" %" PRIu64 " %" PRIu64 " %" PRIu64 " %" PRIu64 " %" PRIu64 " %" PRIu64, h[VDB_FILE_VERSION], h[VDB_FILE_LIBRARY_MAJOR],
           h[VDB_FILE_LIBRARY_MINOR], h[VDB_FILE_PACKED], h[VDB_FILE_METADATA], h[VDB_FILE_GRID_COUNT]);
    span(h[VDB_FILE_IDENTITY_START], h[VDB_FILE_IDENTITY_LEN]);
}

static void descriptor(const struct question *q)
{
    uint64_t d[VDB_GRID_WORDS];
    uint32_t k = q->numbers == 1 ? vdb_grid_numbered(file, file_len, (uint32_t)q->n[0], d)
                                 : vdb_grid_named(file, file_len, q->bytes[0], q->len[0], d);
    if (refused(k)) return;
    span(d[VDB_GRID_NAME_START], d[VDB_GRID_NAME_LEN]);
    span(d[VDB_GRID_TYPE_START], d[VDB_GRID_TYPE_LEN]);
    span(d[VDB_GRID_PARENT_START], d[VDB_GRID_PARENT_LEN]);
    printf(" %" PRIu64 " %" PRIu64 " %" PRIu64 " %" PRIu64 " %" PRIu64 " %" PRIu64 " %" PRIu64, d[VDB_GRID_POSITION], d[VDB_GRID_BLOCK_POSITION],
           d[VDB_GRID_END_POSITION], d[VDB_GRID_FLAGS], d[VDB_GRID_WIDTH], d[VDB_GRID_METADATA], d[VDB_GRID_TREE]);
}

static void entry(const struct question *q)
{
    uint64_t e[VDB_ENTRY_WORDS];
    uint32_t k = q->command[0] == 'e'  ? vdb_file_entry(file, file_len, q->bytes[0], q->len[0], e)
                 : q->numbers == 1 ? vdb_grid_entry_numbered(file, file_len, (uint32_t)q->n[0], q->bytes[0], q->len[0], e)
                                   : vdb_grid_entry_named(file, file_len, q->bytes[0], q->len[0], q->bytes[1], q->len[1], e);
    const uint64_t *v = &e[VDB_ENTRY_VALUE];
    if (refused(k)) return;
    printf(" %c", "sbilfvo"[e[VDB_ENTRY_KIND]]);
    switch (e[VDB_ENTRY_KIND]) {
    case VDB_BOOL:
    case VDB_INT32:
    case VDB_INT64: printf(" %" PRId64, (int64_t)v[0]); break;
    case VDB_FLOAT: printf(" %08" PRIx64, v[0]); break;
    case VDB_VEC3I: printf(" %" PRId64 " %" PRId64 " %" PRId64, (int64_t)v[0], (int64_t)v[1], (int64_t)v[2]); break;
    case VDB_OTHER: span(e[VDB_ENTRY_KIND_START], e[VDB_ENTRY_KIND_LEN]); /* fall through */
    default: span(v[0], e[VDB_ENTRY_LEN]);
    }
}

static uint32_t fill_one(const struct question *q, int by_number, uint32_t n, uint64_t leaf, uint32_t *slots, size_t len)
{
    return by_number ? vdb_fill_leaf_numbered(file, file_len, n, leaf, slots, len)
                     : vdb_fill_leaf_named(file, file_len, q->bytes[0], q->len[0], leaf, slots, len);
}

static uint32_t fill_run(const struct question *q, int by_number, uint32_t n, uint64_t first, uint32_t *slots, size_t len)
{
    return by_number ? vdb_fill_leaves_numbered(file, file_len, n, first, slots, len)
                     : vdb_fill_leaves_named(file, file_len, q->bytes[0], q->len[0], first, slots, len);
}

/* Each run of leaves of an opened grid must be what the single leaves are; a run that is too long, or no whole leaves, must be 21. */
static void runs(const struct question *q, int by_number, uint32_t n, uint64_t leaves)
{
    uint32_t one[512], *run = (uint32_t *)calloc(leaves + 1, 2048);
    if (run == NULL) stop("no memory");
    for (uint64_t first = 0; first <= leaves; first++) {
        if (fill_run(q, by_number, n, first, run, (leaves - first) * 512) != 0) stop("a run is refused");
        for (uint64_t i = first; i < leaves; i++) {
            if (fill_one(q, by_number, n, i, one, 512) != 0) stop("a leaf is refused");
            if (memcmp(one, run + (i - first) * 512, sizeof one) != 0) stop("a run differs from its leaves");
        }
        memset(run, 0x55, (leaves + 1) * 2048);
        if (fill_run(q, by_number, n, first, run, (leaves + 1 - first) * 512) != 21) stop("a long run is not 21");
        if (fill_run(q, by_number, n, 0, run, 511) != 21) stop("a part of a leaf is not 21");
        for (uint64_t i = 0; i < (leaves + 1) * 512; i++)
            if (run[i] != 0x55555555) stop("a refused run changes a slot");
    }
    free(run);
}

/* The walk from a fresh place must hand out as many records as opening counted, with the number left going down to 0. */
static void walk(const uint64_t fresh[VDB_PLACE_WORDS], uint64_t active)
{
    uint64_t place[VDB_PLACE_WORDS], counts[VDB_WALK_COUNTS];
    int32_t x[7], y[7], z[7];
    uint32_t level[7], value[7];
    memcpy(place, fresh, sizeof place);
    do {
        uint64_t wanted = active < 7 ? active : 7;
        if (vdb_walk(file, file_len, place, x, 7, y, 7, z, 7, level, 7, value, 7, counts) != 0) stop("a walk is refused");
        active -= wanted;
        if (counts[VDB_FILLED] != wanted || counts[VDB_LEFT] != active) stop("a walk counts wrongly");
    } while (active > 0);
}

/* The number of records left at a place, which a call without slots tells and which changes nothing. */
static uint64_t left_at(uint64_t place[VDB_PLACE_WORDS])
{
    uint64_t counts[VDB_WALK_COUNTS];
    int32_t none[1];
    uint32_t nothing[1];
    if (vdb_walk(file, file_len, place, none, 0, none, 0, none, 0, nothing, 0, nothing, 0, counts) != 0) stop("a walk without slots is refused");
    if (counts[VDB_FILLED] != 0) stop("a walk fills more slots than there are");
    return counts[VDB_LEFT];
}

/* Words of another layout are no place: 22, with slots and without, and nothing is changed. */
static void walk_of_another_layout(const uint64_t words[VDB_PLACE_WORDS])
{
    for (size_t slots = 0; slots < 3; slots++) {
        uint64_t place[VDB_PLACE_WORDS], counts[VDB_WALK_COUNTS] = {5, 5};
        int32_t x[2] = {5, 5}, y[2] = {5, 5}, z[2] = {5, 5};
        uint32_t level[2] = {5, 5}, value[2] = {5, 5};
        memcpy(place, words, sizeof place);
        if (vdb_walk(file, file_len, place, x, slots, y, slots, z, slots, level, slots, value, slots, counts) != 22) stop("words of another layout are a place");
        for (size_t i = 0; i < 2; i++)
            if (x[i] != 5 || y[i] != 5 || z[i] != 5 || level[i] != 5 || value[i] != 5 || counts[i] != 5) stop("words of another layout change something");
        if (memcmp(place, words, sizeof place) != 0) stop("words of another layout are changed");
    }
}

/* A place with one word changed is safe: some records, so many fewer left and one at least where any are, or 22, and then nothing is changed. */
static void walk_from_anywhere(const uint64_t fresh[VDB_PLACE_WORDS])
{
    static const uint64_t strange[] = {0, 1, 2, 0x7fffffff, 0x80000000, 0xffffffff, 0x100000000, UINT64_MAX};
    for (int i = 0; i < VDB_PLACE_WORDS * 8; i++) {
        uint64_t place[VDB_PLACE_WORDS], before[VDB_PLACE_WORDS], counts[VDB_WALK_COUNTS] = {5, 5};
        int32_t x[3] = {5, 5, 5}, y[3] = {5, 5, 5}, z[3] = {5, 5, 5};
        uint32_t level[3] = {5, 5, 5}, value[3] = {5, 5, 5}, k;
        uint64_t left;
        memcpy(place, fresh, sizeof place);
        place[i / 8] = strange[i % 8];
        if (place[0] != VDB_LAYOUT) {
            walk_of_another_layout(place);
            continue;
        }
        left = left_at(place);
        memcpy(before, place, sizeof place);
        k = vdb_walk(file, file_len, place, x, 3, y, 3, z, 3, level, 3, value, 3, counts);
        if (k != 0 && k != 22) stop("a walk is refused with another number than 22");
        if (k == 0 && counts[VDB_FILLED] > 3) stop("a walk fills more slots than there are");
        if (k == 0 && (counts[VDB_FILLED] > left || (counts[VDB_FILLED] == 0 && left > 0))) stop("a walk fills more slots than records are left, or none");
        if (k == 0 && (counts[VDB_LEFT] != left - counts[VDB_FILLED] || left_at(place) != counts[VDB_LEFT])) stop("a walk leaves another number of records");
        for (uint64_t j = k == 0 ? counts[VDB_FILLED] : 0; j < 3; j++)
            if (x[j] != 5 || y[j] != 5 || z[j] != 5 || level[j] != 5 || value[j] != 5) stop("a walk changes a slot that it does not fill");
        if (k == 22 && (counts[0] != 5 || counts[1] != 5 || memcmp(place, before, sizeof place) != 0)) stop("a refused walk changes something");
    }
}

static void opened(const struct question *q)
{
    uint64_t g[VDB_OPENED_WORDS], place[VDB_PLACE_WORDS];
    uint32_t k = q->numbers == 1 ? vdb_open_grid_numbered(file, file_len, (uint32_t)q->n[0], g, place)
                                 : vdb_open_grid_named(file, file_len, q->bytes[0], q->len[0], g, place);
    if (refused(k)) return;
    printf(" %c", g[VDB_OPENED_MAP] == VDB_SCALE ? 's' : 't');
    for (uint64_t i = 0; i < g[VDB_OPENED_MAP]; i++) printf(" %016" PRIx64, g[VDB_OPENED_DOUBLES + i]);
    printf(" %08" PRIx64 " %" PRIu64 " %" PRIu64, g[VDB_OPENED_BACKGROUND], g[VDB_OPENED_LEAF_COUNT], g[VDB_OPENED_ACTIVE_COUNT]);
    walk(place, g[VDB_OPENED_ACTIVE_COUNT]);
    walk_from_anywhere(place);
    runs(q, q->numbers == 1, (uint32_t)q->n[0], g[VDB_OPENED_LEAF_COUNT]);
}

/* The slots before they are lent hold 7 each; all of them are summed up, also those that are not lent. */
static void fill(const struct question *q)
{
    uint32_t slots[SLOTS], k;
    uint64_t sum = 0;
    for (int i = 0; i < SLOTS; i++) slots[i] = 7;
    if (q->n[1] > SLOTS) stop("too many slots");
    k = (q->command[0] == 'j' ? fill_run : fill_one)(q, q->numbers == 3, (uint32_t)q->n[2], q->n[0], slots, q->n[1]);
    if (!refused(k)) printf(" f");
    for (int i = 0; i < SLOTS; i++) {
        if (q->command[0] == 'v' && (i == 0 || slots[i] != slots[i - 1])) printf(" %d %08" PRIx32, i, slots[i]);
        sum = (sum * 65599 + slots[i]) % 4294967291u;
    }
    printf(" = %08" PRIx64, sum);
}

/* The slots hold 71, 72 and 73 before they are lent; those that are not filled must still do. */
static void origins(const struct question *q)
{
    enum { MOST = 32 };
    int32_t x[MOST], y[MOST], z[MOST];
    uint64_t filled;
    uint32_t k;
    int kept = 1;
    for (int i = 0; i < MOST; i++) x[i] = 71, y[i] = 72, z[i] = 73;
    if (q->n[1] > MOST || q->n[2] > MOST || q->n[3] > MOST) stop("too many slots");
    k = q->numbers == 5 ? vdb_leaf_origins_numbered(file, file_len, (uint32_t)q->n[4], q->n[0], x, q->n[1], y, q->n[2], z, q->n[3])
                        : vdb_leaf_origins_named(file, file_len, q->bytes[0], q->len[0], q->n[0], x, q->n[1], y, q->n[2], z, q->n[3]);
    filled = k == 0 ? q->n[1] : 0;
    if (!refused(k)) printf(" f");
    for (uint64_t i = 0; i < filled; i++) printf(" | %" PRId32 " %" PRId32 " %" PRId32, x[i], y[i], z[i]);
    for (uint64_t i = filled; i < MOST; i++) kept = kept && x[i] == 71 && y[i] == 72 && z[i] == 73;
    printf(" %d", kept);
}

int main(int count, char **argument)
{
    static char line[4096];
    if (count != 2) stop("usage: questions DATA");
    while (fgets(line, sizeof line, stdin) != NULL) {
        struct question q = parse(line);
        line[strcspn(line, "\n")] = '\0';
        if (q.command[0] == 'l') {
            load(argument[1], &q);
            printf("%s\n", line);
            continue;
        }
        printf("%s?", line);
        switch (q.command[0]) {
        case 'h': header(); break;
        case 'd': descriptor(&q); break;
        case 'e':
        case 'm': entry(&q); break;
        case 'o': opened(&q); break;
        case 'f':
        case 'j':
        case 'v': fill(&q); break;
        case 'O': origins(&q); break;
        default: stop(line);
        }
        putchar('\n');
    }
    return 0;
}
