/*
 * Every answer comes from the library. The file itself is looked at for one thing: the library answers about a metadata entry by its name and lists no
 * names, so the names are collected from where the header's and the descriptors' words say that the metadata starts. An opened file has its metadata
 * whole; no length is tested here.
 */
#include "text.h"

#include <inttypes.h>
#include <stdlib.h>
#include <string.h>

#include "vdb.h"

struct grid {
    uint32_t number;
    uint64_t words[VDB_GRID_WORDS];
};

/* What is printed about, for the functions below. */
struct text {
    FILE *out;
    const uint8_t *file;
    size_t file_len;
    struct options options;
    uint64_t calls;
};

static void *room(size_t count, size_t size)
{
    void *found = calloc(count + 1, size);
    if (found == NULL) abort();
    return found;
}

/* ---- Names of metadata ---- */

static uint64_t u32_at(const uint8_t *file, uint64_t at)
{
    return (uint64_t)file[at] | (uint64_t)file[at + 1] << 8 | (uint64_t)file[at + 2] << 16 | (uint64_t)file[at + 3] << 24;
}

static struct span string_at(const uint8_t *file, uint64_t *at)
{
    struct span found = {*at + 4, u32_at(file, *at)};
    *at = found.start + found.len;
    return found;
}

static uint64_t value_size(const uint8_t *kind, uint64_t kind_len, uint64_t length)
{
    static const struct { const char *kind; uint64_t size; } fixed[] = {{"bool", 1}, {"int32", 4}, {"int64", 8}, {"float", 4}, {"vec3i", 12}};
    for (size_t i = 0; i < sizeof fixed / sizeof *fixed; i++)
        if (kind_len == strlen(fixed[i].kind) && memcmp(kind, fixed[i].kind, kind_len) == 0) return fixed[i].size;
    return length;
}

struct span *metadata_names(const uint8_t *file, uint64_t at, size_t *count)
{
    struct span *names;
    *count = u32_at(file, at);
    names = room(*count, sizeof *names);
    at += 4;
    for (size_t i = 0; i < *count; i++) {
        struct span kind;
        names[i] = string_at(file, &at);
        kind = string_at(file, &at);
        at += 4 + value_size(file + kind.start, kind.len, u32_at(file, at));
    }
    return names;
}

/* qsort gives no way to say which file is meant. */
static const uint8_t *sorted_file;

static int by_bytes(struct span one, struct span other)
{
    uint64_t len = one.len < other.len ? one.len : other.len;
    int found = memcmp(sorted_file + one.start, sorted_file + other.start, len);
    return found != 0 ? found : (one.len > other.len) - (one.len < other.len);
}

static int by_name(const void *one, const void *other)
{
    return by_bytes(*(const struct span *)one, *(const struct span *)other);
}

static int by_grid_name(const void *one, const void *other)
{
    const uint64_t *a = ((const struct grid *)one)->words, *b = ((const struct grid *)other)->words;
    return by_bytes((struct span){a[VDB_GRID_NAME_START], a[VDB_GRID_NAME_LEN]}, (struct span){b[VDB_GRID_NAME_START], b[VDB_GRID_NAME_LEN]});
}

/* ---- The lines ---- */

static void print_quoted(struct text *t, uint64_t start, uint64_t len)
{
    fputc('"', t->out);
    for (uint64_t i = start; i < start + len; i++) {
        uint8_t byte = t->file[i];
        if (byte == '"' || byte == '\\') fprintf(t->out, "\\%c", byte);
        else if (byte < 32 || byte > 126) fprintf(t->out, "\\x%02x", byte);
        else fputc(byte, t->out);
    }
    fputc('"', t->out);
}

static void print_named(struct text *t, const char *word, uint64_t start, uint64_t len)
{
    fprintf(t->out, "%s ", word);
    print_quoted(t, start, len);
    fputc('\n', t->out);
}

static int refused(struct text *t, uint32_t k)
{
    t->calls++;
    if (k != 0) fprintf(t->out, "refused %" PRIu32 "\n", k);
    return k != 0;
}

static void print_value(struct text *t, const uint64_t words[VDB_ENTRY_WORDS])
{
    static const char *const kinds[] = {"string", "bool", "int32", "int64", "float", "vec3i"};
    const uint64_t *value = words + VDB_ENTRY_VALUE;
    if (words[VDB_ENTRY_KIND] != VDB_OTHER) fprintf(t->out, "\"%s\"", kinds[words[VDB_ENTRY_KIND]]);
    switch (words[VDB_ENTRY_KIND]) {
    case VDB_STRING:
        fputc(' ', t->out);
        print_quoted(t, value[0], words[VDB_ENTRY_LEN]);
        break;
    case VDB_BOOL:
        fputs(value[0] ? " true" : " false", t->out);
        break;
    case VDB_FLOAT:
        fprintf(t->out, " %08" PRIx64, value[0]);
        break;
    case VDB_INT32:
    case VDB_INT64:
        fprintf(t->out, " %" PRId64, (int64_t)value[0]);
        break;
    case VDB_VEC3I:
        fprintf(t->out, " %" PRId64 " %" PRId64 " %" PRId64, (int64_t)value[0], (int64_t)value[1], (int64_t)value[2]);
        break;
    default:
        print_quoted(t, words[VDB_ENTRY_KIND_START], words[VDB_ENTRY_KIND_LEN]);
        for (uint64_t i = 0; i < words[VDB_ENTRY_LEN]; i++) fprintf(t->out, "%s%02x", i == 0 ? " " : "", t->file[value[0] + i]);
    }
    fputc('\n', t->out);
}

/* The metadata at a position: the file's where `grid` is NULL, else the grid's. */
static void print_entries(struct text *t, uint64_t at, const struct grid *grid)
{
    size_t count, distinct = 0;
    struct span *names = metadata_names(t->file, at, &count);
    sorted_file = t->file;
    qsort(names, count, sizeof *names, by_name);
    for (size_t i = 0; i < count; i++)
        if (i == 0 || by_bytes(names[distinct - 1], names[i]) != 0) names[distinct++] = names[i];
    fprintf(t->out, "entries %zu\n", distinct);
    for (size_t i = 0; i < distinct; i++) {
        uint64_t words[VDB_ENTRY_WORDS];
        const uint8_t *name = t->file + names[i].start;
        uint32_t k = grid == NULL ? vdb_file_entry(t->file, t->file_len, name, names[i].len, words)
                                  : vdb_grid_entry_numbered(t->file, t->file_len, grid->number, name, names[i].len, words);
        if (refused(t, k)) continue;
        fputs("entry ", t->out);
        print_quoted(t, names[i].start, names[i].len);
        fputc(' ', t->out);
        print_value(t, words);
    }
    free(names);
}

static void print_map(struct text *t, const uint64_t words[VDB_OPENED_WORDS])
{
    fprintf(t->out, "map %s\n", words[VDB_OPENED_MAP] == VDB_SCALE ? "UniformScaleMap" : "ScaleTranslateMap");
    for (uint64_t i = 0; i < words[VDB_OPENED_MAP]; i += 3) {
        const uint64_t *v = words + VDB_OPENED_DOUBLES + i;
        fprintf(t->out, "vector %016" PRIx64 " %016" PRIx64 " %016" PRIx64 "\n", v[0], v[1], v[2]);
    }
    if (t->options.more) fprintf(t->out, "background %08" PRIx64 "\n", words[VDB_OPENED_BACKGROUND]);
}

/* FNV-1a, 64 bits, over the values' bytes, low byte first. */
static uint64_t digest(const uint32_t *values, size_t count)
{
    uint64_t found = 0xcbf29ce484222325;
    for (size_t i = 0; i < 4 * count; i++) found = (found ^ (values[i / 4] >> 8 * (i % 4) & 0xff)) * 0x100000001b3;
    return found;
}

static void print_leaf(struct text *t, uint64_t number, const int32_t origin[3], const uint32_t values[512])
{
    fprintf(t->out, "leaf %" PRIu64 " %" PRId32 " %" PRId32 " %" PRId32 " 512 %016" PRIx64 "\n", number, origin[0], origin[1], origin[2], digest(values, 512));
    for (size_t i = 0; t->options.values && i < 512; i++)
        fprintf(t->out, "%s %08" PRIx32 "%s", i % 8 == 0 ? "values" : "", values[i], i % 8 == 7 ? "\n" : "");
}

/* RUN leaves a call: each call opens the grid. */
static void print_leaves(struct text *t, const struct grid *grid, uint64_t count)
{
    enum { RUN = 256 };
    uint32_t *slots = room(512 * RUN, 4);
    int32_t x[RUN], y[RUN], z[RUN];
    fprintf(t->out, "leaves %" PRIu64 "\n", count);
    for (uint64_t first = 0; first < count; first += RUN) {
        uint64_t run = count - first < RUN ? count - first : RUN;
        if (refused(t, vdb_fill_leaves_numbered(t->file, t->file_len, grid->number, first, slots, 512 * run))) break;
        if (refused(t, vdb_leaf_origins_numbered(t->file, t->file_len, grid->number, first, x, run, y, run, z, run))) break;
        for (uint64_t i = 0; i < run; i++) print_leaf(t, first + i, (int32_t[]){x[i], y[i], z[i]}, slots + 512 * i);
    }
    free(slots);
}

static void print_record(struct text *t, const int32_t at[3], uint32_t level, uint32_t value)
{
    uint32_t bits[3];
    int64_t shown[3];
    for (int i = 0; i < 3; i++) {
        float rounded = (float)at[i];
        memcpy(&bits[i], &rounded, sizeof rounded);
        shown[i] = t->options.more ? at[i] : (int64_t)rounded;
    }
    fprintf(t->out, "record %" PRId64 " %" PRId64 " %" PRId64 " %08" PRIx32 " %08" PRIx32 " %08" PRIx32 " %" PRIu32 " %08" PRIx32 "\n", shown[0], shown[1],
            shown[2], bits[0], bits[1], bits[2], level, value);
}

/* The walk goes on until nothing is left; a walk that hands out more than there is comes to an end too. */
static void print_records(struct text *t, uint64_t place[VDB_PLACE_WORDS], uint64_t count)
{
    size_t n = t->options.slots;
    uint64_t counts[VDB_WALK_COUNTS], given = 0;
    int32_t *x = room(n, 4), *y = room(n, 4), *z = room(n, 4);
    uint32_t *level = room(n, 4), *value = room(n, 4);
    fprintf(t->out, "records %" PRIu64 "\n", count);
    do {
        if (refused(t, vdb_walk(t->file, t->file_len, place, x, n, y, n, z, n, level, n, value, n, counts))) break;
        for (uint64_t i = 0; i < counts[VDB_FILLED]; i++) print_record(t, (int32_t[]){x[i], y[i], z[i]}, level[i], value[i]);
        given += counts[VDB_FILLED];
    } while (counts[VDB_LEFT] > 0 && given <= count);
    free(x), free(y), free(z), free(level), free(value);
}

static void print_grid(struct text *t, const struct grid *grid)
{
    const uint64_t *d = grid->words;
    uint64_t words[VDB_OPENED_WORDS], place[VDB_PLACE_WORDS];
    print_named(t, "grid", d[VDB_GRID_NAME_START], d[VDB_GRID_NAME_LEN]);
    print_named(t, "type", d[VDB_GRID_TYPE_START], d[VDB_GRID_TYPE_LEN]);
    print_named(t, "parent", d[VDB_GRID_PARENT_START], d[VDB_GRID_PARENT_LEN]);
    fprintf(t->out, "positions %" PRIu64 " %" PRIu64 " %" PRIu64 "\n", d[VDB_GRID_POSITION], d[VDB_GRID_BLOCK_POSITION], d[VDB_GRID_END_POSITION]);
    fprintf(t->out, "flags %" PRIu64 "\n", d[VDB_GRID_FLAGS]);
    print_entries(t, d[VDB_GRID_METADATA], grid);
    if (refused(t, vdb_open_grid_numbered(t->file, t->file_len, grid->number, words, place))) return;
    print_map(t, words);
    print_leaves(t, grid, words[VDB_OPENED_LEAF_COUNT]);
    print_records(t, place, words[VDB_OPENED_ACTIVE_COUNT]);
}

uint64_t print_text(FILE *out, const uint8_t *file, size_t file_len, struct options options)
{
    struct text t = {out, file, file_len, options, 0};
    uint64_t words[VDB_FILE_WORDS];
    struct grid *grids;
    fprintf(out, "file %zu\n", file_len);
    if (refused(&t, vdb_open_file(file, file_len, words))) return t.calls;
    fprintf(out, "version %" PRIu64 "\n", words[VDB_FILE_VERSION]);
    fprintf(out, "library %" PRIu64 " %" PRIu64 "\n", words[VDB_FILE_LIBRARY_MAJOR], words[VDB_FILE_LIBRARY_MINOR]);
    print_named(&t, "identity", words[VDB_FILE_IDENTITY_START], words[VDB_FILE_IDENTITY_LEN]);
    print_entries(&t, words[VDB_FILE_METADATA], NULL);
    fprintf(out, "grids %" PRIu64 "\n", words[VDB_FILE_GRID_COUNT]);
    grids = room(words[VDB_FILE_GRID_COUNT], sizeof *grids);
    for (uint32_t i = 0; i < words[VDB_FILE_GRID_COUNT]; i++) {
        grids[i].number = i;
        if (refused(&t, vdb_grid_numbered(file, file_len, i, grids[i].words))) return t.calls;
    }
    sorted_file = file;
    qsort(grids, words[VDB_FILE_GRID_COUNT], sizeof *grids, by_grid_name);
    for (uint64_t i = 0; i < words[VDB_FILE_GRID_COUNT]; i++) print_grid(&t, &grids[i]);
    free(grids);
    return t.calls;
}
