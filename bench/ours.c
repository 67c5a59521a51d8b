/*
 * Measures libvdb.a, and beside it two yardsticks: a memcpy of the file, and a plain loop that writes the same records.
 * Opening and the memcpy are measured in huge pages too, for information.
 *
 *     ours FILE REPETITIONS    each repetition does everything in turn; the first one is not timed and prints counts and sums
 *     ours FILE once           opens and walks once, with 4,096 slots, for a tool that counts instructions
 */
#include <fcntl.h>
#include <stdlib.h>
#include <string.h>
#include <sys/mman.h>
#include <sys/stat.h>
#include <unistd.h>

#include "record.h"
#include "vdb.h"

enum { FEW = 64, SOME = 4096, HUGE_PAGE = 2 << 20 };

struct record {
    int32_t x, y, z;
    uint32_t level, value;
};

struct slots {
    int32_t *x, *y, *z;
    uint32_t *level, *value;
};

static const char *path;
static uint8_t *file, *copy;           /* the file's bytes, and as much memory again */
static uint8_t *huge_file, *huge_copy; /* both once more, in huge pages where the machine has them */
static size_t len;
static uint64_t opened[VDB_OPENED_WORDS], fresh[VDB_PLACE_WORDS];
static size_t records, leaves;
static struct slots row;      /* as many slots as there are records */
static struct record *listed; /* the records once more, for the plain loop */
static uint32_t *filled;      /* 512 slots for each leaf */
static uint32_t *filled_copy; /* as many, for a memcpy */

/* The compiler must take what p points to as read and written here. */
static inline void touch(const void *p) { __asm__ volatile("" : : "r"(p) : "memory"); }

static void stop(const char *what)
{
    fprintf(stderr, "ours: %s\n", what);
    exit(1);
}

/* Memory that is there before the clock starts. */
static void *lent(size_t bytes)
{
    void *p = malloc(bytes + 1);
    if (p == NULL) stop("no memory");
    memset(p, 1, bytes);
    touch(p);
    return p;
}

/* The same in huge pages. That the machine has none is no failure: the memory then has ordinary ones. */
static void *lent_huge(size_t bytes)
{
    const size_t pages = (bytes / HUGE_PAGE + 1) * HUGE_PAGE;
    void *p = aligned_alloc(HUGE_PAGE, pages);
    if (p == NULL) stop("no memory");
    (void)madvise(p, pages, MADV_HUGEPAGE);
    memset(p, 1, pages);
    touch(p);
    return p;
}

static void load(uint8_t *to)
{
    FILE *f = fopen(path, "rb");
    if (f == NULL) stop(path);
    setvbuf(f, NULL, _IONBF, 0);
    if (fread(to, 1, len, f) != len) stop(path);
    fclose(f);
}

static void open_grid(const uint8_t *s, uint64_t place[VDB_PLACE_WORDS])
{
    if (vdb_open_grid_numbered(s, len, 0, opened, place) != 0) stop("refused");
}

static size_t walk(const uint8_t *s, uint64_t place[VDB_PLACE_WORDS], size_t slots)
{
    uint64_t counts[VDB_WALK_COUNTS];
    if (vdb_walk(s, len, place, row.x, slots, row.y, slots, row.z, slots, row.level, slots, row.value, slots, counts) != 0) stop("refused");
    return counts[VDB_FILLED];
}

static void walk_all(size_t slots)
{
    uint64_t place[VDB_PLACE_WORDS];
    memcpy(place, fresh, sizeof place);
    for (size_t done = 0; done < records;) done += walk(file, place, slots);
}

static uint64_t sum(size_t n)
{
    uint64_t total = 0;
    for (size_t i = 0; i < n; i++) total += plain(row.x[i], row.y[i], row.z[i], row.level[i], row.value[i]);
    return total;
}

/* Opens, walks in portions of so many slots, and adds up what the slots then hold: what a reader's user does. */
static uint64_t whole(const uint8_t *s, size_t slots)
{
    uint64_t place[VDB_PLACE_WORDS], total = 0;
    open_grid(s, place);
    for (size_t done = 0, n; done < opened[VDB_OPENED_ACTIVE_COUNT]; done += n) {
        n = walk(s, place, slots);
        total += sum(n);
    }
    return total;
}

/*
 * The same over the file mapped, and unmapped again. MAP_POPULATE, since all pages are mapped in one call: a plain mapping and MADV_WILLNEED have a fault for
 * every few pages. It was the fastest of the three over all clouds of 100 MB, by 0.3 to 1.2 %; no more, as the page cache has the file.
 */
static uint64_t whole_mapped(void)
{
    struct stat info;
    const int f = open(path, O_RDONLY);
    if (f < 0 || fstat(f, &info) != 0 || (size_t)info.st_size != len) stop(path);
    uint8_t *s = mmap(NULL, len, PROT_READ, MAP_PRIVATE | MAP_POPULATE, f, 0);
    if (s == MAP_FAILED) stop(path);
    const uint64_t total = whole(s, SOME);
    munmap(s, len);
    close(f);
    return total;
}

static void plain_loop(size_t slots)
{
    for (size_t from = 0; from < records; from += slots) {
        const struct record *r = listed + from;
        const size_t n = records - from < slots ? records - from : slots;
        for (size_t i = 0; i < n; i++) {
            row.x[i] = r[i].x;
            row.y[i] = r[i].y;
            row.z[i] = r[i].z;
            row.level[i] = r[i].level;
            row.value[i] = r[i].value;
        }
        touch(row.x);
    }
}

static uint64_t leaf_sum(size_t n)
{
    uint64_t total = 0;
    for (size_t i = 0; i < 512 * n; i++) total += filled[i];
    return total;
}

static void fill_leaf(uint64_t leaf)
{
    if (vdb_fill_leaf_numbered(file, len, 0, leaf, filled, 512) != 0) stop("refused");
}

static void fill_leaves(const uint8_t *s)
{
    if (vdb_fill_leaves_numbered(s, len, 0, 0, filled, 512 * leaves) != 0) stop("refused");
}

/* The origins of all leaves, in slots of the records; a cloud has more records than leaves. */
static void leaf_origins(void)
{
    if (vdb_leaf_origins_numbered(file, len, 0, 0, row.x, leaves, row.y, leaves, row.z, leaves) != 0) stop("refused");
}

static void prepare(void)
{
    FILE *f = fopen(path, "rb");
    if (f == NULL || fseek(f, 0, SEEK_END) != 0) stop(path);
    len = (size_t)ftell(f);
    fclose(f);
    file = lent(len);
    copy = lent(len);
    huge_file = lent_huge(len);
    huge_copy = lent_huge(len);
    load(file);
    memcpy(huge_file, file, len);
    open_grid(file, fresh);
    records = opened[VDB_OPENED_ACTIVE_COUNT];
    leaves = opened[VDB_OPENED_LEAF_COUNT];
    if (records < leaves) stop("fewer records than leaves");
    row = (struct slots){lent(4 * records), lent(4 * records), lent(4 * records), lent(4 * records), lent(4 * records)};
    listed = lent(records * sizeof *listed);
    filled = lent(4 * 512 * leaves);
    filled_copy = lent(4 * 512 * leaves);
}

/* Counts and sums, and `listed`. Each way to the records gives its own sum. */
static void check(void)
{
    uint64_t total = 0, tiles = 0;
    print_number("bytes", len);
    print_number("records", records);
    print_number("leaves", leaves);
    print_number("sum", whole(file, FEW));
    print_number("sum", whole(file, SOME));
    print_number("sum", whole(huge_file, SOME));
    print_number("sum", whole_mapped());
    print_number("sum", whole(file, records));
    for (size_t i = 0; i < records; i++) {
        listed[i] = (struct record){row.x[i], row.y[i], row.z[i], row.level[i], row.value[i]};
        total += mixed(row.x[i], row.y[i], row.z[i], row.level[i], row.value[i]);
        tiles += row.level[i] != 0;
    }
    print_number("mixed", total);
    print_number("tiles", tiles);
    plain_loop(records);
    print_number("sum", sum(records));
    fill_leaves(file);
    print_number("leaf_sum", leaf_sum(leaves));
    total = filled[512 * (leaves / 2)];
    fill_leaf(leaves / 2);
    if (filled[0] != total) stop("the fills differ");
}

static void measure(void)
{
    uint64_t place[VDB_PLACE_WORDS], total;
    struct moment from = start();
    memcpy(copy, file, len);
    touch(copy);
    print_time("memcpy", from);
    from = start();
    open_grid(file, place);
    print_time("open", from);
    from = start();
    walk_all(FEW);
    print_time("walk_64", from);
    from = start();
    walk_all(SOME);
    print_time("walk_4096", from);
    from = start();
    plain_loop(SOME);
    print_time("loop_4096", from);
    from = start();
    walk_all(records);
    print_time("walk_all", from);
    from = start();
    plain_loop(records);
    print_time("loop_all", from);
    from = start();
    total = whole(file, SOME);
    print_time("whole", from);
    print_number("sum", total);
    from = start();
    load(copy);
    total = whole(copy, SOME);
    print_time("whole_read", from);
    print_number("sum", total);
    from = start();
    total = whole_mapped();
    print_time("whole_mapped", from);
    print_number("sum", total);
    from = start();
    fill_leaf(leaves / 2);
    print_time("fill_leaf", from);
    from = start();
    fill_leaf(leaves - 1);
    print_time("fill_last", from);
    from = start();
    leaf_origins();
    print_time("leaf_origins", from);
    from = start();
    memcpy(filled_copy, filled, 4 * 512 * leaves);
    touch(filled_copy);
    print_time("memcpy_slots", from);
    from = start();
    fill_leaves(file);
    print_time("fill_leaves", from);
    print_number("leaf_sum", leaf_sum(leaves));
}

/*
 * For turns of its own, so that the other figures are what they are without it. The leaves are filled first, since they are before the other memcpy too: the
 * caches then hold as much of the file.
 */
static void measure_huge(void)
{
    uint64_t place[VDB_PLACE_WORDS];
    struct moment from;
    fill_leaves(huge_file);
    from = start();
    memcpy(huge_copy, huge_file, len);
    touch(huge_copy);
    print_time("memcpy_huge", from);
    from = start();
    open_grid(huge_file, place);
    print_time("open_huge", from);
}

int main(int count, char **argument)
{
    if (count != 3) stop("usage: ours FILE REPETITIONS|once");
    path = argument[1];
    prepare();
    if (strcmp(argument[2], "once") == 0) {
        walk_all(SOME);
        return 0;
    }
    check();
    for (int i = atoi(argument[2]); i > 0; i--) measure();
    for (int i = atoi(argument[2]); i > 0; i--) measure_huge();
    return 0;
}
