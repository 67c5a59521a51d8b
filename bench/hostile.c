/*
 * Times opening a file that was made to cost as much as it can, and beside it a memcpy of its bytes. If its first grid is accepted, times opening that and
 * a walk to its first record.
 *
 *     hostile FILE REPETITIONS
 */
#include <stdlib.h>
#include <string.h>

#include "record.h"
#include "vdb.h"

static void time_grid(const uint8_t *file, size_t len)
{
    uint64_t opened[VDB_OPENED_WORDS], place[VDB_PLACE_WORDS], counts[VDB_WALK_COUNTS];
    int32_t x, y, z;
    uint32_t level, value;
    struct moment from = start();
    if (vdb_open_grid_numbered(file, len, 0, opened, place) != 0) return;
    print_time("open_grid", from);
    from = start();
    if (vdb_walk(file, len, place, &x, 1, &y, 1, &z, 1, &level, 1, &value, 1, counts) != 0 || counts[VDB_FILLED] != 1) exit(1);
    print_time("walk_1", from);
}

int main(int count, char **argument)
{
    uint64_t words[VDB_FILE_WORDS];
    FILE *f = count == 3 ? fopen(argument[1], "rb") : NULL;
    if (f == NULL || fseek(f, 0, SEEK_END) != 0) return 2;
    const size_t len = (size_t)ftell(f);
    uint8_t *file = malloc(len), *copy = malloc(len);
    rewind(f);
    if (file == NULL || copy == NULL || fread(file, 1, len, f) != len) return 2;
    memcpy(copy, file, len);
    print_number("bytes", len);
    for (int i = atoi(argument[2]); i > 0; i--) {
        struct moment from = start();
        memcpy(copy, file, len);
        __asm__ volatile("" : : "r"(copy) : "memory");
        print_time("memcpy", from);
        from = start();
        if (vdb_open_file(file, len, words) != 0) return 1;
        print_time("open_file", from);
        time_grid(file, len);
    }
    return 0;
}
