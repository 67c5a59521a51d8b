/* What the library reads from a file, in the text of compare/README.md. */
#ifndef TEXT_H
#define TEXT_H

#include <stddef.h>
#include <stdint.h>
#include <stdio.h>

struct options {
    int values;   /* each leaf's values behind its line */
    int more;     /* also the background, and coordinates that are not rounded */
    size_t slots; /* slots lent to a walk call, at least 1 */
};

/* Returns the number of calls that were made. */
uint64_t print_text(FILE *out, const uint8_t *file, size_t file_len, struct options options);

/* Names that stand in the file, as spans. */
struct span {
    uint64_t start, len;
};

/* The names of the metadata that starts at a position, in the order of the file, and how many. The caller frees them. */
struct span *metadata_names(const uint8_t *file, uint64_t at, size_t *count);

#endif
