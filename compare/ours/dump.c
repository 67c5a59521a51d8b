/*
 * Prints what the library reads from files, in the text of compare/README.md, one file's text behind the other's.
 *
 *     dump [options] FILE ..
 *     --values     each leaf's 512 values behind its line
 *     --more       also the background, and coordinates that are not rounded
 *     --slots N    a walk call gets N slots, 4096 if nothing is said
 */
#include <fcntl.h>
#include <stdlib.h>
#include <string.h>
#include <sys/mman.h>
#include <sys/stat.h>
#include <unistd.h>

#include "text.h"

static int dump(const char *path, struct options options)
{
    static const uint8_t nothing[1];
    struct stat info;
    void *at = (void *)nothing;
    int fd = open(path, O_RDONLY);
    if (fd < 0 || fstat(fd, &info) != 0) return 1;
    if (info.st_size > 0) at = mmap(NULL, (size_t)info.st_size, PROT_READ, MAP_PRIVATE, fd, 0);
    if (at == MAP_FAILED) return 1;
    print_text(stdout, at, (size_t)info.st_size, options);
    if (info.st_size > 0) munmap(at, (size_t)info.st_size);
    return close(fd);
}

int main(int count, char **argument)
{
    struct options options = {0, 0, 4096};
    for (int i = 1; i < count; i++) {
        if (strcmp(argument[i], "--values") == 0) options.values = 1;
        else if (strcmp(argument[i], "--more") == 0) options.more = 1;
        else if (strcmp(argument[i], "--slots") == 0 && i + 1 < count) options.slots = strtoul(argument[++i], NULL, 10);
        else if (dump(argument[i], options) != 0) {
            fprintf(stderr, "dump: %s\n", argument[i]);
            return 1;
        }
    }
    return 0;
}
