/* Memory between two pages that may not be touched, and files in memory. */
#ifndef MEMORY_H
#define MEMORY_H

#include <stdint.h>
#include <stdio.h>
#include <stdlib.h>
#include <string.h>
#include <sys/mman.h>
#include <unistd.h>

enum { FENCED = 1 << 17, UNSET = 0xC3 };

static inline void stop(const char *what, const char *which) {
    fprintf(stderr, "%s: %s\n", what, which);
    exit(2);
}

static inline uint8_t *fenced(void) {
    size_t page = (size_t)sysconf(_SC_PAGESIZE);
    uint8_t *start = mmap(NULL, FENCED + 2 * page, PROT_READ | PROT_WRITE, MAP_PRIVATE | MAP_ANONYMOUS, -1, 0);
    if (start == MAP_FAILED || mprotect(start, page, PROT_NONE) != 0 || mprotect(start + page + FENCED, page, PROT_NONE) != 0) {
        stop("no memory", "fenced");
    }
    return start + page;
}

struct bytes {
    uint8_t *at;
    size_t len;
};

static inline struct bytes file(const char *name) {
    struct bytes all = {malloc(FENCED), 0};
    FILE *from = fopen(name, "rb");
    if (all.at == NULL || from == NULL) {
        stop("cannot be read", name);
    }
    all.len = fread(all.at, 1, FENCED, from);
    fclose(from);
    return all;
}

#endif
