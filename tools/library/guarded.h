/* guarded.h: places in memory with a page that nobody may touch on both sides. A read or write beyond them ends the program. */
#ifndef GUARDED_H
#define GUARDED_H

#define _GNU_SOURCE
#include <stdio.h>
#include <stdlib.h>
#include <string.h>
#include <sys/mman.h>

#define PAGE 4096

struct guarded {
    unsigned char *start; /* of the pages that may be touched */
    size_t size;
};

static inline void must(int holds, const char *what) {
    if (!holds) {
        printf("FAILED: %s\n", what);
        fflush(stdout);
        _Exit(1);
    }
}

static inline struct guarded guarded_new(size_t size) {
    size_t pages = (size + PAGE - 1) / PAGE + 1;
    unsigned char *all = mmap(NULL, (pages + 2) * PAGE, PROT_NONE, MAP_PRIVATE | MAP_ANONYMOUS, -1, 0);
    must(all != MAP_FAILED, "mmap");
    must(mprotect(all + PAGE, pages * PAGE, PROT_READ | PROT_WRITE) == 0, "mprotect");
    return (struct guarded){all + PAGE, pages * PAGE};
}

static inline void guarded_free(struct guarded it) {
    munmap(it.start - PAGE, it.size + 2 * PAGE);
}

/* How many bytes beside a place are looked at, on the side that has no page that nobody may touch. */
#define BESIDE 512

/* What is beside a place of so many bytes: from the start of its pages, or after it. */
static inline size_t guarded_beside(struct guarded it, size_t size) {
    return it.size - size < BESIDE ? it.size - size : BESIDE;
}

/* A place of so many bytes, right before the page after it, or right after the page before it. What is beside it has 0xA5. */
static inline void *guarded_place(struct guarded it, size_t size, int at_front) {
    size_t beside = guarded_beside(it, size);
    must(size <= it.size, "a place is longer than its pages");
    memset(at_front ? it.start : it.start + it.size - size - beside, 0xA5, size + beside);
    return at_front ? it.start : it.start + it.size - size;
}

/* Nobody may write to it, or everybody may again. */
static inline void guarded_lock(struct guarded it, int is_locked) {
    must(mprotect(it.start, it.size, is_locked ? PROT_READ : PROT_READ | PROT_WRITE) == 0, "mprotect");
}

/* What is beside the place still has 0xA5. */
static inline int guarded_whole(struct guarded it, const void *place, size_t size) {
    const unsigned char *from = place, *at = from == it.start ? from + size : from - guarded_beside(it, size);
    size_t i, beside = guarded_beside(it, size);
    for (i = 0; i < beside; i++)
        if (at[i] != 0xA5) return 0;
    return 1;
}

#endif
