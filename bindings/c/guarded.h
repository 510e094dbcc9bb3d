/* Buffers of the exact size before a page that can't be touched. */
#ifndef GUARDED_H
#define GUARDED_H

#include <stdint.h>
#include <stdio.h>
#include <stdlib.h>
#include <string.h>
#include <sys/mman.h>
#include <unistd.h>

#define GUARDED_ROOM (1u << 16)

typedef struct guarded {
    uint8_t *pages;
    uint8_t *end;
} guarded;

static inline guarded guarded_new(void)
{
    size_t page = (size_t)sysconf(_SC_PAGESIZE);
    uint8_t *pages = mmap(NULL, GUARDED_ROOM + page, PROT_READ | PROT_WRITE, MAP_PRIVATE | MAP_ANONYMOUS, -1, 0);
    if (pages == MAP_FAILED || mprotect(pages + GUARDED_ROOM, page, PROT_NONE) != 0) {
        perror("guard page");
        exit(2);
    }
    guarded made = {pages, pages + GUARDED_ROOM};
    return made;
}

/* Room of exactly `len` bytes, all of one value, with 64 bytes of another value before it. */
static inline uint8_t *guarded_room(const guarded *of, size_t len, uint8_t fill)
{
    uint8_t *at = of->end - len;
    memset(at - 64, 0xa5, 64);
    memset(at, fill, len);
    return at;
}

static inline uint8_t *guarded_copy(const guarded *of, const void *bytes, size_t len)
{
    uint8_t *at = guarded_room(of, len, 0);
    memcpy(at, bytes, len);
    return at;
}

/* Whether nothing was written before the room. */
static inline int guarded_kept(const uint8_t *at)
{
    for (int i = 1; i <= 64; i++) {
        if (at[-i] != 0xa5) {
            return 0;
        }
    }
    return 1;
}

#endif
