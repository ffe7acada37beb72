/* Memory: blocks of size classes, four to each power of two, each with its class before it. */
#include "system.h"

enum { HEAD = 16, CLASSES = 256 };
static const size_t MOST = 1UL << 40;

struct free_block {
    struct free_block *next;
};
static struct free_block *free_lists[CLASSES];
static size_t heap_top, heap_end;

/* Classes 2, 3 and 4 have 32, 48 and 64 bytes with the head; from 5 on 80, 96, 112, 128, 160, 192 and so on. So a block
   has room for the link of a freed one, also where no byte is asked for. */
static unsigned class_of(size_t size) {
    size_t all = (size ? size : 1) + HEAD;
    if (all <= 64) return (unsigned)((all + 15) / 16);
    unsigned log = 63 - (unsigned)__builtin_clzl(all - 1);
    return 4 * (log - 6) + (unsigned)((all - 1) >> (log - 2) & 3) + 5;
}

static size_t bytes_of(unsigned class) {
    if (class < 5) return class * 16;
    unsigned log = (class - 5) / 4 + 6, part = (class - 5) % 4;
    return (size_t)(part + 5) << (log - 2);
}

/* Whether so many bytes more could be had: an eighth of all that is there, or what is needed. */
static int grow(size_t bytes) {
    size_t needed = (bytes + 65535) >> 16, eighth = heap_end >> 19;
    size_t units = needed > eighth ? needed : eighth;
    if (!memory_grow(units)) {
        if (units == needed || !memory_grow(needed)) return 0;
        units = needed;
    }
    heap_end += units << 16;
    return 1;
}

void *malloc(size_t size) {
    if (size > MOST) return 0;
    unsigned class = class_of(size);
    struct free_block *block = free_lists[class];
    if (block) {
        free_lists[class] = block->next;
        return block;
    }
    if (!heap_end) {
        heap_top = (memory_begin() + 15) & ~15UL;
        heap_end = memory_end();
    }
    size_t bytes = bytes_of(class);
    if (bytes > heap_end - heap_top && !grow(bytes - (heap_end - heap_top))) return 0;
    size_t *at = (size_t *)heap_top;
    heap_top += bytes;
    at[0] = class;
    return at + 2;
}

static unsigned class_before(void *at) { return (unsigned)((size_t *)at)[-2]; }

void free(void *at) {
    if (!at) return;
    struct free_block *block = at;
    block->next = free_lists[class_before(at)];
    free_lists[class_before(at)] = block;
}

void *realloc(void *at, size_t size) {
    if (!at) return malloc(size);
    if (size > MOST) return 0;
    size_t room = bytes_of(class_before(at)) - HEAD;
    if (size <= room && size >= room / 4) return at;
    void *to = malloc(size);
    if (!to) return size <= room ? at : 0;
    __builtin_memcpy(to, at, size < room ? size : room);
    free(at);
    return to;
}

static byte no_block[16] __attribute__((aligned(16)));

static struct answer answer_of(void *at) { return (struct answer){at != 0, at ? at : no_block}; }

struct answer rattle_alloc(size_t size, size_t align) { return answer_of(malloc(size ? size : align)); }

struct answer rattle_realloc(void *at, size_t, size_t size, size_t align) {
    return answer_of(realloc(at, size ? size : align));
}

void rattle_dealloc(void *at) { free(at); }
