/* Tests page/system on a PC, under the address sanitizer. Its files are taken in with other names, so that the C
   library of the test stays as it is; the memory is an array of which a part is free. */
#include <sanitizer/asan_interface.h>
#include <setjmp.h>
#include <stdio.h>
#include <stdlib.h>
#include <string.h>

#define malloc tested_malloc
#define free tested_free
#define realloc tested_realloc
#define memcpy tested_memcpy
#define memmove tested_memmove
#define memset tested_memset
#define open tested_open
#define read tested_read
#define write tested_write
#define __write tested_write_too
#define close tested_close
#define _exit tested_exit
#define abort tested_abort
#define syscall tested_syscall
#define sched_yield tested_yield
#define pthread_attr_init tested_attr_init
#define pthread_attr_setguardsize tested_attr_setguardsize
#define pthread_attr_setstacksize tested_attr_setstacksize
#define pthread_attr_destroy tested_attr_destroy
#define pthread_create tested_create
#define pthread_join tested_join
#define pthread_detach tested_detach
#define pthread_self tested_self
#define __sysv_signal tested_signal
#define __multi3 tested_multi3
#define __ashlti3 tested_ashlti3
#define __lshrti3 tested_lshrti3
#define __divti3 tested_divti3
#include "../../page/system/bytes.c"
#include "../../page/system/memory.c"
#include "../../page/system/streams.c"
#include "../../page/system/threads.c"
#include "../../page/system/wide.c"

enum { ROOM = 64 << 20, FREE_AT_FIRST = 65536, BLOCKS = 500, TURNS = 100000 };
static byte arena[ROOM] __attribute__((aligned(65536)));
static size_t reached = FREE_AT_FIRST, most = ROOM;
static unsigned long failures, checks;
static jmp_buf ended;
static int status;

size_t memory_begin(void) { return (size_t)arena + 3; }

size_t memory_end(void) { return (size_t)arena + reached; }

int memory_grow(size_t units) {
    if (units << 16 > most - reached) return 0;
    ASAN_UNPOISON_MEMORY_REGION(arena + reached, units << 16);
    reached += units << 16;
    return 1;
}

static void expect(int holds, const char *what, long which) {
    checks++;
    if (holds) return;
    if (failures++ < 20) printf("not so: %s (%ld)\n", what, which);
}

/* The page's JavaScript: two words, one file, and what was written. */
static char written[64];
static size_t length_written;

long page_arg(long i, void *to, long room) {
    static const char *words[] = {"superpascal", "run"};
    if (i > 1) return -1;
    long length = (long)strlen(words[i]);
    if (length > room) return -2;
    __builtin_memcpy(to, words[i], (size_t)length);
    return length;
}

int page_open(const void *name, long length) { return length == 4 && !memcmp(name, "text", 4) ? 3 : -1; }

long page_read(int stream, void *to, long room) {
    if (stream != 3 || room < 5) return 0;
    __builtin_memcpy(to, "hello", 5);
    return 5;
}

long page_write(int stream, const void *from, long length) {
    expect(stream == 1 && length_written + (size_t)length <= sizeof written, "a write", stream);
    __builtin_memcpy(written + length_written, from, (size_t)length);
    length_written += (size_t)length;
    return length;
}

_Noreturn void page_exit(int with) {
    status = with;
    longjmp(ended, 1);
}

static unsigned long seed = 88172645463325252UL;

static unsigned long chance(unsigned long below) {
    seed ^= seed << 13, seed ^= seed >> 7, seed ^= seed << 17;
    return seed % below;
}

/* Blocks that are filled with a byte of their own, which must be there later. */
static struct held {
    byte *at;
    size_t size;
    byte filler;
} held[BLOCKS];

static void look_at(const struct held *it, size_t size, const char *what) {
    for (size_t i = 0; i < size; i++)
        if (it->at[i] != it->filler) {
            expect(0, what, (long)i);
            return;
        }
    checks++;
}

static size_t some_size(void) { return chance(8) ? chance(300) : chance(60000); }

static void fill(struct held *it, byte *at, size_t size) {
    *it = (struct held){at, size, (byte)chance(256)};
    if (at) __builtin_memset(at, it->filler, size);
}

static void test_memory(void) {
    ASAN_POISON_MEMORY_REGION(arena + reached, ROOM - reached);
    for (long turn = 0; turn < TURNS; turn++) {
        struct held *it = &held[chance(BLOCKS)];
        if (it->at) look_at(it, it->size, "a block keeps what it holds");
        if (it->at && chance(3)) {
            size_t size = some_size();
            byte *at = realloc(it->at, size);
            expect(at != 0, "a block is made larger or smaller", turn);
            it->at = at;
            look_at(it, size < it->size ? size : it->size, "a block that has moved keeps what it holds");
            fill(it, at, size);
        } else if (it->at) {
            free(it->at);
            it->at = 0;
        } else {
            size_t size = some_size();
            fill(it, malloc(size), size);
            expect(it->at != 0 && (size_t)it->at % 16 == 0, "a block at a multiple of 16", turn);
        }
    }
}

static void test_refusal(void) {
    most = reached;
    size_t got = 0;
    struct held last = {0}, next;
    for (;; last = next) {
        fill(&next, malloc(50000), 50000);
        if (!next.at) break;
        got++;
    }
    expect(got < ROOM / 50000, "memory ends", (long)got);
    if (last.at) {
        expect(realloc(last.at, 900000) == 0, "no larger block is there", 0);
        look_at(&last, last.size, "a refused request leaves the block as it was");
        byte *at = realloc(last.at, 10);
        expect(at != 0, "a smaller block is always there", 0);
    }
    expect(malloc(MOST + 1) == 0 && realloc(held[0].at, MOST + 1) == 0, "no block of more than 2^40 bytes", 0);
    expect(malloc(MOST) == 0, "no block of 2^40 bytes is there", 0);
    struct answer none = rattle_alloc(1 << 30, 8);
    expect(!none.is_there && none.at, "a refused request has a place that is not there", 0);
    most = ROOM;
    struct answer some = rattle_alloc(0, 8), moved = rattle_realloc(some.at, 0, 100, 8);
    expect(some.is_there && moved.is_there, "a block of no bytes", 0);
    rattle_dealloc(moved.at);
    free(0);
}

static void test_sizes(void) {
    for (size_t size = 0; size < 1UL << 33; size = size < 5000 ? size + 1 : size + size / 7) {
        unsigned class = class_of(size);
        size_t bytes = bytes_of(class);
        expect(class < CLASSES && bytes >= size + HEAD && bytes % 16 == 0, "the class of a size", (long)size);
        expect(class == 2 || bytes_of(class - 1) < size + HEAD, "no smaller class has the size", (long)size);
    }
}

static void *twice(void *number) {
    *(unsigned *)number *= 2;
    return number;
}

static void test_threads(void) {
    unsigned number = 21;
    unsigned long thread = 0;
    void *result = 0;
    expect(!pthread_attr_init(0) && !pthread_attr_destroy(0), "attributes", 0);
    expect(!pthread_attr_setguardsize(0, 1) && !pthread_attr_setstacksize(0, 1), "sizes of stacks", 0);
    expect(!pthread_create(&thread, 0, twice, &number) && number == 42, "a thread runs at once", (long)number);
    expect(!pthread_join(thread, &result) && result == &number, "its result", 0);
    expect(!pthread_join(thread, 0) && !pthread_detach(thread), "its end", 0);
    expect(pthread_self() != thread && !sched_yield(), "another thread than its maker", 0);
    for (int i = 1; i < MOST_THREADS; i++) expect(!pthread_create(&thread, 0, twice, &number), "128 threads", i);
    expect(pthread_create(&thread, 0, twice, &number) == TRY_AGAIN, "no more", 0);
}

static void test_waits(void) {
    unsigned word = 7;
    expect(syscall(SYS_FUTEX, &word, FUTEX_WAKE | 128, 1, 0) == 0, "nobody is woken", 0);
    expect(syscall(SYS_FUTEX, &word, 128, 6, 0) == -1 && rattle_errno() == TRY_AGAIN, "the word has changed", 0);
    expect(syscall(1, &word, 0, 0, 0) == -1 && rattle_errno() == NO_SUCH_CALL, "no other call", 0);
    if (!setjmp(ended)) syscall(SYS_FUTEX, &word, 128, 7, 0);
    expect(status == SLEEPS_FOR_EVER, "a wait for ever ends the call", status);
}

static void test_streams(void) {
    char room[16] = {0};
    expect(rattle_arg(1, room, 16) == 3 && !strcmp(room, "run"), "a word", 0);
    expect(rattle_arg(2, room, 16) == -1 && rattle_arg(0, room, 3) == -2, "no word, and a long one", 0);
    expect(rattle_env("PATH", room, 16) == -1 && rattle_env_at(0, room, 16) == -1, "no environment", 0);
    rattle_set_errno(0);
    expect(open("none", 0) == -1 && rattle_errno() == NO_SUCH_FILE, "no such file", rattle_errno());
    expect(open("text", 0) == 3 && read(3, room, 16) == 5 && !close(3), "a file", 0);
    expect(write(1, "a", 1) == 1 && __write(1, "bc", 2) == 2 && !memcmp(written, "abc", 3), "output", 0);
    expect(__sysv_signal(13, 1) == 0, "no signal", 0);
    const unsigned *leaf = __x86_get_cpuid_feature_leaf(0);
    expect(leaf[0] == ~0U && leaf[255] == ~0U, "all features", 0);
    if (!setjmp(ended)) _exit(4);
    expect(status == 4, "the status", status);
    if (!setjmp(ended)) abort();
    expect(status == ABORTED, "the status of abort", status);
}

static void test_bytes(void) {
    char room[8] = "abcdefg";
    memmove(room + 1, room, 4);
    expect(!strcmp(room, "aabcdfg"), "bytes that overlap", 0);
    memset(room, 'x', 2);
    memcpy(room + 5, "yz", 2);
    expect(!strcmp(room, "xxbcdyz"), "bytes", 0);
}

static wide some_wide(void) {
    static const unsigned long edges[] = {0, 1, 2, 3, ~0UL, ~0UL - 1, 1UL << 63, (1UL << 63) - 1, 10, 1UL << 32};
    both it = {.low = chance(3) ? chance(~0UL) >> chance(64) : edges[chance(10)],
               .high = chance(3) ? chance(~0UL) >> chance(64) : edges[chance(10)]};
    return it.all;
}

static void test_wide(void) {
    const wide least = (wide)((unsigned __int128)1 << 127);
    for (long i = 0; i < TURNS; i++) {
        wide a = some_wide(), b = some_wide();
        int count = (int)chance(128);
        expect(__multi3(a, b) == (wide)((unsigned __int128)a * (unsigned __int128)b), "a product", i);
        expect(__ashlti3(a, count) == (wide)((unsigned __int128)a << count), "a shift to the left", count);
        expect(__lshrti3(a, count) == (wide)((unsigned __int128)a >> count), "a shift to the right", count);
        if (b && !(a == least && b == -1)) expect(__divti3(a, b) == a / b, "a quotient", i);
    }
}

int main(void) {
    test_memory();
    test_sizes();
    test_refusal();
    test_threads();
    test_waits();
    test_streams();
    test_bytes();
    test_wide();
    printf("%lu checks of page/system, %lu failures\n", checks, failures);
    return failures != 0;
}
