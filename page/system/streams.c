/* Words, errors, streams and files: what the page's JavaScript holds. */
#include "system.h"

static int error_number;

int rattle_errno(void) { return error_number; }

void rattle_set_errno(int to) { error_number = to; }

long rattle_arg(long i, void *to, long room) { return page_arg(i, to, room); }

long rattle_env(const void *, void *, long) { return -1; }

long rattle_env_at(long, void *, long) { return -1; }

long __sysv_signal(int, long) { return 0; }

int open(const char *name, int, ...) {
    long length = 0;
    while (name[length]) length++;
    int stream = page_open(name, length);
    if (stream < 0) error_number = NO_SUCH_FILE;
    return stream;
}

long read(int stream, void *to, size_t room) { return page_read(stream, to, (long)room); }

long write(int stream, const void *from, size_t length) { return page_write(stream, from, (long)length); }

long __write(int stream, const void *from, size_t length) { return write(stream, from, length); }

int close(int) { return 0; }

_Noreturn void _exit(int status) { page_exit(status); }

_Noreturn void abort(void) { page_exit(ABORTED); }

const void *__x86_get_cpuid_feature_leaf(unsigned) {
    static unsigned all_are_there[256];
    for (int i = 0; i < 256; i++) all_are_there[i] = ~0U;
    return all_are_there;
}
