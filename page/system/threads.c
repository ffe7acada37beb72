/* Threads: a new one runs at once, to its end, on the stack of the one that makes it. */
#include "system.h"

enum { MOST_THREADS = 128, FIRST_NAME = 2, MAKER = 1 };
enum { SYS_FUTEX = 202, FUTEX_WAKE = 1, FUTEX_COMMANDS = 127 };

static void *results[MOST_THREADS];
static unsigned long thread_count;

int pthread_attr_init(void *) { return 0; }

int pthread_attr_setguardsize(void *, size_t) { return 0; }

int pthread_attr_setstacksize(void *, size_t) { return 0; }

int pthread_attr_destroy(void *) { return 0; }

unsigned long pthread_self(void) { return MAKER; }

int sched_yield(void) { return 0; }

int pthread_detach(unsigned long) { return 0; }

int pthread_create(unsigned long *thread, const void *, void *(*start)(void *), void *argument) {
    if (thread_count == MOST_THREADS) return TRY_AGAIN;
    unsigned long number = thread_count++;
    results[number] = start(argument);
    *thread = number + FIRST_NAME;
    return 0;
}

int pthread_join(unsigned long thread, void **result) {
    if (result) *result = results[thread - FIRST_NAME];
    return 0;
}

/* A wait on a word ends at once where the word has another value. Nobody else is at work who could change it. */
static long futex(const unsigned *word, long command, unsigned value) {
    if ((command & FUTEX_COMMANDS) == FUTEX_WAKE) return 0;
    if (*word == value) page_exit(SLEEPS_FOR_EVER);
    rattle_set_errno(TRY_AGAIN);
    return -1;
}

long syscall(long number, const unsigned *word, long command, long value, const void *, ...) {
    if (number == SYS_FUTEX) return futex(word, command, (unsigned)value);
    rattle_set_errno(NO_SUCH_CALL);
    return -1;
}
