/* What the program asks of a C library and of a kernel, and what stands in their place under the page.

   The program is compiled as on a PC, with pointers of 64 bits, and linked with the files of this folder in place of
   glibc. They need five functions of the page's JavaScript (below) and a memory that can grow. `wanted.txt` lists what
   the program asks for; the build ends with the name of a function that is not listed. Each function promises what the
   one of its name does on the system, but for what is said beside it. */
#ifndef SYSTEM_H
#define SYSTEM_H

typedef unsigned long size_t;
typedef unsigned char byte;

/* Errors of Linux, as the program reads them by rattle_errno. */
enum { NO_SUCH_FILE = 2, TRY_AGAIN = 11, NO_SUCH_CALL = 38 };

/* Statuses with which the page ends a call: after abort, and where a thread would sleep for ever. */
enum { ABORTED = 134, SLEEPS_FOR_EVER = 135 };

/* The page's JavaScript. Each number is of 64 bits, but for a stream and a status. */
#ifdef __wasm__
#define FROM_PAGE(name) __attribute__((import_module("page"), import_name(#name)))
#else
#define FROM_PAGE(name)
#endif
/* Copies word i to `to` and gives its length; -1 where there is none, -2 where it is longer than `room`. */
FROM_PAGE(arg) long page_arg(long i, void *to, long room);
/* A number for the file of this name, read from its begin on; -1 where there is none. */
FROM_PAGE(open) int page_open(const void *name, long length);
/* Copies the next bytes of a file or of the input (0), at most `room`, and says how many; 0 at its end. */
FROM_PAGE(read) long page_read(int stream, void *to, long room);
/* Takes all these bytes as output (1) or notes (2), and says how many. */
FROM_PAGE(write) long page_write(int stream, const void *from, long length);
/* Ends the call with this status. */
FROM_PAGE(exit) _Noreturn void page_exit(int status);

/* The memory (machine.c; the tests have one of their own): where the part begins that is free at the start, where it
   ends, and whether it could be made so much longer, in units of 65,536 bytes. */
size_t memory_begin(void);
size_t memory_end(void);
int memory_grow(size_t units);

/* Memory (memory.c). A block lies at a multiple of 16. No memory is ever given back to the browser; a block that is
   freed waits for the next request of its size class. A request above 2^40 bytes is refused. */
void *malloc(size_t size);
void free(void *at);
void *realloc(void *at, size_t size);
void *memcpy(void *to, const void *from, size_t length);
void *memmove(void *to, const void *from, size_t length);
void *memset(void *to, int value, size_t length);
/* As the program's own library of C has them: whether there is a block, and where. Alignments are 16 at most. */
struct answer {
    size_t is_there;
    void *at;
};
struct answer rattle_alloc(size_t size, size_t align);
struct answer rattle_realloc(void *at, size_t old, size_t size, size_t align);
void rattle_dealloc(void *at);

/* Words, streams and files (streams.c). There is no environment. A file is what the page holds under this name. No
   read and no write fails, and a write takes all. Signals never come. */
int rattle_errno(void);
void rattle_set_errno(int to);
long rattle_arg(long i, void *to, long room);
long rattle_env(const void *name, void *to, long room);
long rattle_env_at(long i, void *to, long room);
long __sysv_signal(int signal, long handler);
int open(const char *name, int flags, ...);
long read(int stream, void *to, size_t room);
long write(int stream, const void *from, size_t length);
long __write(int stream, const void *from, size_t length);
int close(int stream);
_Noreturn void _exit(int status);
_Noreturn void abort(void);
/* The processor's features. The program is compiled for a PC and asks whether they are there: all are. */
const void *__x86_get_cpuid_feature_leaf(unsigned leaf);

/* Threads (threads.c). A new thread runs at once, to its end, on the stack of the one that makes it; that is a
   schedule that the system may make too. So at most one thread is ever at work, all others have ended or wait for one
   that they made, and a wait on a word of memory that has its value still could never end: it ends the call. A call
   makes 128 threads at most. */
int pthread_attr_init(void *attributes);
int pthread_attr_setguardsize(void *attributes, size_t size);
int pthread_attr_setstacksize(void *attributes, size_t size);
int pthread_attr_destroy(void *attributes);
int pthread_create(unsigned long *thread, const void *attributes, void *(*start)(void *), void *argument);
int pthread_join(unsigned long thread, void **result);
int pthread_detach(unsigned long thread);
unsigned long pthread_self(void);
int sched_yield(void);
long syscall(long number, const unsigned *word, long command, long value, const void *time, ...);

/* Arithmetic of 128 bits, as LLVM calls it (wide.c). */
typedef __int128 wide;
wide __multi3(wide x, wide y);
wide __ashlti3(wide x, int count);
wide __lshrti3(wide x, int count);
wide __divti3(wide x, wide y);

#endif
