/* Moving bytes: each is one instruction of WebAssembly (memory.copy, memory.fill). */
#include "system.h"

void *memcpy(void *to, const void *from, size_t length) {
    __builtin_memcpy(to, from, length);
    return to;
}

void *memmove(void *to, const void *from, size_t length) {
    __builtin_memmove(to, from, length);
    return to;
}

void *memset(void *to, int value, size_t length) {
    __builtin_memset(to, value, length);
    return to;
}
