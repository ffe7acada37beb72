/* The memory of a WebAssembly module. */
#include "system.h"

extern byte __heap_base; /* (the linker's: behind the stack and all that is static) */

size_t memory_begin(void) { return (size_t)&__heap_base; }

size_t memory_end(void) { return (size_t)__builtin_wasm_memory_size(0) << 16; }

int memory_grow(size_t units) { return __builtin_wasm_memory_grow(0, units) != (size_t)-1; }
