/* zoftemar_heap.h: the three functions by which the library allocates memory. heap.c defines them with malloc, realloc and free. A program with its
 * own allocator defines all three, in C or C++, and the linker leaves heap.c out. Rooms of different threads may call these functions at once. */
#ifndef ZOFTEMAR_HEAP_H
#define ZOFTEMAR_HEAP_H

#include <stdbool.h>
#include <stddef.h>

#ifdef __cplusplus
extern "C" {
#endif

/* `ok`: false if out of memory. `at`: the block's address, or any address if `ok` is false. `at` is never NULL, not even for a block of 0 bytes. */
typedef struct zoftemar_block {
    bool ok;
    void *at;
} zoftemar_block;

/* Allocates a block of `count` bytes, fewer than 2^63, aligned to `align`, which is 1, 2, 4, 8 or 16. */
zoftemar_block rattle_alloc(size_t count, size_t align);

/* Resizes the block `old` to `count` bytes, at the same address or another, and keeps its first `kept` bytes. `count` and `align` are as above. If
 * `ok` is false, `old` is unchanged. */
zoftemar_block rattle_realloc(void *old, size_t kept, size_t count, size_t align);

/* Frees a block. */
void rattle_dealloc(void *at);

#ifdef __cplusplus
}
#endif

#endif
