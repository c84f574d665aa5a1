/* The memory that the library asks for, by the program's own malloc, realloc and free. A program in C compiles this file in. Go's package,
 * in whose folder it lies, does so by itself; bindings/python/build takes it for the shared library.
 *
 * For memory of another kind write the three functions yourself:
 *
 * - rattle_alloc gives a block of `size` bytes, which is below 2^63. It begins at a multiple of `align`, which is 1, 2, 4, 8 or 16.
 * - rattle_realloc makes `start`, a block that one of the two gave, a block of `size` bytes. The first `kept` bytes stay as they were. The
 *   block may move. If there is no memory for it, the old block stays as it was, and is still to be given back.
 * - rattle_dealloc takes back a block that one of the two gave.
 *
 * `ok` says whether there was memory. If it is false, `start` is any address but null, and is never given back. A function may refuse
 * whenever it likes: the library then says that memory ran out. So a limit on memory is a count in these functions.
 *
 * The three are to be linked once in a program: two libraries that both bring them along don't link.
 */
#include <stdbool.h>
#include <stddef.h>
#include <stdint.h>
#include <stdlib.h>

/* Whether there was memory, and where it begins. */
typedef struct {
    bool ok;
    uint8_t *start;
} Tried;

static uint8_t nowhere;

static Tried tried(void *start) { return (Tried){start != NULL, start != NULL ? start : &nowhere}; }

/* A block of no bytes gets `align` of them. */
Tried rattle_alloc(size_t size, size_t align) { return tried(malloc(size != 0 ? size : align)); }

Tried rattle_realloc(uint8_t *start, size_t kept, size_t size, size_t align) {
    (void)kept;
    return tried(realloc(start, size != 0 ? size : align));
}

void rattle_dealloc(uint8_t *start) { free(start); }
