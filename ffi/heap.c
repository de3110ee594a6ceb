/* The three functions by which libbroadcast_c.a allocates, over malloc, realloc and free. Compile
 * this file with your program, or define the three yourself, as the comment of each says. */
#include <stdbool.h>
#include <stddef.h>
#include <stdlib.h>

/* Whether there is memory, and where. `at` is never NULL, and leads nowhere unless `ok`. */
typedef struct {
    bool ok;
    void *at;
} tried;

tried rattle_alloc(size_t size, size_t align);
tried rattle_realloc(void *at, size_t kept, size_t size, size_t align);
void rattle_dealloc(void *at);

/* What malloc aligns to, on each system that the library is for. A shorter block may be aligned to
 * less. */
enum { ALIGN = 16 };

/* The library computes with 64 bits. This does not compile elsewhere. */
typedef char is_of_64_bits[sizeof(size_t) == 8 && sizeof(void *) == 8 ? 1 : -1];

static bool is_aligned_by_malloc(size_t align)
{
    return align > 0 && align <= ALIGN && (align & (align - 1)) == 0;
}

/* The bytes to ask for. No block is empty: realloc would free it. */
static size_t room_of(size_t size)
{
    return size < ALIGN ? ALIGN : size;
}

static tried tried_of(void *at)
{
    static char nowhere[ALIGN];
    tried it = {at != NULL, at != NULL ? at : nowhere};
    return it;
}

/* Returns a block of `size` bytes at a multiple of `align`, which is a power of two. Fails if `align` is
 * above 16. */
tried rattle_alloc(size_t size, size_t align)
{
    return tried_of(is_aligned_by_malloc(align) ? malloc(room_of(size)) : NULL);
}

/* Makes the block at `at`, of which `kept` bytes are in use, one of `size` bytes, and returns where
 * the block is then. If this fails, the block is as it was. */
tried rattle_realloc(void *at, size_t kept, size_t size, size_t align)
{
    (void)kept;
    return tried_of(is_aligned_by_malloc(align) ? realloc(at, room_of(size)) : NULL);
}

/* Frees a block. */
void rattle_dealloc(void *at)
{
    free(at);
}
