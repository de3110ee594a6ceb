/* The blocks of heap.c: each is aligned as it is asked for, or refused. */
#include "heap.c"
#include "must.h"
#include <stdint.h>

/* A compiler that sees what is called leaves out blocks that nobody uses. */
static tried (*volatile alloc)(size_t, size_t) = rattle_alloc;
static tried (*volatile change)(void *, size_t, size_t, size_t) = rattle_realloc;

static void fill(unsigned char *at, size_t size)
{
    for (size_t i = 0; i < size; i++)
        at[i] = (unsigned char)(size + i);
}

static bool is_filled(const unsigned char *at, size_t size, size_t upto)
{
    for (size_t i = 0; i < upto; i++)
        if (at[i] != (unsigned char)(size + i))
            return false;
    return true;
}

static void is_aligned_and_kept(size_t size, size_t align)
{
    tried block = alloc(size, align), refused;
    must(block.ok && (uintptr_t)block.at % align == 0);
    fill(block.at, size);
    refused = change(block.at, size, size + 1, 2 * ALIGN);
    must(!refused.ok && refused.at != NULL && is_filled(block.at, size, size));
    block = change(block.at, size, 10 * size, align);
    must(block.ok && (uintptr_t)block.at % align == 0 && is_filled(block.at, size, size));
    block = change(block.at, size, size / 2, align);
    must(block.ok && (uintptr_t)block.at % align == 0 && is_filled(block.at, size, size / 2));
    block = change(block.at, size / 2, 0, align);
    must(block.ok && (uintptr_t)block.at % align == 0);
    rattle_dealloc(block.at);
}

int main(void)
{
    static const size_t others[] = {0, 3, 12, 2 * ALIGN, SIZE_MAX};
    tried block;
    for (size_t align = 1; align <= ALIGN; align *= 2)
        for (size_t size = 0; size <= 100; size++)
            is_aligned_and_kept(size, align);
    for (size_t i = 0; i < sizeof others / sizeof *others; i++) {
        block = alloc(8, others[i]);
        must(!block.ok && block.at != NULL);
    }
    block = alloc(8, 8);
    must(block.ok && !alloc(SIZE_MAX / 2, 8).ok);
    fill(block.at, 8);
    must(!change(block.at, 8, SIZE_MAX / 2, 8).ok && is_filled(block.at, 8, 8));
    rattle_dealloc(block.at);
    puts("blocks: ok");
    return 0;
}
