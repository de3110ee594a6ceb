// Counts what a program asks of the system, and refuses some of it. Stands before the C library, as
// LD_PRELOAD=.../refuse.so PROGRAM, with the variables:
//
//   COUNTS    the number of an open file of 40 bytes, which gets the numbers of growths, of refused
//             growths, of blocks that are not freed, of reads and of writes
//   REFUSED   the first and the last growth of the heap that are refused, the read of standard input
//             and the write to standard output or standard error that go wrong, the most bytes that
//             such a read or write moves, and how the one goes wrong, by a letter: it fails, is
//             interrupted, or is short and moves one byte. All are counted from 1 on
//
// A growth is a request for a new block, or for more bytes than a block was requested with, which the
// 16 bytes before a block keep. The programs and the C library ask by these functions alone.
#define _GNU_SOURCE
#include <errno.h>
#include <stdint.h>
#include <stdio.h>
#include <stdlib.h>
#include <string.h>
#include <sys/mman.h>
#include <sys/syscall.h>
#include <unistd.h>

// The C library's own functions, under the names that stay once ours stand before them.
extern void *__libc_malloc(size_t);
extern void __libc_free(void *);

typedef struct {
    _Alignas(16) size_t size;
} head;

static struct {
    uint64_t growths, refused, left, reads, writes;
} unseen, *seen = &unseen;

static unsigned long first, last, failed_read, failed_write, most;
static char failure;

// Before this nothing is refused.
__attribute__((constructor)) static void begin(void) {
    const char *counts = getenv("COUNTS"), *refused = getenv("REFUSED");
    if (!counts || !refused) abort();
    void *shared = mmap(0, sizeof *seen, PROT_READ | PROT_WRITE, MAP_SHARED, atoi(counts), 0);
    if (shared == MAP_FAILED) abort();
    seen = shared;
    sscanf(refused, "%lu %lu %lu %lu %lu %c", &first, &last, &failed_read, &failed_write, &most, &failure);
}

static int is_refused(void) {
    uint64_t number = __atomic_add_fetch(&seen->growths, 1, __ATOMIC_SEQ_CST);
    int is_one = seen != &unseen && first <= number && number <= last;
    __atomic_add_fetch(&seen->refused, is_one, __ATOMIC_SEQ_CST);
    return is_one;
}

void *malloc(size_t size) {
    head *own = is_refused() || size > SIZE_MAX / 2 ? 0 : __libc_malloc(sizeof *own + size);
    if (!own) {
        errno = ENOMEM;
        return 0;
    }
    own->size = size;
    __atomic_add_fetch(&seen->left, 1, __ATOMIC_SEQ_CST);
    return own + 1;
}

void *calloc(size_t count, size_t size) {
    size_t bytes;
    void *given = __builtin_mul_overflow(count, size, &bytes) ? 0 : malloc(bytes);
    // Of `malloc` and `memset` a compiler would make a call of `calloc`.
    if (given) explicit_bzero(given, bytes);
    return given;
}

void free(void *given) {
    if (!given) return;
    __atomic_sub_fetch(&seen->left, 1, __ATOMIC_SEQ_CST);
    __libc_free((head *)given - 1);
}

void *realloc(void *given, size_t size) {
    if (!given) return malloc(size);
    head *own = (head *)given - 1;
    if (size <= own->size) {
        own->size = size;
        return given;
    }
    void *moved = malloc(size);
    if (!moved) return 0;
    memcpy(moved, given, own->size);
    free(given);
    return moved;
}

// Makes a read or a write, which goes wrong if it is the failing one.
static ssize_t move(long call, int is_failing, int file, const void *bytes, size_t count) {
    if (is_failing && failure != 's') {
        errno = failure == 'i' ? EINTR : EIO;
        return -1;
    }
    size_t limit = is_failing ? 1 : most;
    return syscall(call, file, bytes, count < limit ? count : limit);
}

ssize_t read(int file, void *to, size_t count) {
    if (file != STDIN_FILENO) return syscall(SYS_read, file, to, count);
    return move(SYS_read, ++seen->reads == failed_read, file, to, count);
}

ssize_t write(int file, const void *from, size_t count) {
    if (file != STDOUT_FILENO && file != STDERR_FILENO) return syscall(SYS_write, file, from, count);
    return move(SYS_write, ++seen->writes == failed_write, file, from, count);
}
