// Loaded before a program, counts what it has from the allocator, and writes at its end to standard
// error how many bytes that were as it last wrote to standard output. Where the program opens its own
// status it writes a line 'out: N bytes', of what the allocator has then given out in its own count.
#define _GNU_SOURCE
#include <dlfcn.h>
#include <fcntl.h>
#include <malloc.h>
#include <stdarg.h>
#include <stdatomic.h>
#include <stdio.h>
#include <string.h>
#include <sys/syscall.h>
#include <unistd.h>

static atomic_long held, last;

#define NEXT(name) ((__typeof__(name) *)dlsym(RTLD_NEXT, #name))

// What a block takes, with the word that the allocator keeps before it.
static long size_of(void *block) {
    return block ? (long)malloc_usable_size(block) + (long)sizeof(size_t) : 0;
}

void *malloc(size_t size) {
    void *block = NEXT(malloc)(size);
    held += size_of(block);
    return block;
}

void *realloc(void *block, size_t size) {
    long before = size_of(block);
    void *moved = NEXT(realloc)(block, size);
    if (moved || !size)
        held += size_of(moved) - before;
    return moved;
}

void free(void *block) {
    held -= size_of(block);
    NEXT(free)(block);
}

ssize_t write(int file, const void *bytes, size_t count) {
    if (file == STDOUT_FILENO)
        last = held;
    return NEXT(write)(file, bytes, count);
}

static void tell(const char *path) {
    if (strcmp(path, "/proc/self/status") == 0) {
        struct mallinfo2 all = mallinfo2();
        dprintf(STDERR_FILENO, "out: %zu bytes\n", all.uordblks + all.hblkhd);
    }
}

// The mode is there where a file may be made, and else not looked at.
#define MODE(flags) ({ va_list more; va_start(more, flags); int mode = va_arg(more, int); va_end(more); mode; })

int open(const char *path, int flags, ...) {
    tell(path);
    return NEXT(open)(path, flags, MODE(flags));
}

int open64(const char *path, int flags, ...) {
    tell(path);
    return NEXT(open64)(path, flags, MODE(flags));
}

int openat(int folder, const char *path, int flags, ...) {
    tell(path);
    return NEXT(openat)(folder, path, flags, MODE(flags));
}

void _exit(int status) {
    dprintf(STDERR_FILENO, "%ld\n", last);
    syscall(SYS_exit_group, status);
    __builtin_unreachable();
}
