// Loaded before a program, refuses its Nth allocation, where N is REFUSE_ALLOCATION. Where the
// program ends with fewer, also by _exit, it writes the file REFUSE_UNMET.
#define _GNU_SOURCE
#include <dlfcn.h>
#include <errno.h>
#include <fcntl.h>
#include <stdatomic.h>
#include <stdlib.h>
#include <sys/syscall.h>
#include <unistd.h>

static atomic_long left;

__attribute__((constructor)) static void begin(void) {
    const char *text = getenv("REFUSE_ALLOCATION");
    left = text ? atol(text) : 0;
}

__attribute__((destructor)) static void end(void) {
    const char *file = getenv("REFUSE_UNMET");
    if (left > 0 && file)
        close(open(file, O_CREAT | O_WRONLY, 0600));
}

void _exit(int status) {
    end();
    syscall(SYS_exit_group, status);
    __builtin_unreachable();
}

// Of threads at once, each counts its own.
static int is_refused(void) {
    return left > 0 && atomic_fetch_sub(&left, 1) == 1;
}

#define NEXT(name) ((__typeof__(name) *)dlsym(RTLD_NEXT, #name))

void *malloc(size_t size) {
    return is_refused() ? (errno = ENOMEM, NULL) : NEXT(malloc)(size);
}

void *realloc(void *old, size_t size) {
    return is_refused() ? (errno = ENOMEM, NULL) : NEXT(realloc)(old, size);
}
