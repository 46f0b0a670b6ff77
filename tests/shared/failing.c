/* Has one call of a program fail, for tests/ends: the one of number FAIL_ALLOC that asks for memory, FAIL_READ that reads standard input,
   or FAIL_WRITE that writes; numbers begin with 1. When it comes, the file CAME is made. With SHORT each read and write passes one
   byte at most. */
#define _GNU_SOURCE
#include <dlfcn.h>
#include <errno.h>
#include <fcntl.h>
#include <stdlib.h>
#include <unistd.h>

static long number(const char *name) {
    const char *text = getenv(name);
    return text ? atol(text) : 0;
}

static int comes(const char *name, long *count) {
    *count += 1;
    if (*count != number(name)) return 0;
    const char *came = getenv("CAME");
    int file = came ? open(came, O_CREAT | O_WRONLY, 0600) : -1;
    if (file >= 0) close(file);
    return 1;
}

static long allocations, readings, writings;

#define REAL(name) static __typeof__(&name) real; if (!real) real = (__typeof__(&name))dlsym(RTLD_NEXT, #name)

void *malloc(size_t size) {
    REAL(malloc);
    return comes("FAIL_ALLOC", &allocations) ? (errno = ENOMEM, (void *)0) : real(size);
}

void *realloc(void *old, size_t size) {
    REAL(realloc);
    return comes("FAIL_ALLOC", &allocations) ? (errno = ENOMEM, (void *)0) : real(old, size);
}

int posix_memalign(void **to, size_t align, size_t size) {
    REAL(posix_memalign);
    return comes("FAIL_ALLOC", &allocations) ? ENOMEM : real(to, align, size);
}

void *aligned_alloc(size_t align, size_t size) {
    REAL(aligned_alloc);
    return comes("FAIL_ALLOC", &allocations) ? (errno = ENOMEM, (void *)0) : real(align, size);
}

ssize_t read(int from, void *to, size_t most) {
    REAL(read);
    if (from == 0 && comes("FAIL_READ", &readings)) return errno = EIO, -1;
    return real(from, to, number("SHORT") && most > 1 ? 1 : most);
}

ssize_t write(int to, const void *from, size_t most) {
    REAL(write);
    if (comes("FAIL_WRITE", &writings)) return errno = EIO, -1;
    return real(to, from, number("SHORT") && most > 1 ? 1 : most);
}
