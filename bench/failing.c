/* Makes one call of the C library fail in a program that is run with this library preloaded. FAIL_KIND is alloc, read or write, and
   FAIL_CALL the number of the call, counted from 0. Where FAIL_COUNT names a file, the number of calls of each kind is written there
   at the end. */
#define _GNU_SOURCE
#include <dlfcn.h>
#include <errno.h>
#include <fcntl.h>
#include <stdio.h>
#include <stdlib.h>
#include <string.h>
#include <sys/uio.h>
#include <unistd.h>

enum { ALLOC, READ, WRITE, KINDS };
static const char *names[KINDS] = {"alloc", "read", "write"};
static long counts[KINDS];
static int kind = -1, ready;
static long at = -1;

static void begin(void) {
    if (ready) return;
    ready = 1;
    const char *which = getenv("FAIL_KIND"), *call = getenv("FAIL_CALL");
    if (which && call)
        for (int i = 0; i < KINDS; i++)
            if (!strcmp(which, names[i])) { kind = i; at = atol(call); }
}

__attribute__((constructor)) static void start(void) { begin(); memset(counts, 0, sizeof counts); }

/* whether this call of the kind fails */
static int fails(int of) {
    if (!ready) return 0;
    long number = counts[of]++;
    return of == kind && number == at;
}

#define REAL(type, name, ...) static type (*real)(__VA_ARGS__); if (!real) real = dlsym(RTLD_NEXT, name)

void *malloc(size_t size) { REAL(void *, "malloc", size_t); if (fails(ALLOC)) { errno = ENOMEM; return 0; } return real(size); }
void *realloc(void *old, size_t size) { REAL(void *, "realloc", void *, size_t); if (fails(ALLOC)) { errno = ENOMEM; return 0; } return real(old, size); }
void *aligned_alloc(size_t align, size_t size) { REAL(void *, "aligned_alloc", size_t, size_t); if (fails(ALLOC)) { errno = ENOMEM; return 0; } return real(align, size); }
int posix_memalign(void **to, size_t align, size_t size) { REAL(int, "posix_memalign", void **, size_t, size_t); if (fails(ALLOC)) return ENOMEM; return real(to, align, size); }
ssize_t read(int fd, void *to, size_t size) { REAL(ssize_t, "read", int, void *, size_t); if (fd == 0 && fails(READ)) { errno = EIO; return -1; } return real(fd, to, size); }
ssize_t write(int fd, const void *from, size_t size) { REAL(ssize_t, "write", int, const void *, size_t); if (fd == 1 && fails(WRITE)) { errno = EIO; return -1; } return real(fd, from, size); }
ssize_t writev(int fd, const struct iovec *from, int count) { REAL(ssize_t, "writev", int, const struct iovec *, int); if (fd == 1 && fails(WRITE)) { errno = EIO; return -1; } return real(fd, from, count); }

__attribute__((destructor)) static void end(void) {
    const char *file = getenv("FAIL_COUNT");
    if (!file) return;
    int to = open(file, O_WRONLY | O_CREAT | O_TRUNC, 0600);
    char line[80];
    int length = snprintf(line, sizeof line, "%ld %ld %ld\n", counts[ALLOC], counts[READ], counts[WRITE]);
    if (to >= 0) { kind = -1; if (write(to, line, length) != length) _exit(99); close(to); }
}
