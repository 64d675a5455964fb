/* Loaded before a program (LD_PRELOAD), it refuses memory or breaks a call on a file.
   REFUSE_GROWTH=N   the Nth growth of memory is refused (malloc, calloc, realloc and the aligned forms)
   REFUSE_CALL=N     the Nth of open, read, write and close fails with EIO
   ONE_BYTE=1        each read and write moves one byte
   INTERRUPT=1       each call is interrupted once before it is made
   COUNTS=FILE       at the end the numbers of growths and of calls are written to FILE */
#define _GNU_SOURCE
#include <dlfcn.h>
#include <errno.h>
#include <fcntl.h>
#include <stdarg.h>
#include <stdio.h>
#include <stdlib.h>
#include <sys/syscall.h>
#include <unistd.h>

extern void *__libc_malloc(size_t);
extern void *__libc_calloc(size_t, size_t);
extern void *__libc_realloc(void *, size_t);
extern void *__libc_memalign(size_t, size_t);

static long refused_growth, refused_call, one_byte, interrupt, growths, calls;
static __thread int interrupted;

static long setting(const char *name) {
    const char *text = getenv(name);
    return text ? atol(text) : 0;
}

__attribute__((constructor)) static void begin(void) {
    refused_growth = setting("REFUSE_GROWTH");
    refused_call = setting("REFUSE_CALL");
    one_byte = setting("ONE_BYTE");
    interrupt = setting("INTERRUPT");
    __atomic_store_n(&growths, 0, __ATOMIC_SEQ_CST);
}

void _exit(int status) {
    const char *name = getenv("COUNTS");
    long g = growths, c = calls;
    interrupt = one_byte = refused_call = refused_growth = 0;
    FILE *file = name ? fopen(name, "w") : NULL;
    if (file) {
        fprintf(file, "%ld %ld\n", g, c);
        fclose(file);
    }
    syscall(SYS_exit_group, status);
    __builtin_unreachable();
}

static int grows(void) {
    if (__atomic_add_fetch(&growths, 1, __ATOMIC_SEQ_CST) != refused_growth) return 1;
    errno = ENOMEM;
    return 0;
}

void *malloc(size_t n) { return grows() ? __libc_malloc(n) : NULL; }
void *calloc(size_t n, size_t m) { return grows() ? __libc_calloc(n, m) : NULL; }
void *realloc(void *p, size_t n) { return grows() ? __libc_realloc(p, n) : NULL; }
void *memalign(size_t a, size_t n) { return grows() ? __libc_memalign(a, n) : NULL; }
void *aligned_alloc(size_t a, size_t n) { return memalign(a, n); }
int posix_memalign(void **p, size_t a, size_t n) {
    void *made = memalign(a, n);
    if (!made) return ENOMEM;
    *p = made;
    return 0;
}

static int fails(void) {
    if (interrupt && !interrupted) {
        interrupted = 1;
        errno = EINTR;
        return 1;
    }
    interrupted = 0;
    if (__atomic_add_fetch(&calls, 1, __ATOMIC_SEQ_CST) != refused_call) return 0;
    errno = EIO;
    return 1;
}

#define NEXT(name, ...) ((typeof(&name))dlsym(RTLD_NEXT, #name))(__VA_ARGS__)

ssize_t read(int fd, void *into, size_t n) {
    return fails() ? -1 : NEXT(read, fd, into, one_byte && n > 1 ? 1 : n);
}
ssize_t write(int fd, const void *from, size_t n) {
    return fails() ? -1 : NEXT(write, fd, from, one_byte && n > 1 ? 1 : n);
}
int open(const char *name, int flags, ...) {
    va_list more;
    va_start(more, flags);
    int mode = va_arg(more, int);
    va_end(more);
    return fails() ? -1 : NEXT(open, name, flags, mode);
}
int openat(int at, const char *name, int flags, ...) {
    va_list more;
    va_start(more, flags);
    int mode = va_arg(more, int);
    va_end(more);
    return fails() ? -1 : NEXT(openat, at, name, flags, mode);
}
int close(int fd) {
    int failed = fails();
    int saved = errno;
    int done = NEXT(close, fd);
    if (!failed) return done;
    errno = saved;
    return -1;
}
