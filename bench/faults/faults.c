// Preloaded before a program. FAULT_KIND says which calls: alloc, read (and open), stat, write or error (writes to standard error). FAULT_AT says which
// of them is refused, counted from 1; with 0 each moves one byte. The file FAULT_TOLD is made when a call is refused.
#define _GNU_SOURCE
#include <errno.h>
#include <fcntl.h>
#include <stdarg.h>
#include <stdlib.h>
#include <string.h>
#include <sys/stat.h>
#include <sys/syscall.h>
#include <sys/uio.h>
#include <unistd.h>

extern void *__libc_malloc(size_t), *__libc_calloc(size_t, size_t), *__libc_realloc(void *, size_t), *__libc_memalign(size_t, size_t);
static long calls;

static int is_kind(const char *kind) {
    const char *asked = getenv("FAULT_KIND");
    return asked && !strcmp(asked, kind);
}

static long wanted(void) {
    const char *at = getenv("FAULT_AT");
    return at ? atol(at) : -1;
}

// Whether this call of that kind is the one that is refused.
static int refused(const char *kind, int error) {
    if (!is_kind(kind) || ++calls != wanted()) return 0;
    const char *told = getenv("FAULT_TOLD");
    if (told) syscall(SYS_close, syscall(SYS_openat, AT_FDCWD, told, O_CREAT | O_WRONLY, 0600));
    errno = error;
    return 1;
}

static size_t some(const char *kind, size_t size) { return size && is_kind(kind) && wanted() == 0 ? 1 : size; }
static const char *sink(int file) { return file == 2 ? "error" : "write"; }

void *malloc(size_t size) { return refused("alloc", ENOMEM) ? NULL : __libc_malloc(size); }
void *calloc(size_t count, size_t size) { return refused("alloc", ENOMEM) ? NULL : __libc_calloc(count, size); }
void *realloc(void *old, size_t size) { return refused("alloc", ENOMEM) ? NULL : __libc_realloc(old, size); }
void *memalign(size_t to, size_t size) { return refused("alloc", ENOMEM) ? NULL : __libc_memalign(to, size); }
void *aligned_alloc(size_t to, size_t size) { return memalign(to, size); }
int posix_memalign(void **block, size_t to, size_t size) { return (*block = memalign(to, size)) ? 0 : ENOMEM; }

void *mmap(void *at, size_t size, int protection, int flags, int file, off_t from) {
    return refused("alloc", ENOMEM) ? (void *)-1 : (void *)syscall(SYS_mmap, at, size, protection, flags, file, from);
}

static int mode_of(int flags, va_list rest) { return flags & O_CREAT ? va_arg(rest, int) : 0; }

int openat(int folder, const char *name, int flags, ...) {
    va_list rest;
    va_start(rest, flags);
    int mode = mode_of(flags, rest);
    va_end(rest);
    return refused("read", EIO) ? -1 : syscall(SYS_openat, folder, name, flags, mode);
}

int open(const char *name, int flags, ...) {
    va_list rest;
    va_start(rest, flags);
    int mode = mode_of(flags, rest);
    va_end(rest);
    return openat(AT_FDCWD, name, flags, mode);
}

int statx(int folder, const char *name, int flags, unsigned mask, struct statx *told) {
    return refused("stat", EIO) ? -1 : syscall(SYS_statx, folder, name, flags, mask, told);
}

ssize_t read(int file, void *into, size_t size) { return refused("read", EIO) ? -1 : syscall(SYS_read, file, into, some("read", size)); }
ssize_t pread(int file, void *into, size_t size, off_t at) { return refused("read", EIO) ? -1 : syscall(SYS_pread64, file, into, some("read", size), at); }
ssize_t write(int file, const void *from, size_t size) { return refused(sink(file), EIO) ? -1 : syscall(SYS_write, file, from, some(sink(file), size)); }

ssize_t writev(int file, const struct iovec *parts, int count) {
    if (refused(sink(file), EIO)) return -1;
    for (int i = 0; i < count && wanted() == 0 && is_kind(sink(file)); i++)
        if (parts[i].iov_len) return syscall(SYS_write, file, parts[i].iov_base, 1);
    return syscall(SYS_writev, file, parts, count);
}

int open64(const char *, int, ...) __attribute__((alias("open")));
int openat64(int, const char *, int, ...) __attribute__((alias("openat")));
ssize_t pread64(int, void *, size_t, off_t) __attribute__((alias("pread")));
ssize_t __write(int, const void *, size_t) __attribute__((alias("write")));
