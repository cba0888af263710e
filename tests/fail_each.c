// Preloaded by fail_each.py: the calls of one sort that a program makes fail, one of them, or it and all behind it; or each read and each
// write takes one byte. Calls are counted from where the program begins, in a file if one is named.
#define _GNU_SOURCE
#include <errno.h>
#include <fcntl.h>
#include <stdarg.h>
#include <stdlib.h>
#include <sys/mman.h>
#include <sys/syscall.h>
#include <sys/uio.h>
#include <unistd.h>

void *__libc_malloc(size_t size);
void *__libc_calloc(size_t count, size_t size);
void *__libc_realloc(void *old, size_t size);
void *__libc_memalign(size_t alignment, size_t size);

enum sort { ALLOCATION, READ, WRITE, SORTS };

static unsigned long own[SORTS], *counts = own, at;
static int failing = SORTS, all_behind, one_byte;

__attribute__((constructor)) static void begin(void) {
    const char *sort = getenv("FAIL_SORT"), *number = getenv("FAIL_AT"), *file = getenv("FAIL_COUNTS");
    own[ALLOCATION] = own[READ] = own[WRITE] = 0;
    if (file) {
        int fd = syscall(SYS_openat, AT_FDCWD, file, O_RDWR);
        void *place = mmap(NULL, sizeof own, PROT_READ | PROT_WRITE, MAP_SHARED, fd, 0);
        if (place == MAP_FAILED) _exit(125);
        syscall(SYS_close, fd);
        counts = place;
    }
    all_behind = getenv("FAIL_ALL") != NULL;
    one_byte = getenv("FAIL_BYTES") != NULL;
    if (sort && number) at = strtoul(number, NULL, 10), failing = atoi(sort);
}

static int fails(enum sort sort) {
    unsigned long number = ++counts[sort];
    if (sort != (enum sort)failing || number < at || (number > at && !all_behind)) return 0;
    errno = sort == ALLOCATION ? ENOMEM : EIO;
    return 1;
}

static size_t cut(size_t size) { return one_byte && size > 1 ? 1 : size; }

void *malloc(size_t size) { return fails(ALLOCATION) ? NULL : __libc_malloc(size); }

void *calloc(size_t count, size_t size) { return fails(ALLOCATION) ? NULL : __libc_calloc(count, size); }

void *realloc(void *old, size_t size) { return fails(ALLOCATION) ? NULL : __libc_realloc(old, size); }

void *aligned_alloc(size_t alignment, size_t size) { return fails(ALLOCATION) ? NULL : __libc_memalign(alignment, size); }

int posix_memalign(void **to, size_t alignment, size_t size) {
    void *place = fails(ALLOCATION) ? NULL : __libc_memalign(alignment, size);
    if (!place) return ENOMEM;
    *to = place;
    return 0;
}

ssize_t read(int fd, void *to, size_t size) { return fails(READ) ? -1 : syscall(SYS_read, fd, to, cut(size)); }

ssize_t pread(int fd, void *to, size_t size, off_t from) { return fails(READ) ? -1 : syscall(SYS_pread64, fd, to, cut(size), from); }

ssize_t pread64(int fd, void *to, size_t size, off_t from) { return fails(READ) ? -1 : syscall(SYS_pread64, fd, to, cut(size), from); }

ssize_t readv(int fd, const struct iovec *to, int count) { return fails(READ) ? -1 : syscall(SYS_readv, fd, to, count); }

off_t lseek(int fd, off_t by, int from) { return fails(READ) ? -1 : syscall(SYS_lseek, fd, by, from); }

off_t lseek64(int fd, off_t by, int from) { return fails(READ) ? -1 : syscall(SYS_lseek, fd, by, from); }

static int opened(int folder, const char *name, int flags, va_list rest) {
    mode_t mode = flags & O_CREAT ? va_arg(rest, mode_t) : 0;
    return fails(READ) ? -1 : syscall(SYS_openat, folder, name, flags, mode);
}

#define OPEN(call, folder, ...)                           \
    int call(__VA_ARGS__, int flags, ...) {               \
        va_list rest;                                     \
        va_start(rest, flags);                            \
        int result = opened(folder, name, flags, rest);   \
        va_end(rest);                                     \
        return result;                                    \
    }
OPEN(open, AT_FDCWD, const char *name)
OPEN(open64, AT_FDCWD, const char *name)
OPEN(openat, folder, int folder, const char *name)
OPEN(openat64, folder, int folder, const char *name)

ssize_t write(int fd, const void *from, size_t size) { return fails(WRITE) ? -1 : syscall(SYS_write, fd, from, cut(size)); }

ssize_t writev(int fd, const struct iovec *from, int count) { return fails(WRITE) ? -1 : syscall(SYS_writev, fd, from, count); }
