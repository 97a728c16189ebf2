/* Stands between a program and the C library, and does what the environment says:
 *
 *   REFUSED=N        the Nth call that asks for memory is refused
 *   REFUSED_FROM=N   the Nth one and each one behind it are refused
 *   MOST=N           a read or a write moves at most N bytes
 *   INTERRUPTED=N    of every N reads and writes one is interrupted before it moves a byte
 *   ASKED=FILE       how often memory was asked for is written there at the end
 *   NO_LOCKS=1       no file can be locked (ENOLCK)
 *   STRICT_LOCKS=1   only a file that is open for writing can be locked alone (EBADF), as over NFS
 *   NO_LINKS=1       there are no links, neither symbolic ones nor second names (EPERM)
 */
#define _GNU_SOURCE
#include <dlfcn.h>
#include <errno.h>
#include <fcntl.h>
#include <stdlib.h>
#include <sys/file.h>
#include <sys/syscall.h>
#include <unistd.h>

static unsigned long number_in(const char *name, unsigned long otherwise) {
    const char *text = getenv(name);
    return text ? strtoul(text, 0, 10) : otherwise;
}

static unsigned long asked;

static int refuses(void) {
    static unsigned long one, from;
    if (!one) {
        one = number_in("REFUSED", ~0ul);
        from = number_in("REFUSED_FROM", ~0ul);
    }
    asked++;
    if (asked != one && asked < from) return 0;
    errno = ENOMEM;
    return 1;
}

void *malloc(size_t size) {
    static void *(*real)(size_t);
    if (!real) real = (void *(*)(size_t))dlsym(RTLD_NEXT, "malloc");
    return refuses() ? 0 : real(size);
}

void *realloc(void *old, size_t size) {
    static void *(*real)(void *, size_t);
    if (!real) real = (void *(*)(void *, size_t))dlsym(RTLD_NEXT, "realloc");
    return refuses() ? 0 : real(old, size);
}

void *calloc(size_t count, size_t size) {
    static void *(*real)(size_t, size_t);
    if (!real) real = (void *(*)(size_t, size_t))dlsym(RTLD_NEXT, "calloc");
    return refuses() ? 0 : real(count, size);
}

/* How many of so many bytes this call moves; none where it is interrupted. */
static size_t moved(size_t count) {
    static unsigned long most, every, calls;
    if (!most) {
        most = number_in("MOST", ~0ul);
        every = number_in("INTERRUPTED", ~0ul);
    }
    if (count && ++calls % every == 0) {
        errno = EINTR;
        return 0;
    }
    return count < most ? count : most;
}

ssize_t read(int file, void *bytes, size_t count) {
    static ssize_t (*real)(int, void *, size_t);
    if (!real) real = (ssize_t (*)(int, void *, size_t))dlsym(RTLD_NEXT, "read");
    size_t part = moved(count);
    return count && !part ? -1 : real(file, bytes, part);
}

ssize_t write(int file, const void *bytes, size_t count) {
    static ssize_t (*real)(int, const void *, size_t);
    if (!real) real = (ssize_t (*)(int, const void *, size_t))dlsym(RTLD_NEXT, "write");
    size_t part = moved(count);
    return count && !part ? -1 : real(file, bytes, part);
}

ssize_t pread64(int file, void *bytes, size_t count, off64_t at) {
    static ssize_t (*real)(int, void *, size_t, off64_t);
    if (!real) real = (ssize_t (*)(int, void *, size_t, off64_t))dlsym(RTLD_NEXT, "pread64");
    size_t part = moved(count);
    return count && !part ? -1 : real(file, bytes, part, at);
}

ssize_t pread(int file, void *bytes, size_t count, off_t at) {
    return pread64(file, bytes, count, at);
}

int flock(int file, int what) {
    if (getenv("NO_LOCKS")) {
        errno = ENOLCK;
        return -1;
    }
    if (getenv("STRICT_LOCKS") && what & LOCK_EX && (fcntl(file, F_GETFL) & O_ACCMODE) == O_RDONLY) {
        errno = EBADF;
        return -1;
    }
    return (int)syscall(SYS_flock, file, what);
}

int symlink(const char *text, const char *name) {
    if (!getenv("NO_LINKS")) return (int)syscall(SYS_symlinkat, text, AT_FDCWD, name);
    errno = EPERM;
    return -1;
}

int link(const char *old, const char *name) {
    if (!getenv("NO_LINKS")) return (int)syscall(SYS_linkat, AT_FDCWD, old, AT_FDCWD, name, 0);
    errno = EPERM;
    return -1;
}

__attribute__((destructor)) static void told(void) {
    const char *name = getenv("ASKED");
    int file = name ? open(name, O_WRONLY | O_CREAT | O_TRUNC, 0600) : -1;
    if (file < 0) return;
    char text[24];
    int at = 24;
    unsigned long left = asked;
    do text[--at] = '0' + left % 10; while (left /= 10);
    for (; at < 24; at++)
        if (write(file, text + at, 1) < 0) at--;
    close(file);
}
