/* A library for LD_PRELOAD that counts the calls of the system that a program makes, and lets one of them fail. tools/faults
 * compiles it and says in its page how it is used; tools/power takes the list of writes from it. It serves tests alone.
 *
 * FAULT_COUNTS  a file of 4,096 bytes: 64 numbers of 8 bytes, how often each call was made, in the order of `names`; the last
 *               one says how often a call was made to fail
 * FAULT_CALL    the name of the call that fails
 * FAULT_AT      which one of these calls fails, from 1 on
 * FAULT_UPTO    the last one that fails
 * FAULT_ERRNO   the number of the error, or 0
 * FAULT_SHORT   if there is no error: by how many bytes the call falls short, at most by all; -1: by all
 * FAULT_TRACE   a file to which each write and each sync is appended, see `trace`
 * FAULT_STOP    if it is 1, the program stops (SIGSTOP) after each of these
 * FAULT_CHANGE  a file that gets the bytes of the file FAULT_NEW, and its length, before the pread of the number FAULT_WHEN
 */
#define _GNU_SOURCE
#include <dlfcn.h>
#include <errno.h>
#include <fcntl.h>
#include <pthread.h>
#include <signal.h>
#include <stdarg.h>
#include <stdint.h>
#include <stdio.h>
#include <stdlib.h>
#include <string.h>
#include <sys/mman.h>
#include <sys/stat.h>
#include <sys/syscall.h>
#include <unistd.h>

enum call { OPEN, READ, PREAD, WRITE, PWRITE, FSYNC, STATX, DUP, MALLOC, THREAD, CALLS };
static const char *const names[CALLS] = {"open", "read", "pread", "write", "pwrite", "fsync", "statx", "dup", "malloc", "thread"};
static uint64_t spare[512];
static uint64_t *counts = spare;
static int failing = CALLS, number, trace_to = -1, stopping;
static uint64_t first = 1, last = 1;
static long shortfall;
static const char *changing, *changed;
static uint64_t change_at;

extern void *__libc_malloc(size_t);
extern void *__libc_calloc(size_t, size_t);
extern void *__libc_realloc(void *, size_t);
static int (*real_thread)(pthread_t *, const pthread_attr_t *, void *(*)(void *), void *);

static long setting(const char *name, long otherwise) {
    const char *text = getenv(name);
    return text ? strtol(text, NULL, 10) : otherwise;
}

__attribute__((constructor)) static void begin(void) {
    const char *path = getenv("FAULT_COUNTS"), *call = getenv("FAULT_CALL");
    real_thread = (int (*)(pthread_t *, const pthread_attr_t *, void *(*)(void *), void *))dlsym(RTLD_NEXT, "pthread_create");
    if (path) {
        int fd = (int)syscall(SYS_openat, AT_FDCWD, path, O_RDWR | O_CLOEXEC, 0);
        void *at = fd < 0 ? MAP_FAILED : mmap(NULL, 4096, PROT_READ | PROT_WRITE, MAP_SHARED, fd, 0);
        if (at == MAP_FAILED) _exit(99);
        syscall(SYS_close, fd);
        counts = at;
    }
    path = getenv("FAULT_TRACE");
    if (path) {
        /* far above the numbers that the program's own files get */
        int fd = (int)syscall(SYS_openat, AT_FDCWD, path, O_WRONLY | O_APPEND | O_CLOEXEC, 0);
        trace_to = fd < 0 ? -1 : (int)syscall(SYS_fcntl, fd, F_DUPFD_CLOEXEC, 500);
        if (trace_to < 0) _exit(99);
        syscall(SYS_close, fd);
    }
    stopping = (int)setting("FAULT_STOP", 0);
    changing = getenv("FAULT_CHANGE");
    changed = getenv("FAULT_NEW");
    change_at = (uint64_t)setting("FAULT_WHEN", 0);
    first = (uint64_t)setting("FAULT_AT", 1);
    last = (uint64_t)setting("FAULT_UPTO", (long)first);
    number = (int)setting("FAULT_ERRNO", 0);
    shortfall = setting("FAULT_SHORT", 0);
    for (int it = 0; call && it < CALLS; it++)
        if (strcmp(call, names[it]) == 0) failing = it;
    /* what ran before is not counted */
    memset(counts, 0, 8 * 64);
}

/* Whether this call is to fail: it is counted. */
static int is_hit(enum call call) {
    uint64_t made = __atomic_add_fetch(&counts[call], 1, __ATOMIC_SEQ_CST);
    if ((int)call != failing || made < first || made > last) return 0;
    __atomic_add_fetch(&counts[63], 1, __ATOMIC_SEQ_CST);
    return 1;
}

/* Whether this call fails with an error, which is then in errno. */
static int fails(enum call call) {
    if (!is_hit(call)) return 0;
    errno = number;
    return 1;
}

/* How many bytes a call moves that falls short. */
static size_t moved(size_t count) {
    return shortfall < 0 || (size_t)shortfall >= count ? 0 : count - (size_t)shortfall;
}

/* Gives the file that changes its new bytes and its new length. */
static void change(void) {
    static char bytes[65536];
    int from = (int)syscall(SYS_openat, AT_FDCWD, changed, O_RDONLY, 0), to = (int)syscall(SYS_openat, AT_FDCWD, changing, O_WRONLY, 0);
    off_t at = 0;
    if (from < 0 || to < 0) _exit(99);
    for (;;) {
        long count = syscall(SYS_read, from, bytes, sizeof bytes);
        if (count < 0 || (count > 0 && syscall(SYS_pwrite64, to, bytes, count, at) != count)) _exit(99);
        if (count == 0) break;
        at += count;
    }
    if (syscall(SYS_ftruncate, to, at) != 0) _exit(99);
    syscall(SYS_close, from);
    syscall(SYS_close, to);
}

static long pread_changed(int fd, void *into, size_t count, off_t at) {
    if (changing && __atomic_load_n(&counts[PREAD], __ATOMIC_SEQ_CST) == change_at) change();
    return syscall(SYS_pread64, fd, into, count, at);
}

/* A line of text for each write and sync: what it was, the descriptor, the place, the length, and the bytes. */
static void trace(const char *what, int fd, const void *bytes, size_t count, off_t at) {
    char line[128];
    if (trace_to < 0) return;
    int len = snprintf(line, sizeof line, "%s %d %lld %zu\n", what, fd, (long long)at, count);
    syscall(SYS_write, trace_to, line, len);
    for (size_t done = 0; done < count;) {
        long more = syscall(SYS_write, trace_to, (const char *)bytes + done, count - done);
        if (more <= 0) _exit(99);
        done += (size_t)more;
    }
    if (stopping) kill(getpid(), SIGSTOP);
}

static int open_at(int folder, const char *path, int flags, va_list more) {
    mode_t mode = flags & (O_CREAT | O_TMPFILE) ? va_arg(more, mode_t) : 0;
    if (fails(OPEN)) return -1;
    int fd = (int)syscall(SYS_openat, folder, path, flags, mode);
    if (fd >= 0 && flags & O_CREAT) trace("make", fd, path, strlen(path), 0);
    return fd;
}

#define OPENS(name, parameters, folder)                   \
    int name parameters {                                 \
        va_list more;                                     \
        va_start(more, flags);                            \
        int fd = open_at(folder, path, flags, more);      \
        va_end(more);                                     \
        return fd;                                        \
    }
OPENS(open, (const char *path, int flags, ...), AT_FDCWD)
OPENS(open64, (const char *path, int flags, ...), AT_FDCWD)
OPENS(openat, (int folder, const char *path, int flags, ...), folder)
OPENS(openat64, (int folder, const char *path, int flags, ...), folder)

/* A call that moves bytes: how many it may move is `left`. */
#define MOVES(name, parameters, call, body)               \
    ssize_t name parameters {                             \
        size_t left = count;                              \
        if (is_hit(call)) {                               \
            if (number) {                                 \
                errno = number;                           \
                return -1;                                \
            }                                             \
            left = moved(count);                          \
            if (left == 0) return 0;                      \
        }                                                 \
        return body;                                      \
    }

static ssize_t write_traced(int fd, const void *bytes, size_t count, off_t at) {
    ssize_t done = syscall(SYS_pwrite64, fd, bytes, count, at);
    if (done > 0) trace("write", fd, bytes, (size_t)done, at);
    return done;
}

MOVES(read, (int fd, void *into, size_t count), READ, syscall(SYS_read, fd, into, left))
MOVES(write, (int fd, const void *bytes, size_t count), WRITE, syscall(SYS_write, fd, bytes, left))
MOVES(pread, (int fd, void *into, size_t count, off_t at), PREAD, pread_changed(fd, into, left, at))
MOVES(pread64, (int fd, void *into, size_t count, off_t at), PREAD, pread_changed(fd, into, left, at))
MOVES(pwrite, (int fd, const void *bytes, size_t count, off_t at), PWRITE, write_traced(fd, bytes, left, at))
MOVES(pwrite64, (int fd, const void *bytes, size_t count, off_t at), PWRITE, write_traced(fd, bytes, left, at))

static int sync_file(int fd, long call) {
    if (fails(FSYNC)) return -1;
    int done = (int)syscall(call, fd);
    if (done == 0) trace("sync", fd, NULL, 0, 0);
    return done;
}

int fsync(int fd) { return sync_file(fd, SYS_fsync); }
int fdatasync(int fd) { return sync_file(fd, SYS_fdatasync); }

int statx(int folder, const char *path, int flags, unsigned mask, struct statx *into) {
    return fails(STATX) ? -1 : (int)syscall(SYS_statx, folder, path, flags, mask, into);
}

int fcntl(int fd, int command, ...) {
    va_list more;
    va_start(more, command);
    long argument = va_arg(more, long);
    va_end(more);
    if ((command == F_DUPFD || command == F_DUPFD_CLOEXEC) && fails(DUP)) return -1;
    return (int)syscall(SYS_fcntl, fd, command, argument);
}

void *malloc(size_t size) { return fails(MALLOC) ? NULL : __libc_malloc(size); }
void *calloc(size_t count, size_t size) { return fails(MALLOC) ? NULL : __libc_calloc(count, size); }
void *realloc(void *old, size_t size) { return fails(MALLOC) ? NULL : __libc_realloc(old, size); }

int pthread_create(pthread_t *thread, const pthread_attr_t *how, void *(*start)(void *), void *with) {
    return is_hit(THREAD) ? number : real_thread(thread, how, start, with);
}
