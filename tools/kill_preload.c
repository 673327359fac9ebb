/* kill_preload.so: ends a process, or stops it, at one of its calls that change a disk.
 *
 * It is loaded by LD_PRELOAD and counts writes, syncs, and the calls that give, take or move names. `kill_at` says at which call
 * the process is ended before the call is made: 1 is the next one, 0 none. With `torn` a write is made for its first half before.
 * With `stops` the process gets SIGSTOP in the place of SIGKILL, and makes the call when it goes on. */
#define _GNU_SOURCE
#include <errno.h>
#include <signal.h>
#include <stdint.h>
#include <sys/stat.h>
#include <sys/syscall.h>
#include <sys/types.h>
#include <unistd.h>

static long last, made;
static int torn_writes, only_stops;

void kill_at(long number, int torn, int stops) {
    made = 0;
    last = number;
    torn_writes = torn;
    only_stops = stops;
}

long kill_count(void) { return __atomic_load_n(&made, __ATOMIC_SEQ_CST); }

static int is_last(void) { return __atomic_add_fetch(&made, 1, __ATOMIC_SEQ_CST) == last; }

static void end(void) {
    if (is_last()) kill(getpid(), only_stops ? SIGSTOP : SIGKILL);
}

/* Standard output and error, pipes and sockets change no disk. */
static int is_file(int fd) {
    struct stat it;
    return fd > 2 && syscall(SYS_fstat, fd, &it) == 0 && S_ISREG(it.st_mode);
}

static ssize_t half(int fd, const void *bytes, size_t count, off_t at, int placed) {
    if (!is_last()) return 0;
    if (torn_writes && count > 1) placed ? syscall(SYS_pwrite64, fd, bytes, count / 2, at) : syscall(SYS_write, fd, bytes, count / 2);
    kill(getpid(), only_stops ? SIGSTOP : SIGKILL);
    return 0;
}

static ssize_t result(long done) { return done; }

ssize_t write(int fd, const void *bytes, size_t count) {
    if (is_file(fd)) half(fd, bytes, count, 0, 0);
    return result(syscall(SYS_write, fd, bytes, count));
}

ssize_t pwrite64(int fd, const void *bytes, size_t count, off_t at) {
    half(fd, bytes, count, at, 1);
    return result(syscall(SYS_pwrite64, fd, bytes, count, at));
}

ssize_t pwrite(int fd, const void *bytes, size_t count, off_t at) { return pwrite64(fd, bytes, count, at); }

#define CALL(name, parameters, number, ...)            \
    int name parameters {                              \
        end();                                         \
        return (int)syscall(number, __VA_ARGS__);      \
    }

CALL(fsync, (int fd), SYS_fsync, fd)
CALL(fdatasync, (int fd), SYS_fdatasync, fd)
CALL(syncfs, (int fd), SYS_syncfs, fd)
CALL(ftruncate, (int fd, off_t length), SYS_ftruncate, fd, length)
CALL(ftruncate64, (int fd, off_t length), SYS_ftruncate, fd, length)
CALL(rename, (const char *from, const char *to), SYS_rename, from, to)
CALL(renameat, (int a, const char *from, int b, const char *to), SYS_renameat2, a, from, b, to, 0)
CALL(link, (const char *from, const char *to), SYS_link, from, to)
CALL(linkat, (int a, const char *from, int b, const char *to, int flags), SYS_linkat, a, from, b, to, flags)
CALL(unlink, (const char *path), SYS_unlink, path)
CALL(unlinkat, (int a, const char *path, int flags), SYS_unlinkat, a, path, flags)
CALL(rmdir, (const char *path), SYS_rmdir, path)
CALL(mkdir, (const char *path, mode_t mode), SYS_mkdir, path, mode)
CALL(mkdirat, (int a, const char *path, mode_t mode), SYS_mkdirat, a, path, mode)
CALL(fchmod, (int fd, mode_t mode), SYS_fchmod, fd, mode)
