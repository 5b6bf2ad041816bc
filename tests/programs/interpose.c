/* Breaks a run off at its n-th call that changes a file. It is preloaded into every process of the run (LD_PRELOAD), and counts
   such calls over all of them. The environment says when and how:

   BREAK_FILE  the file that all processes share: what 'struct shared' holds
   BREAK_AT    the number of the call, from 1; at 0 the calls are only counted
   BREAK_HOW   kill    the process group is killed before the call
               after   the process group is killed right after the call
               part    the call is a write: it writes half its bytes, then the group is killed; only writes are counted
               alone   the process that makes the call is killed before it, and no other
               stop    the process that makes the call is stopped right after it, and no other
               fail    the call fails with EIO
               fails   this call and all that follow fail with EIO
               term    the leader of the group is sent SIGTERM right after the call; only its own calls are counted, and those that
                       turn a descriptor elsewhere too
               slow    nothing is broken, but each time that bash has started a process it waits a moment, in which the process may
                       end: before the BREAK_AT-th time from there that it blocks signals
   BREAK_IN    only calls of processes of this name count; empty: those of all

   What bash and the C library write through a stream is seen where the stream is flushed. */
#define _GNU_SOURCE
#include <dlfcn.h>
#include <errno.h>
#include <fcntl.h>
#include <signal.h>
#include <stdarg.h>
#include <stdint.h>
#include <stdio.h>
#include <stdio_ext.h>
#include <stdlib.h>
#include <string.h>
#include <sys/mman.h>
#include <sys/stat.h>
#include <time.h>
#include <unistd.h>

struct shared {
    uint32_t calls;    /* made so far */
    int32_t group;     /* of the processes, 0 until the first of them is there */
    uint32_t used;     /* bytes of the log */
    uint32_t broken;   /* whether a call was broken: the last of the log */
    char log[1 << 16]; /* a line for each call */
};

enum action { NOTHING, FAIL, AFTER, PART, STOP, TERM };

static struct shared *shared;
static uint32_t at;
static char how[8];

/* Opens a file past the functions below. */
static int open_past(const char *path)
{
    int (*next)(const char *, int, ...) = dlsym(RTLD_NEXT, "open");

    return next(path, O_RDWR | O_CLOEXEC);
}

__attribute__((constructor)) static void begin(void)
{
    const char *file = getenv("BREAK_FILE"), *number = getenv("BREAK_AT"), *manner = getenv("BREAK_HOW"),
               *name = getenv("BREAK_IN");
    int32_t none = 0;

    if (file == NULL || number == NULL || manner == NULL)
        return;
    if (name != NULL && *name != 0 && strcmp(name, program_invocation_short_name) != 0)
        return;
    int fd = open_past(file);
    if (fd < 0)
        return;
    void *place = mmap(NULL, sizeof *shared, PROT_READ | PROT_WRITE, MAP_SHARED, fd, 0);
    close(fd);
    if (place == MAP_FAILED)
        return;
    at = (uint32_t)strtoul(number, NULL, 10);
    snprintf(how, sizeof how, "%s", manner);
    shared = place;
    __atomic_compare_exchange_n(&shared->group, &none, getpgrp(), 0, __ATOMIC_SEQ_CST, __ATOMIC_SEQ_CST);
}

static int is_how(const char *manner)
{
    return strcmp(how, manner) == 0;
}

static void end_all(void)
{
    kill(-shared->group, SIGKILL);
    kill(getpid(), SIGKILL);
    for (;;)
        pause();
}

/* Adds a line to the log, where there is room. */
static void note(const char *call, const char *path)
{
    char line[1024];
    int n = snprintf(line, sizeof line, "%s: %s of %s\n", program_invocation_short_name, call, path);
    uint32_t length = n < (int)sizeof line ? (uint32_t)n : sizeof line - 1;
    uint32_t place = __atomic_fetch_add(&shared->used, length, __ATOMIC_SEQ_CST);

    if (place + length <= sizeof shared->log)
        memcpy(shared->log + place, line, length);
}

/* Counts a call, and says what is due at it. */
static enum action counted(const char *call, const char *path)
{
    if (shared == NULL || is_how("slow") || (is_how("part") && strcmp(call, "write") != 0))
        return NOTHING;
    if (is_how("term") && getpid() != shared->group)
        return NOTHING;
    uint32_t now = __atomic_add_fetch(&shared->calls, 1, __ATOMIC_SEQ_CST);
    if (at == 0 || now <= at)
        note(call, path);
    if (at != 0 && now > at && is_how("fails"))
        return FAIL;
    if (now != at)
        return NOTHING;
    shared->broken = 1;
    if (is_how("kill"))
        end_all();
    if (is_how("alone"))
        kill(getpid(), SIGKILL);
    return is_how("after") ? AFTER : is_how("part") ? PART : is_how("stop") ? STOP : is_how("term") ? TERM : FAIL;
}

static enum action counted_of(const char *call, int fd)
{
    char link[40], path[800];

    if (shared == NULL)
        return NOTHING;
    snprintf(link, sizeof link, "/proc/self/fd/%d", fd);
    ssize_t n = readlink(link, path, sizeof path - 1);
    path[n < 0 ? 0 : n] = 0;
    return counted(call, path);
}

static int is_regular(int fd)
{
    struct stat found;
    int saved = errno, is = fstat(fd, &found) == 0 && S_ISREG(found.st_mode);

    errno = saved;
    return is;
}

/* What is due once the call is made. */
static void afterwards(enum action action)
{
    int saved = errno;

    if (action == AFTER || action == PART)
        end_all();
    if (action == STOP)
        kill(getpid(), SIGSTOP);
    if (action == TERM)
        kill(getpid(), SIGTERM);
    errno = saved;
}

static int failed(void)
{
    errno = EIO;
    return -1;
}

/* A call that is passed on, with what is due before and after it. */
#define PASSED_ON(type, name, due, ...) \
    enum action action = due; \
    if (action == FAIL) \
        return failed(); \
    __typeof__(name) *next = (__typeof__(name) *)dlsym(RTLD_NEXT, #name); \
    type answer = next(__VA_ARGS__); \
    afterwards(action); \
    return answer

/* Opening */

static int changes(const char *path, int flags)
{
    if (strncmp(path, "/dev/", 5) == 0 || strncmp(path, "/proc/", 6) == 0)
        return 0;
    return (flags & (O_CREAT | O_TRUNC)) != 0 || (flags & O_ACCMODE) != O_RDONLY;
}

#define MODE_OF(flags) \
    mode_t mode = 0; \
    if ((flags & O_CREAT) != 0 || (flags & O_TMPFILE) == O_TMPFILE) { \
        va_list rest; \
        va_start(rest, flags); \
        mode = va_arg(rest, mode_t); \
        va_end(rest); \
    }

#define OPEN(name) \
    int name(const char *path, int flags, ...) \
    { \
        MODE_OF(flags) \
        PASSED_ON(int, name, changes(path, flags) ? counted("open", path) : NOTHING, path, flags, mode); \
    }
OPEN(open)
OPEN(open64)

#define OPENAT(name) \
    int name(int folder, const char *path, int flags, ...) \
    { \
        MODE_OF(flags) \
        PASSED_ON(int, name, changes(path, flags) ? counted("open", path) : NOTHING, folder, path, flags, mode); \
    }
OPENAT(openat)
OPENAT(openat64)

int creat(const char *path, mode_t mode)
{
    PASSED_ON(int, creat, counted("open", path), path, mode);
}

int creat64(const char *path, mode_t mode)
{
    PASSED_ON(int, creat64, counted("open", path), path, mode);
}

int dup2(int from, int to)
{
    PASSED_ON(int, dup2, is_how("term") ? counted_of("dup2", from) : NOTHING, from, to);
}

/* Writing */

ssize_t write(int fd, const void *bytes, size_t n)
{
    enum action action = is_regular(fd) ? counted_of("write", fd) : NOTHING;
    ssize_t (*next)(int, const void *, size_t) = dlsym(RTLD_NEXT, "write");

    if (action == FAIL)
        return failed();
    ssize_t answer = next(fd, bytes, action == PART ? n / 2 : n);
    afterwards(action);
    return answer;
}

#define PWRITE(name, offset_type) \
    ssize_t name(int fd, const void *bytes, size_t n, offset_type offset) \
    { \
        enum action action = is_regular(fd) ? counted_of("write", fd) : NOTHING; \
        ssize_t (*next)(int, const void *, size_t, offset_type) = dlsym(RTLD_NEXT, #name); \
        if (action == FAIL) \
            return failed(); \
        ssize_t answer = next(fd, bytes, action == PART ? n / 2 : n, offset); \
        afterwards(action); \
        return answer; \
    }
PWRITE(pwrite, off_t)
PWRITE(pwrite64, off64_t)

/* Bytes that wait in a stream over a regular file. */
static enum action counted_stream(FILE *stream)
{
    if (stream == NULL || __fpending(stream) == 0 || !is_regular(fileno(stream)))
        return NOTHING;
    return counted_of("flush", fileno(stream));
}

int fflush(FILE *stream)
{
    PASSED_ON(int, fflush, counted_stream(stream), stream);
}

int fclose(FILE *stream)
{
    PASSED_ON(int, fclose, counted_stream(stream), stream);
}

int ftruncate(int fd, off_t length)
{
    PASSED_ON(int, ftruncate, counted_of("truncate", fd), fd, length);
}

int ftruncate64(int fd, off64_t length)
{
    PASSED_ON(int, ftruncate64, counted_of("truncate", fd), fd, length);
}

int fsync(int fd)
{
    PASSED_ON(int, fsync, counted_of("sync", fd), fd);
}

int fdatasync(int fd)
{
    PASSED_ON(int, fdatasync, counted_of("sync", fd), fd);
}

/* Names */

int rename(const char *from, const char *to)
{
    PASSED_ON(int, rename, counted("rename", from), from, to);
}

int renameat(int here, const char *from, int there, const char *to)
{
    PASSED_ON(int, renameat, counted("rename", from), here, from, there, to);
}

int renameat2(int here, const char *from, int there, const char *to, unsigned flags)
{
    PASSED_ON(int, renameat2, counted("rename", from), here, from, there, to, flags);
}

int link(const char *from, const char *to)
{
    PASSED_ON(int, link, counted("link", to), from, to);
}

int linkat(int here, const char *from, int there, const char *to, int flags)
{
    PASSED_ON(int, linkat, counted("link", to), here, from, there, to, flags);
}

int symlink(const char *from, const char *to)
{
    PASSED_ON(int, symlink, counted("link", to), from, to);
}

int unlink(const char *path)
{
    PASSED_ON(int, unlink, counted("unlink", path), path);
}

int unlinkat(int folder, const char *path, int flags)
{
    PASSED_ON(int, unlinkat, counted("unlink", path), folder, path, flags);
}

int mkdir(const char *path, mode_t mode)
{
    PASSED_ON(int, mkdir, counted("mkdir", path), path, mode);
}

int rmdir(const char *path)
{
    PASSED_ON(int, rmdir, counted("rmdir", path), path);
}

/* Permissions */

int chmod(const char *path, mode_t mode)
{
    PASSED_ON(int, chmod, counted("chmod", path), path, mode);
}

int fchmod(int fd, mode_t mode)
{
    PASSED_ON(int, fchmod, counted_of("chmod", fd), fd, mode);
}

int fchmodat(int folder, const char *path, mode_t mode, int flags)
{
    PASSED_ON(int, fchmodat, counted("chmod", path), folder, path, mode, flags);
}

int chown(const char *path, uid_t owner, gid_t group)
{
    PASSED_ON(int, chown, counted("chown", path), path, owner, group);
}

int lchown(const char *path, uid_t owner, gid_t group)
{
    PASSED_ON(int, lchown, counted("chown", path), path, owner, group);
}

int fchown(int fd, uid_t owner, gid_t group)
{
    PASSED_ON(int, fchown, counted_of("chown", fd), fd, owner, group);
}

int fchownat(int folder, const char *path, uid_t owner, gid_t group, int flags)
{
    PASSED_ON(int, fchownat, counted("chown", path), folder, path, owner, group, flags);
}

/* Processes */

#define WAIT_NS 50000000

static uint32_t blocks; /* times until bash waits; 0: it does not */

pid_t fork(void)
{
    pid_t (*next)(void) = (pid_t (*)(void))dlsym(RTLD_NEXT, "fork");
    pid_t process = next();

    blocks = shared != NULL && is_how("slow") && process > 0 ? at : 0;
    return process;
}

/* Bash blocks the signal that a process has ended while it writes down what it knows of its processes. */
int sigprocmask(int change, const sigset_t *set, sigset_t *old)
{
    struct timespec left = {0, WAIT_NS};
    int (*next)(int, const sigset_t *, sigset_t *) = dlsym(RTLD_NEXT, "sigprocmask");

    if (change == SIG_BLOCK && blocks > 0 && --blocks == 0)
        while (nanosleep(&left, &left) != 0 && errno == EINTR)
            ;
    return next(change, set, old);
}
