// Watches, counts and refuses calls of the C library by which a program reaches the system or asks
// for memory. LD_PRELOAD loads it before the program. These variables say what it does:
// CALLS_LOG is a file that gets a line for each call: `done` or `refused`, kind, thread, path.
// REFUSE is KIND:FIRST:LAST:ERRNO: the calls of that kind from the FIRST to the LAST, counted from
// 1, fail with that error, and are not done. MOST: a read or a write takes no more bytes.
// BEFORE has lines `N KIND PATH: COMMAND`: right before the Nth call of that kind at that path
// (that a rename gives) a shell runs the command, and a line `before` is added. Where its status is
// not 0 the call fails with that error.
// OWN has the begin and the end, from the program's base, of the two functions by which it asks for
// memory; the C library and the kit ask by others, while they start a thread or a process. Then
// growths of memory are counted, and that with the number GROWTH is refused. With EACH they are
// counted for each call, from the line `begins CALL` of the program to `ends CALL`, and how many it
// met is told in the file TELL or on standard error. With CHILDREN a child of the process goes on
// where a call asks for a growth, and to the child it is refused: that file gets what the child
// prints, then its status, how many bytes were printed before, the growth's number and the call.
// With STEP this is done for each growth whose number that divides.
// RUN_COUNTS is a file whose first 24 bytes get, also where the program is killed: the bytes for
// which it asks, a list that grows by its new length; and its processor time, in nanoseconds, when
// it last opened a file, and when it last wrote to its standard output.
#define _GNU_SOURCE
#include <dlfcn.h>
#include <errno.h>
#include <fcntl.h>
#include <pthread.h>
#include <spawn.h>
#include <stdarg.h>
#include <stdatomic.h>
#include <stdint.h>
#include <stdio.h>
#include <stdlib.h>
#include <string.h>
#include <sys/auxv.h>
#include <sys/file.h>
#include <sys/mman.h>
#include <sys/stat.h>
#include <sys/syscall.h>
#include <sys/uio.h>
#include <sys/wait.h>
#include <time.h>
#include <unistd.h>

enum { EVENTS = 8, LONG = 8192, SECONDS = 100 }; // SECONDS: more than a run of lab takes.

struct rule {
    char kind[32];
    long first, last, count;
    int error;
};

struct event {
    char kind[32], path[4000];
    long number, count;
    const char *command;
};

#define NEXT(name) __typeof__(&name) next = (__typeof__(&name))dlsym(RTLD_NEXT, #name)

static struct rule rule;
static struct event events[EVENTS];
static size_t most = -1;
static int log_file = -1, is_watched;
static pthread_mutex_t lock = PTHREAD_MUTEX_INITIALIZER;

static void read_events(const char *text) {
    char *rest = text ? strdup(text) : "", *line;
    for (int i = 0; (line = strtok_r(rest, "\n", &rest)); i++) {
        struct event *it = &events[i];
        int at = 0;
        if (i < EVENTS)
            sscanf(line, "%ld %31s %3999[^:]: %n", &it->number, it->kind, it->path, &at);
        if (!at)
            abort();
        it->command = line + at;
    }
}

// The status of a command, which runs without this library.
static int status_of(const char *command) {
    NEXT(posix_spawn);
    char *words[] = {"sh", "-c", (char *)command, 0}, *settings[] = {"PATH=/usr/bin:/bin", 0};
    pid_t pid;
    int status;
    if (next(&pid, "/bin/sh", 0, 0, words, settings))
        abort();
    while (syscall(SYS_wait4, pid, &status, 0, 0) != pid)
        ;
    return WIFEXITED(status) ? WEXITSTATUS(status) : EIO;
}

static void add_line(const char *done, const char *kind, const char *path) {
    char line[LONG];
    long thread = syscall(SYS_gettid);
    int length = snprintf(line, sizeof line, "%s %s %ld %.4000s\n", done, kind, thread, path);
    if (log_file >= 0)
        syscall(SYS_write, log_file, line, length);
}

// Lets happen what is to happen before a call, and gives the error with which it is refused, or 0.
static int happened(const char *kind, const char *path) {
    const char *to = strstr(path, " > ");
    int error = 0;
    for (struct event *it = events; it < events + EVENTS && it->command; it++) {
        int is_at = strcmp(it->kind, kind) == 0 && strcmp(it->path, to ? to + 3 : path) == 0;
        if (is_at && ++it->count == it->number) {
            error = status_of(it->command);
            add_line("before", kind, path);
        }
    }
    return error;
}

static void begin_calls(void) {
    const char *path = getenv("CALLS_LOG");
    int flags = O_WRONLY | O_APPEND | O_CREAT | O_CLOEXEC;
    if (path && (log_file = (int)syscall(SYS_openat, AT_FDCWD, path, flags, 0600)) >= 0) {
        // Far from the numbers that the program uses.
        int far = (int)syscall(SYS_fcntl, log_file, F_DUPFD_CLOEXEC, 500);
        syscall(SYS_close, log_file);
        log_file = far;
    }
    const char *form = "%31[^:]:%ld:%ld:%d", *text = getenv("REFUSE");
    if (text)
        sscanf(text, form, rule.kind, &rule.first, &rule.last, &rule.error);
    read_events(getenv("BEFORE"));
    if (getenv("MOST"))
        most = atol(getenv("MOST"));
    is_watched = path || rule.kind[0] || events[0].command;
}

// Counts a call, adds its line, and gives the error with which it is refused, or 0.
static int refused(const char *kind, const char *path) {
    if (!is_watched)
        return 0;
    pthread_mutex_lock(&lock);
    int error = happened(kind, path);
    if (strcmp(rule.kind, kind) == 0 && ++rule.count >= rule.first && rule.count <= rule.last)
        error = rule.error;
    add_line(error ? "refused" : "done", kind, path);
    pthread_mutex_unlock(&lock);
    return error;
}

// The counts of a run, which stand in a file where one is given.
static struct counts {
    _Atomic unsigned long long asked, opened, written;
} uncounted, *counts = &uncounted;

static void begin_counts(void) {
    const char *path = getenv("RUN_COUNTS");
    int file = path ? syscall(SYS_openat, AT_FDCWD, path, O_RDWR | O_CLOEXEC) : -1;
    if (file < 0)
        return;
    void *at = mmap(NULL, sizeof uncounted, PROT_READ | PROT_WRITE, MAP_SHARED, file, 0);
    syscall(SYS_close, file);
    if (at != MAP_FAILED)
        counts = at;
}

static unsigned long long own_time(void) {
    struct timespec time;
    clock_gettime(CLOCK_PROCESS_CPUTIME_ID, &time);
    return time.tv_sec * 1000000000ull + time.tv_nsec;
}

// Whether growths are counted now; how many were met; the number of the refused one; whether they
// are counted for each call, up to the end of that whose growth was refused.
static _Atomic int is_within;
static _Atomic long met;
static long number, step;
static int is_each;
static unsigned long base, own[4];
// The call that begins or began, what is printed of a line, and how much was printed in all.
static char call[400], line[400];
static size_t length, printed;

static void begin_growths(void) {
    Dl_info place;
    char *rest = getenv("OWN");
    if (!rest || !dladdr((void *)getauxval(AT_ENTRY), &place))
        return;
    base = (unsigned long)place.dli_fbase;
    for (int i = 0; i < 4; i++)
        own[i] = strtoul(rest, &rest, 16);
    number = getenv("GROWTH") ? atol(getenv("GROWTH")) : 0;
    is_each = getenv("EACH") != 0;
    step = getenv("STEP") ? atol(getenv("STEP")) : 1;
    is_within = !is_each;
}

__attribute__((constructor)) static void begin(void) {
    begin_calls();
    begin_counts();
    begin_growths();
}

static void say(const char *text) {
    const char *file = getenv("TELL");
    int flags = O_WRONLY | O_CREAT | O_APPEND;
    int to = file ? (int)syscall(SYS_openat, AT_FDCWD, file, flags, 0600) : 2;
    syscall(SYS_write, to, text, strlen(text));
    if (file)
        syscall(SYS_close, to);
}

static void end_line(void) {
    char text[sizeof line + 80];
    line[length] = 0;
    length = 0;
    if (!is_within && !strncmp(line, "begins ", 7)) {
        strcpy(call, line + 7);
        met = 0;
        is_within = 1;
    } else if (is_within && !strncmp(line, "ends ", 5)) {
        is_within = 0;
        snprintf(text, sizeof text, "met %ld %s\n", met, call);
        say(text);
    }
}

static void read_lines(const char *bytes, size_t count) {
    for (size_t i = 0; i < count; i++)
        if (bytes[i] == '\n')
            end_line();
        else if (length + 1 < sizeof line)
            line[length++] = bytes[i];
}

// Says who asked: the program in its first thread, a worker, or the system, which starts a thread
// from the first one and a process from another one.
static void tell_asker(int is_own) {
    int is_first = syscall(SYS_gettid) == syscall(SYS_getpid);
    const char *own = is_first ? "refused to the program\n" : "refused to a worker\n";
    const char *thread = "refused to the start of a thread\n";
    const char *process = "refused to the start of a process\n";
    say(is_own ? own : is_first ? thread : process);
}

// Lets a child go on, to which the growth is refused, and waits for its end. Whether this is it.
static int is_refused_to_child(void) {
    int flags = O_WRONLY | O_CREAT | O_APPEND | O_CLOEXEC, status;
    int file = (int)syscall(SYS_openat, AT_FDCWD, getenv("CHILDREN"), flags, 0600);
    is_within = 0;
    pid_t child = fork();
    if (!child) {
        is_each = 0;
        dup2(file, 1);
        alarm(SECONDS);
        return 1;
    }
    while (child > 0 && syscall(SYS_wait4, child, &status, 0, 0) != child)
        ;
    if (child < 0 || WIFSIGNALED(status))
        status = 0xff00;
    const char *form = "\x1e%d %zu %ld %s\n";
    dprintf(file, form, WEXITSTATUS(status), printed, met, call);
    syscall(SYS_close, file);
    is_within = 1;
    return 0;
}

static int gives_none(const void *caller) {
    if (!is_within)
        return 0;
    unsigned long at = (unsigned long)caller - base;
    int is_own = (own[0] <= at && at < own[1]) || (own[2] <= at && at < own[3]);
    int is_chosen = ++met == number;
    if (is_chosen)
        tell_asker(is_own);
    else if (!is_each || !getenv("CHILDREN") || met % step || !is_refused_to_child())
        return 0;
    errno = ENOMEM;
    return 1;
}

void *__libc_malloc(size_t), *__libc_calloc(size_t, size_t), *__libc_realloc(void *, size_t);
void *__libc_memalign(size_t, size_t);

#define CALLER __builtin_return_address(0)
// A call that is asked for so many bytes, which are counted, and gives this or nothing.
#define ASKED(bytes, given)                    \
    {                                          \
        counts->asked += bytes;                \
        return gives_none(CALLER) ? 0 : given; \
    }

void *malloc(size_t size) ASKED(size, __libc_malloc(size))
void *calloc(size_t count, size_t size) ASKED(0, __libc_calloc(count, size))
void *realloc(void *block, size_t size) ASKED(size, __libc_realloc(block, size))
void *aligned_alloc(size_t align, size_t size) ASKED(0, __libc_memalign(align, size))
int posix_memalign(void **block, size_t align, size_t size) {
    *block = gives_none(CALLER) ? 0 : __libc_memalign(align, size);
    return *block ? 0 : ENOMEM;
}

// The path of an open file, or of a name in an open folder.
static const char *path_of(int fd, const char *name, char *room) {
    char link[64];
    if (name && (fd == AT_FDCWD || name[0] == '/'))
        return name;
    snprintf(link, sizeof link, "/proc/self/fd/%d", fd);
    ssize_t length = syscall(SYS_readlinkat, AT_FDCWD, link, room, (size_t)4000);
    if (length < 0)
        length = 0;
    room[length] = 0;
    if (name)
        snprintf(room + length, 300, "/%s", name);
    return room;
}

#define REFUSE(kind, path, answer)                         \
    do {                                                   \
        int error_ = is_watched ? refused(kind, path) : 0; \
        if (error_) {                                      \
            errno = error_;                                \
            return answer;                                 \
        }                                                  \
    } while (0)

// A call that is refused or done.
#define CALL(type, name, parameters, kind, path, ...) \
    type name parameters {                            \
        char room[LONG];                              \
        REFUSE(kind, path, -1);                       \
        return (type)syscall(__VA_ARGS__);            \
    }

static size_t least(size_t count) { return count < most ? count : most; }

static int open_at(int dir, const char *path, int flags, mode_t mode) {
    char room[LONG];
    const char *kind = flags & O_CREAT ? "create" : flags & O_DIRECTORY ? "open-folder" : "open";
    REFUSE(kind, path_of(dir, path, room), -1);
    counts->opened = counts == &uncounted ? 0 : own_time();
    return (int)syscall(SYS_openat, dir, path, flags, mode);
}

// The permissions of a new file are the argument after the flags; of no other they are looked at.
#define OPEN(dir, path, flags)                   \
    do {                                         \
        va_list rest_;                           \
        va_start(rest_, flags);                  \
        mode_t mode_ = va_arg(rest_, mode_t);    \
        va_end(rest_);                           \
        return open_at(dir, path, flags, mode_); \
    } while (0)

int open(const char *path, int flags, ...) { OPEN(AT_FDCWD, path, flags); }
int openat(int dir, const char *path, int flags, ...) { OPEN(dir, path, flags); }

CALL(ssize_t, read, (int fd, void *bytes, size_t count), "read", path_of(fd, 0, room), SYS_read, fd,
     bytes, least(count))

static const char *write_kind(int fd) { return fd == 1 ? "print" : fd == 2 ? "tell" : "write"; }

ssize_t write(int fd, const void *bytes, size_t count) {
    char room[LONG];
    REFUSE(write_kind(fd), path_of(fd, 0, room), -1);
    if (fd == 1 && is_each)
        read_lines(bytes, count);
    ssize_t taken = syscall(SYS_write, fd, bytes, least(count));
    if (fd == 1 && taken > 0)
        printed += taken;
    if (fd == 1 && counts != &uncounted)
        counts->written = own_time();
    return taken;
}

ssize_t writev(int fd, const struct iovec *parts, int count) {
    char room[LONG];
    REFUSE(write_kind(fd), path_of(fd, 0, room), -1);
    if (most < SIZE_MAX)
        return syscall(SYS_write, fd, parts->iov_base, least(parts->iov_len));
    return syscall(SYS_writev, fd, parts, count);
}

CALL(int, fsync, (int fd), "sync", path_of(fd, 0, room), SYS_fsync, fd)
CALL(int, fdatasync, (int fd), "sync", path_of(fd, 0, room), SYS_fdatasync, fd)
CALL(int, fchmod, (int fd, mode_t mode), "permissions", path_of(fd, 0, room), SYS_fchmod, fd, mode)
CALL(int, chmod, (const char *path, mode_t mode), "permissions", path, SYS_chmod, path, mode)
CALL(int, futimens, (int fd, const struct timespec times[2]), "times", path_of(fd, 0, room),
     SYS_utimensat, fd, 0, times, 0)
CALL(int, flock, (int fd, int how), "lock", path_of(fd, 0, room), SYS_flock, fd, how)
CALL(int, unlink, (const char *path), "remove", path, SYS_unlink, path)
CALL(int, rmdir, (const char *path), "remove", path, SYS_rmdir, path)
CALL(int, unlinkat, (int dir, const char *name, int flags), "remove", path_of(dir, name, room),
     SYS_unlinkat, dir, name, flags)
CALL(int, mkdir, (const char *path, mode_t mode), "make-folder", path, SYS_mkdir, path, mode)
CALL(int, symlink, (const char *target, const char *path), "link", path, SYS_symlink, target, path)
CALL(int, statx, (int dir, const char *path, int flags, unsigned mask, struct statx *found), "look",
     path_of(dir, path, room), SYS_statx, dir, path, flags, mask, found)
CALL(ssize_t, readlink, (const char *path, char *bytes, size_t count), "read-link", path,
     SYS_readlinkat, AT_FDCWD, path, bytes, count)
CALL(ssize_t, getdents64, (int fd, void *bytes, size_t count), "list", path_of(fd, 0, room),
     SYS_getdents64, fd, bytes, count)

char *realpath(const char *path, char *resolved) {
    NEXT(realpath);
    REFUSE("resolve", path, 0);
    return next(path, resolved);
}

int rename(const char *from, const char *to) {
    char both[LONG];
    snprintf(both, sizeof both, "%.3900s > %.3900s", from, to);
    REFUSE("rename", both, -1);
    return (int)syscall(SYS_rename, from, to);
}

int fcntl(int fd, int command, ...) {
    va_list rest;
    va_start(rest, command);
    long value = va_arg(rest, long);
    va_end(rest);
    char room[LONG];
    if (command == F_DUPFD || command == F_DUPFD_CLOEXEC)
        REFUSE("duplicate", path_of(fd, 0, room), -1);
    return (int)syscall(SYS_fcntl, fd, command, value);
}

int posix_spawn(pid_t *pid, const char *path, const posix_spawn_file_actions_t *actions,
                const posix_spawnattr_t *attributes, char *const words[], char *const settings[]) {
    NEXT(posix_spawn);
    int error = refused("spawn", path);
    return error ? error : next(pid, path, actions, attributes, words, settings);
}

// Where the wait is refused the child has ended, so that it does nothing later.
pid_t waitpid(pid_t pid, int *status, int options) {
    siginfo_t ended;
    int error = refused("wait", "");
    if (error) {
        syscall(SYS_waitid, P_PID, pid, &ended, WEXITED | WNOWAIT, 0);
        errno = error;
        return -1;
    }
    return (pid_t)syscall(SYS_wait4, pid, status, options, 0);
}

int pthread_create(pthread_t *thread, const pthread_attr_t *attributes, void *(*run)(void *),
                   void *argument) {
    NEXT(pthread_create);
    int error = refused("thread", "-");
    return error ? error : next(thread, attributes, run, argument);
}
