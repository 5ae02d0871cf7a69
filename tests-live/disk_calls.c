/* Counts the calls that a program makes on the files below a folder, writes each into a log, and makes one or more of
 * them fail. Put before the C library's by LD_PRELOAD. call_log.py sets these variables and reads the log:
 *
 *   DISK_FOLDER  the folder, as the kernel names it
 *   DISK_LOG     the log: a `struct head` for each call, the name of its file, and of a write the bytes to be written
 *   DISK_FAIL    the number of the call that fails, counted from 1 in the log; 0 for none
 *   DISK_HOW     once: this call fails. on: this call and all later ones. part: this read or write does half of its
 *                bytes. cut: the same, and the next write fails. lost: once, and if it is a sync, what was written
 *                since the sync before is undone.
 *   DISK_ERROR   the number of the error. A full disk (ENOSPC) fails no read, and under `on` no sync.
 *
 * A write to standard output is in the log too, so that it shows which call came before which reply. It never fails. */
#define _GNU_SOURCE
#include <errno.h>
#include <fcntl.h>
#include <pthread.h>
#include <stdint.h>
#include <stdlib.h>
#include <string.h>
#include <sys/stat.h>
#include <sys/syscall.h>
#include <unistd.h>

enum kind { LENGTH, READ, WRITE, CUT, SYNC, REPLY };
enum how { ONCE, ON, PART, THEN_CUT, LOST };
struct head { uint64_t number, kind, name, at, size; int64_t result; };
/* What a write or a cut changed: the bytes of the range before it, and the length. */
struct change { struct change *before; int file; off_t at, length; size_t size; char bytes[]; };

static pthread_mutex_t turn = PTHREAD_MUTEX_INITIALIZER;
static struct change *changes;
static uint64_t calls, wanted;
static int is_cut, record = -1, error = EIO;
static enum how how;
static const char *folder;

__attribute__((constructor)) static void begin(void) {
    const char *log = getenv("DISK_LOG"), *number = getenv("DISK_FAIL");
    const char *code = getenv("DISK_ERROR"), *word = getenv("DISK_HOW");
    const char *words[] = {"once", "on", "part", "cut", "lost"};
    folder = getenv("DISK_FOLDER");
    wanted = number ? strtoull(number, NULL, 10) : 0;
    error = code ? atoi(code) : EIO;
    for (int i = 0; word && i < 5; i++)
        if (strcmp(word, words[i]) == 0) how = i;
    int file = log ? open(log, O_WRONLY | O_CREAT | O_APPEND, 0644) : -1;
    if (file < 0) return;
    record = fcntl(file, F_DUPFD_CLOEXEC, 100);
    close(file);
}

/* The name of an open file in the folder, "." for the folder itself; 0 if it is elsewhere. */
static size_t name_of(int file, char *name, size_t room) {
    char link[40] = "/proc/self/fd/", digits[12], *end = digits + sizeof digits;
    char path[4096];
    unsigned number = (unsigned)file;
    *--end = 0;
    do *--end = '0' + number % 10; while (number /= 10);
    strcat(link, end);
    ssize_t size = readlink(link, path, sizeof path - 1);
    size_t front = folder ? strlen(folder) : 0;
    if (!front || size < 0 || (size_t)size < front || memcmp(path, folder, front)) return 0;
    path[size] = 0;
    if (path[front] && path[front] != '/') return 0;
    const char *rest = path[front] ? path + front + 1 : ".";
    strncpy(name, rest, room - 1);
    name[room - 1] = 0;
    return strlen(name);
}

static void put_all(const void *bytes, size_t size) {
    for (const char *at = bytes; size;) {
        long done = syscall(SYS_write, record, at, size);
        if (done <= 0) return;
        at += done, size -= done;
    }
}

static void note(enum kind kind, const char *name, off_t at, size_t size, long result, const void *bytes) {
    struct head head = {calls, kind, strlen(name), (uint64_t)at, size, result < 0 ? -errno : result};
    int kept = errno;
    put_all(&head, sizeof head);
    put_all(name, head.name);
    if (bytes) put_all(bytes, size);
    errno = kept;
}

/* Keeps what a write or a cut will change, so that it can be undone. */
static void keep(int file, off_t at, size_t size) {
    struct stat now;
    struct change *one = how == LOST ? malloc(sizeof *one + size) : NULL;
    if (!one || syscall(SYS_fstat, file, &now)) return;
    long got = syscall(SYS_pread64, file, one->bytes, size, at);
    *one = (struct change){changes, file, at, now.st_size, got > 0 ? got : 0};
    changes = one;
}

/* Forgets the changes of a file, or undoes them, the last one first. */
static void settle(int file, int is_undone) {
    for (struct change **at = &changes, *one; (one = *at);) {
        if (one->file != file) { at = &one->before; continue; }
        if (is_undone) {
            syscall(SYS_pwrite64, file, one->bytes, one->size, one->at);
            syscall(SYS_ftruncate, file, one->length);
        }
        *at = one->before;
        free(one);
    }
}

/* Whether this call fails. */
static int fails(enum kind kind) {
    int is_write = kind == WRITE || kind == CUT;
    if (is_cut && is_write) { is_cut = 0; return 1; }
    if (error == ENOSPC && (kind == READ || kind == LENGTH || (how == ON && !is_write))) return 0;
    return how == ON ? wanted && calls >= wanted : how != PART && how != THEN_CUT && calls == wanted;
}

/* Makes a call on a file of the folder, or lets it fail. */
static long call(enum kind kind, int file, void *bytes, size_t size, off_t at, long number, long first, long second,
                 long third) {
    char name[256];
    int kept = errno;
    size_t found = name_of(file, name, sizeof name);
    errno = kept;
    if (!found) return syscall(number, file, first, second, third);
    pthread_mutex_lock(&turn);
    calls++;
    long result;
    int is_half = (how == PART || how == THEN_CUT) && calls == wanted && (kind == READ || kind == WRITE) && size > 1;
    if (fails(kind)) {
        if (how == LOST && kind == SYNC) settle(file, 1);
        errno = error;
        result = -1;
    } else {
        if (kind == WRITE) keep(file, at, size);
        if (kind == CUT) keep(file, at, 1 << 20);
        result = syscall(number, file, first, is_half ? (long)(size / 2) : second, third);
        if (kind == SYNC && result == 0) settle(file, 0);
        if (is_half && how == THEN_CUT) is_cut = 1;
    }
    note(kind, name, at, size, result, kind == WRITE ? bytes : NULL);
    pthread_mutex_unlock(&turn);
    return result;
}

ssize_t pread64(int file, void *bytes, size_t size, off_t at) {
    return call(READ, file, bytes, size, at, SYS_pread64, (long)bytes, (long)size, at);
}
ssize_t pwrite64(int file, const void *bytes, size_t size, off_t at) {
    return call(WRITE, file, (void *)bytes, size, at, SYS_pwrite64, (long)bytes, (long)size, at);
}
int ftruncate64(int file, off_t to) { return (int)call(CUT, file, NULL, 0, to, SYS_ftruncate, to, 0, 0); }
int fdatasync(int file) { return (int)call(SYNC, file, NULL, 0, 0, SYS_fdatasync, 0, 0, 0); }
int fsync(int file) { return (int)call(SYNC, file, NULL, 0, 0, SYS_fsync, 0, 0, 0); }
int fstat64(int file, struct stat64 *about) {
    return (int)call(LENGTH, file, NULL, 0, 0, SYS_fstat, (long)about, 0, 0);
}
int fstat(int file, struct stat *about) { return fstat64(file, (struct stat64 *)about); }
int statx(int file, const char *restrict path, int flags, unsigned mask, struct statx *restrict about) {
    char name[256];
    if (*path || !name_of(file, name, sizeof name)) return (int)syscall(SYS_statx, file, path, flags, mask, about);
    pthread_mutex_lock(&turn);
    calls++;
    int is_failed = fails(LENGTH);
    long result = is_failed ? -1 : syscall(SYS_statx, file, path, flags, mask, about);
    if (is_failed) errno = error;
    note(LENGTH, name, 0, 0, result, NULL);
    pthread_mutex_unlock(&turn);
    return (int)result;
}
/* The same calls under the other names that the C library has for them. */
ssize_t pread(int file, void *bytes, size_t size, off_t at) __attribute__((alias("pread64")));
ssize_t __pread64(int file, void *bytes, size_t size, off_t at) __attribute__((alias("pread64")));
ssize_t pwrite(int file, const void *bytes, size_t size, off_t at) __attribute__((alias("pwrite64")));
ssize_t __pwrite64(int file, const void *bytes, size_t size, off_t at) __attribute__((alias("pwrite64")));
int ftruncate(int file, off_t to) __attribute__((alias("ftruncate64")));

ssize_t write(int file, const void *bytes, size_t size) {
    long done = syscall(SYS_write, file, bytes, size);
    if (file == STDOUT_FILENO && done > 0 && record >= 0) {
        pthread_mutex_lock(&turn);
        note(REPLY, "-", 0, (size_t)done, done, bytes);
        pthread_mutex_unlock(&turn);
    }
    return done;
}
ssize_t __write(int file, const void *bytes, size_t size) __attribute__((alias("write")));
