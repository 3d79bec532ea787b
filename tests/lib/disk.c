/* Loaded before the C library (LD_PRELOAD), this tells what a process does to the files of one directory, and ends the process
   at one of these calls. Of what it tells tests/lib/power_failures.py makes the directory that a failure of the power may leave.
   tests/disk.py compiles it by `cc -shared -fPIC`. It is for programs of one thread.

   DISK names the directory; its files are those that stand in it itself. DISK_CALLS names a file elsewhere, to which a line is
   added for each call that was carried out. A line begins with a word and the moment at which the call began, in nanoseconds
   of CLOCK_MONOTONIC. FILE is the number of an inode, and behind a line of a write come its bytes and the end of a line:

     create MOMENT FILE NAME           write MOMENT FILE OFFSET SIZE       sync MOMENT FILE
     rename MOMENT OLD/NEW             resize MOMENT FILE SIZE             settle MOMENT (the directory is handed to the disk)
     remove MOMENT NAME                end MOMENT (the process ends)

   DISK_END is the number of the call at which the process ends by SIGKILL, from 1; those that change nothing count too.
   DISK_WHEN says when: `before` it is carried out, `within` it, with the first half of what it writes, or `after` it.

   Nothing is handed to the real disk, so a sync takes no time. DISK_IGNORE, `file`, `data` or `directory`, leaves out the syncs
   of these, as a program does that makes none; `data` are those of a file's data alone (fdatasync), as logs have them. Files that are mapped into memory, and flags that ask for synchronous writes,
   are not known here: tests/lib/power_failures.py finds the first where it compares the directory with what was told. */

#define _GNU_SOURCE
#include <fcntl.h>
#include <signal.h>
#include <stdarg.h>
#include <stdio.h>
#include <stdlib.h>
#include <string.h>
#include <sys/stat.h>
#include <sys/syscall.h>
#include <sys/uio.h>
#include <time.h>
#include <unistd.h>

enum { MOST = 4096, MOST_PARTS = 1024 };

static char place[MOST];    /* the path of the directory */
static struct stat itself;  /* and what the system has there */
static int calls = -1;      /* the file that DISK_CALLS names */
static const char *ignored = "", *when = "after";
static long last, count;    /* the call at which the process ends, and how many there were */
static long long moment;    /* when the call began that is under way */

__attribute__((constructor)) static void prepare(void)
{
    const char *directory = getenv("DISK"), *told = getenv("DISK_CALLS");
    if (directory == NULL || told == NULL)
        return;
    if (getenv("DISK_IGNORE") != NULL)
        ignored = getenv("DISK_IGNORE");
    if (getenv("DISK_WHEN") != NULL)
        when = getenv("DISK_WHEN");
    if (getenv("DISK_END") != NULL)
        last = atol(getenv("DISK_END"));
    if (realpath(directory, place) == NULL || stat(place, &itself) != 0)
        abort();
    calls = syscall(SYS_openat, AT_FDCWD, told, O_WRONLY | O_APPEND | O_CREAT | O_CLOEXEC, 0600);
    if (calls < 0)
        abort();
}

/* Adds to the file of calls. */
static void tell(struct iovec *parts, int number)
{
    ssize_t size = 0;
    for (int at = 0; at < number; at++)
        size += parts[at].iov_len;
    if (syscall(SYS_writev, calls, parts, number) != size)
        abort();
}

__attribute__((format(printf, 1, 2))) static void tell_line(const char *format, ...)
{
    char line[3 * MOST];
    va_list rest;
    va_start(rest, format);
    struct iovec part = {line, vsnprintf(line, sizeof line, format, rest)};
    va_end(rest);
    tell(&part, 1);
}

static void end_here(void)
{
    tell_line("end %lld\n", moment);
    syscall(SYS_kill, getpid(), SIGKILL);
    abort();
}

static int ends(const char *now)
{
    return count == last && strcmp(when, now) == 0;
}

static void begin_call(void)
{
    struct timespec now;
    clock_gettime(CLOCK_MONOTONIC, &now);
    moment = now.tv_sec * 1000000000LL + now.tv_nsec;
    count++;
    if (ends("before"))
        end_here();
}

static void end_call(void)
{
    if (count == last)
        end_here();
}

static int is_itself(const struct stat *found)
{
    return found->st_dev == itself.st_dev && found->st_ino == itself.st_ino;
}

/* The name that a path has in the directory, or NULL where it stands elsewhere. */
static const char *name_of(int from, const char *path)
{
    char parent[MOST];
    struct stat found;
    const char *slash = strrchr(path, '/');
    if (calls < 0)
        return NULL;
    if (slash == NULL)
        snprintf(parent, sizeof parent, ".");
    else
        snprintf(parent, sizeof parent, "%.*s", slash == path ? 1 : (int)(slash - path), path);
    if (fstatat(from, parent, &found, 0) != 0 || !is_itself(&found))
        return NULL;
    return slash == NULL ? path : slash + 1;
}

/* Whether a descriptor is open on a file that stands in the directory, or stood there. */
static int is_here(int file, struct stat *found)
{
    char link[64], path[MOST] = {0};
    size_t size = strlen(place);
    if (calls < 0 || fstat(file, found) != 0 || !S_ISREG(found->st_mode))
        return 0;
    snprintf(link, sizeof link, "/proc/self/fd/%d", file);
    return readlink(link, path, sizeof path - 1) > 0 && strncmp(path, place, size) == 0 && path[size] == '/'
        && strchr(path + size + 1, '/') == NULL;
}

static int open_at(int from, const char *path, int flags, mode_t mode)
{
    const char *name = flags & (O_CREAT | O_TRUNC) ? name_of(from, path) : NULL;
    struct stat before, after;
    if (name == NULL)
        return syscall(SYS_openat, from, path, flags, mode);
    begin_call();
    int was_there = fstatat(from, path, &before, 0) == 0;
    int file = syscall(SYS_openat, from, path, flags, mode);
    if (file >= 0 && fstat(file, &after) == 0) {
        if (!was_there)
            tell_line("create %lld %lu %s\n", moment, after.st_ino, name);
        else if (flags & O_TRUNC)
            tell_line("resize %lld %lu 0\n", moment, after.st_ino);
    }
    end_call();
    return file;
}

static mode_t mode_of(int flags, va_list rest)
{
    return flags & O_CREAT ? va_arg(rest, mode_t) : 0;
}

int open(const char *path, int flags, ...)
{
    va_list rest;
    va_start(rest, flags);
    mode_t mode = mode_of(flags, rest);
    va_end(rest);
    return open_at(AT_FDCWD, path, flags, mode);
}

int openat(int from, const char *path, int flags, ...)
{
    va_list rest;
    va_start(rest, flags);
    mode_t mode = mode_of(flags, rest);
    va_end(rest);
    return open_at(from, path, flags, mode);
}

int creat(const char *path, mode_t mode)
{
    return open_at(AT_FDCWD, path, O_WRONLY | O_CREAT | O_TRUNC, mode);
}

/* Tells that so many bytes of some parts were written from an offset on. */
static void tell_write(const struct stat *found, off_t offset, ssize_t size, const struct iovec *parts)
{
    char line[128];
    struct iovec told[MOST_PARTS + 2];
    int number = 1;
    told[0] = (struct iovec){line, snprintf(line, sizeof line, "write %lld %lu %ld %zd\n", moment, found->st_ino, offset, size)};
    for (ssize_t left = size; left > 0; number++, parts++) {
        told[number] = *parts;
        if ((ssize_t)parts->iov_len > left)
            told[number].iov_len = left;
        left -= told[number].iov_len;
    }
    told[number] = (struct iovec){"\n", 1};
    tell(told, number + 1);
}

/* Writes parts to a file of the directory: from an offset on, or where that is negative, from where the file stands. */
static ssize_t put(int file, const struct stat *found, const struct iovec *parts, int number, off_t offset)
{
    struct iovec half = {parts->iov_base, (parts->iov_len + 1) / 2};
    if (number > MOST_PARTS)
        abort();
    begin_call();
    if (ends("within")) {
        parts = &half;
        number = 1;
    }
    ssize_t size = offset < 0 ? syscall(SYS_writev, file, parts, number) : syscall(SYS_pwritev, file, parts, number, offset, 0);
    if (size > 0)
        tell_write(found, offset < 0 ? lseek(file, 0, SEEK_CUR) - size : offset, size, parts);
    end_call();
    return size;
}

ssize_t write(int file, const void *bytes, size_t size)
{
    struct stat found;
    struct iovec part = {(void *)bytes, size};
    return is_here(file, &found) ? put(file, &found, &part, 1, -1) : syscall(SYS_write, file, bytes, size);
}

ssize_t writev(int file, const struct iovec *parts, int number)
{
    struct stat found;
    return is_here(file, &found) && number > 0 ? put(file, &found, parts, number, -1) : syscall(SYS_writev, file, parts, number);
}

ssize_t pwrite(int file, const void *bytes, size_t size, off_t offset)
{
    struct stat found;
    struct iovec part = {(void *)bytes, size};
    return is_here(file, &found) && offset >= 0 ? put(file, &found, &part, 1, offset) : syscall(SYS_pwrite64, file, bytes, size, offset);
}

int ftruncate(int file, off_t size)
{
    struct stat found;
    if (!is_here(file, &found))
        return syscall(SYS_ftruncate, file, size);
    begin_call();
    int status = syscall(SYS_ftruncate, file, size);
    if (status == 0)
        tell_line("resize %lld %lu %ld\n", moment, found.st_ino, size);
    end_call();
    return status;
}

/* Hands a file or the directory to the disk. */
static int hand_over(int file, long call)
{
    struct stat found;
    int is_directory = calls >= 0 && fstat(file, &found) == 0 && is_itself(&found);
    if (!is_directory && !is_here(file, &found))
        return syscall(call, file);
    if (strcmp(ignored, is_directory ? "directory" : call == SYS_fdatasync ? "data" : "file") == 0)
        return 0;
    begin_call();
    if (is_directory)
        tell_line("settle %lld\n", moment);
    else
        tell_line("sync %lld %lu\n", moment, found.st_ino);
    end_call();
    return 0;
}

int fsync(int file)
{
    return hand_over(file, SYS_fsync);
}

int fdatasync(int file)
{
    return hand_over(file, SYS_fdatasync);
}

int renameat(int old_from, const char *old, int new_from, const char *new)
{
    const char *old_name = name_of(old_from, old), *new_name = name_of(new_from, new);
    if (old_name == NULL && new_name == NULL)
        return syscall(SYS_renameat, old_from, old, new_from, new);
    /* nothing is told of what comes from elsewhere or goes there */
    if (old_name == NULL || new_name == NULL)
        abort();
    begin_call();
    int status = syscall(SYS_renameat, old_from, old, new_from, new);
    if (status == 0)
        tell_line("rename %lld %s/%s\n", moment, old_name, new_name);
    end_call();
    return status;
}

int rename(const char *old, const char *new)
{
    return renameat(AT_FDCWD, old, AT_FDCWD, new);
}

int unlinkat(int from, const char *path, int flags)
{
    const char *name = name_of(from, path);
    if (name == NULL)
        return syscall(SYS_unlinkat, from, path, flags);
    begin_call();
    int status = syscall(SYS_unlinkat, from, path, flags);
    if (status == 0)
        tell_line("remove %lld %s\n", moment, name);
    end_call();
    return status;
}

int unlink(const char *path)
{
    return unlinkat(AT_FDCWD, path, 0);
}

/* The same under the names that have offsets of 64 bits. */
int open64(const char *, int, ...) __attribute__((alias("open")));
int openat64(int, const char *, int, ...) __attribute__((alias("openat")));
int creat64(const char *, mode_t) __attribute__((alias("creat")));
ssize_t pwrite64(int, const void *, size_t, off_t) __attribute__((alias("pwrite")));
int ftruncate64(int, off_t) __attribute__((alias("ftruncate")));
