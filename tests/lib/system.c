/* Loaded before the C library (LD_PRELOAD), this shifts the clock of a process, and tells what it hands to the disk and
   renames. tests/edges.py compiles it by `cc -shared -fPIC`.

   CLOCK names a file with a number in ASCII digits, maybe behind a `-`: by so many seconds the time of day is later. It is
   read at each question. CALLS names a file to which lines are added: `fsync PATH` and `rename OLD NEW`. */

#define _GNU_SOURCE
#include <fcntl.h>
#include <stdio.h>
#include <stdlib.h>
#include <string.h>
#include <sys/syscall.h>
#include <time.h>
#include <unistd.h>

enum { MOST = 4096 };

static long shift(void)
{
    char text[32] = {0};
    const char *name = getenv("CLOCK");
    int file = name == NULL ? -1 : open(name, O_RDONLY | O_CLOEXEC);
    if (file < 0)
        return 0;
    ssize_t count = read(file, text, sizeof text - 1);
    close(file);
    return count > 0 ? atol(text) : 0;
}

static void say(const char *one, const char *two, const char *three)
{
    const char *name = getenv("CALLS");
    int file = name == NULL ? -1 : open(name, O_WRONLY | O_APPEND | O_CREAT | O_CLOEXEC, 0600);
    char line[2 * MOST + 16];
    int size = snprintf(line, sizeof line, "%s %s%s%s\n", one, two, three == NULL ? "" : " ", three == NULL ? "" : three);
    if (file < 0)
        return;
    if (write(file, line, size) != size)
        abort();
    close(file);
}

int clock_gettime(clockid_t clock, struct timespec *time)
{
    int status = syscall(SYS_clock_gettime, clock, time);
    if (status == 0 && clock == CLOCK_REALTIME)
        time->tv_sec += shift();
    return status;
}

int fsync(int file)
{
    char link[64], path[MOST] = {0};
    snprintf(link, sizeof link, "/proc/self/fd/%d", file);
    if (readlink(link, path, sizeof path - 1) > 0)
        say("fsync", path, NULL);
    return syscall(SYS_fsync, file);
}

int rename(const char *old, const char *new)
{
    say("rename", old, new);
    return syscall(SYS_rename, old, new);
}
