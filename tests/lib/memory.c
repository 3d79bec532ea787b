/* Loaded before the C library (LD_PRELOAD), this counts the requests for memory of a process, and refuses those that it is
   told to. The file that MEMORY names is shared with who runs the process: it reads the counts there at any time, and
   writes which request is to be refused. tests/refused_memory.py and bench/api.py compile it by `cc -shared -fPIC`.
   It is for programs of one thread.

   Where TRIES names a file, the process forks at its first request and at each STEP-th behind it: the child is refused that
   one and goes on to the end of the case after the one that it is in, as lines that begin with "> " part them, while the
   process waits. So one run shows what comes of many refusals. The file gets of each child a line "\001 NUMBER OFFSET" (the
   request, and the bytes that went to standard output before), what the child prints, and a line "\002 STATUS" of waitpid.
   Standard input has to be a file. */

#define _GNU_SOURCE
#include <errno.h>
#include <fcntl.h>
#include <malloc.h>
#include <stdint.h>
#include <stdio.h>
#include <stdlib.h>
#include <string.h>
#include <sys/mman.h>
#include <sys/syscall.h>
#include <sys/wait.h>
#include <unistd.h>

enum { MOST_RISES = 500 };

struct counts {
    uint64_t asked;   /* requests so far: malloc, calloc, realloc that grows, memalign */
    uint64_t refuse;  /* the number of the request that is to be refused, from 1; 0 for none */
    uint64_t refused; /* how many were refused */
    uint64_t live;    /* bytes in blocks that were given out and not freed, as malloc_usable_size says */
    uint64_t lowest;  /* the least that `live` was since the last write to standard output */
    uint64_t rise;    /* the most that it rose above that since then */
    uint64_t count;   /* how many of the next are there */
    uint64_t rises[MOST_RISES]; /* `rise` at each write to standard output before which it was not 0 */
};

void *__libc_malloc(size_t);
void *__libc_calloc(size_t, size_t);
void *__libc_realloc(void *, size_t);
void *__libc_memalign(size_t, size_t);
void __libc_free(void *);

static struct counts unshared;
static struct counts *counts = &unshared;

static int tries = -1;         /* the file that TRIES names */
static uint64_t step;          /* how many requests lie between two tries */
static uint64_t next_try = 1;  /* the request that is tried next */
static uint64_t written;       /* bytes that went to standard output */
static int is_child;
static int is_inside_line;     /* whether the last byte that was written ends no line */
static int begun;              /* in a child, the cases that began since it was refused a request */

__attribute__((constructor)) static void prepare_tries(void)
{
    const char *name = getenv("TRIES"), *number = getenv("STEP");
    if (name == NULL || number == NULL)
        return;
    tries = open(name, O_WRONLY | O_APPEND | O_CREAT | O_CLOEXEC, 0600);
    step = strtoull(number, NULL, 10);
}

__attribute__((constructor)) static void share(void)
{
    const char *name = getenv("MEMORY");
    int file = name == NULL ? -1 : open(name, O_RDWR | O_CLOEXEC);
    if (file < 0)
        return;
    void *shared = mmap(NULL, sizeof *counts, PROT_READ | PROT_WRITE, MAP_SHARED, file, 0);
    close(file);
    if (shared == MAP_FAILED)
        return;
    counts = shared;
    counts->live = unshared.live;
    counts->lowest = unshared.live;
}

/* Says a line in the file of tries. */
static void say(const char *format, uint64_t one, uint64_t other)
{
    char line[64];
    int size = snprintf(line, sizeof line, format, (unsigned long long)one, (unsigned long long)other);
    if (syscall(SYS_write, tries, line, size) != size)
        _exit(125);
}

/* Has the child print to the file of tries, and read on in a standard input of its own. */
static void become_child(void)
{
    static struct counts own;
    off_t place = lseek(STDIN_FILENO, 0, SEEK_CUR);
    int input = open("/proc/self/fd/0", O_RDONLY);
    own = *counts;
    counts = &own;
    is_child = 1;
    if (place < 0 || input < 0 || lseek(input, place, SEEK_SET) != place || dup2(input, STDIN_FILENO) < 0 || dup2(tries, STDOUT_FILENO) < 0)
        _exit(125);
}

/* Whether this is the child of a try, which is refused the request. */
static int is_tried(void)
{
    if (tries < 0 || is_child || counts->asked != next_try)
        return 0;
    next_try += step;
    say("\001 %llu %llu\n", counts->asked, written);
    pid_t child = fork();
    if (child == 0) {
        become_child();
        return 1;
    }
    int status = -1;
    if (child < 0 || waitpid(child, &status, 0) != child)
        _exit(125);
    say("\002 %llu\n", (unsigned)status, 0);
    return 0;
}

static int is_refused(void)
{
    counts->asked++;
    if (counts->asked != counts->refuse && !is_tried())
        return 0;
    counts->refused++;
    errno = ENOMEM;
    return 1;
}

/* Follows what goes to standard output. A child ends where the second case begins that it isn't in, once what stands before
   that is written. */
static void follow(const char *text, size_t size)
{
    written += size;
    for (size_t at = 0; at < size; at++) {
        begun += is_child && !is_inside_line && text[at] == '>';
        if (begun == 2)
            _exit(syscall(SYS_write, STDOUT_FILENO, text, at) == (long)at ? 0 : 125);
        is_inside_line = text[at] != '\n';
    }
}

static void changed(uint64_t added, uint64_t removed)
{
    counts->live += added - removed;
    if (counts->live < counts->lowest)
        counts->lowest = counts->live;
    if (counts->live - counts->lowest > counts->rise)
        counts->rise = counts->live - counts->lowest;
}

static void *given(void *block)
{
    if (block != NULL)
        changed(malloc_usable_size(block), 0);
    return block;
}

void *malloc(size_t size)
{
    return is_refused() ? NULL : given(__libc_malloc(size));
}

void *calloc(size_t number, size_t size)
{
    return is_refused() ? NULL : given(__libc_calloc(number, size));
}

/* A block that grows counts with its new size alone. */
void *realloc(void *block, size_t size)
{
    size_t before = block == NULL ? 0 : malloc_usable_size(block);
    if (size > before && is_refused())
        return NULL;
    void *moved = __libc_realloc(block, size);
    if (moved != NULL)
        changed(malloc_usable_size(moved), before);
    else if (size == 0)
        changed(0, before);
    return moved;
}

void *memalign(size_t alignment, size_t size)
{
    return is_refused() ? NULL : given(__libc_memalign(alignment, size));
}

void *aligned_alloc(size_t alignment, size_t size)
{
    return memalign(alignment, size);
}

int posix_memalign(void **block, size_t alignment, size_t size)
{
    void *found = memalign(alignment, size);
    if (found == NULL)
        return ENOMEM;
    *block = found;
    return 0;
}

void free(void *block)
{
    if (block != NULL)
        changed(0, malloc_usable_size(block));
    __libc_free(block);
}

ssize_t write(int file, const void *bytes, size_t size)
{
    if (file == STDOUT_FILENO) {
        if (counts->rise > 0 && counts->count < MOST_RISES)
            counts->rises[counts->count++] = counts->rise;
        counts->lowest = counts->live;
        counts->rise = 0;
        follow(bytes, size);
    }
    return syscall(SYS_write, file, bytes, size);
}
