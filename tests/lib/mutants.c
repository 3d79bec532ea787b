/* Loaded before the C library (LD_PRELOAD), this makes a program wrong in one way. tests/mutants.py compiles it by
   `cc -shared -fPIC`, and says in which tests that has to be noticed. It is for programs of one thread.

   MUTANT says what is wrong; MUTANT_TEXT, MUTANT_NUMBER and MUTANT_REPLY say more of it. Where MUTANT_MEMBER is given, only the
   member of that name is wrong.

     digit     of each figure TEXT that is sent the first digit is another one
     stuck     each figure TEXT that is sent is 0
     change    in what is sent, the digit or letter that stands NUMBER bytes behind a TEXT is another one
     swap      in what is sent, REPLY, which is as long, stands in the place of each TEXT
     moment    in frames to peers, the moment in the field NUMBER of a silence is a millisecond later or earlier
     comment   in frames to peers, the comment of a silence ends in another letter
     deaf      what is sent on each connection number NUMBER to a peer, and on its multiples, is lost
     answer    a request that begins with TEXT is answered REPLY with status 200, and nothing else comes of it
     stall     behind what has TEXT in it everything waits for NUMBER milliseconds
     lose      each write number NUMBER to a file whose path ends with TEXT is lost
     mute      each write number NUMBER to standard error is lost
     unsynced  nothing is handed to the disk
     unlocked  files aren't locked
     unmoded   files keep the permissions with which they were made */

#define _GNU_SOURCE
#include <dlfcn.h>
#include <errno.h>
#include <fcntl.h>
#include <poll.h>
#include <stdio.h>
#include <stdlib.h>
#include <string.h>
#include <sys/socket.h>
#include <sys/stat.h>
#include <sys/syscall.h>
#include <time.h>
#include <unistd.h>

enum { MOST = 4096, MOST_FILES = 65536 };

static const char *kind = "", *text = "", *reply = "";
static long number = 1, writes, connections;
static char to_peer[MOST_FILES];  /* of each descriptor: 1 where it is a connection to a peer, 2 where that is deaf */
static char answered[MOST_FILES]; /* of each descriptor: whether this library has answered the request on it */

/* Whether the words of this process name a member so. */
static int is_member(const char *name)
{
    char words[MOST] = {0};
    int file = syscall(SYS_openat, AT_FDCWD, "/proc/self/cmdline", O_RDONLY | O_CLOEXEC);
    ssize_t size = syscall(SYS_read, file, words, sizeof words - 1);
    syscall(SYS_close, file);
    for (char *word = words; word < words + size; word += strlen(word) + 1)
        if (strcmp(word, "--name") == 0)
            return strcmp(word + strlen(word) + 1, name) == 0;
    return 0;
}

static const char *given(const char *name, const char *otherwise)
{
    const char *value = getenv(name);
    return value == NULL ? otherwise : value;
}

__attribute__((constructor)) static void prepare(void)
{
    const char *member = getenv("MUTANT_MEMBER");
    if (member != NULL && !is_member(member))
        return;
    kind = given("MUTANT", "");
    text = given("MUTANT_TEXT", "");
    reply = given("MUTANT_REPLY", "");
    number = atol(given("MUTANT_NUMBER", "1"));
}

static int is(const char *name)
{
    return strcmp(kind, name) == 0;
}

static int is_digit(char it)
{
    return it >= '0' && it <= '9';
}

/* Another digit for a digit, which is no zero, and another letter for a letter. */
static char another(char it)
{
    if (is_digit(it))
        return (it - '0') % 9 + '1';
    if ((it >= 'a' && it < 'z') || (it >= 'A' && it < 'Z'))
        return it + 1;
    return it == 'z' || it == 'Z' ? it - 1 : it;
}

/* ---- figures */

/* Has the figure on a line be wrong, which stands behind the last space. */
static void change_figure(char *line, char *end)
{
    char *at = memrchr(line, ' ', end - line);
    if (at == NULL)
        return;
    if (is("digit"))
        at[1] = another(at[1]);
    for (at++; is("stuck") && at < end; at++)
        if (is_digit(*at))
            *at = '0';
}

/* Whether a line is one of the figure TEXT, with or without labels; they may be a part of TEXT. */
static int is_of_figure(const char *line, const char *end)
{
    size_t size = strlen(text);
    return (size_t)(end - line) > size && memcmp(line, text, size) == 0 && strchr(" {", line[size]) != NULL;
}

static void change_figures(char *bytes, size_t size)
{
    char *end = bytes + size;
    for (char *line = bytes; line < end;) {
        char *stop = memchr(line, '\n', end - line);
        if (stop == NULL)
            stop = end;
        if (is_of_figure(line, stop))
            change_figure(line, stop);
        line = stop + 1;
    }
}

/* ---- texts */

static void change_texts(char *bytes, size_t size)
{
    char *at = bytes, *end = bytes + size;
    size_t length = strlen(text);
    while (length > 0 && (at = memmem(at, end - at, text, length)) != NULL) {
        if (is("swap"))
            memcpy(at, reply, length);
        else if (end - at > (long)length + number)
            at[length + number] = another(at[length + number]);
        at += length;
    }
}

/* ---- frames */

/* How many bytes the varint there has. */
static size_t width(const unsigned char *at, const unsigned char *end)
{
    size_t count = 1;
    while (at + count < end && at[count - 1] >= 128)
        count++;
    return count;
}

static unsigned long value(const unsigned char *at, size_t count)
{
    unsigned long found = 0;
    for (size_t place = 0; place < count; place++)
        found |= (unsigned long)(at[place] & 127) << (7 * place);
    return found;
}

/* Writes another varint in the place of one, of as many bytes. */
static void put_value(unsigned char *at, size_t count, unsigned long found)
{
    for (size_t place = 0; place < count; place++, found >>= 7)
        at[place] = (found & 127) | (place + 1 < count ? 128 : 0);
}

/* The nanoseconds of the moment in a field, if one stands there: a message with five bytes of seconds, and nanoseconds. */
static unsigned char *nanos_of(unsigned char *at, unsigned char *end, long place)
{
    if (end - at < 12 || at[0] != place * 8 + 2 || at[2] != 8 || width(at + 3, end) != 5 || at[8] != 16)
        return NULL;
    return at[1] == 7 + width(at + 9, end) ? at + 9 : NULL;
}

static void change_moments(unsigned char *at, unsigned char *end)
{
    for (; at < end; at++) {
        unsigned char *nanos = nanos_of(at, end, number);
        if (nanos != NULL) {
            size_t count = width(nanos, end);
            unsigned long found = value(nanos, count);
            put_value(nanos, count, found >= 2000000 ? found - 1000000 : found + 1000000);
        }
    }
}

/* Changes the last letter of each comment of fewer than 128 bytes that stands behind an author of fewer than 128. */
static void change_comments(unsigned char *at, unsigned char *end)
{
    for (; at + 2 < end; at++) {
        unsigned char *comment = at + 2 + at[1];
        if (at[0] == 0x42 && comment + 2 < end && comment[0] == 0x4a && comment[1] > 0 && comment + 2 + comment[1] <= end)
            comment[1 + comment[1]] = another(comment[1 + comment[1]]);
    }
}

/* ---- what the program calls */

static char mark_of(const char *marks, int file)
{
    return file >= 0 && file < MOST_FILES ? marks[file] : 0;
}

static void change(char *bytes, size_t size, int is_to_peer)
{
    if (is("digit") || is("stuck"))
        change_figures(bytes, size);
    else if (is("change") || is("swap"))
        change_texts(bytes, size);
    else if (is("moment") && is_to_peer)
        change_moments((unsigned char *)bytes, (unsigned char *)bytes + size);
    else if (is("comment") && is_to_peer)
        change_comments((unsigned char *)bytes, (unsigned char *)bytes + size);
}

ssize_t send(int file, const void *bytes, size_t size, int flags)
{
    if (mark_of(to_peer, file) == 2 || mark_of(answered, file))
        return size;
    char *copy = malloc(size + 1);
    if (copy == NULL)
        abort();
    memcpy(copy, bytes, size);
    change(copy, size, mark_of(to_peer, file));
    ssize_t count = syscall(SYS_sendto, file, copy, size, flags, NULL, 0);
    free(copy);
    return count;
}

int connect(int file, const struct sockaddr *at, socklen_t size)
{
    if (file >= 0 && file < MOST_FILES)
        to_peer[file] = is("deaf") && ++connections % number == 0 ? 2 : 1;
    return syscall(SYS_connect, file, at, size);
}

/* How many bytes of a request's body are still to come, behind these. */
static long to_come(const char *bytes, size_t size)
{
    const char *end = memmem(bytes, size, "\r\n\r\n", 4), *field = strcasestr(bytes, "\ncontent-length:");
    if (end == NULL || field == NULL || field > end)
        return 0;
    return atol(field + strlen("\ncontent-length:")) - (bytes + size - end - 4);
}

/* Reads the rest of a request, and answers it. */
static void answer(int file, const char *bytes, size_t size)
{
    char line[MOST], rest[MOST];
    struct pollfd ready = {file, POLLIN, 0};
    for (long left = to_come(bytes, size); left > 0;) {
        ssize_t count = poll(&ready, 1, 1000) == 1 ? syscall(SYS_recvfrom, file, rest, sizeof rest, 0, NULL, NULL) : 0;
        if (count <= 0)
            break;
        left -= count;
    }
    int length = snprintf(line, sizeof line,
        "HTTP/1.1 200 OK\r\ncontent-type: application/json\r\ncontent-length: %zu\r\nconnection: close\r\n\r\n%s", strlen(reply), reply);
    if (syscall(SYS_sendto, file, line, length, MSG_NOSIGNAL, NULL, 0) == length)
        syscall(SYS_shutdown, file, SHUT_WR);
}

ssize_t recv(int file, void *bytes, size_t size, int flags)
{
    char begun[MOST + 1];
    ssize_t count = mark_of(answered, file) ? 0 : syscall(SYS_recvfrom, file, bytes, size, flags, NULL, NULL);
    if (count > 0 && is("stall") && memmem(bytes, count, text, strlen(text)) != NULL) {
        struct timespec time = {number / 1000, number % 1000 * 1000000};
        nanosleep(&time, NULL);
    }
    if (count < (ssize_t)strlen(text) || count <= 0 || !is("answer") || memcmp(bytes, text, strlen(text)) != 0)
        return count;
    size_t known = count < MOST ? count : MOST;
    memcpy(begun, bytes, known);
    begun[known] = 0;
    answer(file, begun, known);
    if (file < MOST_FILES)
        answered[file] = 1;
    return 0;
}

int close(int file)
{
    if (file >= 0 && file < MOST_FILES)
        to_peer[file] = answered[file] = 0;
    return syscall(SYS_close, file);
}

/* Whether a write to a file is one of those that are lost. */
static int is_lost(int file)
{
    char link[64], path[MOST] = {0};
    size_t size = strlen(text), length;
    if (is("mute") && file == STDERR_FILENO)
        return ++writes % number == 0;
    if (!is("lose"))
        return 0;
    snprintf(link, sizeof link, "/proc/self/fd/%d", file);
    if (readlink(link, path, sizeof path - 1) <= 0 || (length = strlen(path)) < size)
        return 0;
    return strcmp(path + length - size, text) == 0 && ++writes % number == 0;
}

/* (what stands behind this library in LD_PRELOAD is called, too) */
#define NEXT(name) ((__typeof__(name) *)dlsym(RTLD_NEXT, #name))

ssize_t write(int file, const void *bytes, size_t size)
{
    return is_lost(file) ? (ssize_t)size : NEXT(write)(file, bytes, size);
}

ssize_t pwrite(int file, const void *bytes, size_t size, off_t offset)
{
    return is_lost(file) ? (ssize_t)size : NEXT(pwrite)(file, bytes, size, offset);
}

int fsync(int file)
{
    return is("unsynced") ? 0 : NEXT(fsync)(file);
}

int fdatasync(int file)
{
    return is("unsynced") ? 0 : NEXT(fdatasync)(file);
}

int flock(int file, int how)
{
    return is("unlocked") ? 0 : syscall(SYS_flock, file, how);
}

int fchmod(int file, mode_t mode)
{
    return is("unmoded") ? 0 : syscall(SYS_fchmod, file, mode);
}

/* The same under the name that has offsets of 64 bits. */
ssize_t pwrite64(int, const void *, size_t, off_t) __attribute__((alias("pwrite")));
