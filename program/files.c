/* Reading and writing, each to the end or to an error that is told. */
#include "files.h"

#include <errno.h>
#include <fcntl.h>
#include <poll.h>
#include <stdlib.h>
#include <unistd.h>

void hold_standard_descriptors(void)
{
    int descriptor;
    do {
        descriptor = open("/dev/null", O_RDONLY);
    } while (descriptor >= 0 && descriptor <= STDERR_FILENO);
    if (descriptor > STDERR_FILENO)
        close(descriptor);
}

/* Whether the call that failed is worth another try: it was interrupted, or it can go on once the descriptor is ready. */
static int again(int descriptor, short event)
{
    struct pollfd waiting = {descriptor, event, 0};
    if (errno == EINTR)
        return 1;
    if (errno != EAGAIN && errno != EWOULDBLOCK)
        return 0;
    return poll(&waiting, 1, -1) >= 0 || errno == EINTR;
}

/* One read: the bytes got, 0 at the end of the file, -1 for an error. */
static ssize_t read_some(int descriptor, uint8_t *room, size_t length)
{
    ssize_t got;
    do {
        got = read(descriptor, room, length);
    } while (got < 0 && again(descriptor, POLLIN));
    return got;
}

/* Reads until the room is full or the file ends. */
static void fill(int descriptor, file *into, size_t limit)
{
    while (into->length < limit) {
        ssize_t got = read_some(descriptor, into->bytes + into->length, limit - into->length);
        if (got == 0)
            return;
        if (got < 0) {
            into->readable = 0;
            into->error = errno;
            return;
        }
        into->length += (size_t)got;
    }
}

static int open_to_read(const char *path)
{
    int descriptor;
    if (path == NULL) {
        errno = ENOENT;
        return -1;
    }
    do {
        descriptor = open(path, O_RDONLY | O_CLOEXEC);
    } while (descriptor < 0 && errno == EINTR);
    return descriptor;
}

static file unread(const char *path, int error)
{
    file none = {path, NULL, 0, 0, error};
    return none;
}

file read_first(const char *path, uint8_t *room, size_t limit)
{
    file got = {path, room, 0, 1, 0};
    int descriptor = open_to_read(path);
    if (descriptor < 0)
        return unread(path, errno);
    fill(descriptor, &got, limit);
    close(descriptor);
    return got;
}

file read_whole(const char *path, size_t limit)
{
    file got = {path, NULL, 0, 1, 0};
    size_t room = 0;
    int descriptor = open_to_read(path);
    if (descriptor < 0)
        return unread(path, errno);
    while (got.readable && got.length == room && room <= limit) {
        uint8_t *larger = realloc(got.bytes, room = room ? 2 * room : 65536);
        if (larger == NULL) {
            got.readable = 0;
            got.error = ENOMEM;
            break;
        }
        got.bytes = larger;
        fill(descriptor, &got, room);
    }
    close(descriptor);
    if (got.readable && got.length > limit) {
        got.readable = 0;
        got.error = EFBIG;
    }
    return got;
}

int write_whole(int descriptor, const void *bytes, size_t length)
{
    const uint8_t *next = bytes;
    while (length > 0) {
        ssize_t put = write(descriptor, next, length);
        if (put < 0) {
            if (again(descriptor, POLLOUT))
                continue;
            return -1;
        }
        next += put;
        length -= (size_t)put;
    }
    return 0;
}
