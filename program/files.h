/* Reading files and writing out: all that the program asks of the system. */
#ifndef FILES_H
#define FILES_H

#include <stddef.h>
#include <stdint.h>

/* A file's first bytes. `readable` is 0 if it could not be read, and then `error` says why, as errno does. */
typedef struct {
    const char *path;
    uint8_t *bytes;
    size_t length;
    int readable;
    int error;
} file;

/* Gives the three standard descriptors something to stand for where they are closed, so that no file takes their place. */
void hold_standard_descriptors(void);

/* Reads at most `limit` bytes into `room`. A missing path (NULL) is a file that cannot be read. */
file read_first(const char *path, uint8_t *room, size_t limit);

/* Reads the whole file into memory of its own. One of more than `limit` bytes cannot be read. */
file read_whole(const char *path, size_t limit);

/* Writes all of it, waiting where the reader is slow. Returns 0, or -1 with errno. */
int write_whole(int descriptor, const void *bytes, size_t length);

#endif
