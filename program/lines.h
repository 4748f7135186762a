/* Lines and fields of a file, for words about them. */
#ifndef LINES_H
#define LINES_H

#include "files.h"

#include <stddef.h>
#include <stdint.h>

typedef struct {
    const uint8_t *at;
    size_t length;
    int there; /* 0 if the file ends before this line */
} text;

/* A line by its number, from 1, without its LF or CR LF. */
text line_of(const file *f, uint64_t number);

/* How many lines a file has. */
uint64_t line_count(const file *f);

/* A field of a line by its number, from 0, where `split` stands between fields. */
text field_of(text line, unsigned char split, unsigned number);

/* How many fields. */
unsigned field_count(text line, unsigned char split);

int is_text(text t, const char *what);

/* Whether it is between 1 and `most` digits. */
int is_digits(text t, size_t most);

/* The number that digits read as. */
uint64_t number_of(text digits);

/* The first bytes of it between quotes, with what does not print spelled out. The answer stays good for the next three calls. */
const char *quoted(text t);

#endif
