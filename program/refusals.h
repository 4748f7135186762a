/* The refusals, as a table for people: number, name, when it is given, what it carries. The answers themselves are the library's. */
#ifndef REFUSALS_H
#define REFUSALS_H

#include <stdint.h>

/* The refusals of files: each carries the first bad line. */
enum { BAD_MAP = 14, BAD_SCENARIO = 15, BAD_SURVEY = 16, BAD_PLAN = 26, BAD_REPORTS = 27 };

typedef struct {
    uint64_t number;
    const char *name;
    const char *rule;
    const char *carries; /* NULL if nothing */
} refusal;

/* The row of a number, or NULL if the table has none. */
const refusal *refusal_row(uint64_t number);

/* The row after this one; the first for NULL, and NULL after the last. */
const refusal *refusal_next(const refusal *row);

#endif
