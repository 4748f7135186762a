/* An order as the files give it: what the library read, and the files themselves, in which the words for people are looked up. */
#ifndef ORDER_H
#define ORDER_H

#include "files.h"

#include <stddef.h>
#include <stdint.h>

enum {
    MAP_BYTES = 4264,       /* so many first bytes of a map decide what it reads as */
    SCENARIO_BYTES = 49036, /* and so many of a scenario */
    PRINT_BYTES = 180250,   /* no plan of the program prints longer */
    CARRIERS = 254,
    CELLS = 4096,           /* 64 rows of 64 */
    ENDS = 16384,           /* more than all the rail ends of such a map */
    CROSSINGS = 65536,
    PROGRAM_CROSSINGS = 8192
};

typedef struct {
    file map, scenario, plan_file, reports_file;
    uint64_t bays;
    uint16_t ends[ENDS];
    size_t ends_len;
    uint16_t start[CARRIERS], goal[CARRIERS];
    size_t carriers;
    uint64_t plan[CROSSINGS];
    size_t crossings;
    size_t width, height;
    uint16_t column[CELLS], row[CELLS]; /* the cell of each bay */
} order;

/* A crossing's parts. */
uint64_t crossing_carrier(uint64_t crossing);
unsigned crossing_from(uint64_t crossing);
unsigned crossing_to(uint64_t crossing);

/* Finds the cell of each bay of a map that the library accepted: bays are numbered row by row. */
void find_cells(order *o);

#endif
