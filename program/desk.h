/* What a word of the command asks for, and the answers' way out. */
#ifndef DESK_H
#define DESK_H

#include "order.h"

#include <stddef.h>
#include <stdint.h>

/* The exit statuses. */
enum { DONE = 0, REFUSED = 1, FAILED = 2 };

/* A command, taken apart. Names that were not given are NULL. */
typedef struct {
    int shorten;
    const char *edition; /* the word after --timed */
    const char *names[4];
    size_t named;
} request;

/* Writes an answer to standard output. Returns DONE, or FAILED once it has said why. */
int hand_out(const void *bytes, size_t length);

/* Prints a refusal. Returns REFUSED, or FAILED if it could not be written. */
int print_refusal(uint64_t number, uint64_t value);

/* The same for an order, told in words too. */
int refuse(const order *o, uint64_t number, uint64_t value);

/* The map alone, and the two files: what the library says of them is kept in the order, and number and value are its answer. The scenario is opened only if the map is
   good. */
uint64_t take_map(order *o, const char *path, uint64_t *value);
uint64_t take_files(order *o, const request *asked, uint64_t *value);

/* The plan file, likewise. */
uint64_t take_plan(order *o, const char *path, uint64_t *value);

/* The plan that the two files ask for, shortened if asked for, into the order. */
uint64_t find_plan(order *o, const request *asked, uint64_t *value);

/* What the library prints for the two files, into the room for a print; and whether that is a refusal. */
size_t print_plan(order *o, const request *asked, uint8_t *out, size_t room);
int is_refusal(const uint8_t *print, size_t length, uint64_t *number, uint64_t *value);

/* Writes such a print, and tells it in words if it is a refusal. Returns an exit status. */
int hand_out_print(const order *o, const uint8_t *print, size_t length);

/* The verbs. Each returns an exit status. */
int answer_plan(const request *asked);
int answer_check(const request *asked);
int answer_bill(const request *asked);
int answer_slots(const request *asked);
int answer_reverse(const request *asked);
int answer_timed(const request *asked);
int answer_survey(const request *asked);
int answer_survey_of(const request *asked);

/* The one order of a run: it is too large for the stack. */
extern order the_order;

#endif
