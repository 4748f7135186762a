/* What is wrong, in one or two sentences on standard error. These are words only: the answer is the library's. */
#ifndef WORDS_H
#define WORDS_H

#include "order.h"

#include <stdint.h>

/* One line on standard error, after the program's name. */
#ifdef __GNUC__
__attribute__((format(printf, 1, 2)))
#endif
void say(const char *format, ...);

/* A number with commas between its thousands. The answer stays good for the next three calls. */
const char *thousands(uint64_t number);

/* Tells a refusal of an order: which file, line and field; which rail, bay or carrier; what the rule is. */
void tell(const order *o, uint64_t number, uint64_t value);

/* The same for the first bad line of one file, 0 if it cannot be read. */
void tell_map(const file *map, uint64_t line);
void tell_scenario(const order *o, uint64_t line);
void tell_plan_file(const file *plan, uint64_t line);
void tell_reports_file(const file *reports, uint64_t line);

/* Tells a refusal of a survey. */
void tell_survey(const file *survey, uint64_t number, uint64_t value);

/* Says that a file cannot be read, and why. */
void tell_unread(const file *f, const char *what);

#endif
