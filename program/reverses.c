/* The way back: the plan, reversed and printed by the library. */
#include "desk.h"

#include <sejjekoru.h>

#if defined HAS_reverse && defined HAS_print_plan
int answer_reverse(const request *asked)
{
    static uint64_t back[PROGRAM_CROSSINGS];
    static uint8_t print[PRINT_BYTES];
    order *o = &the_order;
    uint64_t value, number = find_plan(o, asked, &value);
    if (number == SEJJEKORU_ACCEPTED)
        number = sejjekoru_reverse(o->plan, o->crossings, back, PROGRAM_CROSSINGS, &value);
    if (number == SEJJEKORU_ACCEPTED)
        number = sejjekoru_print_plan(back, (size_t)value, print, sizeof print, &value);
    return number == SEJJEKORU_ACCEPTED ? hand_out(print, (size_t)value) : refuse(o, number, value);
}
#endif
