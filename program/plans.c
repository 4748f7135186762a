/* Plans: plain or shortened. The library prints; this only hands it the files. */
#include "desk.h"
#include "words.h"

#include <sejjekoru.h>

size_t print_plan(order *o, const request *asked, uint8_t *out, size_t room)
{
    const file *map = &o->map, *scenario = &o->scenario;
    uint64_t value = 0;
    sejjekoru_program(map->bytes, map->length, (uint64_t)map->readable, scenario->bytes, scenario->length, (uint64_t)scenario->readable,
                      (uint64_t)asked->shorten, out, room, &value);
    return (size_t)value;
}

int hand_out_print(const order *o, const uint8_t *print, size_t length)
{
    uint64_t number, value;
    int refused = is_refusal(print, length, &number, &value);
    if (refused)
        tell(o, number, value);
    if (hand_out(print, length) != DONE)
        return FAILED;
    return refused ? REFUSED : DONE;
}

int answer_plan(const request *asked)
{
    static uint8_t print[PRINT_BYTES];
    order *o = &the_order;
    uint64_t value;
    take_files(o, asked, &value);
    return hand_out_print(o, print, print_plan(o, asked, print, sizeof print));
}
