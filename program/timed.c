/* Timed plans, as the library prints them. */
#include "desk.h"

#include <sejjekoru.h>
#include <string.h>

#ifdef HAS_program_timed
/* A timed line has at most 13 bytes more than a plain one: its slot, a colon, and the length at its end. */
enum { TIMED_BYTES = PRINT_BYTES + 13 * PROGRAM_CROSSINGS };

/* The edition that a word names; 0, which is none, for any other word. */
static uint64_t edition_of(const char *word)
{
    return strcmp(word, "1") == 0 ? 1 : strcmp(word, "2") == 0 ? 2 : 0;
}

int answer_timed(const request *asked)
{
    static uint8_t print[TIMED_BYTES];
    order *o = &the_order;
    uint64_t edition = edition_of(asked->edition), value;
    /* an edition that is none is refused before any file is looked at */
    if (edition != 0)
        take_files(o, asked, &value);
    sejjekoru_program_timed(edition, o->map.bytes, o->map.length, (uint64_t)o->map.readable, o->scenario.bytes, o->scenario.length,
                            (uint64_t)o->scenario.readable, (uint64_t)asked->shorten, print, sizeof print, &value);
    return hand_out_print(o, print, (size_t)value);
}
#endif
