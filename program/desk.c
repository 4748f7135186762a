/* What all answers have in common: files in, the library's answer out. */
#include "desk.h"

#include "refusals.h"
#include "words.h"

#include <errno.h>
#include <sejjekoru.h>
#include <stdio.h>
#include <string.h>
#include <unistd.h>

order the_order;

#ifdef HAS_read_plan
/* A longer plan file is not read. A plan of 65,536 crossings prints in less than 3 million bytes. */
enum { FILE_BYTES = 1 << 26 };
#endif

static uint8_t map_room[MAP_BYTES], scenario_room[SCENARIO_BYTES];

int hand_out(const void *bytes, size_t length)
{
    if (write_whole(STDOUT_FILENO, bytes, length) == 0 && (close(STDOUT_FILENO) == 0 || errno == EINTR))
        return DONE;
    say("the answer could not be written whole: %s", strerror(errno));
    return FAILED;
}

int refuse(const order *o, uint64_t number, uint64_t value)
{
    tell(o, number, value);
    return print_refusal(number, value);
}

int print_refusal(uint64_t number, uint64_t value)
{
    char line[64];
    const refusal *row = refusal_row(number);
    int length = sprintf(line, "; refused %llu", (unsigned long long)number);
    if (row != NULL && row->carries != NULL)
        length += sprintf(line + length, " %llu", (unsigned long long)value);
    line[length++] = '\n';
    return hand_out(line, (size_t)length) == DONE ? REFUSED : FAILED;
}

uint64_t take_map(order *o, const char *path, uint64_t *value)
{
    uint64_t number;
    o->map = read_first(path, map_room, MAP_BYTES);
    *value = 0;
    if (!o->map.readable)
        return BAD_MAP;
    number = sejjekoru_map(o->map.bytes, o->map.length, &o->bays, o->ends, ENDS, value);
    if (number != SEJJEKORU_ACCEPTED)
        return number;
    o->ends_len = (size_t)*value;
    find_cells(o);
    return number;
}

static uint64_t take_scenario(order *o, const char *path, uint64_t *value)
{
    uint64_t number;
    o->scenario = read_first(path, scenario_room, SCENARIO_BYTES);
    *value = 0;
    if (!o->scenario.readable)
        return BAD_SCENARIO;
    number = sejjekoru_scenario(o->map.bytes, o->map.length, o->scenario.bytes, o->scenario.length, o->start, CARRIERS, o->goal, CARRIERS, value);
    if (number == SEJJEKORU_ACCEPTED)
        o->carriers = (size_t)*value;
    return number;
}

uint64_t take_files(order *o, const request *asked, uint64_t *value)
{
    uint64_t number = take_map(o, asked->names[0], value);
    return number == SEJJEKORU_ACCEPTED ? take_scenario(o, asked->names[1], value) : number;
}

#ifdef HAS_read_plan
uint64_t take_plan(order *o, const char *path, uint64_t *value)
{
    uint64_t number;
    o->plan_file = read_whole(path, FILE_BYTES);
    *value = 0;
    if (!o->plan_file.readable)
        return BAD_PLAN;
    number = sejjekoru_read_plan(o->plan_file.bytes, o->plan_file.length, o->plan, CROSSINGS, value);
    if (number == SEJJEKORU_ACCEPTED)
        o->crossings = (size_t)*value;
    return number;
}
#endif

uint64_t find_plan(order *o, const request *asked, uint64_t *value)
{
    static uint64_t whole[PROGRAM_CROSSINGS];
    static const uint8_t marks[PROGRAM_CROSSINGS];
    size_t length;
    uint64_t parked;
    uint64_t number = take_files(o, asked, value);
    if (number != SEJJEKORU_ACCEPTED)
        return number;
    number = sejjekoru_plan(o->bays, o->ends, o->ends_len, o->start, o->carriers, o->goal, o->carriers, whole, PROGRAM_CROSSINGS, &parked, value);
    if (number != SEJJEKORU_ACCEPTED)
        return number;
    length = (size_t)*value;
    memcpy(o->plan, whole, length * sizeof *whole);
    if (asked->shorten)
        number = sejjekoru_shorten(o->bays, o->ends, o->ends_len, o->start, o->carriers, o->goal, o->carriers, whole, length, marks, length, o->plan,
                                   PROGRAM_CROSSINGS, value);
    o->crossings = (size_t)*value;
    return number;
}

int is_refusal(const uint8_t *print, size_t length, uint64_t *number, uint64_t *value)
{
    static const char head[] = "; refused ";
    unsigned long long n = 0, v = 0;
    char line[64] = "";
    if (length >= sizeof line || length < sizeof head || memcmp(print, head, sizeof head - 1) != 0)
        return 0;
    memcpy(line, print + sizeof head - 1, length - (sizeof head - 1));
    sscanf(line, "%llu %llu", &n, &v);
    *number = n;
    *value = v;
    return 1;
}
