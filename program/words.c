/* The refusals of an order in words: bays with their cells, carriers with their lines. */
#include "words.h"

#include "refusals.h"

#include <stdarg.h>
#include <stdio.h>
#include <string.h>
#include <unistd.h>

void say(const char *format, ...)
{
    char line[12288] = "vault: "; /* room for two paths */
    size_t length = strlen(line);
    va_list words;
    int more;
    va_start(words, format);
    more = vsnprintf(line + length, sizeof line - length - 1, format, words);
    va_end(words);
    if (more > 0)
        length = strlen(line);
    line[length] = '\n';
    write_whole(STDERR_FILENO, line, length + 1);
}

const char *thousands(uint64_t number)
{
    static char rooms[4][32];
    static unsigned turn;
    char *room = rooms[turn++ % 4], *put = room + sizeof rooms[0] - 1;
    unsigned digits = 0;
    *put = '\0';
    do {
        if (digits > 0 && digits % 3 == 0)
            *--put = ',';
        *--put = (char)('0' + number % 10);
        number /= 10;
        digits++;
    } while (number > 0);
    return put;
}

void tell_unread(const file *f, const char *what)
{
    if (f->path == NULL)
        say("no %s is named", what);
    else
        say("%s: the %s cannot be read: %s", f->path, what, strerror(f->error));
}

/* "bay 7 at (3, 0)". The answer stays good for the next three calls. */
static const char *bay(const order *o, uint64_t number)
{
    static char rooms[4][64];
    static unsigned turn;
    char *room = rooms[turn++ % 4];
    if (number < o->bays && number < CELLS)
        sprintf(room, "b%u at (%u, %u)", (unsigned)number, o->column[number], o->row[number]);
    else
        sprintf(room, "b%llu", (unsigned long long)number);
    return room;
}

static void tell_size(const order *o)
{
    say("%s: the yard has %s bays and %s rails; it must have 2 to 256 bays and at most 1,024 rails", o->map.path, thousands(o->bays),
        thousands(o->ends_len / 2));
}

static void tell_crowd(const order *o)
{
    say("%s: %u carriers do not fit: %s has %u bays, and two bays must stay empty", o->scenario.path, (unsigned)o->carriers, o->map.path,
        (unsigned)o->bays);
}

/* Two carriers with the same start or goal: `carrier` is the second of them. */
static void tell_taken(const order *o, const char *what, const uint16_t *bays, uint64_t carrier)
{
    unsigned other = 0;
    while (other < carrier && bays[other] != bays[carrier])
        other++;
    say("%s, line %u: the %s of carrier c%u is %s, which is the %s of carrier c%u (line %u) already", o->scenario.path, (unsigned)carrier + 2, what,
        (unsigned)carrier, bay(o, bays[carrier]), what, other, other + 2);
}

static void tell_stopped(const order *o, uint64_t carrier)
{
    say("carrier c%u (%s, line %u), from %s to %s, could not step on: the planning procedure found no next step for it", (unsigned)carrier,
        o->scenario.path, (unsigned)carrier + 2, bay(o, o->start[carrier]), bay(o, o->goal[carrier]));
    say("that does not mean that no plan exists: the procedure does not try all of them");
}

static void tell_room(uint64_t needed)
{
    if (needed > CROSSINGS)
        say("the plan needs %s crossings, and no plan may have more than 65,536", thousands(needed));
    else
        say("the plan needs %s crossings: this program has room for 8,192, and the library (sejjekoru_plan) for 65,536", thousands(needed));
}

/* The carrier in a bay after the first crossings of the plan, or `carriers` if none is there. */
static size_t carrier_in(const uint16_t *at, size_t carriers, unsigned where)
{
    size_t c = 0;
    while (c < carriers && at[c] != where)
        c++;
    return c;
}

static int joined(const order *o, unsigned a, unsigned b)
{
    size_t i;
    for (i = 0; i + 1 < o->ends_len; i += 2)
        if ((o->ends[i] == a && o->ends[i + 1] == b) || (o->ends[i] == b && o->ends[i + 1] == a))
            return 1;
    return 0;
}

/* Where the carriers stand before the crossing `name`. */
static void play(const order *o, uint64_t name, uint16_t *at)
{
    uint64_t i;
    memcpy(at, o->start, o->carriers * sizeof *at);
    for (i = 0; i < name; i++)
        at[crossing_carrier(o->plan[i])] = (uint16_t)crossing_to(o->plan[i]);
}

static void tell_crossing(const order *o, uint64_t name)
{
    uint16_t at[CARRIERS];
    uint64_t carrier = crossing_carrier(o->plan[name]);
    unsigned from = crossing_from(o->plan[name]), to = crossing_to(o->plan[name]);
    char line[256];
    play(o, name, at);
    snprintf(line, sizeof line, "%.120s, line %u: c%llu crosses b%u to b%u, but", o->plan_file.path, (unsigned)name + 1, (unsigned long long)carrier, from,
             to);
    if (carrier >= o->carriers)
        say("%s there is no carrier c%llu: %s lists %u", line, (unsigned long long)carrier, o->scenario.path, (unsigned)o->carriers);
    else if (at[carrier] != from)
        say("%s c%llu stands in %s", line, (unsigned long long)carrier, bay(o, at[carrier]));
    else if (!joined(o, from, to))
        say("%s no rail joins %s and %s", line, bay(o, from), bay(o, to));
    else
        say("%s c%u stands in %s", line, (unsigned)carrier_in(at, o->carriers, to), bay(o, to));
}

static void tell_missed(const order *o, uint64_t carrier)
{
    uint16_t at[CARRIERS];
    play(o, o->crossings, at);
    say("%s: carrier c%u ends in %s, and its goal is %s (%s, line %u)", o->plan_file.path, (unsigned)carrier, bay(o, at[carrier]),
        bay(o, o->goal[carrier]), o->scenario.path, (unsigned)carrier + 2);
}

/* The refusals of the two files. */
static int told_by_files(const order *o, uint64_t number, uint64_t value)
{
    switch (number) {
    case BAD_MAP: tell_map(&o->map, value); return 1;
    case BAD_SCENARIO: tell_scenario(o, value); return 1;
    case BAD_PLAN: tell_plan_file(&o->plan_file, value); return 1;
    case BAD_REPORTS: tell_reports_file(&o->reports_file, value); return 1;
    default: return 0;
    }
}

void tell(const order *o, uint64_t number, uint64_t value)
{
    const refusal *row = refusal_row(number);
    if (told_by_files(o, number, value))
        return;
    switch (number) {
    case 1: tell_size(o); break;
    case 3: say("%s: %s cannot be reached from %s, and every bay must be", o->map.path, bay(o, value), bay(o, 0)); break;
    case 4: tell_crowd(o); break;
    case 5: tell_taken(o, "start", o->start, value); break;
    case 6: tell_taken(o, "goal", o->goal, value); break;
    case 7: tell_stopped(o, value); break;
    case 8: tell_room(value); break;
    case 9: tell_crossing(o, value); break;
    case 10: tell_missed(o, value); break;
    default: say("refused %llu: %s", (unsigned long long)number, row == NULL ? "the table has no such number" : row->rule); break;
    }
}
