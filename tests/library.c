/*
 * What a C caller may do that no other test does: lists of length 0 as NULL, and a `value` that holds something already; and the layout of the
 * structs that C and the library share. The answers are document 01's: Y8 and Y9, and what its table says of an empty yard, a plan too many and a
 * name too many, and for each later request what it says itself.
 */
#include <inttypes.h>
#include <stddef.h>
#include <stdio.h>
#include <string.h>

#include "sejjekoru.h"

static int failed = 0;
static uint64_t value = 77;

static void told(const char *what, uint64_t number, uint64_t due, uint64_t due_value)
{
    if (number != due || value != due_value) {
        printf("%s: %" PRIu64 " %" PRIu64 ", not %" PRIu64 " %" PRIu64 "\n", what, number, value, due, due_value);
        failed = 1;
    }
    value = 77;
}

static void holds(const char *what, int truth)
{
    if (!truth) {
        printf("%s\n", what);
        failed = 1;
    }
}

static const uint16_t rail[2] = {0, 1};
static sejjekoru_record record;
static uint64_t parked = 78;

/* No list at all. */
static void nothing(uint64_t bays, uint64_t due, uint64_t due_value)
{
    told("plan of nothing", sejjekoru_plan(bays, NULL, 0, NULL, 0, NULL, 0, NULL, 0, &parked, &value), due, due_value);
    holds("nothing parked of nothing", parked == 0);
    parked = 78;
    told("lean plan of nothing", sejjekoru_plan_lean(bays, NULL, 0, NULL, 0, NULL, 0, NULL, 0, &parked, &value), due, due_value);
    holds("nothing parked of nothing, lean", parked == 0);
    told("check of nothing", sejjekoru_check(bays, NULL, 0, NULL, 0, NULL, 0, NULL, 0, &value), due, due_value);
    told("slots of nothing", sejjekoru_slots(bays, NULL, 0, NULL, 0, NULL, 0, NULL, 0, NULL, 0, &value), due,
         due_value);
    told("report of nothing", sejjekoru_report(bays, NULL, 0, NULL, 0, NULL, 0, NULL, 0, NULL, 0, 0, &value), due,
         due_value);
    told("shortening of nothing",
         sejjekoru_shorten(bays, NULL, 0, NULL, 0, NULL, 0, NULL, 0, NULL, 0, NULL, 0, &value), due, due_value);
    told("opening of nothing",
         sejjekoru_open(bays, NULL, 0, NULL, 0, NULL, 0, NULL, 0, NULL, 0, &record, NULL, 0, &value), due, due_value);
    told("agreement on nothing",
         sejjekoru_agrees(bays, NULL, 0, NULL, 0, NULL, 0, NULL, 0, NULL, 0, &record, NULL, 0, &value), due, due_value);
    told("bill of nothing",
         sejjekoru_report_billed(bays, NULL, 0, NULL, 0, NULL, 0, NULL, 0, NULL, 0, 0, &record, NULL, 0, &value), due,
         due_value);
}

/* Y8: two bays, one rail, no carriers. */
static void empty_plan(void)
{
    told("Y8 plan", sejjekoru_plan(2, rail, 2, NULL, 0, NULL, 0, NULL, 0, &parked, &value), 0, 0);
    holds("Y8 parked", parked == 0);
    told("Y8 lean plan", sejjekoru_plan_lean(2, rail, 2, NULL, 0, NULL, 0, NULL, 0, &parked, &value), 0, 0);
    /* so many carriers that two more are none: still too many, and no list is read */
    told("a crowd", sejjekoru_plan(2, rail, 2, NULL, SIZE_MAX - 1, NULL, SIZE_MAX - 1, NULL, 0, &parked, &value), SEJJEKORU_CROWD, 0);
    told("a crowd, lean", sejjekoru_plan_lean(2, rail, 2, NULL, SIZE_MAX - 1, NULL, SIZE_MAX - 1, NULL, 0, &parked, &value), SEJJEKORU_CROWD, 0);
    told("Y8 check", sejjekoru_check(2, rail, 2, NULL, 0, NULL, 0, NULL, 0, &value), 0, 0);
    told("Y8 slots", sejjekoru_slots(2, rail, 2, NULL, 0, NULL, 0, NULL, 0, NULL, 0, &value), 0, 0);
    told("Y8 report", sejjekoru_report(2, rail, 2, NULL, 0, NULL, 0, NULL, 0, NULL, 0, 0, &value), 12, 0);
    told("Y8 shorten", sejjekoru_shorten(2, rail, 2, NULL, 0, NULL, 0, NULL, 0, NULL, 0, NULL, 0, &value), 0, 0);
    memset(&record, 0xa5, sizeof record);
    told("Y8 agrees", sejjekoru_agrees(2, rail, 2, NULL, 0, NULL, 0, NULL, 0, NULL, 0, &record, NULL, 0, &value), 0, 0);
    told("Y8 open", sejjekoru_open(2, rail, 2, NULL, 0, NULL, 0, NULL, 0, NULL, 0, &record, NULL, 0, &value), 0, 0);
    told("Y8 agrees", sejjekoru_agrees(2, rail, 2, NULL, 0, NULL, 0, NULL, 0, NULL, 0, &record, NULL, 0, &value), 0, 1);
    told("Y8 bill", sejjekoru_report_billed(2, rail, 2, NULL, 0, NULL, 0, NULL, 0, NULL, 0, 0, &record, NULL, 0, &value),
         12, 0);
}

/* A crossing of a carrier that there is not: 9 with its name, and no lent list is touched. */
static void illegal(void)
{
    const uint64_t plan[1] = {1};
    uint32_t slots[1] = {5};
    uint8_t marks[1] = {5};
    uint64_t out[1] = {5};
    sejjekoru_line lines[1] = {{5, 5, 5}};
    told("check", sejjekoru_check(2, rail, 2, NULL, 0, NULL, 0, plan, 1, &value), 9, 0);
    told("slots", sejjekoru_slots(2, rail, 2, NULL, 0, NULL, 0, plan, 1, slots, 1, &value), 9, 0);
    told("report", sejjekoru_report(2, rail, 2, NULL, 0, NULL, 0, plan, 1, marks, 1, 0, &value), 9, 0);
    told("shorten", sejjekoru_shorten(2, rail, 2, NULL, 0, NULL, 0, plan, 1, marks, 1, out, 1, &value), 9, 0);
    told("open", sejjekoru_open(2, rail, 2, NULL, 0, NULL, 0, plan, 1, marks, 1, &record, lines, 1, &value), 9, 0);
    told("agrees", sejjekoru_agrees(2, rail, 2, NULL, 0, NULL, 0, plan, 1, marks, 1, &record, lines, 1, &value), 9, 0);
    told("bill", sejjekoru_report_billed(2, rail, 2, NULL, 0, NULL, 0, plan, 1, marks, 1, 0, &record, lines, 1, &value), 9,
         0);
    holds("a refusal wrote", slots[0] == 5 && marks[0] == 5 && out[0] == 5 && lines[0].billed == 5);
}

/* A plan of 19 crossings, two of whose vacates filled a bay of three rails or more; beside a refusal stands 0. */
static void parked_on_junctions(void)
{
    const uint16_t rails[14] = {2, 0, 5, 1, 2, 3, 0, 6, 6, 1, 3, 6, 4, 2};
    const uint16_t start[4] = {5, 4, 6, 0}, goal[4] = {0, 4, 3, 6};
    uint64_t plan[64], lean[64];
    told("a plan that parks", sejjekoru_plan(7, rails, 14, start, 4, goal, 4, plan, 64, &parked, &value), 0, 19);
    holds("two were parked on junctions", parked == 2);
    told("the same without room", sejjekoru_plan(7, rails, 14, start, 4, goal, 4, plan, 18, &parked, &value), SEJJEKORU_ROOM, 19);
    holds("none beside a refusal", parked == 0);
    told("a lean plan that parks", sejjekoru_plan_lean(7, rails, 14, start, 4, goal, 4, lean, 64, &parked, &value), 0, 19);
    holds("two were parked on junctions, lean", parked == 2);
    holds("the lean plan is the plan", memcmp(lean, plan, 19 * sizeof *plan) == 0);
    told("the same without room, lean", sejjekoru_plan_lean(7, rails, 14, start, 4, goal, 4, lean, 18, &parked, &value), SEJJEKORU_ROOM, 19);
    holds("none beside a refusal, lean", parked == 0);
}

/* Y9: the same, one carrier. */
static void crowd(void)
{
    const uint16_t at[1] = {0};
    uint64_t plan[1] = {5};
    told("Y9 plan", sejjekoru_plan(2, rail, 2, at, 1, at, 1, plan, 1, &parked, &value), 4, 0);
    told("Y9 lean plan", sejjekoru_plan_lean(2, rail, 2, at, 1, at, 1, plan, 1, &parked, &value), 4, 0);
    told("Y9 check", sejjekoru_check(2, rail, 2, at, 1, at, 1, NULL, 0, &value), 4, 0);
    told("no goal", sejjekoru_check(2, rail, 2, at, 1, NULL, 0, NULL, 0, &value), 1, 0);
    holds("a refusal wrote", plan[0] == 5);
}

/* One carrier on a line of three, there and back: 11, 25 and 8 in this order, then no crossing is left. */
static void there_and_back(void)
{
    const uint16_t rails[4] = {0, 1, 1, 2};
    const uint16_t at[1] = {0};
    const uint64_t away[1] = {1};
    const uint64_t back[2] = {1, (uint64_t)1 << 16};
    const uint8_t marks[3] = {1, 0, 0};
    uint64_t out[2] = {5, 5};
    const uint16_t goal[1] = {1};
    told("too many marks", sejjekoru_shorten(3, rails, 4, at, 1, at, 1, back, 2, marks, 3, out, 2, &value), 11, 0);
    told("begun", sejjekoru_shorten(3, rails, 4, at, 1, at, 1, back, 2, marks, 2, NULL, 0, &value), 25, 0);
    told("no room", sejjekoru_shorten(3, rails, 4, at, 1, goal, 1, away, 1, marks + 1, 1, NULL, 0, &value), 8, 1);
    told("there and back", sejjekoru_shorten(3, rails, 4, at, 1, at, 1, back, 2, marks + 1, 2, NULL, 0, &value), 0, 0);
    told("there", sejjekoru_shorten(3, rails, 4, at, 1, goal, 1, away, 1, marks + 1, 1, out, 2, &value), 0, 1);
    holds("shortening did not write the plan and nothing beyond it", out[0] == 1 && out[1] == 5);
}

/* As the header says. */
static void layout(void)
{
    holds("layout of the record",
          offsetof(sejjekoru_record, at) == 0 && sizeof record.at == 512 && offsetof(sejjekoru_record, done) == 512
              && offsetof(sejjekoru_record, highest) == 516 && sizeof(sejjekoru_record) == 520);
    holds("layout of a line",
          offsetof(sejjekoru_line, carrier) == 0 && offsetof(sejjekoru_line, billed) == 4
              && offsetof(sejjekoru_line, last) == 8 && sizeof(sejjekoru_line) == 12);
}

enum { CROSSINGS = 6, CARRIERS = 2 };

/* What may change at a report on Y1, with a line more than there are carriers. */
typedef struct {
    uint8_t marks[CROSSINGS];
    sejjekoru_record record;
    sejjekoru_line lines[CARRIERS + 1];
} books;

static const uint16_t y1_rails[6] = {0, 1, 1, 2, 1, 3};
static const uint16_t y1_start[CARRIERS] = {1, 0};
static const uint16_t y1_goal[CARRIERS] = {0, 1};
static const uint64_t y1_plan[CROSSINGS] = {
    0x000010002, 0x100000001, 0x100010003, 0x000020001, 0x000010000, 0x100030001};

#define Y1 4, y1_rails, 6, y1_start, CARRIERS, y1_goal, CARRIERS, y1_plan, CROSSINGS

static uint64_t open_y1(books *b, size_t marks, size_t lines)
{
    return sejjekoru_open(Y1, b->marks, marks, &b->record, b->lines, lines, &value);
}

static uint64_t agrees_y1(const books *b, size_t lines)
{
    return sejjekoru_agrees(Y1, b->marks, CROSSINGS, &b->record, b->lines, lines, &value);
}

static uint64_t report_y1(books *b, uint64_t name, size_t lines)
{
    return sejjekoru_report_billed(Y1, b->marks, CROSSINGS, name, &b->record, b->lines, lines, &value);
}

static int same(const books *a, const books *b)
{
    return memcmp(a->marks, b->marks, sizeof a->marks) == 0 && memcmp(&a->record, &b->record, sizeof a->record) == 0
        && memcmp(a->lines, b->lines, sizeof a->lines) == 0;
}

/* A report that is answered so and changes nothing. */
static void refused(const char *what, books *b, uint64_t name, size_t lines, uint64_t due, uint64_t due_value)
{
    const books before = *b;
    told(what, report_y1(b, name, lines), due, due_value);
    holds("a report that was not accepted wrote", same(&before, b));
}

/* The books with one field changed: no agreement, and a report answers 19 and changes nothing, though its name is the next. */
static void tampered(const char *what, books b, uint64_t name)
{
    told(what, agrees_y1(&b, CARRIERS), 0, 0);
    refused(what, &b, name, CARRIERS, SEJJEKORU_DISAGREES, 0);
}

static void tamper(const books *b, uint64_t name)
{
    static const size_t places[4] = {0, 1, CARRIERS, 255};
    size_t i;
    books other;
    for (i = 0; i < 4; i++) {
        other = *b;
        other.record.at[places[i]]++;
        tampered("another bay", other, name);
    }
    other = *b;
    other.record.done++;
    tampered("another number done", other, name);
    other = *b;
    other.record.highest++;
    tampered("another highest slot", other, name);
    for (i = 0; i < CARRIERS; i++) {
        other = *b;
        other.lines[i].carrier++;
        tampered("another carrier", other, name);
        other = *b;
        other.lines[i].billed++;
        tampered("another number billed", other, name);
        other = *b;
        other.lines[i].last++;
        tampered("another last name", other, name);
    }
    other = *b;
    other.lines[CARRIERS].billed++;
    told("a line that is not lent", agrees_y1(&other, CARRIERS), 0, 1);
}

/* Whether opening builds the same from the marks, and all agree. */
static void afresh(books *b)
{
    books other = *b;
    memset(&other.record, 0xa5, sizeof other.record);
    memset(other.lines, 0xa5, CARRIERS * sizeof other.lines[0]);
    told("open again", open_y1(&other, CROSSINGS, CARRIERS), 0, 0);
    holds("the books are not what an opening builds", same(b, &other));
    told("agrees", agrees_y1(b, CARRIERS), 0, 1);
}

/* A refused opening writes nothing: 11 before 8, and 8 carries the number of carriers. */
static void not_opened(void)
{
    books b, before;
    memset(&b, 0xa5, sizeof b);
    memset(b.marks, 0, sizeof b.marks);
    before = b;
    told("marks too few", open_y1(&b, CROSSINGS - 1, CARRIERS + 1), SEJJEKORU_MARKS, 0);
    told("a line too many", open_y1(&b, CROSSINGS, CARRIERS + 1), SEJJEKORU_ROOM, CARRIERS);
    told("a line too few", open_y1(&b, CROSSINGS, CARRIERS - 1), SEJJEKORU_ROOM, CARRIERS);
    holds("a refused opening wrote", same(&before, &b));
}

/* Y1 from opening to all done. Crossing i has slot i + 1, carrier 0 has the names 0, 3, 4, and carrier 1 the others. */
static void bills(void)
{
    books b;
    uint64_t name;
    memset(&b, 0xa5, sizeof b);
    memset(b.marks, 0, sizeof b.marks);
    told("open", open_y1(&b, CROSSINGS, CARRIERS), 0, 0);
    holds("an untouched line", b.lines[1].carrier == 1 && b.lines[1].billed == 0 && b.lines[1].last == SEJJEKORU_UNTOUCHED);
    holds("a line beyond the carriers was written", b.lines[CARRIERS].carrier == 0xa5a5a5a5);
    for (name = 0; name < CROSSINGS; name++) {
        size_t c = y1_plan[name] >> 32;
        uint32_t billed = b.lines[c].billed;
        tamper(&b, name);
        refused("a line too many", &b, name, CARRIERS + 1, SEJJEKORU_DISAGREES, 0);
        refused("a line too few", &b, name, CARRIERS - 1, SEJJEKORU_DISAGREES, 0);
        refused("19 before 12", &b, CROSSINGS, CARRIERS + 1, SEJJEKORU_DISAGREES, 0);
        refused("unknown", &b, CROSSINGS, CARRIERS, SEJJEKORU_UNKNOWN, 0);
        if (name + 1 < CROSSINGS) {
            refused("early", &b, name + 1, CARRIERS, SEJJEKORU_EARLY, name);
        }
        told("report", report_y1(&b, name, CARRIERS), 0, 0);
        refused("19 before already", &b, name, CARRIERS + 1, SEJJEKORU_DISAGREES, 0);
        refused("again", &b, name, CARRIERS, SEJJEKORU_ALREADY, 0);
        holds("mark", b.marks[name] == 1);
        holds("record", b.record.at[c] == (y1_plan[name] & 0xffff) && b.record.done == name + 1 && b.record.highest == name + 1);
        holds("line", b.lines[c].carrier == c && b.lines[c].billed == billed + 1 && b.lines[c].last == name);
        afresh(&b);
    }
    holds("all done", b.record.at[0] == 0 && b.record.at[1] == 1 && b.lines[0].billed == 3 && b.lines[1].billed == 3);
    b.marks[0] = 2;
    refused("11 before 19", &b, 0, CARRIERS + 1, SEJJEKORU_MARKS, 0);
}

/* On a line of six carrier 1 is done in slots 1 and 2 before carrier 0 is done in slot 1: the highest slot stays. */
static void lower_slot(void)
{
    const uint16_t rails[10] = {0, 1, 1, 2, 2, 3, 3, 4, 4, 5};
    const uint16_t start[2] = {0, 5};
    const uint16_t goal[2] = {1, 3};
    const uint64_t plan[3] = {0x000000001, 0x100050004, 0x100040003};
    const uint64_t names[3] = {1, 2, 0};
    const uint32_t highest[3] = {1, 2, 2};
    uint8_t marks[3] = {0, 0, 0};
    sejjekoru_line lines[2];
    size_t i;
    told("open", sejjekoru_open(6, rails, 10, start, 2, goal, 2, plan, 3, marks, 3, &record, lines, 2, &value), 0, 0);
    for (i = 0; i < 3; i++) {
        told("report in any order",
             sejjekoru_report_billed(6, rails, 10, start, 2, goal, 2, plan, 3, marks, 3, names[i], &record, lines, 2, &value),
             0, 0);
        holds("highest slot", record.highest == highest[i] && record.done == i + 1);
    }
}

/* Request E4: two lists compared, by its refusals in order, and what stands in the list of differences then. */
static void compare(void)
{
    const uint64_t first[3] = {0x000010002, 0x100000001, 0xfd00000000};
    const uint64_t second[4] = {0x000010002, 0x100000001, 0x100010003, 0x100030001};
    const uint64_t above[2] = {0xfe00000000, 0xff00000000};
    static const uint64_t long_list[65537];
    int64_t differences[255];
    uint64_t longer = 77;
    size_t i;
    for (i = 0; i < 255; i++) {
        differences[i] = 5;
    }
    told("compare nothing", sejjekoru_compare(NULL, 0, NULL, 0, NULL, 0, &longer, &value), 8, 254);
    told("compare: first too long", sejjekoru_compare(long_list, 65537, above, 2, NULL, 0, &longer, &value), 1, 0);
    told("compare: second too long", sejjekoru_compare(above, 2, long_list, 65537, NULL, 0, &longer, &value), 1, 0);
    told("compare: carrier in the first", sejjekoru_compare(above, 1, above + 1, 1, NULL, 0, &longer, &value), 5, 254);
    told("compare: carrier in the second", sejjekoru_compare(first, 3, above + 1, 1, NULL, 0, &longer, &value), 5, 255);
    told("compare: a difference too many", sejjekoru_compare(first, 3, second, 4, differences, 255, &longer, &value), 8, 254);
    holds("compare: a refusal told of a list or wrote", longer == 0 && differences[0] == 5 && differences[254] == 5);
    told("compare", sejjekoru_compare(first, 3, second, 4, differences, 254, &longer, &value), 0, 2);
    holds("compare: the second is longer", longer == 2);
    holds("compare: second less first",
          differences[0] == 0 && differences[1] == 2 && differences[2] == 0 && differences[253] == -1 && differences[254] == 5);
    told("compare exchanged", sejjekoru_compare(second, 4, first, 3, differences, 254, &longer, &value), 0, 2);
    holds("compare exchanged: negated", longer == 1 && differences[1] == -2 && differences[253] == 1);
    told("compare equal", sejjekoru_compare(first, 3, first, 3, differences, 254, &longer, &value), 0, 3);
    holds("compare equal: no difference", longer == 1 && differences[1] == 0 && differences[253] == 0);
    told("compare empty lists", sejjekoru_compare(NULL, 0, NULL, 0, differences, 254, &longer, &value), 0, 0);
}

/* Y1's plan backwards, from goal to start, and back again; numbers of any size; 1 before 8; and a refusal writes nothing. */
static void backwards(void)
{
    static const uint64_t rollback[CROSSINGS] = {
        0x100010003, 0x000000001, 0x000010002, 0x100030001, 0x100010000, 0x000020001};
    static uint64_t list[65537], room[65537];
    uint64_t out[CROSSINGS + 1];
    const uint64_t any = 0xfedcba9876543210;
    memset(out, 0xa5, sizeof out);
    told("no list", sejjekoru_reverse(NULL, 0, NULL, 0, &value), 0, 0);
    told("no room", sejjekoru_reverse(y1_plan, CROSSINGS, out, CROSSINGS - 1, &value), SEJJEKORU_ROOM, CROSSINGS);
    holds("a refusal wrote", out[0] == 0xa5a5a5a5a5a5a5a5);
    told("backwards", sejjekoru_reverse(y1_plan, CROSSINGS, out, CROSSINGS + 1, &value), 0, CROSSINGS);
    holds("the rollback", memcmp(out, rollback, sizeof rollback) == 0 && out[CROSSINGS] == 0xa5a5a5a5a5a5a5a5);
    told("the rollback's check",
         sejjekoru_check(4, y1_rails, 6, y1_goal, CARRIERS, y1_start, CARRIERS, out, CROSSINGS, &value), 0, 0);
    told("back again", sejjekoru_reverse(rollback, CROSSINGS, out, CROSSINGS, &value), 0, CROSSINGS);
    holds("the plan again", memcmp(out, y1_plan, sizeof y1_plan) == 0);
    told("any number", sejjekoru_reverse(&any, 1, out, 1, &value), 0, 1);
    holds("a number's bays exchanged", out[0] == 0xfedcba9832107654);
    list[0] = any;
    told("1 before 8", sejjekoru_reverse(list, 65537, NULL, 0, &value), SEJJEKORU_SIZE, 0);
    told("1 with room", sejjekoru_reverse(list, 65537, room, 65537, &value), SEJJEKORU_SIZE, 0);
    holds("a refusal wrote", room[65536] == 0);
    told("the longest list", sejjekoru_reverse(list, 65536, room, 65537, &value), 0, 65536);
    holds("the longest list's end", room[65535] == 0xfedcba9832107654 && room[65534] == 0 && room[65536] == 0);
}

/* Y1: where the carriers stand after each report; 11 and 8 in this order. */
static void placement(void)
{
    static const uint16_t standing[CROSSINGS + 1][CARRIERS] = {{1, 0}, {2, 0}, {2, 1}, {2, 3}, {1, 3}, {0, 3}, {0, 1}};
    uint8_t marks[CROSSINGS] = {0};
    uint16_t at[CARRIERS + 1] = {77, 77, 77};
    size_t i;
    told("placement of nothing", sejjekoru_placement(2, NULL, 0, NULL, 0, NULL, 0, NULL, 0, NULL, 0, NULL, 0, &value), 3, 1);
    told("placement: a mark too few", sejjekoru_placement(Y1, marks, CROSSINGS - 1, at, 1, &value), 11, 0);
    told("placement: a place too few", sejjekoru_placement(Y1, marks, CROSSINGS, at, 1, &value), 8, CARRIERS);
    holds("placement: a refusal wrote", at[0] == 77 && at[1] == 77);
    for (i = 0; i <= CROSSINGS; i++) {
        told("placement", sejjekoru_placement(Y1, marks, CROSSINGS, at, CARRIERS + 1, &value), 0, CARRIERS);
        holds("placement: a carrier stands elsewhere", at[0] == standing[i][0] && at[1] == standing[i][1] && at[2] == 77);
        if (i < CROSSINGS) {
            told("report", sejjekoru_report(Y1, marks, CROSSINGS, i, &value), 0, 0);
        }
    }
}

/* Document 01's own files: the map rows `...` and `@.@`, and what it says is printed for them. */
static const char t_map[] = "type octile\nheight 2\nwidth 3\nmap\n...\n@.@\n";
static const char t_scenario[] =
    "version 1\n0\tt.map\t3\t2\t1\t0\t0\t0\t1\n0\tt.map\t3\t2\t0\t0\t1\t0\t1\n";
static const char t_print[] = "(move c0 b1 b2)\n(move c1 b0 b1)\n(move c1 b1 b3)\n(move c0 b2 b1)\n(move c0 b1 b0)\n(move c1 b3 b1)\n"
                              "; cost = 6 (unit cost)\n";

static uint64_t program(uint64_t map_read, uint64_t scenario_read, uint64_t shorten, char *out, size_t out_len)
{
    return sejjekoru_program((const uint8_t *)t_map, sizeof t_map - 1, map_read, (const uint8_t *)t_scenario, sizeof t_scenario - 1,
                             scenario_read, shorten, (uint8_t *)out, out_len, &value);
}

/* The program on bytes: in room that just fits, in room one byte short, with files that could not be read. */
static void whole_program(void)
{
    char out[200];
    const size_t due = sizeof t_print - 1;
    memset(out, '#', sizeof out);
    told("program without room", program(1, 1, 0, NULL, 0), SEJJEKORU_ROOM, due);
    told("program one byte short", program(1, 1, 0, out, due - 1), SEJJEKORU_ROOM, due);
    holds("a short list stays as it was", out[0] == '#' && out[due - 2] == '#');
    told("program", program(1, 1, 0, out, due), 0, due);
    holds("document 01's print", memcmp(out, t_print, due) == 0 && out[due] == '#');
    memset(out, '#', sizeof out);
    told("program, any number is a yes", program(2, UINT64_MAX, 1, out, sizeof out), 0, due);
    holds("nothing to shorten", memcmp(out, t_print, due) == 0 && out[due] == '#');
    told("program, no map", program(0, 1, 0, out, sizeof out), 0, 15);
    holds("14 with line 0", memcmp(out, "; refused 14 0\n", 15) == 0 && out[15] == t_print[15]);
    told("program, no scenario", program(1, 0, 0, out, sizeof out), 0, 15);
    holds("15 with line 0", memcmp(out, "; refused 15 0\n", 15) == 0);
    told("program of nothing", sejjekoru_program(NULL, 0, 1, NULL, 0, 1, 0, (uint8_t *)out, sizeof out, &value), 0, 15);
    holds("14 with line 1", memcmp(out, "; refused 14 1\n", 15) == 0);
}

/* The print of a list, with the largest numbers, and of none. */
static void print_plan(void)
{
    static const char due[] = "(move c4294967295 b65535 b65535)\n(move c0 b0 b0)\n; cost = 2 (unit cost)\n";
    static uint64_t many[65537];
    const uint64_t plan[2] = {UINT64_MAX, 0};
    char out[100];
    memset(out, '#', sizeof out);
    told("print without room", sejjekoru_print_plan(plan, 2, NULL, 0, &value), SEJJEKORU_ROOM, sizeof due - 1);
    told("print one byte short", sejjekoru_print_plan(plan, 2, (uint8_t *)out, sizeof due - 2, &value), SEJJEKORU_ROOM, sizeof due - 1);
    holds("a short list stays as it was", out[0] == '#');
    told("print", sejjekoru_print_plan(plan, 2, (uint8_t *)out, sizeof due - 1, &value), 0, sizeof due - 1);
    holds("the print", memcmp(out, due, sizeof due - 1) == 0 && out[sizeof due - 1] == '#');
    told("print of nothing", sejjekoru_print_plan(NULL, 0, (uint8_t *)out, sizeof out, &value), 0, 23);
    holds("the cost alone", memcmp(out, "; cost = 0 (unit cost)\n", 23) == 0);
    told("65,536 crossings", sejjekoru_print_plan(many, 65536, NULL, 0, &value), SEJJEKORU_ROOM, 65536 * 16 + 27);
    told("one too many", sejjekoru_print_plan(many, 65537, (uint8_t *)out, sizeof out, &value), SEJJEKORU_SIZE, 0);
}

/* Document 01's own map and scenario: the yard T, carrier 0 from (1,0) to (0,0), carrier 1 from (0,0) to (1,0). */
static const char link_map[] = "type octile\nheight 2\nwidth 3\nmap\n...\n@.@\n";
static const char link_scenario[] = "version 1\r\n0\tt\t3\t2\t1\t0\t0\t0\t1\n1\tt\t3\t2\t0\t0\t1\t0\t1.5";

#define WITH_LENGTH(text) (const uint8_t *)(text), strlen(text)

static void read_files(void)
{
    static const uint16_t t_rails[6] = {0, 1, 1, 2, 1, 3};
    uint16_t rails[8] = {9, 9, 9, 9, 9, 9, 9, 9};
    uint16_t start[3] = {9, 9, 9};
    uint16_t goal[3] = {9, 9, 9};
    uint64_t bays = 5;
    told("map T", sejjekoru_map(WITH_LENGTH(link_map), &bays, rails, 8, &value), 0, 6);
    holds("map T: bays and rails", bays == 4 && memcmp(rails, t_rails, sizeof t_rails) == 0 && rails[6] == 9);
    rails[0] = 9;
    told("map T, short", sejjekoru_map(WITH_LENGTH(link_map), &bays, rails, 5, &value), 8, 6);
    holds("map T, short: nothing written", bays == 0 && rails[0] == 9);
    bays = 5;
    told("map without a row", sejjekoru_map((const uint8_t *)link_map, strlen(link_map) - 4, &bays, rails, 8, &value), 14, 6);
    holds("map without a row: no bays", bays == 0);
    told("no map", sejjekoru_map(NULL, 0, &bays, NULL, 0, &value), 14, 1);

    told("scenario of T", sejjekoru_scenario(WITH_LENGTH(link_map), WITH_LENGTH(link_scenario), start, 3, goal, 3, &value), 0, 2);
    holds("scenario of T: carriers", start[0] == 1 && start[1] == 0 && goal[0] == 0 && goal[1] == 1 && start[2] == 9);
    start[0] = 9;
    told("scenario, short start", sejjekoru_scenario(WITH_LENGTH(link_map), WITH_LENGTH(link_scenario), start, 1, goal, 3, &value), 8, 2);
    told("scenario, short goal", sejjekoru_scenario(WITH_LENGTH(link_map), WITH_LENGTH(link_scenario), start, 3, goal, 1, &value), 8, 2);
    told("scenario, no map", sejjekoru_scenario(NULL, 0, NULL, 0, start, 3, goal, 3, &value), 14, 1);
    told("no scenario", sejjekoru_scenario(WITH_LENGTH(link_map), NULL, 0, start, 3, goal, 3, &value), 15, 1);
    told("scenario without line 3", sejjekoru_scenario(WITH_LENGTH(link_map), WITH_LENGTH("version 1\n\n"), start, 3, goal, 3, &value), 15, 2);
    holds("refused scenarios: nothing written", start[0] == 9 && goal[0] == 0);
}

/* The scenario of T byte by byte, cut between CR and LF too; then what has ended, and a piece too long. */
static void over_the_link(void)
{
    static sejjekoru_link link, before;
    static uint8_t longest[257];
    size_t i;
    holds("link: layout", sizeof link == 9248 && offsetof(sejjekoru_link, goal) == 508
          && offsetof(sejjekoru_link, cells) == 1016 && offsetof(sejjekoru_link, own) == 9208
          && offsetof(sejjekoru_link, count) == 9228 && offsetof(sejjekoru_link, line) == 9230
          && offsetof(sejjekoru_link, phase) == 9244 && offsetof(sejjekoru_link, width) == 9247);
    told("link of zeros: piece", sejjekoru_link_piece(&link, longest, 257, &value), 17, 0);
    told("link of zeros: end", sejjekoru_link_end(&link, &value), 17, 0);
    memset(&link, 0xff, sizeof link);
    before = link;
    told("link, bad map", sejjekoru_link_begin(WITH_LENGTH("type octile\nheight 0\n"), &link, &value), 14, 2);
    holds("link, bad map: as it was", memcmp(&link, &before, sizeof link) == 0);
    told("link of T", sejjekoru_link_begin(WITH_LENGTH(link_map), &link, &value), 0, 0);
    for (i = 0; i < strlen(link_scenario); i++)
        told("link of T: piece", sejjekoru_link_piece(&link, (const uint8_t *)link_scenario + i, 1, &value), 101, 0);
    told("link of T: nothing", sejjekoru_link_piece(&link, NULL, 0, &value), 101, 0);
    before = link;
    told("link of T: too long", sejjekoru_link_piece(&link, longest, 257, &value), 18, 0);
    holds("link of T: too long, as it was", memcmp(&link, &before, sizeof link) == 0);
    told("link of T: end", sejjekoru_link_end(&link, &value), 0, 2);
    holds("link of T: carriers", link.start[0] == 1 && link.start[1] == 0 && link.goal[0] == 0 && link.goal[1] == 1);
    before = link;
    told("link of T: after the end", sejjekoru_link_piece(&link, longest, 257, &value), 17, 0);
    told("link of T: second end", sejjekoru_link_end(&link, &value), 17, 0);
    holds("link of T: after the end, as it was", memcmp(&link, &before, sizeof link) == 0);

    told("link, 256 bytes", sejjekoru_link_begin(WITH_LENGTH(link_map), &link, &value), 0, 0);
    told("link, 256 bytes: piece", sejjekoru_link_piece(&link, longest, 256, &value), 101, 0);
    told("link, 256 bytes: end", sejjekoru_link_end(&link, &value), 15, 1);
    memset(&link, 0xff, sizeof link);
    link.phase = 1;
    told("link of any bytes: piece", sejjekoru_link_piece(&link, longest, 256, &value), 101, 0);
    holds("link of any bytes: an answer", sejjekoru_link_end(&link, &value) == 15);
    value = 77;
}

static void read_plan(const char *what, const char *file, size_t room, uint64_t due, uint64_t due_value, uint64_t first)
{
    uint64_t plan[3] = {7, 7, 7};
    told(what, sejjekoru_read_plan((const uint8_t *)file, strlen(file), plan, room, &value), due, due_value);
    holds(what, plan[0] == first && plan[2] == 7);
}

static void read_names(const char *what, const char *file, size_t room, uint64_t due, uint64_t due_value, uint64_t first)
{
    uint64_t names[3] = {7, 7, 7};
    told(what, sejjekoru_read_reports((const uint8_t *)file, strlen(file), names, room, &value), due, due_value);
    holds(what, names[0] == first && names[2] == 7);
}

/* A printed plan read back, files that keep the layout in other ways, and files that break it. */
static void reading(void)
{
    const uint64_t plan[2] = {UINT64_MAX, 0x500060007};
    static uint64_t many[65537], back[65537];
    static uint8_t print[65537 * 17];
    uint64_t two[2];
    uint8_t out[100];
    size_t i;
    told("print", sejjekoru_print_plan(plan, 2, out, sizeof out, &value), 0, 72);
    told("read back", sejjekoru_read_plan(out, 72, two, 2, &value), 0, 2);
    holds("the same list", memcmp(two, plan, sizeof plan) == 0);
    told("print of many", sejjekoru_print_plan(many, 65536, print, sizeof print, &value), 0, 65536 * 16 + 27);
    memset(back, 1, sizeof back);
    told("many read back", sejjekoru_read_plan(print, 65536 * 16 + 27, back, 65537, &value), 0, 65536);
    holds("the same list", memcmp(back, many, 65536 * 8) == 0 && back[65536] != 0);
    for (i = 0; i < 65537; i++)
        memcpy(print + 16 * i, "(move c1 b2 b3)\n", 16);
    told("one too many", sejjekoru_read_plan(print, 65537 * 16, back, 65537, &value), SEJJEKORU_SIZE, 0);
    read_plan("CR LF", "(move c1 b2 b3)\r\n; cost = 1 (unit cost)\r\n", 3, 0, 1, 0x100020003);
    read_plan("no last end", "; first\n(move c1 b2 b3)", 1, 0, 1, 0x100020003);
    read_plan("leading zeros", "(move c00000000001 b000002 b3)\n", 1, 0, 1, 0x100020003);
    read_plan("nothing", "", 0, 0, 0, 7);
    read_plan("too short", "(move c1 b2 b3)\n(move c1 b2 b3)\n", 1, SEJJEKORU_ROOM, 2, 7);
    read_plan("an empty line", "; a\n\n(move c1 b2 b3)\n", 3, SEJJEKORU_BAD_PLAN, 2, 7);
    read_plan("a CR that ends no line", "(move c1 b2 b3)\r", 3, SEJJEKORU_BAD_PLAN, 1, 7);
    read_plan("a bay too high", "(move c1 b2 b3)\n(move c1 b65536 b3)\n", 3, SEJJEKORU_BAD_PLAN, 2, 7);
    read_plan("a carrier too high", "(move c4294967296 b2 b3)\n", 3, SEJJEKORU_BAD_PLAN, 1, 7);
    read_plan("a far too high one", "(move c1 b2 b36893488147419103235)\n", 3, SEJJEKORU_BAD_PLAN, 1, 7);
    read_plan("no digits", "(move c b2 b3)\n", 3, SEJJEKORU_BAD_PLAN, 1, 7);
    read_plan("two spaces", "(move  c1 b2 b3)\n", 3, SEJJEKORU_BAD_PLAN, 1, 7);
    read_plan("a word more", "(move c1 b2 b3 b4)\n", 3, SEJJEKORU_BAD_PLAN, 1, 7);
    read_plan("something behind", "(move c1 b2 b3) \n", 3, SEJJEKORU_BAD_PLAN, 1, 7);
    read_plan("no bracket", "(move c1 b2 b3\n", 3, SEJJEKORU_BAD_PLAN, 1, 7);
    read_plan("a carrier for a bay", "(move c1 c2 b3)\n", 3, SEJJEKORU_BAD_PLAN, 1, 7);
    read_names("names", "3\n4294967295\r\n", 2, 0, 2, 3);
    read_names("no last end", "003", 1, 0, 1, 3);
    read_names("no name", "", 0, 0, 0, 7);
    read_names("too short", "3\n3\n", 1, SEJJEKORU_ROOM, 2, 7);
    read_names("an empty line", "3\n\n", 3, SEJJEKORU_BAD_REPORTS, 2, 7);
    read_names("no number", "3\n4\nc5\n", 3, SEJJEKORU_BAD_REPORTS, 3, 7);
    read_names("too high", "4294967296\n", 3, SEJJEKORU_BAD_REPORTS, 1, 7);
}

/* Request E1: a surveyors' file read and written, by its refusals in order, and what stands in the lent lists then. */
static void survey(void)
{
    static const char dressed[] = "c T\r\np edge 00004 3\r\ne 1 2\r\nc\r\ne 2 3\r\ne 02 4";
    static const char canonical[] = "p edge 4 3\ne 1 2\ne 2 3\ne 2 4\n";
    static const char apart[] = "p edge 4 2\ne 1 2\ne 2 3\n";
    static const char above[] = "p edge 4 3\ne 1 2\ne 2 99999\ne 2 4\n";
    static const char missing[] = "p edge 4 3\ne 1 2\ne 2 3\nc\n";
    const uint16_t ends[6] = {0, 1, 1, 2, 1, 3};
    uint16_t rails[8] = {9, 9, 9, 9, 9, 9, 9, 9};
    uint8_t out[40];
    uint64_t bays = 77;
    memset(out, '?', sizeof out);
    told("survey: nothing", sejjekoru_read_survey(NULL, 0, &bays, NULL, 0, &value), 16, 1);
    told("survey: a line missing", sejjekoru_read_survey((const uint8_t *)missing, sizeof missing - 1, &bays, rails, 8, &value), 16, 5);
    told("survey: apart", sejjekoru_read_survey((const uint8_t *)apart, sizeof apart - 1, &bays, NULL, 0, &value), 3, 3);
    told("survey: a bay above N", sejjekoru_read_survey((const uint8_t *)above, sizeof above - 1, &bays, rails, 8, &value), 2, 1);
    told("survey: no room", sejjekoru_read_survey((const uint8_t *)dressed, sizeof dressed - 1, &bays, rails, 5, &value), 8, 6);
    holds("survey: a refusal told bays or wrote", bays == 0 && rails[0] == 9 && rails[7] == 9);
    told("survey", sejjekoru_read_survey((const uint8_t *)dressed, sizeof dressed - 1, &bays, rails, 8, &value), 0, 6);
    holds("survey: bays and ends", bays == 4 && memcmp(rails, ends, sizeof ends) == 0 && rails[6] == 9 && rails[7] == 9);
    told("survey: too many bays", sejjekoru_write_survey(257, ends, 6, out, sizeof out, &value), 1, 0);
    told("survey: an end too many", sejjekoru_write_survey(4, ends, 5, out, sizeof out, &value), 1, 0);
    told("survey: no room for bytes", sejjekoru_write_survey(4, ends, 6, out, sizeof canonical - 2, &value), 8, sizeof canonical - 1);
    holds("survey: a refusal wrote", out[0] == '?');
    told("survey written", sejjekoru_write_survey(4, ends, 6, out, sizeof out, &value), 0, sizeof canonical - 1);
    holds("survey: canonical", memcmp(out, canonical, sizeof canonical - 1) == 0 && out[sizeof canonical - 1] == '?');
}

/* Y5 by both editions: in the second, carrier 0 rolls into bay 1 in the slot in which carrier 1 rolls out. 20 comes before 1, and 8 after the check. */
static void editions(void)
{
    const uint16_t rails[8] = {0, 1, 1, 2, 2, 3, 3, 0};
    const uint16_t start[2] = {0, 1};
    const uint16_t goal[2] = {1, 2};
    const uint64_t plan[2] = {0x100010002, 0x000000001};
    uint32_t slots[3] = {9, 9, 9};
    told("edition 0", sejjekoru_slots_of(0, 4, rails, 8, start, 2, goal, 2, plan, 2, slots, 3, &value), SEJJEKORU_EDITION, 0);
    told("20 before 1", sejjekoru_slots_of(3, 1, NULL, 0, NULL, 0, NULL, 0, NULL, 0, NULL, 0, &value), SEJJEKORU_EDITION, 0);
    told("1", sejjekoru_slots_of(2, 1, NULL, 0, NULL, 0, NULL, 0, NULL, 0, NULL, 0, &value), SEJJEKORU_SIZE, 0);
    told("8", sejjekoru_slots_of(2, 4, rails, 8, start, 2, goal, 2, plan, 2, slots, 1, &value), SEJJEKORU_ROOM, 2);
    holds("a refusal changes no slot", slots[0] == 9 && slots[1] == 9 && slots[2] == 9);
    told("edition 1", sejjekoru_slots_of(1, 4, rails, 8, start, 2, goal, 2, plan, 2, slots, 3, &value), 0, 2);
    holds("the first edition", slots[0] == 1 && slots[1] == 2 && slots[2] == 9);
    told("edition 2", sejjekoru_slots_of(2, 4, rails, 8, start, 2, goal, 2, plan, 2, slots, 3, &value), 0, 2);
    holds("the second edition", slots[0] == 1 && slots[1] == 1 && slots[2] == 9);
}

int main(void)
{
    nothing(0, 1, 0);
    nothing(1, 1, 0);
    nothing(2, 3, 1);
    nothing(256, 3, 1);
    nothing(257, 1, 0);
    nothing(UINT64_MAX, 1, 0);
    empty_plan();
    parked_on_junctions();
    illegal();
    crowd();
    there_and_back();
    layout();
    not_opened();
    bills();
    lower_slot();
    backwards();
    read_files();
    over_the_link();
    editions();
    holds("the library's version is the header's", strcmp(sejjekoru_version(), SEJJEKORU_VERSION) == 0);
    compare();
    placement();
    whole_program();
    print_plan();
    reading();

    survey();
    return failed;
}
