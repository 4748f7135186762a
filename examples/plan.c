/* A depot's day in C: plan, slots, reports. The yard is Y1 of document 01: rails 0-1, 1-2, 1-3, two carriers that trade places. */
#include <inttypes.h>
#include <stdio.h>

#include "sejjekoru.h"

enum { BAYS = 4, ENDS = 6, CARRIERS = 2, ROOM = 64, TIGHT = 5 };

static const uint16_t rails[ENDS] = {0, 1, 1, 2, 1, 3};
static const uint16_t start[CARRIERS] = {1, 0};
static const uint16_t goal[CARRIERS] = {0, 1};

static void print_plan(const uint64_t *plan, size_t length)
{
    size_t i;
    for (i = 0; i < length; i++) {
        printf("(move c%" PRIu64 " b%" PRIu64 " b%" PRIu64 ")\n",
               plan[i] >> 32, plan[i] >> 16 & 0xffff, plan[i] & 0xffff);
    }
    printf("; cost = %zu (unit cost)\n", length);
}

static void print_slots(const uint64_t *plan, size_t length)
{
    uint32_t slots[ROOM];
    uint64_t written;
    size_t i;
    if (sejjekoru_slots(BAYS, rails, ENDS, start, CARRIERS, goal, CARRIERS, plan, length, slots, ROOM, &written)
        != SEJJEKORU_ACCEPTED) {
        return;
    }
    printf("slots");
    for (i = 0; i < written; i++) {
        printf(" %" PRIu32, slots[i]);
    }
    printf("\n");
}

static void report(const uint64_t *plan, size_t length, uint8_t *marks, uint64_t name)
{
    uint64_t value;
    uint64_t answer = sejjekoru_report(BAYS, rails, ENDS, start, CARRIERS, goal, CARRIERS, plan, length, marks, length,
                                       name, &value);
    printf("report %" PRIu64 ": ", name);
    switch (answer) {
    case SEJJEKORU_ACCEPTED:
        printf("accepted\n");
        break;
    case SEJJEKORU_ALREADY:
        printf("already\n");
        break;
    case SEJJEKORU_EARLY:
        printf("early, %" PRIu64 " is undone\n", value);
        break;
    case SEJJEKORU_UNKNOWN:
        printf("unknown\n");
        break;
    default:
        printf("refused %" PRIu64 "\n", answer);
    }
}

int main(void)
{
    uint64_t plan[ROOM];
    uint8_t marks[ROOM] = {0};
    uint64_t parked, length;
    uint64_t answer;

    answer = sejjekoru_plan(BAYS, rails, ENDS, start, CARRIERS, goal, CARRIERS, plan, TIGHT, &parked, &length);
    if (answer == SEJJEKORU_ROOM) {
        printf("room for %d: %" PRIu64 " needed\n", TIGHT, length);
    }
    answer = sejjekoru_plan(BAYS, rails, ENDS, start, CARRIERS, goal, CARRIERS, plan, ROOM, &parked, &length);
    if (answer != SEJJEKORU_ACCEPTED) {
        return 1;
    }
    print_plan(plan, length);
    print_slots(plan, length);
    report(plan, length, marks, 1);
    report(plan, length, marks, 6);
    report(plan, length, marks, 0);
    report(plan, length, marks, 0);
    return 0;
}
