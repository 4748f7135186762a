/* A depot's bill in C: the books are opened with the plan and kept as reports come in, one of them twice. The yard is Y1 of document 01. */
#include <inttypes.h>
#include <stdio.h>

#include "sejjekoru.h"

enum { BAYS = 4, ENDS = 6, CARRIERS = 2, ROOM = 64, REPORTS = 4 };

static const uint16_t rails[ENDS] = {0, 1, 1, 2, 1, 3};
static const uint16_t start[CARRIERS] = {1, 0};
static const uint16_t goal[CARRIERS] = {0, 1};

/* What every function is handed first. */
#define YARD BAYS, rails, ENDS, start, CARRIERS, goal, CARRIERS

static void print_books(const sejjekoru_record *record, const sejjekoru_line *lines)
{
    size_t c;
    printf("%" PRIu32 " done, highest slot %" PRIu32 "\n", record->done, record->highest);
    for (c = 0; c < CARRIERS; c++) {
        printf("c%" PRIu32 " at b%d: %" PRIu32 " billed", lines[c].carrier, record->at[c], lines[c].billed);
        if (lines[c].last != SEJJEKORU_UNTOUCHED) {
            printf(", last %" PRIu32, lines[c].last);
        }
        printf("\n");
    }
}

int main(void)
{
    /* the acknowledgement of 1 is lost, so it is reported again */
    static const uint64_t names[REPORTS] = {0, 1, 1, 2};
    uint64_t plan[ROOM];
    uint8_t marks[ROOM] = {0};
    sejjekoru_record record;
    sejjekoru_line lines[CARRIERS];
    uint64_t parked, length, value;
    size_t i;

    if (sejjekoru_plan(YARD, plan, ROOM, &parked, &length) != SEJJEKORU_ACCEPTED
        || sejjekoru_open(YARD, plan, length, marks, length, &record, lines, CARRIERS, &value) != SEJJEKORU_ACCEPTED) {
        return 1;
    }
    print_books(&record, lines);
    for (i = 0; i < REPORTS; i++) {
        uint64_t answer = sejjekoru_report_billed(YARD, plan, length, marks, length, names[i], &record, lines, CARRIERS,
                                                  &value);
        printf("report %" PRIu64 ": ", names[i]);
        if (answer == SEJJEKORU_ACCEPTED) {
            printf("billed\n");
        } else if (answer == SEJJEKORU_ALREADY) {
            printf("already billed\n");
        } else {
            printf("refused %" PRIu64 "\n", answer);
        }
    }
    print_books(&record, lines);
    lines[1].billed++;
    if (sejjekoru_agrees(YARD, plan, length, marks, length, &record, lines, CARRIERS, &value) == SEJJEKORU_ACCEPTED
        && value == 0) {
        printf("a crossing too many: the books do not agree, and are built again\n");
        sejjekoru_open(YARD, plan, length, marks, length, &record, lines, CARRIERS, &value);
    }
    print_books(&record, lines);
    return 0;
}
