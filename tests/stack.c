/*
 * How much stack each function needs: it is called on a stack that was painted before, and then the paint that is left is counted. Ends with 1 if a
 * function needs more than include/sejjekoru.h says.
 */
#include <pthread.h>
#include <sejjekoru.h>
#include <stdio.h>
#include <stdlib.h>
#include <string.h>

enum { STACK = 8 << 20, PAINT = 0xa5, KIB = 1024, CALLS = 25 };

static uint64_t bays, plan[65536], out[65536], answer, parked, value;
static uint16_t rails[2048], start[254], goal[254];
static size_t ends, carriers, crossings;
static uint32_t slots[65536];
static uint8_t marks[65536];
static sejjekoru_record record;
static sejjekoru_line lines[254];
static int64_t differences[254];
static uint16_t at[254];
static uint64_t longer;
static sejjekoru_link over;
/* the same order as files, what is read from them, and the plan and the yard as texts */
static char map[512], scenario[16384], survey[16384], text[1 << 20];
static size_t survey_len, text_len;
static uint64_t read_bays, read_plan[65536];
static uint16_t read_rails[16384], read_start[254], read_goal[254];

#define ORDER bays, rails, ends, start, carriers, goal, carriers
#define PLAN ORDER, plan, crossings
#define BYTES(file) (const uint8_t *)file, strlen(file)
#define FILES BYTES(map), 1, BYTES(scenario), 1, 1

static const char *const names[CALLS] = {"plan", "check", "slots", "report", "shorten", "open", "agrees", "report_billed",
                                         "compare", "placement", "map", "scenario", "link_begin", "link_piece", "link_end", "reverse",
                                         "slots_of", "program", "program_timed", "print_plan", "read_plan", "read_reports", "read_survey",
                                         "write_survey", "plan_lean"};
static const size_t promised[CALLS] = {820, 16, 16, 16, 800, 24, 40, 40, 4, 16, 16, 16, 28, 28, 28, 4, 16, 1280, 1280, 4, 4, 4, 16, 16, 48}; /* KiB */

static void *call(void *which)
{
    switch (*(int *)which) {
    case 0: answer = sejjekoru_plan(ORDER, out, 65536, &parked, &value); break;
    case 1: answer = sejjekoru_check(PLAN, &value); break;
    case 2: answer = sejjekoru_slots(PLAN, slots, 65536, &value); break;
    case 3: answer = sejjekoru_report(PLAN, marks, crossings, 0, &value); break;
    case 4: answer = sejjekoru_shorten(PLAN, marks, crossings, out, 65536, &value); break;
    case 5: answer = sejjekoru_open(PLAN, marks, crossings, &record, lines, carriers, &value); break;
    case 6: answer = sejjekoru_agrees(PLAN, marks, crossings, &record, lines, carriers, &value); break;
    case 7: answer = sejjekoru_report_billed(PLAN, marks, crossings, 0, &record, lines, carriers, &value); break;
    case 8: answer = sejjekoru_compare(plan, crossings, plan, crossings, differences, 254, &longer, &value); break;
    case 9: answer = sejjekoru_placement(PLAN, marks, crossings, at, carriers, &value); break;
    case 10: answer = sejjekoru_map(BYTES(map), &read_bays, read_rails, 16384, &value); break;
    case 11: answer = sejjekoru_scenario(BYTES(map), BYTES(scenario), read_start, 254, read_goal, 254, &value); break;
    case 12: answer = sejjekoru_link_begin(BYTES(map), &over, &value); break;
    case 13: answer = sejjekoru_link_piece(&over, (const uint8_t *)scenario, strlen(scenario) < 256 ? strlen(scenario) : 256, &value); break;
    case 14: answer = sejjekoru_link_end(&over, &value); break;
    case 15: answer = sejjekoru_reverse(plan, crossings, out, 65536, &value); break;
    case 16: answer = sejjekoru_slots_of(2, PLAN, slots, 65536, &value); break;
    case 17: answer = sejjekoru_program(FILES, (uint8_t *)text, sizeof text, &value); break;
    case 18: answer = sejjekoru_program_timed(2, FILES, (uint8_t *)text, sizeof text, &value); break;
    case 19: answer = sejjekoru_print_plan(plan, crossings, (uint8_t *)text, sizeof text, &value); text_len = (size_t)value; break;
    case 20: answer = sejjekoru_read_plan((const uint8_t *)text, text_len, read_plan, 65536, &value); break;
    case 21: answer = sejjekoru_read_reports((const uint8_t *)"0\n1\n12\n", 7, read_plan, 65536, &value); break;
    case 22: answer = sejjekoru_read_survey((const uint8_t *)survey, survey_len, &read_bays, read_rails, 16384, &value); break;
    case 23: answer = sejjekoru_write_survey(bays, rails, ends, (uint8_t *)text, sizeof text, &value); break;
    case 24: answer = sejjekoru_plan_lean(ORDER, out, 65536, &parked, &value); break;
    default: break;
    }
    return NULL;
}

/* The bytes that a thread needs for a call; -1 calls nothing. */
static size_t used(int which)
{
    static unsigned char *stack;
    pthread_attr_t attributes;
    pthread_t thread;
    size_t left = 0;
    if (stack == NULL && posix_memalign((void **)&stack, 65536, STACK) != 0)
        exit(2);
    memset(stack, PAINT, STACK);
    pthread_attr_init(&attributes);
    if (pthread_attr_setstack(&attributes, stack, STACK) != 0 || pthread_create(&thread, &attributes, call, &which) != 0)
        exit(2);
    pthread_join(thread, NULL);
    while (left < STACK && stack[left] == PAINT)
        left++;
    return STACK - left;
}

/* The order of `yard` as a map, a scenario and a survey. */
static void write_files(unsigned side)
{
    char *end = map + sprintf(map, "type octile\nheight %u\nwidth %u\nmap\n", side, side);
    unsigned row;
    size_t i;
    for (row = 0; row < side; row++)
        end += sprintf(end, "%.*s\n", (int)side, "................");
    end = scenario + sprintf(scenario, "version 1\n");
    for (i = 0; i < carriers; i++)
        end += sprintf(end, "0\tm\t%u\t%u\t%u\t%u\t%u\t%u\t1\n", side, side, start[i] % side, start[i] / side, goal[i] % side, goal[i] / side);
    end = survey + sprintf(survey, "p edge %u %u\n", side * side, (unsigned)ends / 2);
    for (i = 0; i < ends; i += 2)
        end += sprintf(end, "e %u %u\n", rails[i] + 1u, rails[i + 1] + 1u);
    survey_len = (size_t)(end - survey);
}

/* A square grid with so many carriers, each at another's goal. */
static void yard(unsigned side, size_t count)
{
    unsigned x, y;
    size_t i;
    bays = side * side;
    ends = 0;
    carriers = count;
    for (y = 0; y < side; y++)
        for (x = 0; x < side; x++) {
            unsigned bay = y * side + x;
            if (x + 1 < side) {
                rails[ends++] = (uint16_t)bay;
                rails[ends++] = (uint16_t)(bay + 1);
            }
            if (y + 1 < side) {
                rails[ends++] = (uint16_t)bay;
                rails[ends++] = (uint16_t)(bay + side);
            }
        }
    for (i = 0; i < count; i++) {
        start[i] = (uint16_t)i;
        goal[i] = (uint16_t)((i + count / 2) % count);
    }
    write_files(side);
}

int main(void)
{
    static const unsigned sides[] = {0, 4, 8, 16, 16};
    static const size_t counts[] = {0, 6, 32, 128, 240};
    /* what planning needs on each, in KiB */
    static const size_t planning[] = {20, 48, 48, 112, 820};
    size_t most[CALLS] = {0}, base, need;
    int size, which, bad = 0;
    /* the first thread of all needs more than others, to find the functions that it calls */
    used(-1);
    base = used(-1);
    for (size = 0; size < 5; size++) {
        yard(sides[size], counts[size]);
        crossings = 0;
        for (which = 0; which < CALLS; which++) {
            /* no crossing is done: of a plan that is begun nothing is shortened */
            memset(marks, 0, sizeof marks);
            need = used(which);
            need = need > base ? need - base : 0;
            if (need > most[which])
                most[which] = need;
            if (which == 0) {
                printf("planning %u bays with %u carriers: %zu bytes\n", sides[size] * sides[size], (unsigned)counts[size], need);
                bad |= need > planning[size] * KIB;
            }
            /* a plan that is short enough is shortened in less room */
            if (which == 4 && crossings <= 4096)
                bad |= need > 64 * KIB;
            if (which == 0 && answer == SEJJEKORU_ACCEPTED) {
                crossings = (size_t)value;
                memcpy(plan, out, sizeof plan);
            }
        }
    }
    for (which = 0; which < CALLS; which++) {
        printf("sejjekoru_%s %zu bytes\n", names[which], most[which]);
        bad |= most[which] > promised[which] * KIB;
    }
    return bad;
}
