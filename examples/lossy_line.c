/*
 * A plan reported over a line that loses, repeats and reorders, from a fixed seed. Every accepted crossing is replayed here, tested by scans that share
 * nothing with the library's check, and billed; record and account lines are compared after each report with those worked out afresh. What it prints
 * must come out whatever the line does: each crossing accepted once and legal, every carrier home, every bill the plan's count.
 *
 *   lossy_line FILE
 *
 * The file has the number of bays, then rail ends, start, goal and plan, each list behind its count. The same simulation is written in Rattle, in
 * crates/lossy_line; both print the same.
 */
#include <sejjekoru.h>
#include <stdio.h>
#include <stdlib.h>
#include <string.h>

enum { MOST = 4096, CARRIERS = 254, TURNS = 20000 };

static uint64_t bays, plan[MOST];
static uint16_t rails[MOST], start[CARRIERS], goal[CARRIERS];
static size_t ends, carriers, crossings;

/* The depot's side: marks, record and lines. */
static uint8_t marks[MOST];
static sejjekoru_record record;
static sejjekoru_line lines[CARRIERS];

/* The vault's side: the names whose answer has come back, and those accepted, in their order. */
static char known[MOST];
static uint64_t accepted[MOST];
static size_t accepted_count;
static unsigned lost, early, repeated, disagreed;

static unsigned long next(FILE *from)
{
    unsigned long long number;
    if (fscanf(from, "%llu", &number) != 1) {
        fprintf(stderr, "lossy_line: the file ends too soon\n");
        exit(2);
    }
    return number;
}

static size_t next_bays(FILE *from, uint16_t *list, size_t most)
{
    size_t i, count = next(from);
    for (i = 0; i < count && i < most; i++)
        list[i] = (uint16_t)next(from);
    return i;
}

static void read_order(const char *path)
{
    size_t i;
    FILE *from = fopen(path, "r");
    if (from == NULL) {
        perror(path);
        exit(2);
    }
    bays = next(from);
    ends = next_bays(from, rails, MOST);
    carriers = next_bays(from, start, CARRIERS);
    next_bays(from, goal, CARRIERS);
    crossings = next(from);
    for (i = 0; i < crossings && i < MOST; i++)
        plan[i] = next(from);
    fclose(from);
}

#define ORDER bays, rails, ends, start, carriers, goal, carriers, plan, crossings

static int agrees(void)
{
    uint64_t yes;
    return sejjekoru_agrees(ORDER, marks, crossings, &record, lines, carriers, &yes) == SEJJEKORU_ACCEPTED && yes == 1;
}

static uint64_t report(uint64_t name)
{
    uint64_t value;
    return sejjekoru_report_billed(ORDER, marks, crossings, name, &record, lines, carriers, &value);
}

/* A report on a record that counts a crossing as done is refused, and changes nothing. */
static void tamper(void)
{
    uint64_t answer;
    record.done = 1;
    answer = report(0);
    if (answer != SEJJEKORU_DISAGREES || record.done != 1)
        return;
    record.done = 0;
    if (agrees())
        printf("tampered record refused 19, nothing changed\n");
}

/* The numbers of the line's dice: Marsaglia's xorshift. */
static uint64_t roll(uint64_t dice)
{
    dice ^= dice << 13;
    dice ^= dice >> 7;
    return dice ^ dice << 17;
}

/* One report is sent: it is lost, or it is answered, and its answer is lost or comes back. */
static void send(uint64_t dice, uint64_t lowest)
{
    uint64_t answer, name = lowest + dice % 8;
    if (dice / 8 % 4 == 0) {
        lost++;
        return;
    }
    answer = report(name);
    disagreed += !agrees();
    if (answer == SEJJEKORU_ACCEPTED)
        accepted[accepted_count++] = name;
    else if (answer == SEJJEKORU_ALREADY)
        repeated++;
    else
        early++;
    if ((answer == SEJJEKORU_ACCEPTED || answer == SEJJEKORU_ALREADY) && dice / 64 % 3 != 0)
        known[name] = 1;
}

static void run(void)
{
    uint64_t dice = 88172645463325252u;
    size_t turn, lowest = 0;
    for (turn = 0; turn < TURNS; turn++) {
        while (lowest < 1024 && known[lowest])
            lowest++;
        dice = roll(dice);
        send(dice, lowest);
    }
}

static int joins(unsigned a, unsigned b)
{
    size_t i;
    for (i = 0; i + 1 < ends; i += 2)
        if ((rails[i] == a && rails[i + 1] == b) || (rails[i] == b && rails[i + 1] == a))
            return 1;
    return 0;
}

static int stands(const uint16_t *at, unsigned bay)
{
    size_t c;
    for (c = 0; c < carriers; c++)
        if (at[c] == bay)
            return 1;
    return 0;
}

/* Replays and bills what the line accepted. */
static void settle(void)
{
    uint16_t at[CARRIERS];
    unsigned bills[CARRIERS] = {0}, due[CARRIERS] = {0}, illegal = 0, away = 0, wrong = 0;
    size_t i, c;
    memcpy(at, start, sizeof at);
    for (i = 0; i < accepted_count; i++) {
        uint64_t x = plan[accepted[i]];
        unsigned from = x >> 16 & 0xffff, to = x & 0xffff;
        c = (size_t)(x >> 32);
        if (c >= carriers || at[c] != from || !joins(from, to) || stands(at, to)) {
            illegal++;
            continue;
        }
        at[c] = (uint16_t)to;
        bills[c]++;
    }
    for (i = 0; i < crossings; i++)
        due[plan[i] >> 32]++;
    for (c = 0; c < carriers; c++) {
        away += at[c] != goal[c];
        wrong += bills[c] != due[c];
    }
    printf("accepted %u of %u\nillegal %u\nnot home %u\nwrong bills %u\n", (unsigned)accepted_count, (unsigned)crossings, illegal, away, wrong);
}

static void show_books(void)
{
    unsigned billed = 0;
    size_t c;
    if (lost > 0 && early > 0 && repeated > 0)
        printf("some were lost, some came early, some were repeated\n");
    printf("disagreed %u\ndone %u\nhighest slot %u\n", disagreed, record.done, record.highest);
    for (c = 0; c < carriers; c++) {
        printf("carrier %u billed %u last name %u\n", lines[c].carrier, lines[c].billed, lines[c].last);
        billed += lines[c].billed;
    }
    printf("billed %u of %u\n", billed, (unsigned)crossings);
}

int main(int count, char **words)
{
    uint64_t value;
    if (count != 2) {
        fprintf(stderr, "usage: lossy_line FILE\n");
        return 2;
    }
    read_order(words[1]);
    if (sejjekoru_open(ORDER, marks, crossings, &record, lines, carriers, &value) != SEJJEKORU_ACCEPTED)
        return 1;
    tamper();
    run();
    settle();
    show_books();
    return 0;
}
