/*
 * Calls of the library, on the vectors and on random inputs from fixed seeds, each written down with all that was lent to it before and after. So the
 * same calls can be made again of another build, and compared: tests/wasm does it for the WebAssembly.
 *
 *   calls TRACE CALLS PLANS CHECKS SLOTS REPORTS PRINT..
 *
 * writes the calls to TRACE: first those of the vectors, whose answers are compared too, then those of the file pairs, each named by its print, then so
 * many random ones. It ends with 1 if an answer is not the vectors'. A case whose numbers the library's types cannot hold is left out, and counted.
 */
#include <sejjekoru.h>
#include <stdio.h>
#include <stdlib.h>
#include <string.h>

enum { MOST = 70000, ARGUMENTS = 20, TEXT = 400000 };

/* ## The trace */

typedef struct {
    unsigned char kind; /* 0: a number; 1: a list and its length; 2: a pointer alone */
    unsigned size;
    uint64_t count;
    void *at;
    unsigned char *before;
} argument;

static FILE *trace;
static argument arguments[ARGUMENTS];
static unsigned argument_count;
static const char *called;
static unsigned long calls, disagreed, left_out;

static void out(const void *bytes, size_t length)
{
    if (length > 0 && fwrite(bytes, 1, length, trace) != length) {
        perror("calls: the trace");
        exit(2);
    }
}

static void out_number(uint64_t number)
{
    out(&number, sizeof number);
}

static void begin(const char *name)
{
    called = name;
    argument_count = 0;
}

static void add(unsigned char kind, size_t size, uint64_t count, void *at)
{
    argument *a = &arguments[argument_count++];
    a->kind = kind;
    a->size = (unsigned)size;
    a->count = count;
    a->at = at;
    a->before = NULL;
    if (kind != 0) {
        a->before = malloc((size_t)(size * count) + 1);
        memcpy(a->before, at, (size_t)(size * count));
    }
}

static void number(uint64_t n)
{
    add(0, 8, n, NULL);
}

#define LIST(list, count) add(1, sizeof *(list), (count), (list))
#define POINTER(pointer) add(2, sizeof *(pointer), 1, (pointer))

/* Writes the call down, now that it has answered. */
static uint64_t end(uint64_t answer)
{
    unsigned i;
    out_number(strlen(called));
    out(called, strlen(called));
    out_number(argument_count);
    for (i = 0; i < argument_count; i++) {
        argument *a = &arguments[i];
        out_number(a->kind);
        out_number(a->size);
        out_number(a->count);
        if (a->kind != 0) {
            out(a->before, (size_t)(a->size * a->count));
            out(a->at, (size_t)(a->size * a->count));
            free(a->before);
        }
    }
    out_number(answer);
    calls++;
    return answer;
}

/* ## The order of a call, and the calls */

static uint64_t bays, parked, value, name;
static uint16_t rails[MOST], start[MOST], goal[MOST];
static size_t ends, starts, goals, crossings, mark_count, line_count;
static uint64_t plan[MOST], other[MOST];
static uint32_t slots[MOST];
static uint8_t marks[MOST];
static sejjekoru_record record;
static sejjekoru_line lines[300];

static void order_arguments(const char *function)
{
    begin(function);
    value = 77;
    parked = 78;
    number(bays);
    LIST(rails, ends);
    LIST(start, starts);
    LIST(goal, goals);
}

#define ORDER bays, rails, ends, start, starts, goal, goals

static uint64_t call_plan(size_t room)
{
    order_arguments("sejjekoru_plan");
    LIST(other, room);
    POINTER(&parked);
    POINTER(&value);
    return end(sejjekoru_plan(ORDER, other, room, &parked, &value));
}

static uint64_t call_plan_lean(size_t room)
{
    order_arguments("sejjekoru_plan_lean");
    LIST(other, room);
    POINTER(&parked);
    POINTER(&value);
    return end(sejjekoru_plan_lean(ORDER, other, room, &parked, &value));
}

static uint64_t call_check(void)
{
    order_arguments("sejjekoru_check");
    LIST(plan, crossings);
    POINTER(&value);
    return end(sejjekoru_check(ORDER, plan, crossings, &value));
}

static uint64_t call_slots(size_t room)
{
    order_arguments("sejjekoru_slots");
    LIST(plan, crossings);
    LIST(slots, room);
    POINTER(&value);
    return end(sejjekoru_slots(ORDER, plan, crossings, slots, room, &value));
}

static uint64_t call_report(void)
{
    order_arguments("sejjekoru_report");
    LIST(plan, crossings);
    LIST(marks, mark_count);
    number(name);
    POINTER(&value);
    return end(sejjekoru_report(ORDER, plan, crossings, marks, mark_count, name, &value));
}

static void call_placement(size_t room)
{
    static uint16_t at[300];
    order_arguments("sejjekoru_placement");
    LIST(plan, crossings);
    LIST(marks, mark_count);
    LIST(at, room);
    POINTER(&value);
    end(sejjekoru_placement(ORDER, plan, crossings, marks, mark_count, at, room, &value));
}

static uint64_t call_shorten(size_t room)
{
    order_arguments("sejjekoru_shorten");
    LIST(plan, crossings);
    LIST(marks, mark_count);
    LIST(other, room);
    POINTER(&value);
    return end(sejjekoru_shorten(ORDER, plan, crossings, marks, mark_count, other, room, &value));
}

static uint64_t call_open(void)
{
    order_arguments("sejjekoru_open");
    LIST(plan, crossings);
    LIST(marks, mark_count);
    POINTER(&record);
    LIST(lines, line_count);
    POINTER(&value);
    return end(sejjekoru_open(ORDER, plan, crossings, marks, mark_count, &record, lines, line_count, &value));
}

static uint64_t call_agrees(void)
{
    order_arguments("sejjekoru_agrees");
    LIST(plan, crossings);
    LIST(marks, mark_count);
    POINTER(&record);
    LIST(lines, line_count);
    POINTER(&value);
    return end(sejjekoru_agrees(ORDER, plan, crossings, marks, mark_count, &record, lines, line_count, &value));
}

static uint64_t call_billed(void)
{
    order_arguments("sejjekoru_report_billed");
    LIST(plan, crossings);
    LIST(marks, mark_count);
    number(name);
    POINTER(&record);
    LIST(lines, line_count);
    POINTER(&value);
    return end(sejjekoru_report_billed(ORDER, plan, crossings, marks, mark_count, name, &record, lines, line_count, &value));
}

/* ## Files and lists, and the functions over them. A library that has not got one of them yet is not asked. */

#define IF_THERE __attribute__((weak))
IF_THERE uint64_t sejjekoru_map(const uint8_t *, size_t, uint64_t *, uint16_t *, size_t, uint64_t *);
IF_THERE uint64_t sejjekoru_scenario(const uint8_t *, size_t, const uint8_t *, size_t, uint16_t *, size_t, uint16_t *, size_t, uint64_t *);
IF_THERE uint64_t sejjekoru_program(const uint8_t *, size_t, uint64_t, const uint8_t *, size_t, uint64_t, uint64_t, uint8_t *, size_t, uint64_t *);
IF_THERE uint64_t sejjekoru_program_timed(uint64_t, const uint8_t *, size_t, uint64_t, const uint8_t *, size_t, uint64_t, uint64_t, uint8_t *, size_t,
                                          uint64_t *);
IF_THERE uint64_t sejjekoru_print_plan(const uint64_t *, size_t, uint8_t *, size_t, uint64_t *);
IF_THERE uint64_t sejjekoru_read_plan(const uint8_t *, size_t, uint64_t *, size_t, uint64_t *);
IF_THERE uint64_t sejjekoru_read_reports(const uint8_t *, size_t, uint64_t *, size_t, uint64_t *);
IF_THERE uint64_t sejjekoru_reverse(const uint64_t *, size_t, uint64_t *, size_t, uint64_t *);
IF_THERE uint64_t sejjekoru_compare(const uint64_t *, size_t, const uint64_t *, size_t, int64_t *, size_t, uint64_t *, uint64_t *);
IF_THERE uint64_t sejjekoru_slots_of(uint64_t, uint64_t, const uint16_t *, size_t, const uint16_t *, size_t, const uint16_t *, size_t, const uint64_t *,
                                     size_t, uint32_t *, size_t, uint64_t *);
IF_THERE uint64_t sejjekoru_read_survey(const uint8_t *, size_t, uint64_t *, uint16_t *, size_t, uint64_t *);
IF_THERE uint64_t sejjekoru_write_survey(uint64_t, const uint16_t *, size_t, uint8_t *, size_t, uint64_t *);

typedef struct {
    uint8_t bytes[TEXT];
    size_t length;
} text;

static text map_file, scenario_file, print_file, printed, written;

static void read_text(text *into, const char *path)
{
    FILE *from = fopen(path, "rb");
    if (from == NULL) {
        perror(path);
        exit(2);
    }
    into->length = fread(into->bytes, 1, TEXT, from);
    fclose(from);
}

static void call_map(size_t room)
{
    uint64_t found = 77;
    begin("sejjekoru_map");
    value = 77;
    LIST(map_file.bytes, map_file.length);
    POINTER(&found);
    LIST(rails, room);
    POINTER(&value);
    if (end(sejjekoru_map(map_file.bytes, map_file.length, &found, rails, room, &value)) == 0) {
        bays = found;
        ends = (size_t)value;
    }
}

static void call_scenario(size_t room)
{
    begin("sejjekoru_scenario");
    value = 77;
    LIST(map_file.bytes, map_file.length);
    LIST(scenario_file.bytes, scenario_file.length);
    LIST(start, room);
    LIST(goal, room);
    POINTER(&value);
    if (end(sejjekoru_scenario(map_file.bytes, map_file.length, scenario_file.bytes, scenario_file.length, start, room, goal, room, &value)) == 0)
        starts = goals = (size_t)value;
}

/* The print goes to `printed`, in room that is `more` than it needs. */
static void call_program(uint64_t map_read, uint64_t scenario_read, uint64_t shorten, int more)
{
    size_t room;
    sejjekoru_program(map_file.bytes, map_file.length, map_read, scenario_file.bytes, scenario_file.length, scenario_read, shorten, NULL, 0, &value);
    room = (size_t)value + (size_t)more;
    begin("sejjekoru_program");
    value = 77;
    LIST(map_file.bytes, map_file.length);
    number(map_read);
    LIST(scenario_file.bytes, scenario_file.length);
    number(scenario_read);
    number(shorten);
    LIST(printed.bytes, room);
    POINTER(&value);
    if (end(sejjekoru_program(map_file.bytes, map_file.length, map_read, scenario_file.bytes, scenario_file.length, scenario_read, shorten, printed.bytes,
                              room, &value)) == 0)
        printed.length = (size_t)value;
}

static void call_timed(uint64_t edition, uint64_t shorten)
{
    size_t room;
    sejjekoru_program_timed(edition, map_file.bytes, map_file.length, 1, scenario_file.bytes, scenario_file.length, 1, shorten, NULL, 0, &value);
    room = (size_t)value;
    begin("sejjekoru_program_timed");
    value = 77;
    number(edition);
    LIST(map_file.bytes, map_file.length);
    number(1);
    LIST(scenario_file.bytes, scenario_file.length);
    number(1);
    number(shorten);
    LIST(written.bytes, room);
    POINTER(&value);
    end(sejjekoru_program_timed(edition, map_file.bytes, map_file.length, 1, scenario_file.bytes, scenario_file.length, 1, shorten, written.bytes, room,
                                &value));
}

static void call_read_plan(const text *from, size_t room)
{
    begin("sejjekoru_read_plan");
    value = 77;
    LIST((uint8_t *)from->bytes, from->length);
    LIST(other, room);
    POINTER(&value);
    end(sejjekoru_read_plan(from->bytes, from->length, other, room, &value));
}

static void call_read_reports(const text *from, size_t room)
{
    begin("sejjekoru_read_reports");
    value = 77;
    LIST((uint8_t *)from->bytes, from->length);
    LIST(other, room);
    POINTER(&value);
    end(sejjekoru_read_reports(from->bytes, from->length, other, room, &value));
}

static void call_print_plan(size_t room)
{
    begin("sejjekoru_print_plan");
    value = 77;
    LIST(plan, crossings);
    LIST(printed.bytes, room);
    POINTER(&value);
    if (end(sejjekoru_print_plan(plan, crossings, printed.bytes, room, &value)) == 0)
        printed.length = (size_t)value;
}

static void call_reverse(size_t room)
{
    begin("sejjekoru_reverse");
    value = 77;
    LIST(plan, crossings);
    LIST(other, room);
    POINTER(&value);
    end(sejjekoru_reverse(plan, crossings, other, room, &value));
}

static void call_compare(size_t others, size_t room)
{
    static int64_t differences[300];
    uint64_t longer = 77;
    begin("sejjekoru_compare");
    value = 77;
    LIST(plan, crossings);
    LIST(other, others);
    LIST(differences, room);
    POINTER(&longer);
    POINTER(&value);
    end(sejjekoru_compare(plan, crossings, other, others, differences, room, &longer, &value));
}

static void call_slots_of(uint64_t edition, size_t room)
{
    begin("sejjekoru_slots_of");
    value = 77;
    number(edition);
    number(bays);
    LIST(rails, ends);
    LIST(start, starts);
    LIST(goal, goals);
    LIST(plan, crossings);
    LIST(slots, room);
    POINTER(&value);
    end(sejjekoru_slots_of(edition, ORDER, plan, crossings, slots, room, &value));
}

static void call_write_survey(size_t room)
{
    begin("sejjekoru_write_survey");
    value = 77;
    number(bays);
    LIST(rails, ends);
    LIST(written.bytes, room);
    POINTER(&value);
    if (end(sejjekoru_write_survey(bays, rails, ends, written.bytes, room, &value)) == 0)
        written.length = (size_t)value;
}

static void call_read_survey(size_t room)
{
    uint64_t found = 77;
    begin("sejjekoru_read_survey");
    value = 77;
    LIST(written.bytes, written.length);
    POINTER(&found);
    LIST(start, room);
    POINTER(&value);
    end(sejjekoru_read_survey(written.bytes, written.length, &found, start, room, &value));
}

/* ## The vectors */

static FILE *vectors;
static int fits;

/* The next number; one that 64 bits do not hold is cut, and its case left out. */
static uint64_t next(uint64_t most)
{
    unsigned long long n = 0;
    if (fscanf(vectors, "%llu", &n) != 1)
        fits = 0;
    if (n > most)
        fits = 0;
    return n;
}

static size_t next_bays(uint16_t *list)
{
    size_t i, count = (size_t)next(MOST);
    for (i = 0; i < count && i < MOST; i++)
        list[i] = (uint16_t)next(65535);
    return count;
}

static size_t next_crossings(uint64_t *list)
{
    size_t i, count = (size_t)next(MOST);
    for (i = 0; i < count && i < MOST; i++)
        list[i] = next(UINT64_MAX);
    return count;
}

static size_t next_marks(uint8_t *list)
{
    size_t i, count = (size_t)next(MOST);
    for (i = 0; i < count && i < MOST; i++)
        list[i] = (uint8_t)next(255);
    return count;
}

static void next_order(void)
{
    bays = next(UINT64_MAX);
    ends = next_bays(rails);
    starts = next_bays(start);
    goals = next_bays(goal);
    crossings = next_crossings(plan);
}

/* Compares an answer with the vectors' number, where 99 stands for "already", and value. */
static void agree(const char *what, unsigned long place, uint64_t answer, uint64_t wanted, uint64_t carried)
{
    if (wanted == 99)
        wanted = SEJJEKORU_ALREADY;
    if (answer == wanted && (wanted == 0 || value == carried))
        return;
    printf("calls: %s, case %lu: %llu %llu, and not %llu %llu\n", what, place, (unsigned long long)answer, (unsigned long long)value,
           (unsigned long long)wanted, (unsigned long long)carried);
    disagreed++;
}

static void same(const char *what, unsigned long place, int is)
{
    if (is)
        return;
    printf("calls: %s, case %lu: another list\n", what, place);
    disagreed++;
}

static void open_vectors(const char *path)
{
    vectors = fopen(path, "r");
    if (vectors == NULL) {
        perror(path);
        exit(2);
    }
}

static void check_vectors(const char *path)
{
    unsigned long i, count;
    open_vectors(path);
    count = (unsigned long)next(MOST);
    for (i = 0; i < count; i++) {
        uint64_t wanted, carried;
        next_order();
        wanted = next(100);
        carried = next(UINT64_MAX);
        agree("check", i, call_check(), wanted, carried);
    }
    fclose(vectors);
}

static void slot_vectors(const char *path)
{
    unsigned long i, count;
    open_vectors(path);
    count = (unsigned long)next(MOST);
    for (i = 0; i < count; i++) {
        static uint64_t right[MOST];
        uint64_t wanted, carried;
        size_t room, written, j;
        int is = 1;
        next_order();
        room = (size_t)next(MOST);
        wanted = next(100);
        carried = next(UINT64_MAX);
        written = next_crossings(right);
        agree("slots", i, call_slots(room), wanted, carried);
        for (j = 0; j < written; j++)
            is = is && slots[j] == right[j];
        same("slots", i, is);
    }
    fclose(vectors);
}

static void report_vectors(const char *path)
{
    unsigned long i, count;
    open_vectors(path);
    count = (unsigned long)next(MOST);
    for (i = 0; i < count; i++) {
        static uint8_t right[MOST];
        uint64_t wanted, carried;
        size_t after;
        next_order();
        mark_count = next_marks(marks);
        name = next(UINT64_MAX);
        wanted = next(100);
        carried = next(UINT64_MAX);
        after = next_marks(right);
        agree("report", i, call_report(), wanted, carried);
        same("report", i, after == mark_count && memcmp(marks, right, after) == 0);
    }
    fclose(vectors);
}

/* A field of a line of the plan vectors, up to `stop`. */
static size_t field(char **text, char stop, uint64_t *list)
{
    char *stopped = strchr(*text, stop);
    size_t count = 0;
    if (stopped != NULL)
        *stopped = '\0';
    for (;;) {
        char *after;
        unsigned long long n = strtoull(*text, &after, 10);
        if (after == *text)
            break;
        list[count++] = n;
        *text = after;
    }
    *text = stopped == NULL ? *text + strlen(*text) : stopped + 1;
    return count;
}

static size_t bay_field(char **text, char stop, uint16_t *list)
{
    static uint64_t wide[MOST];
    size_t i, count = field(text, stop, wide);
    for (i = 0; i < count; i++) {
        fits = fits && wide[i] <= 65535;
        list[i] = (uint16_t)wide[i];
    }
    return count;
}

static void plan_vector(char *text, unsigned long place)
{
    static uint64_t right[MOST];
    uint64_t head[4], answer;
    size_t room, written = 0;
    fits = 1;
    text += strlen("plan");
    field(&text, '|', head);
    bays = head[0];
    room = (size_t)head[1];
    ends = bay_field(&text, '|', rails);
    starts = bay_field(&text, '|', start);
    goals = bay_field(&text, '=', goal);
    if (!fits) {
        left_out++;
        return;
    }
    text += strlen("> ");
    head[0] = head[1] = 0;
    if (strncmp(text, "ok ", 3) == 0) {
        text += 3;
        field(&text, ':', head + 1);
        written = field(&text, '\n', right);
    } else {
        text += strlen("refused ");
        field(&text, '\n', head);
    }
    /* what is lent is written down, so no more is lent than shows what is asked: the plan, and some places behind it */
    if (head[0] != SEJJEKORU_ROOM && room > written + 64)
        room = written + 64;
    answer = call_plan(room);
    agree("plan", place, answer, head[0], head[1]);
    same("plan", place, memcmp(other, right, written * sizeof *right) == 0);
    memset(other, 0xa5, room * sizeof *other);
    answer = call_plan_lean(room);
    agree("plan_lean", place, answer, head[0], head[1]);
    same("plan_lean", place, memcmp(other, right, written * sizeof *right) == 0);
}

static void plan_vectors(const char *path)
{
    static char line[4000000];
    unsigned long place = 0;
    open_vectors(path);
    while (fgets(line, sizeof line, vectors) != NULL)
        plan_vector(line, place++);
    fclose(vectors);
}

/* A pair of files, and the print that is right for it. */
static void file_vector(const char *print, unsigned long place)
{
    char path[1000];
    size_t stem = strlen(print) - strlen(".out");
    read_text(&print_file, print);
    sprintf(path, "%.*s.map", (int)stem, print);
    read_text(&map_file, path);
    sprintf(path, "%.*s.scen", (int)stem, print);
    read_text(&scenario_file, path);
    if (sejjekoru_program != NULL) {
        call_program(1, 1, 0, 5);
        same("program", place, printed.length == print_file.length && memcmp(printed.bytes, print_file.bytes, printed.length) == 0);
        call_program(1, 1, 1, 0);
        call_program(1, place % 2, place % 3, place % 5 == 0 ? -1 : 3);
        call_program(place % 2, 1, 0, 3);
    }
    if (sejjekoru_program_timed != NULL) {
        call_timed(1, 0);
        call_timed(2, place % 2);
        call_timed(3 + place, 0);
    }
    if (sejjekoru_map != NULL)
        call_map(place % 7 == 0 ? 3 : 4000);
    if (sejjekoru_scenario != NULL)
        call_scenario(place % 7 == 1 ? 1 : 254);
    if (sejjekoru_read_plan != NULL)
        call_read_plan(&print_file, place % 7 == 2 ? 3 : 8192);
}

/* ## Random calls */

static uint64_t dice = 88172645463325252u;

static uint64_t roll(uint64_t sides)
{
    dice ^= dice << 13;
    dice ^= dice >> 7;
    dice ^= dice << 17;
    return dice % sides;
}

/* A tree over the bays, and some rails more, in either direction. */
static void random_yard(void)
{
    uint64_t i, j;
    bays = roll(20) == 0 ? roll(300) : 2 + roll(30);
    ends = 0;
    for (i = 1; i < bays; i++) {
        rails[ends++] = (uint16_t)(i - 1 - roll(i < 4 ? i : 4));
        rails[ends++] = (uint16_t)i;
    }
    for (i = roll(8); i > 0 && bays > 3; i--) {
        j = roll(bays - 2);
        rails[ends++] = (uint16_t)(j + 2);
        rails[ends++] = (uint16_t)j;
    }
}

static size_t random_placement(uint16_t *list, size_t count)
{
    size_t i, j;
    uint16_t all[300];
    for (i = 0; i < bays; i++)
        all[i] = (uint16_t)i;
    for (i = 0; i < count && i < bays; i++) {
        j = i + (size_t)roll(bays - i);
        list[i] = all[j];
        all[j] = all[i];
    }
    return i;
}

/* An order, now and then with a number changed at random, so that each refusal comes up. */
static void random_order(void)
{
    size_t k;
    random_yard();
    k = bays > 2 ? (size_t)roll(bays - 1) : 0;
    if (roll(3) > 0)
        k = k / 3;
    starts = random_placement(start, k);
    goals = random_placement(goal, k);
    if (roll(12) == 0 && ends > 0)
        rails[roll(ends)] = (uint16_t)roll(bays + 2);
    if (roll(20) == 0 && starts > 0)
        start[roll(starts)] = (uint16_t)roll(bays + 2);
    if (roll(20) == 0 && goals > 0)
        goal[roll(goals)] = (uint16_t)roll(bays + 2);
    if (roll(40) == 0 && ends > 2)
        ends -= 1 + (size_t)roll(2);
    if (roll(60) == 0)
        bays += 1;
}

/* The planner's plan, or a damaged one. */
static void random_plan(void)
{
    uint64_t i;
    if (roll(4) == 0)
        call_plan_lean(roll(30) == 0 ? (size_t)roll(20) : 3000);
    crossings = call_plan(roll(30) == 0 ? (size_t)roll(20) : 3000) == 0 ? (size_t)value : (size_t)roll(4);
    memcpy(plan, other, crossings * sizeof *plan);
    if (crossings == 0 || roll(3) > 0)
        return;
    i = roll(crossings);
    if (roll(2) == 0)
        plan[i] = roll(starts + 1) << 32 | roll(bays + 1) << 16 | roll(bays + 1);
    else
        crossings = (size_t)i;
}

static void random_marks(void)
{
    size_t i, done = crossings > 0 ? (size_t)roll(crossings + 1) : 0;
    mark_count = crossings + (roll(40) == 0);
    for (i = 0; i < mark_count; i++)
        marks[i] = i < done;
    if (roll(3) == 0)
        memset(marks, 0, mark_count);
    if (roll(20) == 0 && mark_count > 0)
        marks[roll(mark_count)] = (uint8_t)roll(3);
}

static void random_calls(void)
{
    random_order();
    random_plan();
    random_marks();
    name = roll(crossings + 2);
    line_count = starts + (roll(30) == 0);
    call_check();
    call_slots(crossings + 1 - (roll(10) == 0 && crossings > 0 ? 2 : 0));
    call_report();
    call_placement(starts + 1 - (roll(10) == 0 && starts > 0 ? 2 : 0));
    call_shorten(crossings);
    call_open();
    if (roll(10) == 0 && line_count > 0)
        lines[roll(line_count)].billed += 1;
    if (roll(20) == 0)
        record.done += 1;
    call_agrees();
    call_billed();
}

/* Names, one a line, now and then with a byte that does not belong there. */
static void random_reports(void)
{
    uint64_t i, count = roll(12);
    written.length = 0;
    for (i = 0; i < count; i++) {
        int length = sprintf((char *)written.bytes + written.length, "%llu%s", (unsigned long long)roll(roll(5) == 0 ? 1u << 31 : 100),
                             roll(3) == 0 ? "\r\n" : "\n");
        written.length += (size_t)length;
    }
    if (roll(2) == 0 && written.length > 0)
        written.bytes[roll(written.length)] = (uint8_t)roll(128);
}

/* The functions over lists and texts, on the plan and the yard of the calls before. */
static void random_texts(void)
{
    size_t others = crossings;
    if (sejjekoru_slots_of != NULL)
        call_slots_of(roll(8) == 0 ? roll(9) : 1 + roll(2), crossings + 1 - (roll(10) == 0 && crossings > 0 ? 2 : 0));
    if (sejjekoru_reverse != NULL)
        call_reverse(crossings + 2 - (size_t)roll(4) % (crossings + 3));
    memcpy(other, plan, crossings * sizeof *plan);
    if (others > 0 && roll(2) == 0)
        other[roll(others)] ^= 1u << roll(20);
    if (others > 0 && roll(3) == 0)
        others = (size_t)roll(others);
    if (others > 0 && roll(20) == 0)
        other[roll(others)] = UINT64_MAX;
    if (sejjekoru_compare != NULL)
        call_compare(others, roll(20) == 0 ? 253 : 254);
    if (sejjekoru_print_plan != NULL)
        call_print_plan(roll(10) == 0 ? (size_t)roll(40) : 33 * crossings + 40);
    if (sejjekoru_print_plan != NULL && sejjekoru_read_plan != NULL) {
        if (roll(2) == 0 && printed.length > 0)
            printed.bytes[roll(printed.length)] = (uint8_t)roll(128);
        call_read_plan(&printed, crossings + 1);
    }
    if (sejjekoru_read_reports != NULL) {
        random_reports();
        call_read_reports(&written, 10);
    }
    if (sejjekoru_write_survey != NULL && sejjekoru_read_survey != NULL) {
        written.length = 0;
        call_write_survey(roll(10) == 0 ? (size_t)roll(60) : 12 * ends + 40);
        if (roll(2) == 0 && written.length > 0)
            written.bytes[roll(written.length)] = (uint8_t)roll(128);
        call_read_survey(roll(10) == 0 ? 2 : ends + 2);
    }
}

int main(int count, char **words)
{
    unsigned long before;
    int i;
    if (count < 7) {
        fprintf(stderr, "usage: calls TRACE CALLS PLANS CHECKS SLOTS REPORTS PRINT..\n");
        return 2;
    }
    trace = fopen(words[1], "wb");
    if (trace == NULL) {
        perror(words[1]);
        return 2;
    }
    plan_vectors(words[3]);
    check_vectors(words[4]);
    slot_vectors(words[5]);
    report_vectors(words[6]);
    for (i = 7; i < count; i++)
        file_vector(words[i], (unsigned long)i);
    printf("calls: %lu of the vectors (%lu left out: 16 bits do not hold a bay)", calls, left_out);
    before = calls;
    while (calls - before < strtoul(words[2], NULL, 10)) {
        random_calls();
        random_texts();
    }
    printf(", %lu random ones; %lu disagree with the vectors\n", calls - before, disagreed);
    if (fclose(trace) != 0) {
        perror(words[1]);
        return 2;
    }
    return disagreed > 0;
}
