/* The plan check, the bill and the slots, from files. Every answer is the library's; this writes them as lines and tables. */
#include "desk.h"
#include "lines.h"
#include "refusals.h"
#include "words.h"

#include <sejjekoru.h>
#include <stdarg.h>
#include <stdio.h>
#include <stdlib.h>
#include <string.h>

/* A text that grows. */
typedef struct {
    char *bytes;
    size_t length, room;
} page;

/* Adds a line of at most 255 bytes. */
static void put(page *p, const char *format, ...)
{
    va_list words;
    if (p->length + 256 > p->room) {
        p->room = 2 * p->room + 65536;
        p->bytes = realloc(p->bytes, p->room);
        if (p->bytes == NULL) {
            say("there is no memory for the answer");
            exit(FAILED);
        }
    }
    va_start(words, format);
    p->length += (size_t)vsnprintf(p->bytes + p->length, 256, format, words);
    va_end(words);
}

#ifdef HAS_read_plan
/* The order and its plan: the library's first refusal, or 0. */
static uint64_t take_all(order *o, const request *asked, uint64_t *value)
{
    uint64_t number = take_files(o, asked, value);
    return number == SEJJEKORU_ACCEPTED ? take_plan(o, asked->names[2], value) : number;
}

int answer_check(const request *asked)
{
    static const char accepted[] = "; accepted\n";
    order *o = &the_order;
    uint64_t value, number = take_all(o, asked, &value);
    if (number == SEJJEKORU_ACCEPTED)
        number = sejjekoru_check(o->bays, o->ends, o->ends_len, o->start, o->carriers, o->goal, o->carriers, o->plan, o->crossings, &value);
    return number == SEJJEKORU_ACCEPTED ? hand_out(accepted, sizeof accepted - 1) : refuse(o, number, value);
}
#endif

int answer_slots(const request *asked)
{
    static uint32_t slots[CROSSINGS];
    order *o = &the_order;
    page p = {NULL, 0, 0};
    size_t i;
    uint64_t value, number;
#ifdef HAS_read_plan
    number = asked->named == 3 ? take_all(o, asked, &value) : find_plan(o, asked, &value);
#else
    number = find_plan(o, asked, &value);
#endif
    if (number == SEJJEKORU_ACCEPTED)
        number = sejjekoru_slots(o->bays, o->ends, o->ends_len, o->start, o->carriers, o->goal, o->carriers, o->plan, o->crossings, slots, CROSSINGS,
                                 &value);
    if (number != SEJJEKORU_ACCEPTED)
        return refuse(o, number, value);
    put(&p, "name,slot,carrier,from,to,from_x,from_y,to_x,to_y\n");
    for (i = 0; i < o->crossings; i++) {
        unsigned from = crossing_from(o->plan[i]), to = crossing_to(o->plan[i]);
        put(&p, "%u,%u,%u,%u,%u,%u,%u,%u,%u\n", (unsigned)i, slots[i], (unsigned)crossing_carrier(o->plan[i]), from, to, o->column[from], o->row[from],
            o->column[to], o->row[to]);
    }
    return hand_out(p.bytes, p.length);
}

#if defined HAS_read_plan && defined HAS_read_reports
/* A longer reports file is not read. */
enum { REPORT_BYTES = 1 << 26 };

/* The books of a plan while reports come in. */
typedef struct {
    uint8_t marks[CROSSINGS];
    sejjekoru_record record;
    sejjekoru_line lines[CARRIERS];
} books;

static uint64_t open_books(const order *o, books *b, uint64_t *value)
{
    return sejjekoru_open(o->bays, o->ends, o->ends_len, o->start, o->carriers, o->goal, o->carriers, o->plan, o->crossings, b->marks, o->crossings,
                          &b->record, b->lines, o->carriers, value);
}

/* One report, and its row. */
static void report(const order *o, books *b, uint64_t place, uint64_t name, page *p)
{
    uint64_t value, number;
    number = sejjekoru_report_billed(o->bays, o->ends, o->ends_len, o->start, o->carriers, o->goal, o->carriers, o->plan, o->crossings, b->marks,
                                     o->crossings, name, &b->record, b->lines, o->carriers, &value);
    put(p, "%llu,%llu,", (unsigned long long)place, (unsigned long long)name);
    if (number == SEJJEKORU_ACCEPTED)
        put(p, "accepted,,\n");
    else if (number == SEJJEKORU_ALREADY)
        put(p, "already,,\n");
    else if (number == SEJJEKORU_EARLY)
        put(p, "refused,%llu,%llu\n", (unsigned long long)number, (unsigned long long)value);
    else
        put(p, "refused,%llu,\n", (unsigned long long)number);
}

/* The account lines, with where each carrier began and stands. */
static void put_lines(const order *o, const books *b, page *p)
{
    size_t c;
    put(p, "\ncarrier,start,now,billed,last\n");
    for (c = 0; c < o->carriers; c++) {
        put(p, "%u,%u,%u,%u,", (unsigned)c, o->start[c], b->record.at[c], b->lines[c].billed);
        if (b->lines[c].last == SEJJEKORU_UNTOUCHED)
            put(p, "\n");
        else
            put(p, "%u\n", b->lines[c].last);
    }
}

/* The reported names, in memory of their own. */
static uint64_t take_reports(order *o, const char *path, uint64_t **names, uint64_t *value)
{
    uint64_t lines;
    o->reports_file = read_whole(path, REPORT_BYTES);
    *value = 0;
    if (!o->reports_file.readable)
        return BAD_REPORTS;
    lines = line_count(&o->reports_file);
    *names = malloc((size_t)(lines + 1) * sizeof **names);
    if (*names == NULL) {
        say("there is no memory for the reports");
        exit(FAILED);
    }
    return sejjekoru_read_reports(o->reports_file.bytes, o->reports_file.length, *names, (size_t)lines, value);
}

int answer_bill(const request *asked)
{
    static books b;
    order *o = &the_order;
    page p = {NULL, 0, 0};
    uint64_t *names = NULL, i, reports = 0, value, number = take_all(o, asked, &value);
    if (number == SEJJEKORU_ACCEPTED)
        number = take_reports(o, asked->names[3], &names, &value);
    if (number == SEJJEKORU_ACCEPTED) {
        reports = value;
        number = open_books(o, &b, &value);
    }
    if (number != SEJJEKORU_ACCEPTED)
        return refuse(o, number, value);
    put(&p, "report,name,answer,number,value\n");
    for (i = 0; i < reports; i++)
        report(o, &b, i + 1, names[i], &p);
    put_lines(o, &b, &p);
    return hand_out(p.bytes, p.length);
}
#endif
