/* What breaks the layout of a file: a look at its first bad line, which the library has found. */
#include "lines.h"
#include "refusals.h"
#include "words.h"

#include <string.h>

static int is_bay(unsigned char letter)
{
    return letter == '.' || letter == 'G';
}

static int is_cell(unsigned char letter)
{
    return letter != '\0' && (is_bay(letter) || strchr("@OTW", letter) != NULL);
}

/* `what` of the map's head, as a number of a good line. */
static uint64_t head(const file *map, uint64_t line)
{
    return number_of(field_of(line_of(map, line), ' ', 1));
}

static void tell_row(const file *map, uint64_t line, text row)
{
    uint64_t width = head(map, 3), x = 0;
    text letter = row;
    while (x < row.length && x < width && is_cell(row.at[x]))
        x++;
    letter.at += x;
    letter.length = 1;
    if (x < row.length && x < width)
        say("%s, line %llu: column %llu holds %s; a bay is . or G, a wall is @, O, T or W", map->path, (unsigned long long)line, (unsigned long long)x,
            quoted(letter));
    else
        say("%s, line %llu: the row has %s letters, and width is %llu", map->path, (unsigned long long)line, thousands(row.length),
            (unsigned long long)width);
}

/* The four lines before the rows. */
static const char *const map_head[] = {
    "\"type octile\"",
    "\"height H\", one space between, H from 1 to 64 in one or two digits",
    "\"width W\", one space between, W from 1 to 64 in one or two digits",
    "\"map\"",
};

void tell_map(const file *map, uint64_t line)
{
    text bad = line_of(map, line);
    uint64_t height;
    if (line == 0) {
        tell_unread(map, "map");
    } else if (line <= 4 && bad.there) {
        say("%s, line %llu: it is %s, and must be %s", map->path, (unsigned long long)line, quoted(bad), map_head[line - 1]);
    } else if (line <= 4) {
        say("%s, line %llu: the file ends before it; it must be %s", map->path, (unsigned long long)line, map_head[line - 1]);
    } else if (line > 4 + (height = head(map, 2))) {
        say("%s, line %llu: the map has its %llu rows already, and nothing may follow", map->path, (unsigned long long)line, (unsigned long long)height);
    } else if (bad.there) {
        tell_row(map, line, bad);
    } else {
        say("%s, line %llu: row %llu is missing: height is %llu", map->path, (unsigned long long)line, (unsigned long long)line - 5,
            (unsigned long long)height);
    }
}

enum { BUCKET, NAME, WIDTH, HEIGHT, START_X, START_Y, GOAL_X, GOAL_Y, LENGTH, FIELDS };

static const char *const field_names[FIELDS] = {"bucket", "map name", "width", "height", "start x", "start y", "goal x", "goal y", "length"};

/* The last field: 1 to 20 bytes of digits with at most one point, and at least one digit. */
static int is_length(text t)
{
    size_t i, points = 0, digits = 0;
    for (i = 0; i < t.length; i++) {
        points += t.at[i] == '.';
        digits += t.at[i] >= '0' && t.at[i] <= '9';
    }
    return t.length <= 20 && points <= 1 && digits >= 1 && points + digits == t.length;
}

/* What a field must be, or NULL if it is that. */
static const char *wanted(text field, unsigned number)
{
    if (number == NAME)
        return field.length >= 1 && field.length <= 128 ? NULL : "1 to 128 bytes";
    if (number == LENGTH)
        return is_length(field) ? NULL : "1 to 20 bytes: digits, at least one, and at most one point";
    return is_digits(field, 5) ? NULL : "one to five digits";
}

/* Whether a start or goal is no bay, and says so. */
static int tell_cell(const order *o, uint64_t line, const char *what, uint64_t x, uint64_t y)
{
    int inside = x < o->width && y < o->height;
    if (inside && is_bay(line_of(&o->map, 5 + y).at[x]))
        return 0;
    if (inside)
        say("%s, line %llu: the %s (%llu, %llu) is a wall", o->scenario.path, (unsigned long long)line, what, (unsigned long long)x, (unsigned long long)y);
    else
        say("%s, line %llu: the %s (%llu, %llu) is outside the map, which has %u columns and %u rows", o->scenario.path, (unsigned long long)line, what,
            (unsigned long long)x, (unsigned long long)y, (unsigned)o->width, (unsigned)o->height);
    return 1;
}

/* Whether a side differs from the map's, and says so. */
static int tell_side(const order *o, uint64_t line, const char *what, uint64_t given, size_t side)
{
    if (given == side)
        return 0;
    say("%s, line %llu: %s is %llu, the map has %u", o->scenario.path, (unsigned long long)line, what, (unsigned long long)given, (unsigned)side);
    return 1;
}

/* A line with nine good fields that do not fit the map. */
static void tell_misfit(const order *o, uint64_t line, const uint64_t *number)
{
    if (tell_side(o, line, field_names[WIDTH], number[WIDTH], o->width) || tell_side(o, line, field_names[HEIGHT], number[HEIGHT], o->height)
        || tell_cell(o, line, "start", number[START_X], number[START_Y]) || tell_cell(o, line, "goal", number[GOAL_X], number[GOAL_Y]))
        return;
    say("%s, line %llu: it breaks the layout of a scenario", o->scenario.path, (unsigned long long)line);
}

static void tell_carrier(const order *o, uint64_t line, text bad)
{
    unsigned i, count = field_count(bad, '\t');
    uint64_t number[FIELDS] = {0};
    const char *where = o->scenario.path, *must;
    if (count != FIELDS) {
        const char *hint = field_count(bad, ' ') > 1 ? "; spaces stand where tabs belong" : "";
        say("%s, line %llu: it has %u field%s, and nine are needed, split by tabs%s", where, (unsigned long long)line, count, count == 1 ? "" : "s", hint);
        return;
    }
    for (i = 0; i < FIELDS; i++) {
        text field = field_of(bad, '\t', i);
        if ((must = wanted(field, i)) != NULL) {
            say("%s, line %llu: the field %s is %s, and must be %s", where, (unsigned long long)line, field_names[i], quoted(field), must);
            return;
        }
        if (i != NAME && i != LENGTH)
            number[i] = number_of(field);
    }
    tell_misfit(o, line, number);
}

void tell_scenario(const order *o, uint64_t line)
{
    text bad = line_of(&o->scenario, line);
    if (line == 0)
        tell_unread(&o->scenario, "scenario");
    else if (line == 1)
        say("%s, line 1: it is %s, and must be \"version 1\" or \"version 1.0\"", o->scenario.path, bad.there ? quoted(bad) : "missing");
    else if (line > CARRIERS + 1)
        say("%s, line %llu: 254 carriers are listed already, and a scenario has no more", o->scenario.path, (unsigned long long)line);
    else if (bad.length == 0)
        say("%s, line %llu: it is empty, and no line may be", o->scenario.path, (unsigned long long)line);
    else
        tell_carrier(o, line, bad);
}

/* The first bad line of a file of which all lines have one form. */
static void tell_form(const file *f, const char *what, uint64_t line, const char *form)
{
    text bad = line_of(f, line);
    if (line == 0)
        tell_unread(f, what);
    else if (bad.there)
        say("%s, line %llu: it is %s; %s", f->path, (unsigned long long)line, quoted(bad), form);
    else
        say("%s, line %llu: the file ends before it; %s", f->path, (unsigned long long)line, form);
}

void tell_plan_file(const file *plan, uint64_t line)
{
    tell_form(plan, "plan", line, "a plan has one line \"(move cC bA bB)\" for each crossing, then \"; cost = N (unit cost)\" with their number");
}

void tell_reports_file(const file *reports, uint64_t line)
{
    tell_form(reports, "reports", line, "each line must be one reported name, a number in digits");
}

/* The line of a rail, by its number from 0, and where it stands. */
static text rail_line(const file *survey, uint64_t rail, uint64_t *line)
{
    text found;
    for (*line = 1; (found = line_of(survey, *line)).there; ++*line)
        if (found.length > 0 && found.at[0] == 'e' && rail-- == 0)
            break;
    return found;
}

void tell_survey(const file *survey, uint64_t number, uint64_t value)
{
    uint64_t line = 0;
    text rail;
    switch (number) {
    case BAD_SURVEY:
        tell_form(survey, "survey", value, "a survey has one line \"p edge N M\", then M lines \"e U V\" with bays from 1; a line that begins with c is a comment");
        break;
    case 2:
        rail = rail_line(survey, value, &line);
        say("%s, line %llu: the rail %s must join two different bays of the yard that no rail before it joins", survey->path, (unsigned long long)line,
            quoted(rail));
        break;
    case 3:
        say("%s: bay %llu (the file counts from 1) cannot be reached from bay 1, and every bay must be", survey->path, (unsigned long long)value + 1);
        break;
    default:
        say("%s: a yard must have 2 to 256 bays and at most 1,024 rails", survey->path);
        break;
    }
}
