/* Lines and fields of a file, for words about them. */
#include "lines.h"

#include <stdio.h>
#include <string.h>

text line_of(const file *f, uint64_t number)
{
    const uint8_t *at = f->bytes, *end;
    text none = {NULL, 0, 0}, found;
    if (at == NULL)
        return none;
    end = at + f->length;
    for (; number > 1 && at < end; number--) {
        const uint8_t *lf = memchr(at, '\n', (size_t)(end - at));
        at = lf == NULL ? end : lf + 1;
    }
    if (at == end)
        return none;
    found.at = at;
    found.there = 1;
    at = memchr(at, '\n', (size_t)(end - at));
    found.length = (size_t)((at == NULL ? end : at) - found.at);
    if (at != NULL && found.length > 0 && at[-1] == '\r')
        found.length--;
    return found;
}

uint64_t line_count(const file *f)
{
    uint64_t count = 0;
    size_t i;
    for (i = 0; i < f->length; i++)
        if (f->bytes[i] == '\n' || i + 1 == f->length)
            count++;
    return count;
}

text field_of(text line, unsigned char split, unsigned number)
{
    text none = {NULL, 0, 0};
    const uint8_t *end = line.at + line.length, *next;
    if (!line.there)
        return none;
    for (; number > 0; number--) {
        next = memchr(line.at, split, (size_t)(end - line.at));
        if (next == NULL)
            return none;
        line.at = next + 1;
    }
    next = memchr(line.at, split, (size_t)(end - line.at));
    line.length = (size_t)((next == NULL ? end : next) - line.at);
    return line;
}

unsigned field_count(text line, unsigned char split)
{
    unsigned count = 1;
    size_t i;
    for (i = 0; i < line.length; i++)
        count += line.at[i] == split;
    return count;
}

int is_text(text t, const char *what)
{
    return t.there && t.length == strlen(what) && memcmp(t.at, what, t.length) == 0;
}

int is_digits(text t, size_t most)
{
    size_t i;
    if (!t.there || t.length < 1 || t.length > most)
        return 0;
    for (i = 0; i < t.length; i++)
        if (t.at[i] < '0' || t.at[i] > '9')
            return 0;
    return 1;
}

uint64_t number_of(text digits)
{
    uint64_t number = 0;
    size_t i;
    for (i = 0; i < digits.length; i++)
        number = 10 * number + (uint64_t)(digits.at[i] - '0');
    return number;
}

const char *quoted(text t)
{
    enum { SHOWN = 40, ROOM = 4 * SHOWN + 8 };
    static char rooms[4][ROOM];
    static unsigned turn;
    char *room = rooms[turn++ % 4], *put = room;
    size_t i, shown = t.length < SHOWN ? t.length : SHOWN;
    *put++ = '"';
    for (i = 0; i < shown; i++) {
        unsigned char c = t.at[i];
        if (c == '\t' || c == '\r')
            put += sprintf(put, "\\%c", c == '\t' ? 't' : 'r');
        else if (c < 32 || c > 126)
            put += sprintf(put, "\\x%02x", c);
        else
            *put++ = (char)c;
    }
    strcpy(put, shown < t.length ? "..\"" : "\"");
    return room;
}
