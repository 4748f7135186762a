/* Rail lists from surveyors: read, and written in their plain form. */
#include "desk.h"
#include "refusals.h"
#include "words.h"

#include <sejjekoru.h>

#if defined HAS_read_survey && defined HAS_write_survey
enum {
    SURVEY_BYTES = 1 << 26, /* a longer file is not read */
    YARD_ENDS = 2048,       /* 1,024 rails */
    WRITTEN_BYTES = 16384   /* the longest such yard takes 10,254 bytes */
};

/* The yard as a survey on standard output. */
static uint64_t write_out(const order *o, int *status, uint64_t *value)
{
    static uint8_t out[WRITTEN_BYTES];
    uint64_t number = sejjekoru_write_survey(o->bays, o->ends, o->ends_len, out, sizeof out, value);
    if (number == SEJJEKORU_ACCEPTED)
        *status = hand_out(out, (size_t)*value);
    return number;
}

int answer_survey(const request *asked)
{
    order *o = &the_order;
    file survey = read_whole(asked->names[0], SURVEY_BYTES);
    int status = DONE;
    uint64_t value = 0, number = BAD_SURVEY;
    if (survey.readable)
        number = sejjekoru_read_survey(survey.bytes, survey.length, &o->bays, o->ends, YARD_ENDS, &value);
    if (number == SEJJEKORU_ACCEPTED) {
        o->ends_len = (size_t)value;
        number = write_out(o, &status, &value);
    }
    if (number == SEJJEKORU_ACCEPTED)
        return status;
    tell_survey(&survey, number, value);
    return print_refusal(number, value);
}

int answer_survey_of(const request *asked)
{
    order *o = &the_order;
    int status = DONE;
    uint64_t value, number = take_map(o, asked->names[0], &value);
    if (number == SEJJEKORU_ACCEPTED)
        number = write_out(o, &status, &value);
    return number == SEJJEKORU_ACCEPTED ? status : refuse(o, number, value);
}
#endif
