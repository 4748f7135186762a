/*
 * The depot's program. It reads files, calls the library and writes what the library answers; it holds no rule of the vault.
 *
 * Standard output has the answer alone. Standard error has words for people. The exit status is 0 for a plan or a passed check, 1 for a refusal, and 2
 * for a command that is not understood or an answer that could not be written.
 */
#include "desk.h"
#include "refusals.h"
#include "words.h"

#include <sejjekoru.h>
#include <signal.h>
#include <stdio.h>
#include <stdlib.h>
#include <string.h>
#include <unistd.h>

/* A verb: its word, how many names it takes, who answers, and how it is shown. The first is what is asked for without a word. */
typedef struct {
    const char *word;
    size_t least, most;
    int shortens;
    int (*answer)(const request *asked);
    const char *usage, *help;
} verb;

/* The Makefile sets HAS_x for each function sejjekoru_x that the header declares: the program offers what the library has. */
static const verb verbs[] = {
    {"", 2, 2, 1, answer_plan, "[--shorten] MAP SCENARIO", "the plan; with --shorten without there-and-back trips"},
#if defined HAS_reverse && defined HAS_print_plan
    {"--reverse", 2, 2, 1, answer_reverse, "[--shorten] --reverse MAP SCENARIO", "the way back: the crossings in reverse order, from and to exchanged"},
#endif
#ifdef HAS_program_timed
    {"--timed", 2, 2, 1, answer_timed, "[--shorten] --timed EDITION MAP SCENARIO", "each crossing with its time, by slots of edition 1 or 2"},
#endif
#ifdef HAS_read_plan
    {"--check", 3, 3, 0, answer_check, "--check MAP SCENARIO PLAN", "whether a printed plan is legal and brings every carrier home"},
    {"--slots", 2, 3, 1, answer_slots, "[--shorten] --slots MAP SCENARIO [PLAN]", "each crossing with its slot, bays and cells, as CSV"},
#else
    {"--slots", 2, 2, 1, answer_slots, "[--shorten] --slots MAP SCENARIO", "each crossing with its slot, bays and cells, as CSV"},
#endif
#if defined HAS_read_plan && defined HAS_read_reports
    {"--bill", 4, 4, 0, answer_bill, "--bill MAP SCENARIO PLAN REPORTS", "the answer to each reported name, then each carrier's bill, as CSV"},
#endif
#if defined HAS_read_survey && defined HAS_write_survey
    {"--survey", 1, 1, 0, answer_survey, "--survey FILE", "a surveyor's rail list, read and written in its plain form"},
    {"--survey-of", 1, 1, 0, answer_survey_of, "--survey-of MAP", "a map's yard as such a list"},
#endif
};

enum { VERBS = sizeof verbs / sizeof *verbs };

static const char status_words[] =
    "\n"
    "Prints the plan that a map and a scenario ask for, one crossing a line, or one line that says why there is none.\n"
    "After -- all words are names of files.\n"
    "\n"
    "Exit status: 0 for a plan or a passed check, 1 for a refusal, 2 for a command that is not understood or an answer that could not be\n"
    "written. Standard output has the answer alone, standard error says in words what is wrong.\n";

/* How the program is called, a line for each verb; with what each does, if asked for. */
static size_t show_usage(char *room, int with_help)
{
    char *put = room;
    size_t i;
    for (i = 0; i < VERBS; i++) {
        put += sprintf(put, "%s vault %s\n", i == 0 ? "usage:" : "      ", verbs[i].usage);
        if (with_help)
            put += sprintf(put, "           %s\n", verbs[i].help);
    }
    put += sprintf(put, "       vault --help | --version | --explain NUMBER\n");
    return (size_t)(put - room);
}

static const verb *verb_of(const char *word)
{
    size_t i;
    for (i = 1; i < VERBS; i++)
        if (strcmp(word, verbs[i].word) == 0)
            return &verbs[i];
    return NULL;
}

static void tell_usage(void)
{
    char room[2048];
    write_whole(STDERR_FILENO, room, show_usage(room, 0));
}

/* A command that is not understood reads no file, so it gets the answer of a map that cannot be read. */
static int misuse(const char *what, const char *word)
{
    static const char unread[] = "; refused 14 0\n";
    say(what, word);
    tell_usage();
    hand_out(unread, sizeof unread - 1);
    return FAILED;
}

/* A plan with too few names is answered as one whose files cannot be read. */
static int too_few(const request *asked)
{
    tell_usage();
    answer_plan(asked);
    return FAILED;
}

static int show_help(void)
{
    char room[8192];
    size_t length = show_usage(room, 1);
    strcpy(room + length, status_words);
    return hand_out(room, strlen(room));
}

static int show_version(void)
{
    char line[128];
    int length = sprintf(line, "vault %.100s\n", sejjekoru_version());
    return hand_out(line, (size_t)length);
}

static int explain(const char *word)
{
    char line[1024], *end;
    unsigned long number = strtoul(word, &end, 10);
    const refusal *row = *word == '\0' || *end != '\0' ? NULL : refusal_row(number);
    int length;
    if (row == NULL)
        return misuse("there is no refusal \"%.40s\"", word);
    length = snprintf(line, sizeof line, "%lu %s: %s Carries %s.\n", number, row->name, row->rule, row->carries == NULL ? "nothing" : row->carries);
    return hand_out(line, (size_t)length);
}

static int answer(const request *asked, const verb *v)
{
    if (asked->shorten && (!v->shortens || asked->named > 2))
        return misuse("%s", "--shorten is for plans that are found here");
    if (asked->named > v->most)
        return misuse("%s", "too many names of files");
    if (strcmp(v->word, "--timed") == 0 && asked->edition == NULL)
        return misuse("%s needs an edition", v->word);
    if (v == verbs && asked->named < v->least)
        return too_few(asked);
    if (asked->named < v->least)
        return misuse("%s needs more names of files", v->word);
    return v->answer(asked);
}

/* Takes the words one by one; a word that stands alone, as --help, is answered at once. */
static int take_words(int count, char **words)
{
    request asked = {0, NULL, {NULL, NULL, NULL, NULL}, 0};
    const verb *v = verbs;
    int i, names_only = 0;
    for (i = 1; i < count; i++) {
        const char *word = words[i];
        int is_name = names_only || word[0] != '-' || word[1] == '\0';
        if (is_name && asked.named == 4)
            return misuse("%s", "too many names of files");
        if (is_name)
            asked.names[asked.named++] = word;
        else if (strcmp(word, "--") == 0)
            names_only = 1;
        else if (strcmp(word, "--help") == 0 || strcmp(word, "-h") == 0)
            return show_help();
        else if (strcmp(word, "--version") == 0)
            return show_version();
        else if (strcmp(word, "--explain") == 0 && i + 1 < count)
            return explain(words[i + 1]);
        else if (strcmp(word, "--shorten") == 0)
            asked.shorten = 1;
        else if (v != verbs || (v = verb_of(word)) == NULL)
            return misuse("the word \"%.40s\" is not understood here", word);
        else if (strcmp(word, "--timed") == 0 && ++i < count)
            asked.edition = words[i];
    }
    return answer(&asked, v);
}

int main(int count, char **words)
{
    hold_standard_descriptors();
    /* a reader that has gone and a full file are answers of the write, which is told, and no reason to die without a word */
    signal(SIGPIPE, SIG_IGN);
    signal(SIGXFSZ, SIG_IGN);
    return take_words(count, words);
}
