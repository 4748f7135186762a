/*
 * A pallet vault: planning, plan check, slots of two editions, report log, running bills; shortening, reversing and comparing plans; reading and
 * printing files. By document 01 and requests E1, E4, E6, E7, E8, E10 and E12 of document 02.
 *
 * Every function takes any numbers and lists at all, and returns 0 if it accepts, else the refusal's number. Through `value` it stores what the refusal
 * carries, or on acceptance what its own comment says, and 0 where there is neither. Each function is proved to do so for every input.
 *
 * What the caller must ensure:
 * - each list has at least as many elements as the length after it says; a list of length 0 may be NULL;
 * - pointers without a length (`value`, `record`, `bays`, `longer`, `link`) are not NULL;
 * - what may be written, that is every argument without `const`, overlaps no other argument;
 * - lengths and numbers are 64 bits wide. A call from another language must say so: with ctypes, for instance, a plain Python int is passed as 32
 *   bits, and the upper half of a length on the stack is then whatever was there. Set `argtypes` to c_uint64 and pointers;
 * - the calling thread has the stack that the function needs (below).
 *
 * Nothing is kept between calls and nothing is allocated: threads may call at the same time, each with its own of what may be written.
 *
 * Stack, measured on x86-64 and on ARM and rounded up: sejjekoru_plan needs 820 KiB where a yard is crowded and the plan long, and less elsewhere: 48 KiB
 * on a grid of 64 bays that is half full, 112 KiB on one of 256; sejjekoru_plan_lean 48 KiB at most; sejjekoru_program and sejjekoru_program_timed 1,280
 * KiB; sejjekoru_shorten 800 KiB, and 64 KiB for a plan of at most 4,096 crossings; sejjekoru_agrees and sejjekoru_report_billed 40 KiB; the functions on
 * a link 28 KiB; sejjekoru_open 24 KiB; all others 16 KiB or less. Threads with 512 KiB of stack, as some systems give by default, cannot plan for every
 * yard with sejjekoru_plan: give them a megabyte or more, and two for the program; or call sejjekoru_plan_lean. tests/stack measures it again.
 *
 * The library of dist/ has unwind tables, so a debugger shows who called; it has no line numbers, since the prover's compiler gives none.
 */
#ifndef SEJJEKORU_H
#define SEJJEKORU_H

#include <stddef.h>
#include <stdint.h>

/* The version of this header. A changed signature raises the second number, until the first is 1. */
#define SEJJEKORU_VERSION "0.6.0"

#ifdef __cplusplus
extern "C" {
#endif

/* The version of the library that is linked. */
const char *sejjekoru_version(void);

/* The answers, each with what `value` then holds. */
enum {
    SEJJEKORU_ACCEPTED = 0,   /* what was written or counted, as each function says below, else 0 */
    SEJJEKORU_SIZE = 1,       /* 0 */
    SEJJEKORU_RAIL = 2,       /* the first bad rail */
    SEJJEKORU_APART = 3,      /* the lowest bay that cannot be reached from bay 0 */
    SEJJEKORU_CROWD = 4,      /* 0 */
    SEJJEKORU_START = 5,      /* the first bad carrier; compare: the first carrier number above 253 */
    SEJJEKORU_GOAL = 6,       /* the first bad carrier */
    SEJJEKORU_STOPPED = 7,    /* the carrier that could not step */
    SEJJEKORU_ROOM = 8,       /* the needed length */
    SEJJEKORU_CROSSING = 9,   /* the name of the first illegal crossing */
    SEJJEKORU_MISSED = 10,    /* the lowest carrier that is not home */
    SEJJEKORU_MARKS = 11,     /* 0 */
    SEJJEKORU_UNKNOWN = 12,   /* 0 */
    SEJJEKORU_EARLY = 13,     /* the lowest undone name that it depends on */
    SEJJEKORU_MAP = 14,       /* the first bad line of the map, from 1 */
    SEJJEKORU_SCENARIO = 15,  /* the first bad line of the scenario, from 1 */
    SEJJEKORU_SURVEY = 16,    /* the first line of a surveyors' file that breaks its layout or is missing, from 1 */
    SEJJEKORU_ENDED = 17,     /* 0; the scenario over this link has ended */
    SEJJEKORU_LONG_PIECE = 18, /* 0; a piece of a scenario has more than 256 bytes */
    SEJJEKORU_DISAGREES = 19, /* 0; record and lines are not what plan, start and marks give */
    SEJJEKORU_EDITION = 20,   /* 0; slots have two editions, 1 and 2 */
    SEJJEKORU_BEGUN = 25,     /* 0; some crossing of the plan to be shortened is done */
    SEJJEKORU_BAD_PLAN = 26,  /* the first bad line of a printed plan */
    SEJJEKORU_BAD_REPORTS = 27, /* the first bad line of a file of reports */
    SEJJEKORU_ALREADY = 100,  /* 0; a report of a crossing that is done */
    SEJJEKORU_MORE = 101      /* 0; a piece was read, and more may come */
};

/*
 * In every function: the yard has `bays` bays; `rails` lists the two ends of each rail, one after the other, so that `rails_len` is twice the number
 * of rails; `start` and `goal` give the bay of each carrier.
 *
 * A plan has one number for each crossing: carrier * 2^32 + from * 2^16 + to. A crossing's name is its place in the plan, from 0.
 */

/* The last name in a line of a carrier to which nothing is billed: no crossing has it. */
enum { SEJJEKORU_UNTOUCHED = 65536 };

/*
 * The running record: where the carriers stand, how many crossings are done, and the highest slot in which anything is done, or 0. `at` begins at
 * byte 0, `done` at 512, `highest` at 516; the whole has 520 bytes.
 */
typedef struct {
    uint16_t at[256];   /* the bay of each carrier; 0 beyond the carriers */
    uint32_t done;
    uint32_t highest;
} sejjekoru_record;

/* An account line. `carrier` begins at byte 0, `billed` at 4, `last` at 8; the whole has 12 bytes. */
typedef struct {
    uint32_t carrier;   /* line c is carrier c's */
    uint32_t billed;    /* its crossings that are done */
    uint32_t last;      /* the last of their names, or SEJJEKORU_UNTOUCHED */
} sejjekoru_line;

/*
 * Plans, and writes the plan to the first places of `plan`; the value is its length. `parked` becomes the number of times that a carrier was moved
 * out of the way into a bay of three rails or more, undoing left aside; 0 for a refusal. Answers 0 to 8.
 */
uint64_t sejjekoru_plan(uint64_t bays,
                        const uint16_t *rails, size_t rails_len,
                        const uint16_t *start, size_t start_len,
                        const uint16_t *goal, size_t goal_len,
                        uint64_t *plan, size_t plan_len,
                        uint64_t *parked,
                        uint64_t *value);

/*
 * The same for a small stack: for every input the answer, `value`, `parked` and what stands in `plan` are those of sejjekoru_plan. A plan of more than
 * 1,024 crossings is made twice, and crowded yards are searched without the help of levels, so it takes longer. Answers 0 to 8.
 */
uint64_t sejjekoru_plan_lean(uint64_t bays,
                             const uint16_t *rails, size_t rails_len,
                             const uint16_t *start, size_t start_len,
                             const uint16_t *goal, size_t goal_len,
                             uint64_t *plan, size_t plan_len,
                             uint64_t *parked,
                             uint64_t *value);

/* Whether the plan is legal and brings every carrier home. Answers 0 to 6, 9, 10. */
uint64_t sejjekoru_check(uint64_t bays,
                         const uint16_t *rails, size_t rails_len,
                         const uint16_t *start, size_t start_len,
                         const uint16_t *goal, size_t goal_len,
                         const uint64_t *plan, size_t plan_len,
                         uint64_t *value);

/* The slot of each crossing, from 1, to the first places of `slots`; the value is their number. Answers 0 to 6, 8, 9, 10. */
uint64_t sejjekoru_slots(uint64_t bays,
                         const uint16_t *rails, size_t rails_len,
                         const uint16_t *start, size_t start_len,
                         const uint16_t *goal, size_t goal_len,
                         const uint64_t *plan, size_t plan_len,
                         uint32_t *slots, size_t slots_len,
                         uint64_t *value);

/*
 * Reports the crossing `name` as done. `marks` has one byte for each crossing, all 0 before the first report. An accepted report changes the mark
 * of `name` from 0 to 1; any other answer changes nothing. Answers 0 to 6, 9 to 13, 100.
 */
uint64_t sejjekoru_report(uint64_t bays,
                          const uint16_t *rails, size_t rails_len,
                          const uint16_t *start, size_t start_len,
                          const uint16_t *goal, size_t goal_len,
                          const uint64_t *plan, size_t plan_len,
                          uint8_t *marks, size_t marks_len,
                          uint64_t name,
                          uint64_t *value);

/*
 * Drops the plan's there-and-back trips, and writes what is left to the first places of `out`: as legal, with the same end, no longer, in the same
 * order. The value is its length. Names are places in what is left, so `marks` is handed in and nothing may be done yet. Answers 0 to 6, 8 to 11,
 * 25.
 */
uint64_t sejjekoru_shorten(uint64_t bays,
                           const uint16_t *rails, size_t rails_len,
                           const uint16_t *start, size_t start_len,
                           const uint16_t *goal, size_t goal_len,
                           const uint64_t *plan, size_t plan_len,
                           const uint8_t *marks, size_t marks_len,
                           uint64_t *out, size_t out_len,
                           uint64_t *value);

/*
 * Where the carriers stand, by the marks: the start, and then the done crossings in plan order. Writes the bay of each carrier to the first places of
 * `at`; `*value` is their number. After reports it is where the accepted crossings left the carriers. A list with fewer places is refused with 8 and the
 * number of carriers. A refusal changes nothing. Answers 0 to 6, 8 to 11.
 */
uint64_t sejjekoru_placement(uint64_t bays,
                             const uint16_t *rails, size_t rails_len,
                             const uint16_t *start, size_t start_len,
                             const uint16_t *goal, size_t goal_len,
                             const uint64_t *plan, size_t plan_len,
                             const uint8_t *marks, size_t marks_len,
                             uint16_t *at, size_t at_len,
                             uint64_t *value);

/*
 * Opens the books of a plan, at any of its marks: builds record and lines from plan, start and marks. There is one line for each carrier, no more and
 * no fewer: else it answers 8 with the number of carriers. A refusal changes neither record nor lines. Answers 0 to 6, 8 to 11.
 */
uint64_t sejjekoru_open(uint64_t bays,
                        const uint16_t *rails, size_t rails_len,
                        const uint16_t *start, size_t start_len,
                        const uint16_t *goal, size_t goal_len,
                        const uint64_t *plan, size_t plan_len,
                        const uint8_t *marks, size_t marks_len,
                        sejjekoru_record *record,
                        sejjekoru_line *lines, size_t lines_len,
                        uint64_t *value);

/*
 * Whether record and lines are what plan, start and marks give: 0 with value 1 for yes, 0 with value 0 for no. Lines more or fewer than the carriers
 * are a no. Answers 0 to 6, 9 to 11.
 */
uint64_t sejjekoru_agrees(uint64_t bays,
                          const uint16_t *rails, size_t rails_len,
                          const uint16_t *start, size_t start_len,
                          const uint16_t *goal, size_t goal_len,
                          const uint64_t *plan, size_t plan_len,
                          const uint8_t *marks, size_t marks_len,
                          const sejjekoru_record *record,
                          const sejjekoru_line *lines, size_t lines_len,
                          uint64_t *value);

/*
 * As sejjekoru_report, on a record and lines that agree; else it answers 19. An accepted report changes the mark of `name`, the record and the line
 * of the crossing's carrier, so that all agree again; any other answer changes nothing. Answers 0 to 6, 9 to 13, 19, 100.
 */
uint64_t sejjekoru_report_billed(uint64_t bays,
                                 const uint16_t *rails, size_t rails_len,
                                 const uint16_t *start, size_t start_len,
                                 const uint16_t *goal, size_t goal_len,
                                 const uint64_t *plan, size_t plan_len,
                                 uint8_t *marks, size_t marks_len,
                                 uint64_t name,
                                 sejjekoru_record *record,
                                 sejjekoru_line *lines, size_t lines_len,
                                 uint64_t *value);

/*
 * Compares two lists of crossings, which need not be legal. `*value` is the number of equal leading crossings. The rest of the longer list from there
 * on is handed back; at equal length, the rest of the first: `*longer` is 1 if it is the first list's, 2 if the second's, 0 on refusal.
 * `differences` has 254 places, no more and no fewer, else it answers 8 with 254. Place c then holds how many crossings carrier c has in the second
 * list less how many it has in the first. 5 carries the first carrier number above 253, all of the first list before the second. A refusal leaves
 * `differences` as it was. `longer` is not NULL; `*longer` and `differences` overlap no other argument. Answers 0, 1, 5, 8.
 */
uint64_t sejjekoru_compare(const uint64_t *first, size_t first_len,
                           const uint64_t *second, size_t second_len,
                           int64_t *differences, size_t differences_len,
                           uint64_t *longer,
                           uint64_t *value);

/*
 * Plays a plan backwards: writes the reverse of `list` to the first places of `out`, that is its crossings in reverse order, from and to exchanged. It
 * takes no yard, and the list may hold any numbers. If a plan passes sejjekoru_check from start to goal, its reverse passes from goal to start.
 * The value is the length written. Answers 0, 1 (more than 65,536 crossings) and 8.
 */
uint64_t sejjekoru_reverse(const uint64_t *list, size_t list_len,
                           uint64_t *out, size_t out_len,
                           uint64_t *value);

/*
 * The functions below work on the bytes of files. Lengths are 64 bits wide, as everywhere here. A text is handed over whole, or `out` stays as it
 * was and the answer is 8 with the number of bytes needed.
 */

/*
 * All that the program prints for a map file and a scenario file: the plan, or one line with the refusal. `map_read` and `scenario_read` say whether
 * the file could be read: 0 for no, and then its bytes do not count. With `shorten` other than 0 the plan is printed without its there-and-back
 * trips. Answers 0 with the number of bytes written, also where what is printed is a refusal; or 8. No print takes more than 180,250 bytes. Of a map
 * its first 4,264 bytes decide, of a scenario its first 49,036. `out` overlaps neither file.
 */
uint64_t sejjekoru_program(const uint8_t *map, size_t map_len, uint64_t map_read,
                           const uint8_t *scenario, size_t scenario_len, uint64_t scenario_read,
                           uint64_t shorten,
                           uint8_t *out, size_t out_len,
                           uint64_t *value);

/*
 * The print of any list of crossings, legal or not: one action a line, then the cost as a comment. A line takes at most 33 bytes. Answers 0 with the
 * number of bytes written; 1 for a list over 65,536 crossings; 8. `out` does not overlap `plan`.
 */
uint64_t sejjekoru_print_plan(const uint64_t *plan, size_t plan_len,
                              uint8_t *out, size_t out_len,
                              uint64_t *value);

/*
 * Reads a map file from its bytes. `*bays` gets the number of bays, `rails` the two ends of each rail, as the other functions take them, and `value`
 * the number of ends written, which is twice the number of rails. If `rails` is too short it answers 8 with the number of ends needed: call with
 * length 0 to learn it, or lend 16,384. A refusal sets `*bays` to 0 and does not change `rails`. `bays` is not NULL and overlaps no other argument.
 * Answers 0, 8, 14.
 */
uint64_t sejjekoru_map(const uint8_t *map, size_t map_len,
                       uint64_t *bays,
                       uint16_t *rails, size_t rails_len,
                       uint64_t *value);

/*
 * Reads a scenario file from its bytes, for the map whose bytes are given with it. `start` and `goal` get the bay of each carrier, and `value` the
 * number of carriers. If either list is too short it answers 8 with the length needed; 254 is always enough. A refusal changes neither list. 14 is
 * tested before 15. Answers 0, 8, 14, 15.
 */
uint64_t sejjekoru_scenario(const uint8_t *map, size_t map_len,
                            const uint8_t *scenario, size_t scenario_len,
                            uint16_t *start, size_t start_len,
                            uint16_t *goal, size_t goal_len,
                            uint64_t *value);

/*
 * A scenario that comes over a serial link in pieces. After sejjekoru_link_end answered 0 with k, the first k places of `start` and of `goal` hold
 * the carriers. The other fields are the library's own. Any bytes are some state: the link is open if `phase` is 1, and has ended if `phase` is
 * anything else; an open link that no call left is read as far as its numbers go, with at most 254 carriers and none before the version line.
 * So a struct of zero bytes has ended, until sejjekoru_link_begin opens it. `goal` begins at byte 508, `cells` at 1,016, `own` at 9,208, `count` at
 * 9,228, `line` at 9,230, `phase` at 9,244; the whole has 9,248 bytes.
 */
typedef struct {
    uint16_t start[254];
    uint16_t goal[254];
    uint16_t cells[4096];
    uint32_t own[5];
    uint16_t count;
    uint8_t line[14];
    uint16_t phase;
    uint8_t height;
    uint8_t width;
} sejjekoru_link;

/*
 * In the three functions `link` is not NULL and overlaps no other argument.
 *
 * Opens the link for a scenario on this map, whatever the link was before. A refusal leaves the link as it was. Answers 0, 14.
 */
uint64_t sejjekoru_link_begin(const uint8_t *map, size_t map_len,
                              sejjekoru_link *link,
                              uint64_t *value);

/*
 * The next 0 to 256 bytes of the scenario. Lines may be broken anywhere. A refusal leaves the link as it was; 17 is tested before 18. The time depends
 * on the bytes of the piece alone, not on what came before. Answers 17, 18, 101.
 */
uint64_t sejjekoru_link_piece(sejjekoru_link *link,
                              const uint8_t *piece, size_t piece_len,
                              uint64_t *value);

/*
 * The scenario is over. Answers what sejjekoru_scenario answers to all pieces together: 0 with the number of carriers, or 15. Either way the link has
 * ended. 17 if it had ended before, and then it stays as it was. Answers 0, 15, 17.
 */
uint64_t sejjekoru_link_end(sejjekoru_link *link,
                            uint64_t *value);

/*
 * Reads a printed plan into the first places of `plan`: lines `(move cC bA bB)`, and comment lines that begin with `;`. Lines end in LF or CR LF; the
 * last end may be missing; an empty line breaks the layout. A number is one digit or more, leading zeros too; a carrier of 2^32 or more and a bay of
 * 2^16 or more break the layout. What sejjekoru_print_plan wrote reads back as the list it was lent. Answers 0 with the number of crossings; 26 with
 * the first bad line, from 1; 1 for more than 65,536 crossings; 8 with the number of crossings if `plan` is short. A refusal changes nothing. `plan`
 * does not overlap `file`.
 */
uint64_t sejjekoru_read_plan(const uint8_t *file, size_t file_len,
                             uint64_t *plan, size_t plan_len,
                             uint64_t *value);

/*
 * Reads reported names, one a line and nothing else, into the first places of `names`. Lines and numbers are as in sejjekoru_read_plan; a name is
 * below 2^32. Answers 0 with the number of names; 27 with the first bad line, from 1; 8 with the number of names if `names` is short. A refusal
 * changes nothing. `names` does not overlap `file`.
 */
uint64_t sejjekoru_read_reports(const uint8_t *file, size_t file_len,
                                uint64_t *names, size_t names_len,
                                uint64_t *value);

/*
 * Reads a surveyors' file (DIMACS edge file) into a yard: `*bays` is its number of bays, and its rail ends, counted from 0, go to the first places
 * of `rails` in the file's order. `*value` is the number of ends. 2048 places are enough for every yard. A refusal stores 0 in `*bays` and leaves
 * `rails` as it was; 8 carries the number of ends needed. The file may have any length. `bays` is not NULL; `*bays` and `rails` overlap no other
 * argument. Answers 0 to 3, 8, 16, tested in the order 16, 1, 2, 3, 8.
 */
uint64_t sejjekoru_read_survey(const uint8_t *file, size_t file_len,
                               uint64_t *bays,
                               uint16_t *rails, size_t rails_len,
                               uint64_t *value);

/*
 * Writes a yard as a surveyors' file to the first places of `out`: no comments, no leading zeros, LF after every line, rails in the order held.
 * `*value` is its length in bytes, at most 10256. A refusal leaves `out` as it was; 8 carries the length needed. `out` overlaps no other argument.
 * Answers 0 to 3, 8.
 */
uint64_t sejjekoru_write_survey(uint64_t bays,
                                const uint16_t *rails, size_t rails_len,
                                uint8_t *out, size_t out_len,
                                uint64_t *value);

/*
 * As sejjekoru_slots, by the edition that the caller names, 1 or 2; another number is refused before all else. Edition 1 is sejjekoru_slots, by
 * which reports and bills go on. By edition 2 a carrier may roll into a bay in the slot in which another rolls out: all crossings of a slot are done at
 * once. Answers 0 to 6, 8, 9, 10, 20.
 */
uint64_t sejjekoru_slots_of(uint64_t edition,
                            uint64_t bays,
                            const uint16_t *rails, size_t rails_len,
                            const uint16_t *start, size_t start_len,
                            const uint16_t *goal, size_t goal_len,
                            const uint64_t *plan, size_t plan_len,
                            uint32_t *slots, size_t slots_len,
                            uint64_t *value);

/*
 * All that the program prints with --timed for the bytes of a map file and a scenario file: one line `T: (move cC bA bB) [1]` for each crossing, T its
 * slot by the edition less one, then the cost; or one line `; refused N`, 20 before any file is looked at. `map_read` and `scenario_read` are 0 where
 * the file could not be read; the plan is shortened where `shorten` is not 0. The print is written to the first places of `out` whole, with its length
 * as the value, or not at all: then the answer is 8 with the bytes that it takes. Answers 0 and 8.
 */
uint64_t sejjekoru_program_timed(uint64_t edition,
                                 const uint8_t *map, size_t map_len, uint64_t map_read,
                                 const uint8_t *scenario, size_t scenario_len, uint64_t scenario_read,
                                 uint64_t shorten,
                                 uint8_t *out, size_t out_len,
                                 uint64_t *value);

#ifdef __cplusplus
}
#endif

#endif
