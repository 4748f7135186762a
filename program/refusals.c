/* The table of refusals, in words. */
#include "refusals.h"

#include <stddef.h>

static const refusal table[] = {
    {1, "size",
     "A yard must have 2 to 256 bays and at most 1,024 rails, start and goal must list the same carriers, and a plan that is handed in has at most "
     "65,536 crossings.",
     NULL},
    {2, "rail", "A rail must join two different bays of the yard, and no two bays may be joined twice.", "the first bad rail, from 0"},
    {3, "apart", "Every bay must be reachable from bay 0 over rails.", "the lowest bay that is not"},
    {4, "crowd", "Two bays must stay empty: there may be at most two carriers fewer than bays.", NULL},
    {5, "start", "Every carrier must start in a bay of the yard, and no two in the same.", "the first bad carrier"},
    {6, "goal", "Every carrier's goal must be a bay of the yard, and no two may have the same.", "the first bad carrier"},
    {7, "stopped",
     "The planning procedure found no next step for a carrier. Another way to the goal may exist: the procedure does not search for all of them.",
     "the carrier that could not step"},
    {8, "room", "The result is longer than the room for it. No plan may have more than 65,536 crossings.", "the length needed"},
    {9, "crossing",
     "In a plan a carrier may only cross from the bay where it stands, over a rail, into an empty bay.",
     "the name of the first crossing that does not, from 0"},
    {10, "goal missed", "At the end of a plan every carrier must be at its goal.", "the lowest carrier that is not"},
    {11, "marks",
     "There must be one mark, 0 or 1, for each crossing of the plan, and a crossing may be marked done only after all earlier ones that it depends on.",
     NULL},
    {12, "unknown", "The reported name must be that of a crossing of the plan.", NULL},
    {13, "early", "A crossing may be reported only after all earlier ones that it depends on.", "the lowest of these that is not done"},
    {14, "map", "The map file must keep its layout.", "the first bad line, from 1; 0 if the file cannot be read"},
    {15, "scenario", "The scenario file must keep its layout and fit the map.", "the first bad line, from 1; 0 if the file cannot be read"},
    {16, "survey", "The survey file must keep its layout.", "the first bad line, from 1; 0 if the file cannot be read"},
    {17, "ended", "Nothing may follow once a scenario that comes in pieces has ended.", NULL},
    {18, "long piece", "A piece of a scenario has at most 256 bytes.", NULL},
    {19, "disagrees", "Record and account lines must be what plan, start and marks give.", NULL},
    {20, "edition", "There are two editions of slots: 1 and 2.", NULL},
    {25, "begun", "A plan can be shortened only before any of its crossings is done.", NULL},
    {26, "plan file", "The plan file must keep the layout that plans are printed in.", "the first bad line, from 1; 0 if the file cannot be read"},
    {27, "reports file", "The reports file must have one name a line.", "the first bad line, from 1; 0 if the file cannot be read"},
};

const refusal *refusal_next(const refusal *row)
{
    row = row == NULL ? table : row + 1;
    return row < table + sizeof table / sizeof *table ? row : NULL;
}

const refusal *refusal_row(uint64_t number)
{
    const refusal *row;
    for (row = refusal_next(NULL); row != NULL; row = refusal_next(row))
        if (row->number == number)
            return row;
    return NULL;
}
