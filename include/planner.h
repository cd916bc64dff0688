/*
 * The depot route planner: C interface of the static library libplanner.a.
 *
 * A plan and a route sheet are runs of 12-byte records. docs/FORMAT.md has them
 * byte by byte, docs/USING.md has worked examples. Four functions:
 *
 *   planner_check_plan    is this a plan?
 *   planner_search        which belts make the cheapest permitted route?
 *   planner_check_sheet   is this sheet a permitted route of that plan?
 *   planner_archive       which bytes are the archive form of this plan?
 *
 * What they answer is proved for ALL bytes and ALL numbers: there is no input
 * that the caller has to look at first. Each function ends, and none allocates,
 * keeps a pointer, opens a file or has state of its own, so calls from several
 * threads do not disturb each other as long as none of them writes what another
 * one is lent.
 *
 * Null. Each pointer comes with a length, and says where that many bytes are. With
 * length 0 it is not looked at, and may be null; with any other it may not.
 *
 * Overlap. What is written may overlap nothing else that is lent: `out` lies apart
 * from the plan. Plan and sheet may overlap, since both are only read. Nobody else
 * may write to any lent memory during a call.
 *
 * Stack. PLANNER_STACK bytes are enough for a call of any function.
 */
#ifndef PLANNER_H
#define PLANNER_H

#include <stddef.h>
#include <stdint.h>

#ifdef __cplusplus
extern "C" {
#endif

/* The version of the planner, as the programs print it with --version. */
#define PLANNER_VERSION "1.0"

/* The longest plan and the longest sheet, in bytes. */
#define PLANNER_PLAN_MAX 24576
#define PLANNER_SHEET_MAX 3072

/* The stack of a call, in bytes: as measured, and rounded up. docs/USING.md says how. */
#define PLANNER_STACK 65536

/*
 * The numbers that the functions answer. Each function has a list of lines of the
 * refusal table. It answers the first broken line in its list, over the whole plan;
 * the numbers in a list need not rise. Whatever is refused, no lent byte has
 * changed. The lists:
 *
 *   planner_check_plan    1 to 7
 *   planner_search        1 to 8, 15, 9, 10
 *   planner_check_sheet   1 to 8, 15, 11 to 14
 *   planner_archive       1 to 7, 16
 */
enum planner_number {
    /* Yes: a plan, a route, an accepted sheet, an archive form that is written. */
    PLANNER_OK = 0,

    /* The plan has under 24 or over PLANNER_PLAN_MAX bytes, or not 12 times as many as
     * its record 0 has in f4. */
    PLANNER_WRONG_SIZE = 1,
    /* Record 0: its kind f0, the junctions f1 (1 to 256), the modes f2 (0 to 10), f5 not
     * 0, or no room for the junctions. */
    PLANNER_WRONG_HEADER = 2,
    /* A record's kind, a ranged field, or a field that has to be zero. */
    PLANNER_WRONG_RECORD = 3,
    /* A chain index that is not below the count of records, not larger than its holder,
     * or of another kind; a record reached twice or never. */
    PLANNER_WRONG_CHAIN = 4,
    /* A belt that does not lead to a higher junction. */
    PLANNER_BACKWARD_BELT = 5,
    /* A literal that names no belt, or a mode that the plan does not have. */
    PLANNER_WRONG_LITERAL = 6,
    /* Over 48 named belts. */
    PLANNER_MANY_NAMED = 7,
    /* s or t is no junction of the plan. */
    PLANNER_WRONG_ENDS = 8,
    /* pick over 2, order over 1, or budget 0. */
    PLANNER_WRONG_QUERY = 9,
    /* planner_search: out has under PLANNER_SHEET_MAX bytes. */
    PLANNER_SHORT_BUFFER = 10,
    /* The sheet is empty, over PLANNER_SHEET_MAX bytes or not in the form, names
     * something that is no belt, or sets a mode that is not there. */
    PLANNER_WRONG_SHEET = 11,
    /* The sheet's belts are no route from s to t. */
    PLANNER_NOT_A_ROUTE = 12,
    /* The sheet's cost is not the sum of its belts' costs. */
    PLANNER_WRONG_COST = 13,
    /* A rule is not met by the sheet's belts under its setting, or the setting breaks
     * the lock. */
    PLANNER_UNMET_RULE = 14,
    /* mask has a bit for a mode that the plan does not have, or values has a bit that
     * mask does not have. */
    PLANNER_WRONG_LOCK = 15,
    /* planner_archive: out has fewer bytes than the plan. */
    PLANNER_SHORT_PLAN_BUFFER = 16,

    /* planner_search: no route from s to t is permitted. */
    PLANNER_NONE = 100,
    /* planner_search: as many subproblems are opened as the budget has, and some wait. */
    PLANNER_SPENT = 101
};

/*
 * What is asked: the junctions s and t, from 1, and the lock. A lock says which
 * modes the depot sets, and how; the planner may not choose these. Bit m-1 is for
 * mode m:
 *
 *   mask      the modes that are locked; 0 locks none
 *   values    those of them that are locked on; the others are locked off
 *
 * A setting agrees with the lock if it has every locked mode as the lock has it:
 * (setting & mask) == values. A route is permitted if a setting that agrees with
 * the lock meets every rule. For the search also
 *
 *   pick      which belt a subproblem is branched on: 0 the lowest, 1 the one in
 *             most rules, 2 the lowest on the relaxed route
 *   order     which of the two subproblems that this makes is opened next: 0 the
 *             one that forbids the belt, 1 the one that requires it
 *   budget    how many subproblems may be opened, 1 or more. With k named belts
 *             2^(k+1) - 1 is always enough, whatever the lock
 *
 * minute is for later versions. Nothing looks at it yet; a caller sets it to 0.
 */
struct planner_query {
    uint64_t s, t, pick, order, budget, mask, values, minute;
};

/*
 * What planner_search and planner_archive answer. On a refusal every number but the
 * first is 0.
 *
 *   number    of enum planner_number
 *   opened    how many subproblems were opened; 0 from planner_archive
 *   length    of the sheet, or of the archive form, in bytes; 0 without one
 *   tests     for later versions, and 0 until then
 */
struct planner_reply {
    uint64_t number, opened, length, tests;
};

/*
 * Checks a plan: 0 if it is one, else 1 to 7.
 *
 *   plan, plan_len   any bytes; read
 */
uint64_t planner_check_plan(const uint8_t *plan, size_t plan_len);

/*
 * Finds the cheapest permitted route from s to t; of equally cheap ones the
 * first by its belts. Its sheet has the lowest setting that agrees with the lock
 * and meets every rule, so a mode that is locked on is on there even if no rule
 * names it. Neither pick nor order changes which route is found, or that there
 * is none, but how many subproblems are opened to know it.
 *
 *   plan, plan_len   any bytes; read
 *   query            any numbers
 *   out, out_len     where the sheet is written to: PLANNER_SHEET_MAX bytes or
 *                    more, whatever the query
 *
 * The number of the reply, and what is then in out:
 *
 *   0             a route. Its sheet stands in the first `length` bytes of out,
 *                 the bytes behind it are as they were. The cost on the sheet can
 *                 be above 2^32
 *   1 to 10, 15   refused; out is as it was
 *   100           no route is permitted; out is as it was
 *   101           the budget is spent, and opened is the budget; out is as it was.
 *                 It says nothing of routes: ask with a larger budget
 */
struct planner_reply planner_search(const uint8_t *plan, size_t plan_len,
                                    struct planner_query query, uint8_t *out, size_t out_len);

/*
 * Checks a route sheet against a plan and a lock: 0 if its belts are a route from
 * s to t, its cost is their sum, and its setting agrees with the lock and meets
 * every rule; else 1 to 8 or 11 to 15. The route need not be the cheapest, nor
 * the setting the lowest. The sheet does not say under which lock it was found.
 *
 *   plan, plan_len     any bytes; read
 *   query              of it only s, t, mask and values are looked at
 *   sheet, sheet_len   any bytes; read. The sheet and nothing behind it
 */
uint64_t planner_check_sheet(const uint8_t *plan, size_t plan_len,
                             struct planner_query query, const uint8_t *sheet, size_t sheet_len);

/*
 * Writes a plan anew in its archive form: the same junctions, modes, belts and
 * rules, with their records in one fixed order (docs/FORMAT.md). The archive forms
 * of two plans are equal bytes exactly when the plans agree in
 *
 *   the counts of junctions and modes,
 *   the list of belts in rising index: where each leaves, where it leads, its cost,
 *   the rules with their literals in order, a belt being told by its place in that
 *   list.
 *
 * The archive form of an archive form is itself. Belts get new indices, in the
 * order of their old ones. Every query has the same answer about the archive form
 * as about the plan: the same cost, setting and count, and the same belts, by their
 * new indices. So a sheet that was written for the plan does not belong to the
 * archive form: it may be refused there, or mean other belts.
 *
 *   plan, plan_len   any bytes; read
 *   out, out_len     where the archive form is written to: plan_len bytes or more,
 *                    which may not overlap the plan
 *
 * The number of the reply, and what is then in out:
 *
 *   0             written. The archive form stands in the first `length` bytes of
 *                 out, the bytes behind it are as they were. length is plan_len
 *   1 to 7, 16    refused; out is as it was
 */
struct planner_reply planner_archive(const uint8_t *plan, size_t plan_len, uint8_t *out, size_t out_len);

/* The words for a number that one of the functions answered: those of the refusal table,
 * as the programs print them. */
static inline const char *planner_message(uint64_t number)
{
    switch (number) {
    case PLANNER_OK:
        return "a plan, a route, an accepted sheet or an archive form that is written";
    case PLANNER_WRONG_SIZE:
        return "plan under 24 or over 24,576 bytes, or not 12 x f4 of record 0";
    case PLANNER_WRONG_HEADER:
        return "f0, J, M or f5 of record 0 wrong, or N < J + 1";
    case PLANNER_WRONG_RECORD:
        return "a record from 1 to J not of kind 1, one above J not of kind 2, 3 or 4, a ranged field (f2 of "
               "belts and literals, f3 of literals) or a zero field wrong";
    case PLANNER_WRONG_CHAIN:
        return "chain index not below N, not larger than its holder, or of another kind; a record above J "
               "reached twice or never";
    case PLANNER_BACKWARD_BELT:
        return "belt not leading to a higher junction";
    case PLANNER_WRONG_LITERAL:
        return "literal naming no belt record, or a mode outside 1 to M";
    case PLANNER_MANY_NAMED:
        return "over 48 named belts";
    case PLANNER_WRONG_ENDS:
        return "s or t outside 1 to J";
    case PLANNER_WRONG_QUERY:
        return "pick over 2, order over 1, budget 0";
    case PLANNER_SHORT_BUFFER:
        return "out buffer under 3,072 bytes";
    case PLANNER_WRONG_SHEET:
        return "sheet empty, over 3,072 bytes, not in the form, a step whose f2 is no belt's index, or setting "
               "2^M or more";
    case PLANNER_NOT_A_ROUTE:
        return "belts not a route from s to t";
    case PLANNER_WRONG_COST:
        return "cost differs from the sum";
    case PLANNER_UNMET_RULE:
        return "a rule not met under the sheet's setting, or a setting that breaks the lock";
    case PLANNER_WRONG_LOCK:
        return "mask with a bit at or above M, or a value with a bit outside the mask";
    case PLANNER_SHORT_PLAN_BUFFER:
        return "out buffer shorter than the plan";
    case PLANNER_NONE:
        return "no route is permitted";
    case PLANNER_SPENT:
        return "the budget is spent";
    default:
        return "unknown number";
    }
}

#ifdef __cplusplus
}
#endif

#endif
