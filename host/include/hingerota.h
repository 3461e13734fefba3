/* Hingerota: two proved batch schedulers for a machine of up to 1,024 nodes, for programs in C and
 * C++ on x86-64 Linux.
 *
 *   cc day.c $(pkg-config --cflags --libs hingerota)           where it is installed
 *   cc -Ihost/include day.c target/staticlib/libhingerota.a    where it was built
 *
 * THE WORDS
 *   - A desk is the scheduler of one machine. A Promise Desk does conservative backfilling, and a
 *     Loose Desk does EASY backfilling.
 *   - A job is submitted with a number of nodes and an estimate in minutes, and gets a ticket. The
 *     estimate is the most that it runs, and the plan goes by it. The least is the shortest time
 *     that it runs, 0 if nothing is known.
 *   - After its run its nodes stay taken for the minutes of cleanup that the desk was opened with:
 *     they are wiped before another job gets them.
 *   - Two tenants, the houses A and B, use a desk. It has places for 64 live jobs, waiting,
 *     running and in cleanup. Each tenant has a quota of these places.
 *   - A desk can be written out as lines of text and read back, to go on after the power was off,
 *     on another machine or in another program.
 *
 * THE PREMISE. Every call except hingerota_check is proved for desks that meet it, and says
 * nothing of others:
 *   - Only hingerota_open_promise, hingerota_open_loose or hingerota_restore made the desk, and
 *     only calls of this header changed it. A desk that comes from elsewhere may be used if
 *     hingerota_check gives 0: it does so exactly if the desk meets the premise.
 *   - Nothing else writes to the desk, and no two calls use it at the same time. You may read it
 *     between calls. A copy of a desk is another desk.
 *   - Each pointer handed to a call points to a whole desk, to `room` points, blocks or bytes, or
 *     to a text of `bytes` bytes. No two of them overlap. A pointer is never NULL, not even if
 *     `room` or `bytes` is 0.
 *
 * WHAT IS PROVED. `docs/CLAIMS.md` names every theorem; these are the main ones.
 *
 * Of each call:
 *   - It gives exactly what its definition says: answer, desk, points, blocks, page, text and
 *     sentences. A refused call changes nothing: `host_advanced_keeps` in
 *     `crates/hingerota/proofs/Chain.antt`, `refused_gives` in
 *     `crates/lent_calls/specs/CallContract.antt`.
 *   - Openings, readings and calls, refused ones too, hand back a desk that meets the premise:
 *     `opened_handed`, `call_handed` in `crates/hingerota/proofs/DeskPremise.antt`.
 *
 * Of every list of calls (`demand3` in `crates/guarantees/specs/Proof.antt`):
 *   - A job of a Promise Desk starts no later than its promise.
 *   - A job of a Loose Desk starts no later than its bound: the minute of its submission, plus
 *     10,080 and the cleanup for each job that waited then and for itself.
 *   - Every head of a Loose Desk gets a forecast and starts no later.
 *   - A promise, a bound and a forecast bind until the job is withdrawn. A job can be withdrawn
 *     only before these minutes. A withdrawn job never starts.
 *   - The jobs that run or are in cleanup never hold more nodes than the machine has.
 *   - A tenant never has more live jobs than its quota. Minutes depend on the jobs of both
 *     tenants, and are kept for both.
 *   - After any call no waiting job of a Promise Desk could begin earlier than planned with all
 *     others where they are: `no_gaps` in `crates/guarantees/specs/NoGaps.antt`.
 *   - A job never starts before a minute that hingerota_earliest_start gave for it, whatever calls
 *     follow, unless its order is corrected: `starts_no_sooner` in
 *     `crates/guarantees/specs/EarliestStart.antt`.
 *   - On a Promise Desk a longer estimate never gets an earlier minute. So a job is promised the
 *     minute asked for, or an earlier one, exactly up to the estimate that
 *     hingerota_longest_estimate gives: `in_time_to`, `in_time_only` in
 *     `crates/conservative_laws/specs/LongestEstimate.antt`.
 *   - The index agrees with the profile. The search by the index finds the same minute as a search
 *     through every point: `beside_index` in `crates/conservative_kept/specs/Beside.antt`.
 *   - Minutes that pass at once count as so many ticks: `host_advanced_keeps` in
 *     `crates/hingerota/proofs/Chain.antt`.
 *
 * Of corrected orders (`demand3_with_amendments` in `crates/amend_laws/specs/Steps.antt`):
 *   - An order that is corrected in place has the nodes and the least that were asked last. Its
 *     promise, its bound and its forecast still bind.
 *   - One that grows counts as a withdrawal of the old ticket and a submission under the new one.
 *   - A refused correction counts as a refused call.
 *
 * Of a desk that is read back, and of one for which hingerota_check gives 0:
 *   - Every desk that calls made is accepted from its own lines and comes back the same:
 *     `made_comes_back` in `crates/guarantees/specs/Restored.antt`.
 *   - Two different desks never have the same lines: `texts_differ` in
 *     `crates/checkpoint_laws/specs/RoundTrip.antt`.
 *   - Lines that no calls made may be accepted too. A list of calls may begin with any desk read
 *     back, and its jobs then count as the lines give them. The promise, the bound and the
 *     forecast that the lines give a waiting job are kept, and all of the above holds.
 *   - There is one exception, for lines that no calls made: that no waiting job could begin
 *     earlier holds from the first early end, withdrawal or correction on: `no_gaps_once` in
 *     `crates/guarantees/specs/Restored.antt`.
 *
 * Of a desk that changes its kind:
 *   - A list of calls on a Loose Desk ends with hingerota_migrate. Another begins with the Promise
 *     Desk that it leaves, whose jobs count as it has them. The promises that the change gives are
 *     kept, like those of submissions. All of the above holds, also that no waiting job could
 *     begin earlier.
 *   - The promise of the first waiting job is no later than its forecast was, and every promise is
 *     no later than the job's bound was: `promised_in_forecast`, `promised_in_bound` in
 *     `crates/migration_laws/specs/Migrated.antt`.
 */
#ifndef HINGEROTA_H
#define HINGEROTA_H

#include <stddef.h>
#include <stdint.h>

#ifdef __cplusplus
extern "C" {
#endif

enum {
    HINGEROTA_MOST_NODES = 1024,
    HINGEROTA_LAST_MINUTE = 1000000,
    HINGEROTA_LONGEST_ESTIMATE = 10080,
    HINGEROTA_LONGEST_CLEANUP = 30,
    HINGEROTA_LIVE_JOBS = 64,
    HINGEROTA_LAST_TICKET = 999999,
    HINGEROTA_MOST_POINTS = 129, /* a list of this length is never too short */
    HINGEROTA_MOST_BLOCKS = 9,   /* nor is a list of this many blocks */
    HINGEROTA_BLOCK_POINTS = 16, /* the points of a block; the last may have fewer */
    HINGEROTA_PAGE_LINES = 66,   /* of a status page */
    HINGEROTA_PAGE_COLUMNS = 72, /* of each line; byte 10 follows */
    HINGEROTA_PAGE_BYTES = 4818, /* of the whole page */
    HINGEROTA_TEXT_BYTES = 7375, /* a text of this length is never too short */
    HINGEROTA_WHY_BYTES = 74752  /* nor is one of this length for the sentences of hingerota_why */
};

/* Why a call is refused. A refused call gives its number and nothing else, and leaves the desk and
 * what is lent as they were. 4 is no longer given: 15 stands in its place. 8 is no longer given: a
 * profile never has more than 129 points. 9 and 16 to 18 are never given to a host: only lines of
 * scripts, sheets and seasons are refused by these. */
enum {
    HINGEROTA_TAKEN = 0,
    /* an opening outside 1 to 1,024; a job with 0, or more than the machine has */
    HINGEROTA_NODES_OUT_OF_RANGE = 1,
    /* an estimate, a wait or an advance outside 1 to 10,080 */
    HINGEROTA_MINUTES_OUT_OF_RANGE = 2,
    /* a first minute above 1,000,000, or a first ticket outside 1 to 999,999 */
    HINGEROTA_OPENING_OUT_OF_RANGE = 3,
    /* ticket 999,999 has been given */
    HINGEROTA_NO_TICKET_LEFT = 5,
    /* a job whose nodes could be taken after minute 1,000,000; a tick, a wait or an advance past
     * it */
    HINGEROTA_PAST_LAST_MINUTE = 6,
    /* no running job has the ticket; a job in cleanup does not run */
    HINGEROTA_NOT_RUNNING = 7,
    HINGEROTA_LACKS_THE_FORM = 9,
    /* the points, the blocks, the page, the text or the sentences do not fit into what is lent */
    HINGEROTA_TOO_SHORT = 10,
    /* no waiting job has the ticket */
    HINGEROTA_NOT_WAITING = 11,
    /* an opening with a cleanup above 30 */
    HINGEROTA_CLEANUP_OUT_OF_RANGE = 12,
    /* an opening with quotas that do not sum to 64, or with one of 0 */
    HINGEROTA_QUOTAS_OUT_OF_RANGE = 13,
    /* a job of neither tenant */
    HINGEROTA_UNKNOWN_TENANT = 14,
    /* the tenant has as many live jobs as its quota */
    HINGEROTA_QUOTA_FULL = 15,
    HINGEROTA_LONGEST_OUT_OF_RANGE = 16,
    HINGEROTA_ARRIVES_TOO_EARLY = 17,
    HINGEROTA_NO_RUN_LENGTH = 18,
    /* a job whose least is above its estimate */
    HINGEROTA_LEAST_ABOVE_MOST = 19,
    /* a running job that would be over before its start + its least */
    HINGEROTA_BEFORE_LEAST = 20,
    /* an inquiry whose minute is before the clock */
    HINGEROTA_WANTED_MINUTE_PAST = 21,
    /* a line of the text lacks the form or is unclosed, or there is none */
    HINGEROTA_TEXT_MALFORMED = 22,
    /* one of the conditions of a desk is broken, in a text or in a desk's place */
    HINGEROTA_TEXT_REJECTED = 23
};

/* What the number of a refusal says. */
static inline const char *hingerota_reason(uint32_t refusal)
{
    switch (refusal) {
    case HINGEROTA_TAKEN:
        return "taken";
    case HINGEROTA_NODES_OUT_OF_RANGE:
        return "nodes out of range";
    case HINGEROTA_MINUTES_OUT_OF_RANGE:
        return "an estimate or a wait outside 1 to 10,080";
    case HINGEROTA_OPENING_OUT_OF_RANGE:
        return "opened past minute 1,000,000, or with a first ticket outside 1 to 999,999";
    case HINGEROTA_NO_TICKET_LEFT:
        return "ticket 999,999 has been given";
    case HINGEROTA_PAST_LAST_MINUTE:
        return "past the last minute, 1,000,000";
    case HINGEROTA_NOT_RUNNING:
        return "the ticket is not running";
    case HINGEROTA_LACKS_THE_FORM:
        return "the line lacks the form";
    case HINGEROTA_TOO_SHORT:
        return "the list, the page or the text is too short";
    case HINGEROTA_NOT_WAITING:
        return "the ticket is not waiting";
    case HINGEROTA_CLEANUP_OUT_OF_RANGE:
        return "opened with a cleanup above 30";
    case HINGEROTA_QUOTAS_OUT_OF_RANGE:
        return "opened with places that are not 64 together, or with none for a house";
    case HINGEROTA_UNKNOWN_TENANT:
        return "neither house A nor house B";
    case HINGEROTA_QUOTA_FULL:
        return "the house's places are all live";
    case HINGEROTA_LONGEST_OUT_OF_RANGE:
        return "a season with a longest estimate outside 1 to 10,080";
    case HINGEROTA_ARRIVES_TOO_EARLY:
        return "the line arrives before one above it";
    case HINGEROTA_NO_RUN_LENGTH:
        return "an actual run length of 0";
    case HINGEROTA_LEAST_ABOVE_MOST:
        return "the least is above the most";
    case HINGEROTA_BEFORE_LEAST:
        return "the end is before the least";
    case HINGEROTA_WANTED_MINUTE_PAST:
        return "the minute asked for is past";
    case HINGEROTA_TEXT_MALFORMED:
        return "a line lacks the form or is unclosed, or there is none";
    case HINGEROTA_TEXT_REJECTED:
        return "one of the conditions of a desk is broken";
    default:
        return "no such refusal";
    }
}

/* Of a desk. */
enum { HINGEROTA_PROMISE = 0, HINGEROTA_LOOSE = 1 };

/* Of a record. */
enum {
    HINGEROTA_UNUSED = 0,
    HINGEROTA_WAITING = 1,
    HINGEROTA_RUNNING = 2,
    HINGEROTA_CLEANUP = 3
};

/* Their letters. */
enum { HINGEROTA_TENANT_A = 65, HINGEROTA_TENANT_B = 66 };

/* What a desk is opened with. */
typedef struct {
    uint32_t nodes;   /* of the machine */
    uint32_t minute;  /* at which its clock stands */
    uint32_t ticket;  /* the first to be given */
    uint32_t cleanup; /* for how many minutes nodes stay taken after a run, 0 to 30 */
    uint32_t quota_a; /* how many live jobs A may have, at least 1 */
    uint32_t quota_b; /* how many B may have; both sum to 64 */
} hingerota_opening; /* 24 bytes */

/* What is asked for a job. */
typedef struct {
    uint32_t nodes;
    uint32_t estimate; /* the most that it runs, in minutes */
    uint32_t tenant;
    uint32_t least;    /* the least that it runs, at most the estimate */
} hingerota_order; /* 16 bytes */

/* A corrected order for a waiting job. */
typedef struct {
    uint32_t ticket;   /* of the job */
    uint32_t nodes;
    uint32_t estimate; /* the most that it runs, in minutes */
    uint32_t least;    /* the least that it runs, at most the estimate */
} hingerota_amendment; /* 16 bytes */

/* The question how long a job may be to start by this minute, asked before it is submitted. */
typedef struct {
    uint32_t nodes;
    uint32_t tenant;
    uint32_t minute; /* the wanted minute */
} hingerota_inquiry; /* 12 bytes */

/* A live job, or an unused place, which is all 0.
 *   - `start` is the minute in which the job started; on a Promise Desk it is the planned start
 *     while the job waits. On a Loose Desk `promise`, and the start of a waiting job, are 0.
 *   - A job in cleanup has ended and is still live; `end` is the minute in which its run ended,
 *     and 0 in every other record.
 *   - On a Loose Desk a record keeps `submitted`, `rank` and `forecast` until it leaves; its bound
 *     is `submitted` + `rank` x (10,080 + cleanup). On a Promise Desk the three are 0. */
typedef struct {
    uint32_t ticket;
    uint16_t nodes;
    uint16_t estimate;
    uint32_t state;
    uint16_t tenant;
    uint16_t least; /* as ordered, in every state */
    uint32_t start;
    uint32_t promise;
    uint32_t end;
    uint32_t submitted; /* the minute of its submission */
    uint32_t rank;      /* one more than the number of jobs that waited just before it, 1 to 64 */
    uint32_t forecast;  /* 0 if it has none */
} hingerota_record; /* 40 bytes */

/* The live jobs stand first, in the order of their tickets. */
typedef struct {
    uint32_t kind;
    uint32_t nodes;
    uint32_t cleanup; /* as it was opened, like the quotas */
    uint32_t quota_a;
    uint32_t quota_b;
    uint32_t clock;
    uint32_t next; /* the next ticket */
    hingerota_record jobs[64];
} hingerota_desk; /* 2,588 bytes */

/* Tickets; the places past the count are 0. */
typedef struct {
    size_t count;
    uint32_t list[64];
} hingerota_tickets; /* 264 bytes */

/* What a call does not give is 0. */
typedef struct {
    uint32_t refusal;
    uint32_t ticket;   /* of a submission or a correction that is accepted */
    uint32_t promise;  /* on a Promise Desk, the minute by which it starts */
    uint32_t reads;    /* how many points of the profile were read to find it (see hingerota_index);
                        * 0 for a correction in place */
    uint32_t head;     /* on a Loose Desk, the first waiting job, if it was not the first before */
    uint32_t forecast; /* the minute by which the head starts */
    hingerota_tickets ended;   /* ascending */
    hingerota_tickets started; /* in the order of starting; on a Promise Desk, ascending */
} hingerota_answer; /* 552 bytes */

/* What minutes that pass at once give. */
typedef struct {
    hingerota_answer answer; /* to the last of the minutes that have passed */
    uint32_t minutes;        /* how many have passed; 0 if the call is refused */
} hingerota_advanced; /* 560 bytes */

/* What an opening, or a text that is read back, gives. */
typedef struct {
    uint32_t refusal;
    hingerota_desk desk;
} hingerota_opened; /* 2,592 bytes */

/* `free` nodes are free from `minute` on. */
typedef struct {
    uint32_t minute;
    uint32_t free;
} hingerota_point; /* 8 bytes */

/* The fewest and the most free nodes of a block of points. */
typedef struct {
    uint32_t fewest;
    uint32_t most;
} hingerota_block; /* 8 bytes */

typedef struct {
    uint32_t refusal;
    size_t count;
} hingerota_shown; /* 16 bytes */

typedef struct {
    uint32_t refusal;
    uint32_t minute; /* 0 if it is refused */
} hingerota_earliest; /* 8 bytes */

typedef struct {
    uint32_t refusal;
    uint32_t estimate; /* 1 to 10,080; 0 if there is none, if it is refused, and on a Loose Desk */
} hingerota_longest; /* 8 bytes */

/* Gives an empty desk, as the opening says: a Promise Desk or a Loose Desk.
 * Refused by 1, 3, 12 or 13, the first that applies. The desk then has the same kind, 1 node,
 * minute 0, ticket 1, cleanup 0 and quotas of 63 and 1. */
hingerota_opened hingerota_open_promise(hingerota_opening opening);
hingerota_opened hingerota_open_loose(hingerota_opening opening);

/* A job is submitted. It holds its nodes for its estimate rounded up: to 120 minutes by fives, to
 * 480 by tens, above by thirties. Then the desk ends it, and its nodes are free again after the
 * cleanup. If it starts at once, its ticket stands in `started`.
 * Refused by 14, 1, 2, 19, 15, 5 or 6, the first of these that applies. */
hingerota_answer hingerota_submit(hingerota_desk *d, hingerota_order order);

/* A running job is over before its time. It stands in `ended`, and the jobs that start now stand
 * in `started`. Its nodes are free again after the cleanup. The waiting jobs of a Promise Desk
 * then move forward one at a time, in ticket order, never back, until none can move.
 * Refused by 7 or 20, the first that applies. */
hingerota_answer hingerota_complete(hingerota_desk *d, uint32_t ticket);

/* A waiting job is withdrawn. It leaves without having started, and stands in neither list. The
 * others move as after an early end, and those that start now stand in `started`.
 * Refused by 11. */
hingerota_answer hingerota_cancel(hingerota_desk *d, uint32_t ticket);

/* The order of a waiting job is corrected; its tenant stays. There are two ways.
 *   - In place, if neither its nodes nor its estimate rounded up grow, also if nothing changes at
 *     all. The job waits on under its ticket, with the nodes, the estimate and the least of the
 *     correction. It keeps its promise, or on a Loose Desk `submitted`, `rank` and `forecast`.
 *     Then all waiting jobs, this one too, move as after a withdrawal, and none gets a later
 *     minute. Those that start now stand in `started`. `ticket` is the job's own, and `promise`
 *     the one that it keeps.
 *   - Anew, if either grows. The job is withdrawn. Then its order is submitted, as the last, with
 *     a new ticket, on the desk as the withdrawal leaves it. `ticket`, `promise` and `reads` are
 *     those of that submission. `started` has the jobs that the withdrawal starts, then the new
 *     ticket if it starts at once. `head` is the head that the withdrawal makes, otherwise the one
 *     that the submission makes.
 * Refused by 11, 1, 2 or 19, the first of these that applies. If either grows, it can then be
 * refused by 5 or 6, as that submission is. After a refusal the job waits on as it was, and no job
 * has moved. */
hingerota_answer hingerota_amend(hingerota_desk *d, hingerota_amendment amendment);

/* One minute passes. Jobs whose time is over end, jobs whose cleanup is over leave, and jobs whose
 * turn has come start. Nodes that come free serve a start in that same minute. A job that leaves
 * after its cleanup is not in `ended`: it stood there before.
 * Refused by 6, at minute 1,000,000. */
hingerota_answer hingerota_tick(hingerota_desk *d);

/* So many minutes pass at once, or fewer: up to the first in which something is due. That is so of
 * a minute in which a run ends, nodes are free again after a cleanup, or a job of a Promise Desk
 * starts as planned. It is what so many ticks would give, without their cost: `answer` is that of
 * the last minute that has passed, and every minute before it would have answered nothing.
 * `minutes` says how many have passed. To let all of them pass, call it again with those that are
 * left. In a list of calls it counts as so many ticks.
 * Refused by 2 or 6, the first that applies, as a wait of `minutes` is (see
 * hingerota_wait_refusal), also where something is due before the last of them: then no minute has
 * passed, and the call counts as one refused call. */
hingerota_advanced hingerota_advance(hingerota_desk *d, uint32_t minutes);

/* A Loose Desk becomes a Promise Desk while jobs run; a Promise Desk stays as it is. The call is
 * never refused, and no job ends or starts.
 *   - Jobs that run or are in cleanup keep their starts, which become their promises, and their
 *     ends.
 *   - Waiting jobs are planned one after another, in ticket order, like submissions to a Promise
 *     Desk. Each gets the smallest minute from which its nodes are free for its estimate rounded
 *     up and the cleanup, beside the jobs that hold nodes and those planned before it. That minute
 *     is its start and its promise. The first is promised the minute at which its nodes are free.
 *   - Every planned job gives its nodes back by minute 1,000,000.
 *   - `submitted`, `rank` and `forecast` become 0. Everything else, the clock and the next ticket
 *     too, stays as it was. */
void hingerota_migrate(hingerota_desk *d);

/* The free nodes of a Promise Desk from now on, counting waiting jobs at their planned starts. It
 * writes `count` points into `points`, which has places for `room`: first now, then each later
 * minute whose free nodes differ from those of the minute before. The places past the last point
 * keep what they held. A Loose Desk has no profile: nothing is refused and nothing written.
 * Refused by 10. */
hingerota_shown hingerota_profile(const hingerota_desk *d, hingerota_point *points, size_t room);

/* The index of that profile. It writes `count` blocks into `blocks`, which has places for `room`:
 * one for each 16 points in their order; the last block may have fewer. The places past the last
 * block keep what they held. A Loose Desk has no index: nothing is refused and nothing written.
 * An accepted submission looks at the blocks that begin before its nodes are free again. If a
 * block's fewest is below its nodes and its most is not, it reads all points of that block, each
 * once, also those after that minute; `reads` says how many.
 * Refused by 10. */
hingerota_shown hingerota_index(const hingerota_desk *d, hingerota_block *blocks, size_t room);

/* The number by which a wait of `minutes` is refused, 2 or 6, the first that applies. 0 means that
 * it is not refused: then it is that number of ticks, which hingerota_advance makes at once. The
 * desk is only read. */
uint32_t hingerota_wait_refusal(const hingerota_desk *d, uint32_t minutes);

/* The earliest minute at which a waiting job can start: the smallest minute, now or later, at
 * which its nodes would be free if no other job waited and every running job were over at its
 * least. That is at its start + its least, or now if that is past, and its cleanup follows. The
 * job never starts before that minute, whatever calls follow, unless its order is corrected: then
 * ask again. The desk, of either kind, is only read.
 * Refused by 11. */
hingerota_earliest hingerota_earliest_start(const hingerota_desk *d, uint32_t ticket);

/* How long may a job of these nodes and this tenant be and still start by then? On a Promise Desk
 * the answer is the largest estimate with which its submission would now be promised the wanted
 * minute or an earlier one. It is 0 if there is none: every estimate that would be accepted gets a
 * later minute. So that estimate and every shorter one is promised no later minute, and a longer
 * one is promised a later minute or refused. A Loose Desk promises nothing: nothing is refused,
 * and the estimate is 0. The desk is only read.
 * Refused by 21, and then by what refuses a submission of estimate 1: 14, 1, 15, 5 or 6, the first
 * of these that applies. */
hingerota_longest hingerota_longest_estimate(const hingerota_desk *d, hingerota_inquiry inquiry);

/* The status page of a desk of either kind, for people to read. It writes HINGEROTA_PAGE_BYTES
 * bytes into `page`, which has places for `room`; the bytes past them keep what they held. Each of
 * the 66 lines has 72 characters, and byte 10 closes it. Text stands at the right end of its
 * columns, and everything else is spaces.
 *   - The first line has the machine's nodes, the clock and the next ticket, in 8 columns each.
 *   - Then each live job has a line, in ticket order: ticket 7 columns, the letter of its tenant
 *     2, nodes 5, start 8, promise 8, the estimate rounded up 6, `waiting`, `running` or
 *     `clearing` (in cleanup) 10.
 *   - On a Loose Desk the promise, and the start of a waiting job, is `-`. No number is ever wider
 *     than its columns.
 * The desk is only read. Refused by 10. */
hingerota_shown hingerota_status_page(const hingerota_desk *d, uint8_t *page, size_t room);

/* Why jobs of a Promise Desk wait, for people to read: one sentence per waiting job, in ticket
 * order. It writes `count` bytes into `text`, which has places for `room`; the bytes past them
 * keep what they held. The exact length is enough, and HINGEROTA_WHY_BYTES always are.
 *   - A sentence is `stack 3 waits, minute 29, 2 with 8` and byte 10. It has the job's ticket and
 *     the minute just before its start. Then it has, in ticket order, each other job that holds
 *     nodes in that minute, by a run, a cleanup or a plan, with its nodes.
 *   - On a desk read back there may be no such job: then the sentence ends with the minute. If no
 *     waiting job could begin earlier, the nodes of these jobs and its own sum to more than the
 *     machine has.
 *   - Two different findings never have the same sentence. On a Loose Desk, and if no job waits,
 *     there is no sentence.
 * The desk is only read. Refused by 10, with nothing written. The call takes some 86 kB of stack.
 */
hingerota_shown hingerota_why(const hingerota_desk *d, uint8_t *text, size_t room);

/* A desk of either kind is written out. Its lines, `count` bytes, go into `text`, which has places
 * for `room`; the bytes past them keep what they held. The exact length is enough, and
 * HINGEROTA_TEXT_BYTES always are. One tab parts fields, byte 10 closes lines, and numbers are
 * decimal.
 *   - The first line has the word `desk`, `promise` or `loose`, nodes, clock, next ticket,
 *     cleanup, quota of A and quota of B.
 *   - Then each live job has a line, in ticket order: ticket, nodes, estimate, `w` (waiting), `r`
 *     (running) or `c` (in cleanup), start, promise, end, the letter of its tenant, least,
 *     submitted, rank and forecast.
 * The desk is only read. Refused by 10, with nothing written. */
hingerota_shown hingerota_checkpoint(const hingerota_desk *d, uint8_t *text, size_t room);

/* The desk that a text of such lines gives. Refused by 22 if a line lacks the form or is unclosed,
 * or if there is none: fields are counted exactly, a number has 1 to 7 digits and no leading zero
 * but 0 itself, and a tenant is one capital letter. If all lines have the form, it is refused by
 * 23 unless it meets each of these conditions:
 *   - tickets ascend, from 1 or more, and lie below the next, which is at most 1,000,000;
 *   - numbers are in their ranges, minutes in 0 to 1,000,000; tenants are A and B; the quotas are
 *     at least 1 and sum to 64; no tenant has more live jobs than its quota; no least is above its
 *     estimate; values that a record lacks are 0;
 *   - running jobs started by now and end later; those in cleanup started, then ended, by now, and
 *     their nodes are not free yet;
 *   - in every minute the machine has the nodes of the jobs that hold them then, by a run, a
 *     cleanup or a plan; every such hold ends by minute 1,000,000;
 *   - Promise Desk: no start is after its promise, and the starts of waiting jobs are after now;
 *   - Loose Desk: no waiting job can start now. The forecast of the first is not before the minute
 *     at which its nodes are free, and no other waiting job has one. Every job was submitted by
 *     now, with a rank of 1 to 64. A waiting job that starts at its bound gives its nodes back by
 *     minute 1,000,000. Its bound is not before the minute at which the nodes of the first are
 *     free, + (10,080 + cleanup) for each job that waits before it.
 * A refused reading hands back an empty desk of the Promise kind, with 1 node, minute 0, ticket 1,
 * cleanup 0 and quotas of 63 and 1. */
hingerota_opened hingerota_restore(const uint8_t *text, size_t bytes);

/* Whether a desk meets the premise, whatever bytes stand in its place: 0 exactly if it does,
 * otherwise 23. It does if its numbers are those of a desk that meets the conditions above. A
 * kind, a state or a letter that this header does not name gives 23. So do a live record after an
 * unused one, and an unused record that is not all 0. The desk is only read. */
uint32_t hingerota_check(const hingerota_desk *d);

#ifdef __cplusplus
}
#endif

#endif
