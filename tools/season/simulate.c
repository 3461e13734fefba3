/* simulate [--single-pass] [FROM] <LIST: an event-driven simulation of both schedulers, which prints what the season program prints.

   It is written from documents 01, 02 and 001 alone, to test the season program and the tools, and shares nothing with either. It goes from event
   to event and not from minute to minute. The list has to have the form: lines that would be refused by 9, and a refused first line, are not
   looked for. With FROM it prints instead how many jobs of the lines from FROM on (the first is 0) were accepted, and the sums of their waits and
   slowdowns. --single-pass moves jobs once after an early end, as documents 001 and 01 have it, and not until none moves (document 02, No. 10). */
#include <stdio.h>
#include <stdlib.h>
#include <string.h>

enum { LAST_MINUTE = 1000000, PLACES = 63, LINES = 4096, POINTS = 2 * PLACES + 3, NEVER = 1 << 30 };
enum state { WAITING, RUNNING, CLEARING, GONE };
struct job { enum state state; long line, arrival, nodes, held, run, start, end; };

static struct job jobs[LINES]; /* job i has ticket i + 1 */
static struct job *live[PLACES]; /* in the order of tickets */
static int taken, lives, conservative, single_pass;
static long rack, clearing, longest, now, from = -1, counted, waits, slowdowns;

static long held_time(long estimate) {
    long width = estimate <= 120 ? 5 : estimate <= 480 ? 10 : 30;
    return (estimate + width - 1) / width * width;
}

/* The minute from which the nodes of a job that has them are free. */
static long until(const struct job *j) { return clearing + (j->state == CLEARING ? j->end : j->start + j->held); }

/* The profile: free_nodes[i] are free from minute at[i] to at[i + 1]. */
static long at[POINTS], free_nodes[POINTS];
static int points;

static int point(long minute) {
    int i = points;
    while (at[i - 1] > minute) i--;
    if (at[i - 1] == minute) return i - 1;
    memmove(at + i + 1, at + i, (points - i) * sizeof *at);
    memmove(free_nodes + i + 1, free_nodes + i, (points - i) * sizeof *at);
    at[i] = minute, free_nodes[i] = free_nodes[i - 1], points++;
    return i;
}

static void hold(long first, long end, long nodes) {
    for (int i = point(first), j = point(end); i < j; i++) free_nodes[i] -= nodes;
}

static void draw_profile(void) {
    points = 1, at[0] = now, free_nodes[0] = rack;
    for (int i = 0; i < lives; i++) hold(live[i]->state == WAITING ? live[i]->start : now, until(live[i]), live[i]->nodes);
}

/* Document 001, 2.1: the first anchor point from which the nodes stay free. The last point has them all. */
static long anchor(const struct job *j) {
    for (int first = 0, i = 0;; i++) {
        if (i == points || at[i] >= at[first] + j->held + clearing) return at[first];
        if (free_nodes[i] < j->nodes) first = i + 1;
    }
}

static void plan(struct job *j) {
    j->start = anchor(j);
    if (j->start == now) j->state = RUNNING;
    hold(j->start, until(j), j->nodes);
}

/* After an early end each waiting job is taken out of the plan and put in again. At worst it finds the place it had, so that none is delayed. */
static void compress(void) {
    int moved = 1;
    while (moved) {
        moved = 0;
        for (int i = 0; i < lives; i++) {
            struct job *j = live[i];
            if (j->state != WAITING) continue;
            long before = j->start;
            draw_profile();
            hold(before, until(j), -j->nodes);
            plan(j);
            if (j->start < before && !single_pass) moved = 1;
        }
    }
}

/* Document 001, 2.2: the job that EASY starts next, or none. */
static struct job *next_to_start(void) {
    long idle = rack, shadow = NEVER, extra = 0;
    struct job *head = NULL;
    for (int i = 0; i < lives; i++) {
        if (live[i]->state != WAITING) idle -= live[i]->nodes;
        else if (!head) head = live[i];
    }
    if (!head || head->nodes <= idle) return head;
    for (int i = 0; i < lives; i++) {
        if (live[i]->state == WAITING || until(live[i]) >= shadow) continue;
        long then = idle;
        for (int k = 0; k < lives; k++)
            if (live[k]->state != WAITING && until(live[k]) <= until(live[i])) then += live[k]->nodes;
        if (then >= head->nodes) shadow = until(live[i]), extra = then - head->nodes;
    }
    for (int i = 0; i < lives; i++) {
        struct job *j = live[i];
        if (j->state == WAITING && j != head && j->nodes <= idle && (now + j->held + clearing <= shadow || j->nodes <= extra)) return j;
    }
    return NULL;
}

static void settle(void) {
    for (struct job *j; (j = next_to_start());) j->state = RUNNING, j->start = now;
}

static void finish(struct job *j) {
    long wait = j->start - j->arrival, slowdown = (wait + j->run) * 100 / (j->run > 10 ? j->run : 10);
    j->state = CLEARING, j->end = now;
    if (from < 0) printf("%ld\t%ld\t%ld\n", (long)(j - jobs) + 1, wait, slowdown);
    else if (j->line >= from) counted++, waits += wait, slowdowns += slowdown;
}

static void leave(void) {
    int kept = 0;
    for (int i = 0; i < lives; i++) {
        if (live[i]->state == CLEARING && until(live[i]) == now) live[i]->state = GONE;
        else live[kept++] = live[i];
    }
    lives = kept;
}

/* The number by which an intake is refused, or 0 if it is taken in. */
static int intake(long line, long nodes, long estimate, long length) {
    if (nodes < 1 || nodes > rack) return 1;
    if (estimate < 1 || estimate > longest) return 2;
    if (lives == PLACES) return 15;
    long held = held_time(estimate), ends = now + held + clearing;
    struct job *j = &jobs[taken];
    *j = (struct job){WAITING, line, now, nodes, held, length < held ? length : held, now, 0};
    if (conservative) {
        draw_profile();
        ends += anchor(j) - now;
    } else {
        ends += held_time(longest) + clearing;
        for (int i = 0; i < lives; i++) ends += (live[i]->state == WAITING) * (held_time(longest) + clearing);
    }
    if (ends > LAST_MINUTE) return 6;
    taken++, live[lives++] = j;
    if (conservative) plan(j);
    else settle();
    return 0;
}

static long next_event(void) {
    long next = NEVER;
    for (int i = 0; i < lives; i++) {
        struct job *j = live[i];
        long due = j->state == RUNNING ? j->start + j->run : j->state == CLEARING ? until(j) : conservative ? j->start : NEVER;
        if (due < next) next = due;
    }
    return next;
}

/* The step to this minute, and then the early ends. */
static void pass(void) {
    for (int i = 0; i < lives; i++) {
        if (live[i]->state == RUNNING && live[i]->start + live[i]->held == now) finish(live[i]);
        else if (live[i]->state == WAITING && conservative && live[i]->start == now) live[i]->state = RUNNING;
    }
    leave();
    if (!conservative) settle();
    for (int i = 0; i < lives; i++) {
        struct job *j = live[i];
        if (j->state != RUNNING || j->start + j->run != now) continue;
        finish(j);
        leave();
        i = -1;
        if (conservative) compress();
        else settle();
    }
}

int main(int count, char **words) {
    long arrival, nodes, estimate, length, highest = 0;
    char kind[8];
    for (int i = 1; i < count; i++) {
        if (strcmp(words[i], "--single-pass") == 0) single_pass = 1;
        else from = atol(words[i]);
    }
    if (scanf("%7s %ld %ld %ld", kind, &rack, &clearing, &longest) != 4) return 2;
    conservative = strcmp(kind, "promise") == 0;
    for (long line = 0; line < LINES && scanf("%ld %ld %ld %ld", &arrival, &nodes, &estimate, &length) == 4; line++) {
        int refused = arrival < highest ? 17 : length == 0 ? 18 : arrival > LAST_MINUTE ? 6 : 0;
        if (arrival > highest) highest = arrival;
        if (!refused) {
            while (now < arrival && next_event() <= arrival) now = next_event(), pass();
            now = arrival;
            refused = intake(line, nodes, estimate, length);
        }
        if (refused && from < 0) printf("no\t%d\n", refused);
    }
    while (lives > 0) now = next_event(), pass();
    if (from >= 0) printf("%ld\t%ld\t%ld\n", counted, waits, slowdowns);
}
