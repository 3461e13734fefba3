/* A host program to copy: one machine of 10 nodes, whose minutes and completions it tells the desk.
 * It prints what the desk answers.
 *   cc -o first_day host/examples/first_day.c $(pkg-config --cflags --libs hingerota)
 */
#include <inttypes.h>
#include <stdio.h>

#include "hingerota.h"

static void print_tickets(const char *what, const hingerota_tickets *tickets)
{
    for (size_t i = 0; i < tickets->count; i++)
        printf(" %s %" PRIu32, what, tickets->list[i]);
}

static void print_answer(const hingerota_desk *desk, const hingerota_answer *answer)
{
    if (answer->refusal != HINGEROTA_TAKEN) {
        printf(" refused by %" PRIu32 " (%s)\n", answer->refusal,
               hingerota_reason(answer->refusal));
        return;
    }
    if (answer->ticket != 0)
        printf(" ticket %" PRIu32, answer->ticket);
    if (answer->ticket != 0 && desk->kind == HINGEROTA_PROMISE)
        printf(" promise %" PRIu32, answer->promise);
    print_tickets("ended", &answer->ended);
    print_tickets("started", &answer->started);
    if (answer->head != 0)
        printf(" head %" PRIu32 " forecast %" PRIu32, answer->head, answer->forecast);
    printf("\n");
}

static void complete(hingerota_desk *desk, uint32_t ticket)
{
    hingerota_answer answer = hingerota_complete(desk, ticket);

    printf("complete %" PRIu32 ":", ticket);
    print_answer(desk, &answer);
}

static void pass(hingerota_desk *desk, uint32_t minutes)
{
    while (minutes > 0) {
        hingerota_advanced given = hingerota_advance(desk, minutes);
        if (given.answer.refusal != HINGEROTA_TAKEN)
            return;
        if (given.answer.ended.count + given.answer.started.count > 0) {
            printf("minute %" PRIu32 ":", desk->clock);
            print_answer(desk, &given.answer);
        }
        minutes -= given.minutes;
    }
}

static int play(hingerota_opened opened)
{
    static const hingerota_order orders[] = {
        {.nodes = 6, .least = 5, .estimate = 20, .tenant = HINGEROTA_TENANT_A},
        {.nodes = 8, .least = 0, .estimate = 10, .tenant = HINGEROTA_TENANT_B},
        {.nodes = 4, .least = 25, .estimate = 25, .tenant = HINGEROTA_TENANT_A},
        {.nodes = 11, .least = 0, .estimate = 5, .tenant = HINGEROTA_TENANT_A},
        {.nodes = 1, .least = 6, .estimate = 5, .tenant = HINGEROTA_TENANT_A},
        {.nodes = 1, .least = 0, .estimate = 5, .tenant = HINGEROTA_TENANT_B}};
    hingerota_desk *desk = &opened.desk;

    if (opened.refusal != HINGEROTA_TAKEN) {
        fprintf(stderr, "%s\n", hingerota_reason(opened.refusal));
        return 1;
    }
    for (size_t i = 0; i < sizeof orders / sizeof orders[0]; i++) {
        const hingerota_order *order = &orders[i];
        hingerota_answer answer = hingerota_submit(desk, *order);
        printf("submit %" PRIu32 " %" PRIu32 " %" PRIu32 " %c:", order->nodes, order->least,
               order->estimate, (int)order->tenant);
        print_answer(desk, &answer);
    }

    hingerota_point points[HINGEROTA_MOST_POINTS];
    hingerota_shown shown = hingerota_profile(desk, points, HINGEROTA_MOST_POINTS);
    for (size_t i = 0; i < shown.count; i++)
        printf("free from %" PRIu32 ": %" PRIu32 "\n", points[i].minute, points[i].free);

    complete(desk, 1);
    pass(desk, 5);
    complete(desk, 1);
    pass(desk, 40);
    return 0;
}

int main(void)
{
    hingerota_opening opening = {
        .nodes = 10, .minute = 0, .ticket = 1, .cleanup = 0, .quota_a = 63, .quota_b = 1};

    printf("promise desk, 10 nodes, minute 0, first ticket 1, 63 places for A and 1 for B\n");
    if (play(hingerota_open_promise(opening)))
        return 1;
    printf("loose desk, 10 nodes, minute 0, first ticket 1, 63 places for A and 1 for B\n");
    return play(hingerota_open_loose(opening));
}
