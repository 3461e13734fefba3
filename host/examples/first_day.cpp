// The program of first_day.c in C++: one machine of 10 nodes, whose minutes and completions it
// tells the desk. It prints what the desk answers.
//   c++ -std=c++17 -o first_day host/examples/first_day.cpp $(pkg-config --cflags --libs hingerota)
#include <array>
#include <iostream>
#include <stdexcept>

#include "hingerota.h"

namespace {

void print(const char *what, const hingerota_tickets &tickets)
{
    for (std::size_t i = 0; i < tickets.count; i++)
        std::cout << ' ' << what << ' ' << tickets.list[i];
}

void print(const hingerota_desk &desk, const hingerota_answer &answer)
{
    if (answer.refusal != HINGEROTA_TAKEN) {
        std::cout << " refused by " << answer.refusal << " (" << hingerota_reason(answer.refusal)
                  << ")\n";
        return;
    }
    if (answer.ticket != 0)
        std::cout << " ticket " << answer.ticket;
    if (answer.ticket != 0 && desk.kind == HINGEROTA_PROMISE)
        std::cout << " promise " << answer.promise;
    print("ended", answer.ended);
    print("started", answer.started);
    if (answer.head != 0)
        std::cout << " head " << answer.head << " forecast " << answer.forecast;
    std::cout << '\n';
}

void complete(hingerota_desk &desk, std::uint32_t ticket)
{
    const hingerota_answer answer = hingerota_complete(&desk, ticket);

    std::cout << "complete " << ticket << ':';
    print(desk, answer);
}

void pass(hingerota_desk &desk, std::uint32_t minutes)
{
    while (minutes > 0) {
        const hingerota_advanced given = hingerota_advance(&desk, minutes);
        if (given.answer.refusal != HINGEROTA_TAKEN)
            throw std::runtime_error(hingerota_reason(given.answer.refusal));
        if (given.answer.ended.count + given.answer.started.count > 0) {
            std::cout << "minute " << desk.clock << ':';
            print(desk, given.answer);
        }
        minutes -= given.minutes;
    }
}

void play(hingerota_opened opened)
{
    // nodes, estimate, tenant, least
    static const std::array<hingerota_order, 6> orders = {{{6, 20, HINGEROTA_TENANT_A, 5},
                                                           {8, 10, HINGEROTA_TENANT_B, 0},
                                                           {4, 25, HINGEROTA_TENANT_A, 25},
                                                           {11, 5, HINGEROTA_TENANT_A, 0},
                                                           {1, 5, HINGEROTA_TENANT_A, 6},
                                                           {1, 5, HINGEROTA_TENANT_B, 0}}};
    if (opened.refusal != HINGEROTA_TAKEN)
        throw std::runtime_error(hingerota_reason(opened.refusal));
    hingerota_desk &desk = opened.desk;
    for (const hingerota_order &order : orders) {
        const hingerota_answer answer = hingerota_submit(&desk, order);
        std::cout << "submit " << order.nodes << ' ' << order.least << ' ' << order.estimate << ' '
                  << static_cast<char>(order.tenant) << ':';
        print(desk, answer);
    }

    std::array<hingerota_point, HINGEROTA_MOST_POINTS> points;
    const hingerota_shown shown = hingerota_profile(&desk, points.data(), points.size());
    for (std::size_t i = 0; i < shown.count; i++)
        std::cout << "free from " << points[i].minute << ": " << points[i].free << '\n';

    complete(desk, 1);
    pass(desk, 5);
    complete(desk, 1);
    pass(desk, 40);
}

} // namespace

int main()
try {
    // nodes, minute, first ticket, cleanup, quota of A and quota of B
    const hingerota_opening opening = {10, 0, 1, 0, 63, 1};

    std::cout << "promise desk, 10 nodes, minute 0, first ticket 1, 63 places for A and 1 for B\n";
    play(hingerota_open_promise(opening));
    std::cout << "loose desk, 10 nodes, minute 0, first ticket 1, 63 places for A and 1 for B\n";
    play(hingerota_open_loose(opening));
} catch (const std::exception &refused) {
    std::cerr << refused.what() << '\n';
    return 1;
}
