"""The program of first_day.c in Python: one machine of 10 nodes, whose minutes and completions it tells the desk. It prints what the desk answers.
    PYTHONPATH=host/python python3 host/examples/first_day.py
"""
from hingerota import Answer, Desk, Kind, Refused

ORDERS = [(6, 5, 20, "A"), (8, 0, 10, "B"), (4, 25, 25, "A"), (11, 0, 5, "A"), (1, 6, 5, "A"), (1, 0, 5, "B")]


def told(desk: Desk, answer: Answer) -> str:
    words = [f" ticket {answer.ticket}"] if answer.ticket else []
    if answer.ticket and desk.kind is Kind.PROMISE:
        words.append(f" promise {answer.promise}")
    words += [f" ended {ticket}" for ticket in answer.ended]
    words += [f" started {ticket}" for ticket in answer.started]
    if answer.head:
        words.append(f" head {answer.head.ticket} forecast {answer.head.forecast}")
    return "".join(words)


def complete(desk: Desk, ticket: int) -> None:
    try:
        print(f"complete {ticket}:{told(desk, desk.complete(ticket))}")
    except Refused as refused:
        print(f"complete {ticket}: refused by {refused.number} ({refused.reason})")


def wait(desk: Desk, minutes: int) -> None:
    for passed in desk.wait(minutes):
        print(f"minute {passed.minute}:{told(desk, passed.answer)}")


for open_desk in [Desk.promise, Desk.loose]:
    desk = open_desk(nodes=10)
    print(f"{desk.kind.name.lower()} desk, 10 nodes, minute 0, first ticket 1, 63 places for A and 1 for B")
    for nodes, least, estimate, tenant in ORDERS:
        try:
            answer = told(desk, desk.submit(nodes, estimate, tenant, least))
        except Refused as refused:
            answer = f" refused by {refused.number} ({refused.reason})"
        print(f"submit {nodes} {least} {estimate} {tenant}:{answer}")
    for point in desk.profile():
        print(f"free from {point.minute}: {point.free}")
    complete(desk, 1)
    wait(desk, 5)
    complete(desk, 1)
    wait(desk, 40)
