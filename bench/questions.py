#!/usr/bin/env python3
"""questions.py RACK SHEETS LIVE: what the next job's questions cost a host whose desk has LIVE - 1 live jobs, in instructions.

Prints how many questions were asked, how many of them gave an estimate below 10,080, and how many gave none. Then, in instructions, the
submission that makes the jobs LIVE, `soonest` for the last waiting job, and the mean and the highest of `longest`. The cost of a line is that of
the script with it less that of the script without it, so that reading and printing it is included. RACK is the command, SHEETS has the sheets of heavy.py."""
import subprocess
import sys

from ends import instructions
from heavy import SHARED

NODES = (1, 8, 16, 24, 32, 40, 48, 64)
MINUTES = 4


def printed(rack, text):
    return subprocess.run([rack], input=text, stdout=subprocess.PIPE, check=True).stdout.decode().splitlines()


def main():
    rack, sheets, live = sys.argv[1], sys.argv[2], int(sys.argv[3])
    less, full = (open(f'{sheets}/growth-promise-{live}-{part}.sheet', 'rb').read() for part in ('less', 'full'))
    answers = printed(rack, less)
    gave = len(answers)
    started = {line.split('\t')[1] for line in answers if line.startswith('start')}
    waits = [line.split('\t')[1] for line in answers if line.startswith('took') and line.split('\t')[1] not in started][-1]
    house = 'A' if live <= SHARED['A'] else 'B'
    points = [line.split('\t')[1] for line in printed(rack, less + b'profile\n')[gave:]]
    minutes = [points[i * len(points) // MINUTES] for i in range(MINUTES)]
    before = instructions(rack, less)

    def cost(text):
        return instructions(rack, text) - before

    questions = [f'longest\t{nodes}\t{house}\t{minute}\n'.encode() for nodes in NODES for minute in minutes]
    given = [line.split('\t')[1] for line in printed(rack, less + b''.join(questions))[gave:]]
    costs = [cost(less + question) for question in questions]
    below = sum(estimate not in ('-', '10080') for estimate in given)
    print(len(questions), below, given.count('-'), cost(full), cost(less + f'soonest\t{waits}\n'.encode()), sum(costs) // len(costs), max(costs))


if __name__ == '__main__':
    main()
