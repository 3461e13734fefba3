#!/usr/bin/env python3
"""ends.py PLAIN PROVED SHEET: what early ends of a conservative sheet cost, in instructions.

Prints how many there are, and the mean and the highest cost of all of them for the plain program. Then, for both programs, the mean of MEAN
ends spread over the sheet, and the highest among the WORST that cost the plain program most. The cost of one end is that of the sheet cut after
its line less that of the sheet cut before it, so that reading and printing its line is included. If PROVED is -, it is left out."""
import os
import re
import subprocess
import sys
import tempfile

MEAN, WORST = 16, 4
CALL = 'plain::conservative::Conservative::complete'


def callgrind(program, text, *more):
    """What callgrind says of the program, given that text."""
    with tempfile.TemporaryFile() as given:
        given.write(text)
        given.seek(0)
        ran = subprocess.run(['valgrind', '--tool=callgrind', *more, program], stdin=given, stdout=subprocess.DEVNULL,
                             stderr=subprocess.PIPE, check=True)
    return ran.stderr.decode()


def instructions(program, text):
    return int(re.search(r'Collected : (\d+)', callgrind(program, text, '--callgrind-out-file=/dev/null')).group(1))


def calls(program, text):
    """The instructions of each call of CALL, in order: a count is written before it and after it."""
    costs = []
    with tempfile.TemporaryDirectory() as folder:
        out = os.path.join(folder, 'counts')
        callgrind(program, text, '--callgrind-out-file=' + out, '--dump-before=' + CALL, '--dump-after=' + CALL)
        for number in range(1, len(os.listdir(folder)) + 1):
            path = f'{out}.{number}'
            if os.path.exists(path):
                counts = open(path).read()
                if 'Trigger: --dump-after' in counts:
                    costs.append(int(re.search(r'^totals: (\d+)', counts, re.M).group(1)))
    return costs


def main():
    plain, proved, sheet = sys.argv[1:4]
    with open(sheet, 'rb') as given:
        lines = given.readlines()
    ends = [i for i, line in enumerate(lines) if line.startswith(b'end\t')]
    costs = calls(plain, b''.join(lines))
    assert len(costs) == len(ends)
    spread = [ends[i * len(ends) // MEAN] for i in range(MEAN)]
    worst = [place for _, place in sorted(zip(costs, ends))[-WORST:]]
    words = [len(ends), sum(costs) // len(costs), max(costs)]
    for program in (plain, proved):
        if program == '-':
            continue
        end = {i: instructions(program, b''.join(lines[:i + 1])) - instructions(program, b''.join(lines[:i])) for i in {*spread, *worst}}
        words += [sum(end[i] for i in spread) // MEAN, max(end[i] for i in worst)]
    print(*words)


if __name__ == '__main__':
    main()
