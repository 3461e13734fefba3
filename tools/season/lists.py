"""What the tools of this folder share: the form of a season's list, wall times, the season program, and which lines it refused."""
import heapq
import os
import shlex
import shutil
import subprocess
import sys
from collections import namedtuple
from pathlib import Path

LAST_MINUTE, PLACES, MOST_LINES, MOST_BYTES, MOST_NODES, MOST_CLEANUP = 1_000_000, 63, 4_096, 262_144, 1_024, 30
ROOT = Path(__file__).resolve().parent.parent.parent
Season = namedtuple('Season', 'kind nodes cleanup longest')
Job = namedtuple('Job', 'arrival nodes start end')


class Unknown(Exception):
    """The printout does not tell which lines were refused."""


class Bad(Exception):
    """The input is bad: the sentence for the user."""


def wall_time(estimate):
    """The estimate rounded up to what the job holds."""
    width = 5 if estimate <= 120 else 10 if estimate <= 480 else 30
    return -(-estimate // width) * width


def number(field):
    """1 to 7 digits, no leading zero but 0 itself; None without that form."""
    if not (1 <= len(field) <= 7 and field.isascii() and field.isdigit()) or (field[0] == '0' and field != '0'):
        return None
    return int(field)


def numbers(line):
    """The four numbers of a line, or None if it lacks the form."""
    fields = [number(field) for field in line[:-1].split('\t')] if line.endswith('\n') else []
    return tuple(fields) if len(fields) == 4 and None not in fields else None


def read_lines(path):
    """The lines of a list, with their ends. A line ends at byte 10 and nowhere else, and any byte may stand in one that lacks the form."""
    try:
        if path == '-':
            text = sys.stdin.buffer.read()
        else:
            with open(path, 'rb') as given:
                text = given.read()
    except OSError as error:
        raise Bad(f'cannot read {path}: {error.strerror}') from None
    lines = text.decode('latin-1').split('\n')
    return [line + '\n' for line in lines[:-1]] + lines[-1:] * bool(lines[-1])


def settings(line):
    """The settings of a first line that the season program accepts."""
    kind, *fields = line[:-1].split('\t')
    return Season(kind, *map(int, fields))


def season_program(named=os.environ.get('SEASON', '')):
    """The season program and its arguments: the one named, or SEASON, or target/bin/season."""
    command = shlex.split(named) or [str(ROOT / 'target/bin/season')]
    if shutil.which(command[0]) is None:
        raise Bad(f'the season program {command[0]} is not built. `./run --season examples/workload.season` proves and builds '
                  'target/bin/season; SEASON=PROGRAM names another')
    return command


def printout(command, text):
    """What the season program prints, line by line, each line's fields parted."""
    done = subprocess.run(command, input=text.encode('latin-1'), stdout=subprocess.PIPE, stderr=subprocess.PIPE)
    if done.returncode or done.stderr:
        raise RuntimeError(f'{command[0]} fails with status {done.returncode}: {done.stderr.decode(errors="replace").strip()}')
    return read_printout(done.stdout.decode())


def read_printout(text):
    """The numbers of the refused lines in the order of the list, and (wait, slowdown) of the accepted jobs in the order of tickets."""
    fields = [line.split('\t') for line in text.splitlines()]
    refusals = [int(line[1]) for line in fields if line[0] == 'no']
    ends = sorted(tuple(map(int, line)) for line in fields if line[0] != 'no')
    return refusals, [(wait, slowdown) for _, wait, slowdown in ends]


def plain_refusal(row, latest, season):
    """By which number a line is refused whatever the scheduler holds, or 0."""
    if row is None:
        return 9
    arrival, nodes, estimate, length = row
    if arrival < latest:
        return 17
    if length == 0:
        return 18
    if arrival > LAST_MINUTE:
        return 6
    if not 1 <= nodes <= season.nodes:
        return 1
    return 0 if 1 <= estimate <= season.longest else 2


def jobs_of(rows, season, refusals, waits):
    """For each line its job, or None if it is refused. `rows` has the numbers of each line, or None.

    A printout does not say which lines it refused. Most refusals follow from the list. A lack of places follows from the live jobs, and so does
    the last minute of EASY. Whether a conservative plan passes the last minute does not follow, unless the job would start at once: where such
    a line is refused, this raises Unknown."""
    found, latest, releases, begins = [], 0, [], []
    refusals, waits = iter(refusals), iter(waits)
    unit = wall_time(season.longest) + season.cleanup
    for place, row in enumerate(rows):
        refusal = plain_refusal(row, latest, season) if place < MOST_LINES else 9
        if row is not None and place < MOST_LINES:
            latest = max(latest, row[0])
        if not refusal:
            arrival, nodes, estimate, length = row
            for heap in (releases, begins):
                while heap and heap[0] <= arrival:
                    heapq.heappop(heap)
            ahead = unit * (1 + len(begins)) if season.kind == 'loose' else 0
            if len(releases) >= PLACES:
                refusal = 15
            elif arrival + ahead + wall_time(estimate) + season.cleanup > LAST_MINUTE:
                refusal = 6
        if refusal:
            if next(refusals, None) != refusal:
                raise Unknown
            found.append(None)
            continue
        wait = next(waits, None)
        if wait is None:
            raise Unknown
        start = arrival + wait
        end = start + min(length, wall_time(estimate))
        heapq.heappush(releases, end + season.cleanup)
        heapq.heappush(begins, start)
        found.append(Job(arrival, nodes, start, end))
    if next(refusals, None) is not None or next(waits, None) is not None:
        raise Unknown
    return found


def percentile(values):
    """The smallest value that 95 of 100 do not exceed."""
    return sorted(values)[-(-95 * len(values) // 100) - 1]
