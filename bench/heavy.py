#!/usr/bin/env python3
"""Makes the sheets that bench/run plays: heavy.py PROGRAM DIRECTORY

PROGRAM is the plain sheet program. It is asked what runs after the lines so far, so that nearly every `end` ends a job. The sheets are
the same every time. Each has at most 65,536 bytes.
"""

import random
import subprocess
import sys
from pathlib import Path

LIMIT = 65_536
GROWTH = (8, 16, 32, 64)
PAIRS = 400
# A's places are more than most sheets fill. Where all 64 are wanted, the last jobs are B's.
PLACES = {"A": 63, "B": 1}
SHARED = {"A": 60, "B": 4}


class Sheet:
    def __init__(self, program, kind, nodes, places=PLACES):
        self.program = program
        self.text = bytearray()
        self.seen = 0
        self.live = set()
        self.running = set()
        self.houses = {}
        self.line("desk", kind, nodes, 0, 1, 0, places["A"], places["B"])

    def line(self, *fields):
        self.text += "\t".join(map(str, fields)).encode() + b"\n"

    def submit(self, nodes, estimate, house="A"):
        """No submission is refused, so that tickets are given one after another."""
        self.line("in", nodes, estimate, house)
        self.houses[len(self.houses) + 1] = house

    def room(self, need):
        return len(self.text) + need <= LIMIT

    def ask(self):
        """Plays the lines so far and reads what the printout has gained."""
        out = subprocess.run([self.program], input=self.text, stdout=subprocess.PIPE, check=True).stdout
        for event in out[self.seen :].decode().splitlines():
            word, *rest = event.split("\t")
            if word == "took":
                self.live.add(int(rest[0]))
            elif word == "start":
                self.running.add(int(rest[0]))
            elif word == "over":
                self.live.discard(int(rest[0]))
                self.running.discard(int(rest[0]))
        self.seen = len(out)

    def end_some(self, rng, most):
        ended = rng.sample(sorted(self.running), min(most, len(self.running)))
        for ticket in ended:
            self.line("end", ticket)
        return ended


def early_ends(program, kind, seed, nodes, widest, longest):
    """Some 60 live jobs, all A's; thousands of early ends, each followed by a submission, and short waits."""
    rng = random.Random(seed)
    sheet = Sheet(program, kind, nodes)
    for _ in range(60):
        sheet.submit(rng.randint(1, widest), rng.randint(1, longest))
    while sheet.room(300):
        sheet.ask()
        ended = sheet.end_some(rng, 6)
        for _ in range(min(60 + 6, PLACES["A"] + len(ended)) - len(sheet.live)):
            sheet.submit(rng.randint(1, widest), rng.randint(1, longest))
        if rng.random() < 0.5:
            sheet.line("wait", rng.randint(1, 5))
    return sheet


def long_waits(program, kind, seed, minutes):
    """Some 60 live jobs and waits up to that minute: most steps change nothing."""
    rng = random.Random(seed)
    sheet = Sheet(program, kind, 64)
    clock = 0
    while clock < minutes and sheet.room(1_000):
        sheet.ask()
        for _ in range(60 - len(sheet.live)):
            sheet.submit(rng.randint(1, 16), rng.randint(1_000, 10_080))
        step = min(rng.randint(500, 2_000), minutes - clock)
        sheet.line("wait", step)
        clock += step
    return sheet


def growth(program, kind, live):
    """Pairs of texts that differ by one submission, by one early end, and by PAIRS of an early end and a submission of the same house."""
    rng = random.Random(live)
    jobs = [(rng.randint(1, 64), rng.randint(1, 480), "A" if i < SHARED["A"] else "B") for i in range(live)]
    sheet = Sheet(program, kind, 64, SHARED)
    for job in jobs[:-1]:
        sheet.submit(*job)
    less = bytes(sheet.text)
    sheet.submit(*jobs[-1])
    full = bytes(sheet.text)
    ended = full + b"end\t1\n"
    for _ in range(PAIRS):
        sheet.ask()
        (over,) = sheet.end_some(rng, 1)
        sheet.submit(rng.randint(1, 64), rng.randint(1, 480), sheet.houses[over])
    return {"less": less, "full": full, "ended": ended, "pairs": bytes(sheet.text)}


def main():
    program, directory = sys.argv[1], Path(sys.argv[2])
    directory.mkdir(parents=True, exist_ok=True)
    sheets = {}
    for kind in ("promise", "loose"):
        sheets[f"heavy-{kind}-narrow"] = early_ends(program, kind, 1, 64, 16, 480).text
        sheets[f"heavy-{kind}-wide"] = early_ends(program, kind, 2, 1_024, 512, 10_080).text
        sheets[f"heavy-{kind}-waits"] = long_waits(program, kind, 3, 300_000).text
        for live in GROWTH:
            for part, text in growth(program, kind, live).items():
                sheets[f"growth-{kind}-{live}-{part}"] = text
    for name, text in sheets.items():
        assert len(text) <= LIMIT, name
        (directory / f"{name}.sheet").write_bytes(text)


if __name__ == "__main__":
    main()
