#!/usr/bin/env python3
"""copies.py PROGRAM SHEET: how many copies of a scheduler the program makes for each line of the sheet.

A copy is a call of memcpy or memmove whose length stands in the code and is at least a kilobyte. callgrind counts the calls by address, and
objdump tells the length at each."""
import os
import re
import subprocess
import sys
import tempfile

# A list of points or a table of free nodes is as long as a scheduler; on the heavy sheets neither is copied, only lengths of schedulers are.
LARGE = 1024


def lengths(program):
    """The length that each call of a copying function is given, by address, where it is a number in the code."""
    text = subprocess.run(['objdump', '-d', '--no-show-raw-insn', program], capture_output=True, text=True, check=True).stdout
    found, length = {}, None
    for line in text.split('\n'):
        at = re.match(r'\s+([0-9a-f]+):\s+(.*)', line)
        if not at:
            length = None
            continue
        address, code = int(at.group(1), 16), at.group(2)
        moved = re.match(r'mov\s+\$0x([0-9a-f]+),%[er]dx', code)
        if moved:
            length = int(moved.group(1), 16)
        elif re.search(r',%[er]dx$', code):
            length = None
        if code.startswith('call') and length is not None:
            found[address] = length
            length = None
    return found


def calls(program, sheet):
    """How often each address of the program calls memcpy or memmove."""
    with tempfile.NamedTemporaryFile() as out, open(sheet, 'rb') as given:
        subprocess.run(['valgrind', '--tool=callgrind', '--dump-instr=yes', '--callgrind-out-file=' + out.name, program], stdin=given,
                       stdout=subprocess.DEVNULL, stderr=subprocess.DEVNULL, check=True)
        lines = open(out.name).read().split('\n')
    names, objects = {}, {}
    counts, own, callee, pending, address = {}, False, '', None, 0
    for line in lines:
        named = re.match(r'(c?)(ob|fn)=\((\d+)\)(?: (.*))?', line)
        if named:
            called, kind, key, name = named.groups()
            table = objects if kind == 'ob' else names
            if name:
                table[key] = name
            if kind == 'ob' and not called:
                own = os.path.basename(table[key]) == os.path.basename(program)
            if kind == 'fn' and called:
                callee = table[key]
            continue
        made = re.match(r'calls=(\d+)', line)
        if made:
            pending = int(made.group(1))
            continue
        cost = re.match(r'(0x[0-9a-f]+|\+\d+|-\d+|\*)\s+\S+\s+\d+$', line)
        if cost:
            place = cost.group(1)
            if place.startswith('0x'):
                address = int(place, 16)
            elif place != '*':
                address += int(place)
            if pending is not None:
                if own and re.search('mem(cpy|move)', callee):
                    counts[address] = counts.get(address, 0) + pending
                pending = None
    return counts


def main():
    program, sheet = sys.argv[1:3]
    sizes = lengths(program)
    large = sum(n for address, n in calls(program, sheet).items() if sizes.get(address, 0) >= LARGE)
    with open(sheet, 'rb') as given:
        print(f'{large / max(1, sum(1 for _ in given)):.1f}')


main()
