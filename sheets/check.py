#!/usr/bin/env python3
"""`check.py SHEET < GROUPS`: whether the groups that `draw` printed are a draw of the sheet. Knows the paper, not the programs."""
import sys


def is_true(code, sets):
    first, *others = sets
    if code == 1:
        return first == others[0]
    if code == 2:
        return first <= others[0]
    if code == 3:
        return first == others[0] & others[1]
    if code == 5:
        return first == others[0] - others[1]
    if code == 7:
        return bool(first ^ others[0])
    return first == set().union(*others)


def faults(rows, groups):
    """What is wrong with the groups, in words."""
    (_, entrants, s, _), lines = rows[0], rows[1:]
    if sorted(groups) != list(range(1, s + 1)):
        yield f"groups 1 to {s} wanted"
        return
    for _, number, low, high, *marks in lines[:s]:
        group = groups[number]
        fixed = {e for e, mark in enumerate(marks, 1) if mark == 2}
        possible = {e for e, mark in enumerate(marks, 1) if mark > 0}
        if not fixed <= group <= possible or not low <= len(group) <= high:
            yield f"group {number} is not within its marks and limits"
    for at, (_, code, *numbers) in enumerate(lines[s:], 1):
        sets = [groups[number] for number in (numbers[1:] if code == 6 else numbers)]
        if not is_true(code, sets):
            yield f"constraint line {at} is not true"


def numbers(line):
    """A line's numbers, by columns. From the fifth field on, in a line whose first is 2, four spaces are a mark of 1."""
    fields = [line[at : at + 4] for at in range(0, len(line), 4)]
    marks = fields[4:] if int(fields[0]) == 2 else []
    return [int(field) for field in fields[: len(fields) - len(marks)]] + [1 if mark == "    " else int(mark) for mark in marks]


sheet = [numbers(line.rstrip("\n")) for line in open(sys.argv[1])]
lines = [line.split(":") for line in sys.stdin]
wrong = list(faults(sheet, {int(number): set(map(int, entrants.split())) for number, entrants in lines}))
print("\n".join(wrong) if wrong else "a draw")
sys.exit(1 if wrong else 0)
