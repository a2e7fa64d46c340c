"""Prints what the program `desk` should print for the expressions of its standard input, by Python's `re`, which takes these
expressions as they stand; the number of pieces by trying all cuts. crates/desk/stdout is what this prints."""

import calendar
import re
import sys
from functools import cache

DATES = [f"{month:02}-{day:02}" for month in range(1, 13) for day in range(1, calendar.monthrange(2024, month)[1] + 1)]
END_OF_FEBRUARY = ["02-28", "02-29", "03-01"]
NO_DATES = ["02-30", "04-31", "13-01", "00-10", "2-29", "02-299", ""]


def tree(expression):
    """The expression's tree, as nested tuples of children: Python groups it after its own grammar."""
    at = 0

    def union():
        nonlocal at
        left = catenation()
        while expression[at : at + 1] == "|":
            at += 1
            left = (left, catenation())
        return left

    def catenation():
        left = starred()
        while expression[at : at + 1] not in ("", "|", ")"):
            left = (left, starred())
        return left

    def starred():
        nonlocal at
        at += 1
        node = ()
        if expression[at - 1] == "(":
            node = union()
            at += 1
        while expression[at : at + 1] == "*":
            at += 1
            node = (node,)
        return node

    return union()


@cache
def cuts(node):
    """For each open size of a subtree, the fewest edges cut in it so that no piece has more than 15 nodes."""
    fewest = {1: 0}
    for child in node:
        below = cuts(child)
        joined = {}
        for size, edges in fewest.items():
            ways = [(size, edges + 1 + min(below.values()))] + [(size + s, edges + e) for s, e in below.items()]
            for s, e in ways:
                if s <= 15:
                    joined[s] = min(e, joined.get(s, e))
        fewest = joined
    return fewest


def changed(date, at, bit):
    text = bytearray(date, "ascii")
    text[at] ^= bit
    return text.decode("latin-1")


def trial(expression, listed):
    pattern = re.compile(expression)

    def picks(text):
        return pattern.fullmatch(text) is not None

    def told(texts):
        return ", ".join(f"{text or 'an empty line'} {'yes' if picks(text) else 'no'}" for text in texts)

    print(1 + min(cuts(tree(expression)).values()), "pieces")
    print(told(END_OF_FEBRUARY))
    picked = [date for date in DATES if picks(date)]
    place = {date: number for number, date in enumerate(picked, 1)}
    if listed:
        for date in picked:
            print(place[date], date)
    print(f"{len(picked)} of 366 dates, 02-29 is {place.get('02-29', 0)}, 03-01 is {place.get('03-01', 0)}")
    print(told(NO_DATES))
    for bit, name in [(1, "lowest"), (128, "highest")]:
        counts = [sum(picks(changed(date, at, bit)) for date in DATES) for at in range(5)]
        print(*counts, f"of 366 with the {name} bit of a byte changed")


sys.setrecursionlimit(10_000)
for line, expression in enumerate(sys.stdin.read().splitlines()):
    trial(expression, line == 0)
