#!/usr/bin/env python3
"""Turns the records of a house into a block list.

    examples/list_from_records.py [FILE] > house.list

One record a line, places counted from 0; blank lines and lines that start with # are skipped:

    meter SERIAL COLLECTOR
    flat RISER FLOOR
    candidate METER FLAT

Records that can't be used are refused with a message and status 1: 1 if there is no candidate or more than 256, 3 with the
meter whose serial is not above the one before, 4 with the candidate that names no meter or no flat.
"""

import pathlib
import re
import sys

sys.path.insert(0, str(pathlib.Path(__file__).resolve().parent.parent / "solver"))

import lists

# The greatest value of each number in a record.
MOST = {"meter": (2**32 - 1, 2**16 - 1), "flat": (2**16 - 1, 255), "candidate": (2**16 - 1, 2**16 - 1)}


def record(line):
    """The kind and the two numbers of a line, or None if it is no record."""
    kind, *words = line.split()
    if kind not in MOST or len(words) != 2 or not all(re.fullmatch("[0-9]{1,10}", word) for word in words):
        return None
    numbers = tuple(int(word) for word in words)
    return (kind, numbers) if all(number <= most for number, most in zip(numbers, MOST[kind])) else None


def records(text):
    """Meters, flats and candidates, each in the order of their lines."""
    found = {kind: [] for kind in MOST}
    for place, line in enumerate(text.splitlines(), 1):
        if not line.strip() or line.startswith("#"):
            continue
        read = record(line)
        if read is None:
            sys.exit(f"line {place} is no record: {line.strip()}")
        found[read[0]].append(read[1])
    return found["meter"], found["flat"], found["candidate"]


def refusal(meters, flats, candidates):
    """The message for the first question that is answered no, or None."""
    if not 1 <= len(candidates) <= 256:
        return "refused 1"
    for place in range(1, len(meters)):
        if meters[place][0] <= meters[place - 1][0]:
            return f"refused 3 meter {place}"
    for place, (meter, flat) in enumerate(candidates):
        if meter >= len(meters) or flat >= len(flats):
            return f"refused 4 candidate {place}"
    return None


def main():
    data = pathlib.Path(sys.argv[1]).read_bytes() if len(sys.argv) > 1 else sys.stdin.buffer.read()
    house = records(data.decode("utf-8", "replace"))
    refused = refusal(*house)
    if refused:
        sys.exit(refused)
    sys.stdout.buffer.write(lists.written(len(house[2]), lists.evidence_pairs(*house)))


if __name__ == "__main__":
    main()
