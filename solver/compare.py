#!/usr/bin/env python3
"""Runs a pairing program and the independent solver on the same lists and compares what they print, byte for byte.

    solver/compare.py crates/pairing/out/pairing [--lists N] [--seed S] [--fast] [--unfinished]

What is printed is also held against what is known otherwise: the shape of the lines, the answers of worked lists, the refusal
that a damage was aimed at, the weight of the printed set, and for at most 12 candidates every clique there is. The status is
1 if anything differs; the lists that differed are then kept in a temporary folder.
"""

import argparse
import collections
import multiprocessing
import os
import pathlib
import random
import re
import subprocess
import sys
import tempfile

import lists

ROOT = pathlib.Path(__file__).resolve().parent.parent
SOLVER = ROOT / "target" / "solver" / "pairing"
EXAMPLES = ROOT / "examples"

MOST_NODES = 300_000  # a list with a longer search is left out
MOST_SOLVER_SECONDS = 10
MOST_PROGRAM_SECONDS = 120
MOST_TRIED = 12  # up to so many candidates every clique is tried

NUMBER = "(0|[1-9][0-9]*)"
REPORT = re.compile(rf"candidates {NUMBER}\nset((?: (?:0|[1-9][0-9]*))+)\npoints {NUMBER}\nceiling {NUMBER}\n"
                    rf"finished (yes|no) nodes {NUMBER}\n")
REFUSAL = re.compile(rf"refused (1[0-9]) layer (block|list|program) block (-|{NUMBER}) record (-|{NUMBER})\n")

# A list with what is known of its answer: its lines, or some of them; none where nothing is known beforehand.
Case = collections.namedtuple("Case", "data lines", defaults=((),))
# What became of a case: what was wrong with it ("" for nothing), and a word for the tally.
Outcome = collections.namedtuple("Outcome", "wrong tally")


# ---- Worked lists ----

def worked_cases():
    """Lists whose answers are worked out by hand."""
    def table(n, entries, *lines):
        return Case(lists.written(n, lists.table_pairs(n, entries)), lines)

    house = lists.evidence_pairs([(1001, 7), (1002, 7)], [(2, 0), (2, 1)], [(0, 0), (0, 1), (1, 0), (1, 1)])
    no = lists.NO_POINTS
    return [
        table(4, [5, 7, no, 1, 9, 4], "candidates 4", "set 0 1 3", "points 15", "ceiling 15", "finished yes nodes 7"),
        table(1, [], "candidates 1", "set 0", "points 0", "ceiling 0", "finished yes nodes 3"),
        table(2, [0], "candidates 2", "set 0 1", "points 0", "ceiling 0"),
        table(2, [no], "candidates 2", "set 0", "points 0", "ceiling 0"),
        table(3, [no, 6, 6], "candidates 3", "set 0 2", "points 6", "ceiling 6"),
        Case(lists.written(4, house), ("candidates 4", "set 0 3", "points 51", "ceiling 51")),
        Case(bytes(lists.BLOCK), ("candidates 1", "set 0", "points 0", "ceiling 0", "finished yes nodes 3")),
        Case(b"", ("refused 11 layer list block - record -",)),
        Case(bytes(lists.MOST_INPUT + 1), ("refused 10 layer program block - record -",)),
        Case(bytes(lists.MOST_INPUT), ("refused 15 layer block block 0 record -",)),
    ]


# ---- Lists without fault ----

def points_up_to(most):
    return lambda rng: rng.randint(0, most)


def small(rng):
    """At most 12 candidates, so that every clique can be tried."""
    n = rng.randint(1, MOST_TRIED)
    points = points_up_to(rng.choice((0, 1, 2, 9, 60, 1_000, lists.MOST_POINTS)))
    return Case(lists.written(n, lists.random_pairs(rng, n, rng.random() * 1.2, points)))


def table(rng):
    n = rng.randint(2, 60)
    density = rng.random() if n <= 30 else rng.uniform(0, 0.6)
    return Case(lists.written(n, lists.random_pairs(rng, n, density, points_up_to(rng.choice((9, 100, lists.MOST_POINTS))))))


def ties(rng):
    """Few different points, so that many sets weigh the same and many sums are equal."""
    n = rng.randint(2, 34)
    values = rng.choice(((0,), (1,), (0, 1), (5, 5, 6), (lists.MOST_POINTS,), (0, lists.MOST_POINTS)))
    return Case(lists.written(n, lists.random_pairs(rng, n, rng.random(), lambda r: r.choice(values))))


def no_points(rng):
    n = rng.randint(1, 70)
    return Case(lists.written(n, lists.random_pairs(rng, n, rng.random() * 1.1, lambda _: 0)))


def nothing_fits(rng):
    return Case(lists.written(rng.choice((1, 2, 64, 65, 255, 256, rng.randint(1, 256))), {}))


def everything_fits(rng):
    n = rng.randint(1, 16)
    return Case(lists.written(n, lists.random_pairs(rng, n, 2, points_up_to(rng.choice((1, 50, lists.MOST_POINTS))))))


def house(rng):
    meters, flats, candidates = lists.house(rng, rng.choice((8, 12, 20, 32, 40, 48, 56, 64)), rng.uniform(2.2, 4))
    return Case(lists.written(len(candidates), lists.evidence_pairs(meters, flats, candidates)))


def loose_house(rng):
    """Records without any plan behind them: candidates may be repeated, meters may be many or one."""
    meters = [(serial, rng.randint(0, 2)) for serial in sorted(rng.sample(range(50), rng.randint(1, 8)))]
    flats = [(rng.randint(0, 2), rng.randint(0, 3)) for _ in range(rng.randint(1, 8))]
    candidates = [(rng.randrange(len(meters)), rng.randrange(len(flats))) for _ in range(rng.randint(1, 24))]
    return Case(lists.written(len(candidates), lists.evidence_pairs(meters, flats, candidates)))


def sparse(rng):
    """Up to 256 candidates of which few fit."""
    n = rng.choice((200, 255, 256, 256))
    count = rng.choice((1, 125, 126, 127, 252, 253, rng.randint(100, 4_000)))
    return Case(lists.written(n, lists.sparse_pairs(rng, n, count, points_up_to(rng.choice((9, lists.MOST_POINTS))))))


def long_list(rng):
    """Many blocks and a short search: two sides that fit across, or candidates that all fit and earn the same."""
    if rng.random() < 0.5:
        n, left = rng.choice(((256, 126), (250, 100), (256, rng.randint(1, 126))))
        drawn = rng.choice((3, lists.MOST_POINTS))
        return Case(lists.written(n, {(u, v): rng.randint(0, drawn) for u in range(left) for v in range(left, left + 128)
                                      if v < n}))
    n = rng.choice((180, rng.randint(30, 179)))
    each = rng.choice((0, 1, lists.MOST_POINTS))
    return Case(lists.written(n, {(u, v): each for v in range(n) for u in range(v)}))


# ---- Lists with faults ----

def whole_list(rng):
    """A list to damage: one block or several, and a short search in case it is accepted all the same."""
    kind = rng.choice((small, small, house, sparse, several_blocks, several_blocks))
    return kind(rng).data


def several_blocks(rng):
    n = rng.randint(20, 40)
    pairs = {(u, v): rng.randint(0, 99) for v in range(n) for u in range(v) if (u + v) % 2}
    return Case(lists.written(n, pairs))


def aimed(rng):
    data, line = lists.damaged(rng, whole_list(rng), [rng.randint(10, 19)])
    return Case(data, (line.rstrip("\n"),) if line else ())


def twice_aimed(rng):
    first = rng.randint(10, 18)
    data, line = lists.damaged(rng, whole_list(rng), rng.choice(((first, first + 1), rng.sample(range(10, 20), 2))))
    return Case(data, (line.rstrip("\n"),) if line else ())


def scratched(rng):
    return Case(lists.scratched(rng, whole_list(rng)))


LENGTHS = (0, 1, 511, 512, 513, 1_023, 1_024, 1_025, 65_024, 65_535, 65_536, 65_537, 66_048, 131_072, 133_120, 133_121,
           133_632, 200_000)


def noise(rng, index):
    """Random bytes: lengths that matter, then every length in turn, then any."""
    if index < len(LENGTHS):
        return Case(rng.randbytes(LENGTHS[index]))
    if index < 1_200:
        return Case(rng.randbytes(index - len(LENGTHS)))
    kind = rng.random()
    if kind < 0.5:
        return Case(rng.randbytes(rng.randint(0, 2_100)))
    if kind < 0.6:
        return Case(rng.randbytes(rng.randint(0, 140_000)))
    if kind < 0.75:
        return Case(rng.randbytes(lists.BLOCK * rng.randint(1, 130)))
    return Case(lists.sealed_noise(rng, rng.choice((1, 1, 2, 3, 5))))


# How many of each kind a full run has.
PLAN = {small: 1_500, table: 900, ties: 700, no_points: 250, nothing_fits: 120, everything_fits: 250, house: 600,
        loose_house: 500, sparse: 200, long_list: 60, aimed: 4_000, twice_aimed: 2_500, scratched: 4_000, noise: 10_200}
KINDS = {kind.__name__: kind for kind in PLAN}


def made(seed, kind, index):
    """The case of a kind and an index; the same for the same seed."""
    rng = random.Random(f"{seed} {kind} {index}")
    return noise(rng, index) if kind == "noise" else KINDS[kind](rng)


# ---- What is wrong with an answer ----

def heaviest(n, pairs):
    """Every clique is made; of the heaviest the one that is earlier than every other. As members and weight."""
    fits = [sum(1 << u for u in range(n) if (min(u, v), max(u, v)) in pairs) for v in range(n)]
    cliques = [(0, 0)]
    for v in range(n):
        cliques += [(marks | 1 << v, earned + sum(pairs[u, v] for u in range(v) if marks >> u & 1))
                    for marks, earned in cliques if marks & ~fits[v] == 0]
    most = max(earned for _, earned in cliques)
    best = 0
    for marks, earned in cliques:
        lowest = (marks ^ best) & -(marks ^ best)  # the lowest that stands in just one of the two
        if earned == most and (best == 0 or marks & lowest):
            best = marks
    return [v for v in range(n) if best >> v & 1], most


def report_wrong(data, found):
    """What is wrong with a report on a list, or nothing."""
    candidates, points, ceiling, nodes = (int(found[i]) for i in (1, 3, 4, 6))
    members = [int(word) for word in found[2].split()]
    n, pairs = lists.read(data)
    if candidates != n:
        return "the candidates are not those of the list"
    if members != sorted(set(members)) or members[-1] >= n:
        return "the set is not written upwards"
    inside = [(u, v) for v in members for u in members if u < v]
    if any(pair not in pairs for pair in inside):
        return "the set is no clique"
    if sum(pairs[pair] for pair in inside) != points:
        return "the points are not those of the set"
    if found[5] == "yes" and (ceiling != points or nodes % 2 == 0):
        return "a finished search has its ceiling at its points, and an odd number of nodes"
    if ceiling < points or found[5] == "no" and nodes != 50_000_000:
        return "an unfinished search has done all its grants"
    if n <= MOST_TRIED and heaviest(n, pairs) != (members, points):
        return f"every clique was tried, and the answer is {heaviest(n, pairs)}"
    return ""


def answer_wrong(case, text):
    """What is wrong with a printed text as far as can be known without another program."""
    missing = [line for line in case.lines if line not in text.split("\n")]
    if missing:
        return f"expected {missing}"
    found = REPORT.fullmatch(text)
    if found:
        return report_wrong(case.data, found)
    return "" if REFUSAL.fullmatch(text) else "neither five lines nor one refusal"


# ---- Running ----

def printed(program, data, seconds):
    """The status and the standard output of a program; None if it takes too long."""
    try:
        done = subprocess.run([program], input=data, stdout=subprocess.PIPE, timeout=seconds, check=False)
    except subprocess.TimeoutExpired:
        return None
    return done.returncode, done.stdout.decode("latin-1")


def too_long(answer):
    found = answer and REPORT.fullmatch(answer[1])
    return answer is None or found and int(found[6]) > MOST_NODES


def compared(program, case, patient=False):
    """The outcome of one case. A patient comparison leaves no list out."""
    ours = printed(SOLVER, case.data, None if patient else MOST_SOLVER_SECONDS)
    if too_long(ours) and not patient:
        return Outcome("", "skipped")
    theirs = printed(program, case.data, None if patient else MOST_PROGRAM_SECONDS)
    wrong = [f"the solver: {answer_wrong(case, ours[1])}" if answer_wrong(case, ours[1]) else ""]
    if theirs is None:
        wrong.append("no answer in time")
    elif theirs[0] != 0:
        wrong.append(f"status {theirs[0]}")
    elif theirs != ours:
        wrong.append(f"printed\n{theirs[1]}where the solver prints\n{ours[1]}")
        wrong.append(answer_wrong(case, theirs[1]))
    refused = REFUSAL.fullmatch(ours[1])
    return Outcome("; ".join(part for part in wrong if part), f"refused {refused[1]}" if refused else "answered")


def compared_task(task):
    program, seed, kind, index = task
    return task, compared(program, made(seed, kind, index))


# ---- Examples ----

def converted(records):
    """What the converter makes of a text of records: its status, its output and its message."""
    done = subprocess.run([sys.executable, EXAMPLES / "list_from_records.py"], input=records, capture_output=True, check=False)
    return done.returncode, done.stdout, done.stderr.decode().strip()


BAD_RECORDS = {
    b"": "refused 1",
    b"meter 1 1\nflat 1 1\n" + b"candidate 0 0\n" * 257: "refused 1",
    b"meter 5 1\nmeter 5 1\nflat 1 1\ncandidate 0 7\n": "refused 3 meter 1",
    b"meter 5 1\nflat 1 1\ncandidate 0 0\ncandidate 0 1\n": "refused 4 candidate 1",
    b"meter 5 1\nflat 1 1\ncandidate 1 0\n": "refused 4 candidate 0",
    b"# floor\n\nmeter 5 1\nflat 1 256\ncandidate 0 0\n": "line 4 is no record: flat 1 256",
    b"meter 5\n": "line 1 is no record: meter 5",
}


def example_differences(program):
    """What is wrong with the examples, one line each."""
    wrong = []
    for path in sorted(EXAMPLES.glob("*.list")):
        if printed(program, path.read_bytes(), MOST_PROGRAM_SECONDS) != (0, path.with_suffix(".answer").read_text()):
            wrong.append(f"{path.name} is answered otherwise")
    for path in sorted(EXAMPLES.glob("*.records")):
        if converted(path.read_bytes()) != (0, path.with_suffix(".list").read_bytes(), ""):
            wrong.append(f"{path.name} gives another list")
    for records, message in BAD_RECORDS.items():
        if converted(records) != (1, b"", message):
            wrong.append(f"records that deserve '{message}' are treated otherwise")
    return wrong


# ---- The program ----

def unfinished_case():
    """A search that fifty grants don't finish; takes minutes, so it is run by hand only."""
    rng = random.Random("unfinished")
    return Case(lists.written(150, lists.random_pairs(rng, 150, 0.9, points_up_to(99))), ("finished no nodes 50000000",))


def tasks(program, seed, total):
    """Every kind in its share of the total, at least once."""
    full = sum(PLAN.values())
    for kind, count in PLAN.items():
        for index in range(max(1, round(count * total / full))):
            yield program, seed, kind.__name__, index


class Tally:
    """Counts outcomes, and shows and keeps the first few that differ."""

    def __init__(self):
        self.seen = collections.Counter()
        self.differences = 0
        self.folder = None

    def add(self, name, case, outcome):
        self.seen[outcome.tally] += 1
        if not outcome.wrong:
            return
        self.differences += 1
        if self.differences > 5:
            return
        self.folder = self.folder or tempfile.mkdtemp(prefix="pairing-")
        path = os.path.join(self.folder, name.replace(" ", "_") + ".list")
        pathlib.Path(path).write_bytes(case().data)
        print(f"{name} ({path}): {outcome.wrong}", flush=True)

    def summary(self):
        seen = ", ".join(f"{word}: {self.seen[word]}" for word in sorted(self.seen) if word != "skipped")
        count = sum(self.seen.values()) - self.seen["skipped"]
        return (f"{seen}\ncompared {count} lists: {self.differences} differences"
                f" ({self.seen['skipped']} skipped, their search being too long)")


def options():
    parser = argparse.ArgumentParser(description="Compares a pairing program with the independent solver.")
    parser.add_argument("program", type=os.path.abspath)
    parser.add_argument("--lists", type=int, default=sum(PLAN.values()), help="about how many lists")
    parser.add_argument("--seed", default="1")
    parser.add_argument("--fast", action="store_true", help="a twentieth of the lists")
    parser.add_argument("--unfinished", action="store_true", help="only one list, whose search fifty grants don't finish")
    return parser.parse_args()


def main():
    asked = options()
    tally = Tally()
    for index, case in enumerate([unfinished_case()] if asked.unfinished else worked_cases()):
        tally.add(f"worked {index}", lambda case=case: case, compared(asked.program, case, asked.unfinished))
    if not asked.unfinished:
        total = asked.lists // 20 if asked.fast else asked.lists
        with multiprocessing.Pool(2) as pool:
            for task, outcome in pool.imap_unordered(compared_task, tasks(asked.program, asked.seed, total), 20):
                tally.add(" ".join(map(str, task[2:])), lambda task=task: made(*task[1:]), outcome)
    for wrong in [] if asked.unfinished else example_differences(asked.program):
        tally.differences += 1
        print(f"examples: {wrong}")
    print(tally.summary())
    return 1 if tally.differences else 0


if __name__ == "__main__":
    sys.exit(main())
