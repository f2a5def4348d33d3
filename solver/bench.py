#!/usr/bin/env python3
"""Measures a pairing program beside the independent solver on the same lists, as a Markdown table.

    solver/bench.py crates/pairing/out/pairing

Each number is nanoseconds a node: the processor time of the whole process, less that of a run on the smallest list, over the
nodes. The two programs take turns, and the best of the runs counts. The last column is what the solver says of its search
alone, by its own clock.
"""

import os
import random
import statistics
import subprocess
import sys
import tempfile

import lists
from compare import REPORT, SOLVER

RUNS = 3

# Candidates, candidates a meter, and a seed for which the search takes 20,000 to 2,000,000 nodes.
HOUSES = ((64, 3, 2), (64, 3, 5), (64, 4, 0), (64, 4, 5), (80, 3, 1), (80, 3, 2), (80, 4, 0), (80, 4, 1), (100, 3, 2),
          (100, 3, 4), (100, 3.5, 3), (100, 4, 3))
# Candidates, density, and a seed.
TABLES = ((60, 0.85, 0), (80, 0.8, 0), (100, 0.7, 1), (160, 0.45, 1))


def house(n, share, seed):
    meters, flats, candidates = lists.house(random.Random(f"house {n} {seed}"), n, share)
    return lists.written(len(candidates), lists.evidence_pairs(meters, flats, candidates))


def table(n, density, seed):
    rng = random.Random(f"table {n} {seed}")
    return lists.written(n, lists.random_pairs(rng, n, density, lambda r: r.randint(0, 99)))


def benches():
    """Names and lists."""
    for n, share, seed in HOUSES:
        yield f"house of {n}, {share} a meter, seed {seed}", house(n, share, seed)
    for n, density, seed in TABLES:
        yield f"table of {n}, {density:.0%} fit, seed {seed}", table(n, density, seed)


def spent(program, data):
    """The processor seconds of a run in user mode, and what it printed."""
    with tempfile.TemporaryFile() as given, tempfile.TemporaryFile() as printed:
        given.write(data)
        given.seek(0)
        child = subprocess.Popen([program], stdin=given, stdout=printed)
        _, status, usage = os.wait4(child.pid, 0)
        child.returncode = os.waitstatus_to_exitcode(status)
        printed.seek(0)
        return usage.ru_utime, printed.read().decode("latin-1")


def best(programs, data):
    """The least seconds of each program, taking turns, and what the last run of each printed."""
    seconds = [[] for _ in programs]
    texts = [""] * len(programs)
    for _ in range(RUNS):
        for i, program in enumerate(programs):
            used, texts[i] = spent(program, data)
            seconds[i].append(used)
    return [min(used) for used in seconds], texts


def own_clock(data):
    """What the solver says of its search alone, in seconds."""
    done = subprocess.run([SOLVER, "--time"], input=data, capture_output=True, check=True)
    return float(done.stderr.split()[3])


def main():
    programs = [os.path.abspath(sys.argv[1]), SOLVER]
    starts, _ = best(programs, bytes(lists.BLOCK))
    print("| list | nodes | program, ns a node | solver, ns a node | program / solver | solver by its own clock |")
    print("|---|---:|---:|---:|---:|---:|")
    ratios = []
    for name, data in benches():
        seconds, texts = best(programs, data)
        if texts[0] != texts[1]:
            sys.exit(f"{name}: the two programs differ")
        nodes = int(REPORT.fullmatch(texts[1])[6])
        program, solver = (1e9 * (used - start) / nodes for used, start in zip(seconds, starts))
        ratios.append(program / solver)
        print(f"| {name} | {nodes:,} | {program:,.0f} | {solver:,.0f} | {ratios[-1]:.2f} | {1e9 * own_clock(data) / nodes:,.0f} |",
              flush=True)
    print(f"\nmedian ratio {statistics.median(ratios):.2f}, worst {max(ratios):.2f}")


if __name__ == "__main__":
    main()
