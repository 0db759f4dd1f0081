#!/usr/bin/env python3
# Makes tables of what the bench printed in some runs, and holds the ratios to bench/bounds. Called by bench/run.
# usage: bench/table.py [--before FILE..] --now FILE..      a file a run; status 1: a ratio is over its bound
import argparse
import statistics
import sys
from collections import defaultdict
from fnmatch import fnmatchcase
from pathlib import Path

SAMPLES = 65536
WIDTHS = {"i8": 1, "i16": 2, "i32": 4, "f32": 4, "f64": 8}
# The sides that the port is beside, and what the tables call them.
SIDES = {
    "lent": "the Rust, lent",
    "driver": "the Rust's driver",
    "clang": "C, clang",
    "gcc": "C, gcc",
    "openjpeg": "OpenJPEG",
    "before": "the port before",
    "memcpy": "memcpy",
}


# A case: the times of each side, a run after another, and what the Rust's sides allocate.
class Case:
    def __init__(self):
        self.times = defaultdict(list)
        self.allocates = {}

    # The port's time over a side's, a run after another.
    def ratios(self, side):
        return [port / other for port, other in zip(self.times["port"], self.times.get(side, []))]

    def median(self, side):
        ratios = self.ratios(side)
        return statistics.median(ratios) if ratios else None


# ---- reading

# The cases of some runs, by name. A side of several forms, `gcc:wide` and `gcc:narrow`, is the fastest of them.
def read(files):
    cases = defaultdict(Case)
    for file in files:
        for line in Path(file).read_text().splitlines():
            kind, name, *fields = line.split("\t")
            if kind == "allocates":
                side, calls, size = fields
                cases[name].allocates[side] = int(calls), int(size)
                continue
            forms = defaultdict(list)
            for side, time in (field.split("=") for field in fields):
                forms[side.split(":")[0]].append(float(time))
            for side, times in forms.items():
                cases[name].times[side].append(min(times))
    return dict(cases)


# The lines of bench/bounds: the side, the most, the pattern of the cases.
def bounds():
    for line in (Path(__file__).parent / "bounds").read_text().splitlines():
        if line.strip() and not line.startswith("#"):
            side, most, pattern = line.split(maxsplit=2)
            yield side, float(most), pattern


# The part of the bench that a case is of: its front, or usual.
def part(name):
    front = name.split(": ")[0] if ": " in name else "usual"
    return front if front in ("usual", "file") else "special"


# ---- tables

def say(title, columns, rows):
    print(f"\n{title}\n\n| {' | '.join(columns)} |\n|{'---|' * len(columns)}")
    for row in rows:
        print(f"| {' | '.join(row)} |")


def ratio_cell(case, side):
    ratios = case.ratios(side)
    return f"{statistics.median(ratios):.2f} ({min(ratios):.2f} to {max(ratios):.2f})" if ratios else "-"


def time_cell(case, side):
    times = case.times.get(side)
    return f"{statistics.median(times):.1f}" if times else "-"


# A table of some cases beside the sides that they have, the worst first: by the first side of `order` that a case has.
def compared(title, cases, order, beside):
    def worst(case):
        return next(case.median(side) for side in order if case.times.get(side))

    beside = [side for side in beside if any(case.times.get(side) for case in cases.values())]
    rows = [
        [name]
        + [ratio_cell(case, side) for side in beside]
        + [time_cell(case, side) for side in ["port", *beside]]
        for name, case in sorted(cases.items(), key=lambda row: worst(row[1]), reverse=True)
    ]
    names = [SIDES[side] for side in beside]
    say(title, ["case", *(f"port / {name}" for name in names), "the port", *names], rows)


# What the Rust allocates in a call; filters that allocate alike share a row.
def allocations(cases):
    alike = defaultdict(list)
    for name, case in cases.items():
        filter, what = name.split(", ", 1)
        recording = SAMPLES * WIDTHS[filter.split()[1]]
        for side, (calls, size) in case.allocates.items():
            alike[what, side, calls, f"{size / recording:.2f}"].append(filter)
    filters = len({name.split(", ")[0] for name in cases})
    rows = [
        [what, SIDES[side], str(calls), size, "all" if len(of) == filters else ", ".join(of)]
        for (what, side, calls, size), of in sorted(alike.items())
    ]
    say(
        "What the Rust allocates in a call, counted in a call that is not timed: its times hold these allocations and their "
        f"freeing. Bytes are in recordings, the bytes of the {SAMPLES:,} samples. The port allocates nothing.",
        ["case", "side", "allocations", "bytes", "filters"],
        rows,
    )


# ---- bounds

# Says which ratios are over their bounds, the worst first, and whether none is.
def held(cases, has_before):
    over, within, stale = [], 0, False
    for side, most, pattern in bounds():
        fitting = [name for name in cases if fnmatchcase(name, pattern)]
        if not fitting:
            print(f"bench/bounds: no case fits {pattern}")
            stale = True
        if side == "before" and not has_before:
            print(f"not asked, without --before: {SIDES[side]} at most {most:.2f}, {pattern}")
            continue
        for name in fitting:
            ratio = cases[name].median(side)
            if ratio is not None and ratio > most:
                over.append((ratio / most, f"{name}: port / {SIDES[side]} {ratio:.3f}, at most {most:.2f}"))
            elif ratio is not None:
                within += 1
    for _, line in sorted(over, reverse=True):
        print(f"OVER ITS BOUND: {line}")
    print(f"{within} ratios within their bounds, {len(over)} over")
    return not over and not stale


def main():
    parser = argparse.ArgumentParser()
    parser.add_argument("--before", nargs="+", default=[])
    parser.add_argument("--now", nargs="+", required=True)
    asked = parser.parse_args()
    cases, before = read(asked.now), read(asked.before)
    for name, case in before.items():
        cases[name].times["before"] = case.times["port"]
    parts = defaultdict(dict)
    for name, case in cases.items():
        parts[part(name)][name] = case

    print(
        f"\n{SAMPLES:,} samples, {len(asked.now)} runs. A time is the best of a run, in microseconds, the median of the runs; a "
        "ratio is the median of the runs' ratios, with the smallest and the largest. Worst first. Outputs and work areas are "
        "lent, and not cleared between calls."
    )
    compared("Usual recordings", parts["usual"], ["lent", "driver"], ["lent", "driver", "clang", "gcc", "openjpeg"])
    compared(
        "Floats off the fast path" + ("" if before else "; no --before, so not beside earlier code"),
        parts["special"],
        ["before", "lent", "driver"],
        ["before", "lent", "driver", "clang", "gcc"],
    )
    compared("The file: 16,777,216 samples of 16 bits, 10 levels", parts["file"], ["memcpy"], ["memcpy"])
    allocations(parts["usual"])
    print()
    sys.exit(0 if held(cases, bool(before)) else 1)


if __name__ == "__main__":
    main()
