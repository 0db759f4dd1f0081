#!/usr/bin/env python3
# Asks the desk where notes show, what coefficients span and where windows stand, and compares with a Python made from
# documents 01 and 02 (C-13) alone. Call: tests/notes.py [--seed N]
# First tests/desk/build. The first answer that differs ends the run.
import argparse
import os
import random
import subprocess
import sys
from typing import NamedTuple

LIMIT = 16_777_216
LAST_U32 = 2**32 - 1
LAST_U64 = 2**64 - 1
WIDTHS = {"i8": 1, "i16": 2, "i32": 4, "f32": 4, "f64": 8}


# ---- what documents 01 and 02 say

# How many samples level 0, 1, .. have, as long as there is a level more.
def sizes(n):
    found = [n]
    while found[-1] >= 3:
        found.append((found[-1] + 1) // 2)
    return found


def depth(n):
    return len(sizes(n)) - 1


# What a note or a coefficient is refused for, where `limit` says how many places the level has.
def refused(n, level, place, limit):
    if n > LIMIT:
        return 6, 0, 0
    if not 1 <= level <= depth(n):
        return 13, level, depth(n)
    return None if place < limit() else (13, place, limit())


def column(n, level, sample):
    return refused(n, level, sample, lambda: n) or (0, sample // 2**level, 0)


# How far an approximation of a level reads to either side: document 02's r(l).
def reach(level):
    return 2 ** (level + 1) - 2


def approx_span(n, level, place):
    said = refused(n, level, place, lambda: sizes(n)[level])
    return said or (0, max(place * 2**level - reach(level), 0), min(place * 2**level + reach(level), n - 1))


def detail_span(n, level, place):
    said = refused(n, level, place, lambda: sizes(n)[level - 1] // 2)
    return said or (0, max(place * 2**level - reach(level - 1), 0), min((place + 1) * 2**level + reach(level - 1), n - 1))


SPANS = {"note_span": approx_span, "note_detail_span": detail_span}


# The same by what they mean. A column: each level puts two neighbours into one.
def halved(n, level):
    at = list(range(n))
    for _ in range(level):
        at = [place // 2 for place in at]
    return at


# A span: the samples that a coefficient is made of, step by step, where document 01 mirrors the ends. A detail reads its odd sample
# and the even ones beside it, an approximation its even sample and the details beside it.
def one_level(reads):
    evens, odds = reads[::2], reads[1::2]
    details = [odd | evens[i] | evens[min(i + 1, len(evens) - 1)] for i, odd in enumerate(odds)]
    return [even | details[max(i - 1, 0)] | details[min(i, len(details) - 1)] for i, even in enumerate(evens)], details


# What the approximations and the details of a level are made of.
def made_of(n, level):
    reads, details = [{sample} for sample in range(n)], []
    for _ in range(level):
        reads, details = one_level(reads)
    return {"note_span": reads, "note_detail_span": details}


# Lengths in bytes; a window is counted out sample by sample, so that no product can be wrong in the same way.
def window(width, approx, details, band, start, count):
    for length in approx, details:
        if length % width:
            return 9, 0, length
    places = list(range(0, details if band else approx, width))
    if count == 0 or start + count > len(places):
        return 13, start, len(places)
    return 0, places[start], sum(width for _ in places[start:start + count])


# ---- the asks

class Ask(NamedTuple):
    request: str
    said: tuple


def ask_column(n, level, sample):
    return Ask(f"note_column {n} {level} {sample}", column(n, level, sample))


def ask_spans(n, level, place):
    return [Ask(f"{name} {n} {level} {place}", span(n, level, place)) for name, span in SPANS.items()]


def ask_window(random, kind, approx, details, band, start, count):
    slices = " ".join("x" + random.randbytes(length).hex() for length in (approx, details))
    said = window(WIDTHS[kind], approx, details, band, start, count)
    return Ask(f"band_window_{kind} {slices} {band} {start} {count}", said)


# Every recording of at most 40 samples, every level to one past the deepest, every place to two past the last.
def small(random):
    for n in range(41):
        for level in range(depth(n) + 2):
            at = halved(n, level)
            for sample in range(n + 2):
                ask = ask_column(n, level, sample)
                assert ask.said[0] or ask.said[1] == at[sample]
                yield ask
            made = made_of(n, min(level, depth(n)))
            for place in range(len(set(at)) + 2):
                for ask in ask_spans(n, level, place):
                    reads = made[ask.request.split()[0]]
                    assert ask.said[0] or ask.said[1:] == (min(reads[place]), max(reads[place]))
                    assert not 1 <= level <= depth(n) or (ask.said[0] == 0) == (place < len(reads))
                    yield ask


# Recordings of any length: the ends of columns, and the last ones; spans at both ends and between.
def large(random):
    for _ in range(4000):
        n = random.choice((random.randint(3, LIMIT), random.randint(3, 5000), 2**random.randint(2, 24) + random.randint(-1, 1)))
        level = random.randint(1, max(depth(min(n, LIMIT)), 1))
        place = random.randrange(n >> level if n >> level else 1)
        for sample in {place << level, (place + 1 << level) - 1, place + 1 << level, n - 1, n}:
            yield ask_column(n, level, sample)
        last = n - 1 >> level
        for near in {place, *range(3), *range(max(last - 3, 0), last + 3)}:
            yield from ask_spans(n, level, near)


# Numbers that do not fit anything.
def limits(random):
    for n in 0, 1, 2, 3, LIMIT - 1, LIMIT, LIMIT + 1, 2**32, 2**63, LAST_U64:
        for level in 0, 1, 2, 22, 23, 24, 25, 31, 32, 63, 64, 65, 255, 2**31, LAST_U32:
            for place in {0, 1, 2, 3, n // 2, max(n - 1, 0), n, LIMIT, 2**32, 2**63, LAST_U64}:
                yield ask_column(n, level, place)
                yield from ask_spans(n, level, place)


# Every window on short bands, and starts and counts whose sums and products do not fit.
def windows(random):
    for kind, width in WIDTHS.items():
        far = [LAST_U64, 2**63, 2**64 // width - 1, min(2**64 // width, LAST_U64), min(2**64 // width + 1, LAST_U64)]
        for approx in range(5):
            for details in range(5):
                for band in 0, random.choice((1, 2, 256, 2**31, LAST_U32)):
                    near = [*range(7), *random.sample(far, 2), *(2**64 - 1 - random.randrange(5) for _ in range(2))]
                    for start in near:
                        for count in near:
                            yield ask_window(random, kind, width * approx, width * details, band, start, count)


# Byte lengths that are no whole number of samples, of one band or both, whatever is asked.
def ragged(random):
    for kind, width in WIDTHS.items():
        for approx in range(3 * width + 1):
            for details in range(3 * width + 1):
                for band in 0, 1:
                    yield ask_window(random, kind, approx, details, band, random.randrange(3), random.randrange(3))


# Windows that fit, on longer bands.
def inside(random):
    for _ in range(3000):
        kind = random.choice(list(WIDTHS))
        many = random.randint(1, 300), random.randint(1, 300)
        band = random.randrange(2)
        start = random.randrange(many[band])
        count = random.randint(1, many[band] - start + 1)
        yield ask_window(random, kind, WIDTHS[kind] * many[0], WIDTHS[kind] * many[1], band, start, count)


# ---- comparing

class Tally:
    def __init__(self):
        self.asked = {"note_column": 0, "note_span": 0, "note_detail_span": 0, "band_window": 0}
        self.refused = dict(self.asked)

    def count(self, ask, answer):
        wanted = " ".join(str(number) for number in ask.said)
        if answer != wanted:
            print("the desk differs from the documents", ask.request, sep="\n  ")
            sys.exit(f"  wanted {wanted}\n  got    {answer}")
        name = next(name for name in self.asked if ask.request.startswith(name))
        self.asked[name] += 1
        self.refused[name] += ask.said[0] != 0


# Asks are sent in one go: no line is long.
def compare(asks):
    lines = "".join(ask.request + "\n" for ask in asks)
    server = subprocess.run(["tests/desk/run"], input=lines, stdout=subprocess.PIPE, text=True)
    answers, tally = server.stdout.splitlines(), Tally()
    for place, ask in enumerate(asks):
        tally.count(ask, answers[place] if place < len(answers) else "no answer")
    if server.returncode or len(answers) > len(asks):
        sys.exit(f"{len(answers)} answers to {len(asks)} requests, and status {server.returncode}")
    return tally


def main():
    parser = argparse.ArgumentParser()
    parser.add_argument("--seed", type=int, default=53)
    asked = parser.parse_args()
    os.chdir(os.path.join(os.path.dirname(os.path.abspath(__file__)), ".."))
    source = random.Random(asked.seed)
    tally = compare([ask for part in (small, large, limits, windows, ragged, inside) for ask in part(source)])
    columns, spans, details, drawn = tally.asked.values()
    told = f"{columns} columns, {spans} spans of approximations and {details} of details, {drawn} windows"
    print(f"ok notes: {told} (refused: {', '.join(map(str, tally.refused.values()))})")


main()
