#!/usr/bin/env python3
# Has the desk write and open pyramid files, and compares with a writer and a reader in Python, made from documents 01 and
# 02 (C-11, C-17) alone. Call: tests/pyramid.py [--seed N] [--large]
# First tests/desk/build. --large asks about the limits alone, in lines of many megabytes.
#
# There are two kinds of file: a new one has a rate behind its point, an old one none, which is the rate None here. The desk
# writes new ones, and reads both.
#
# Every lent slice starts as random bytes, most are longer than they need to be, and what must be left alone of them is
# looked at. The first answer that differs ends the run.
import argparse
import os
import random
import struct
import subprocess
import sys
from itertools import product
from typing import NamedTuple

LIMIT = 16_777_216
MOST_BYTES = 67_108_978
LAST_U32 = 2**32 - 1
FORMATS = {1: "b", 2: "h", 4: "i"}
HEAD = struct.Struct("<IBBII")  # of both kinds
U32 = struct.Struct("<I")
POINTS = [0, 1, 14, 255, 256, 65_536, 2**31 - 1, 2**31, LAST_U32]
P5 = struct.pack("5b", 0, 3, -4, 1, 7)
P6 = bytes.fromhex("0A000000 01 02 05000000 0E000000 02000000 FF03 01000000 F8 02000000 0500")
NEW = bytes.fromhex("0E000000 01 02 05000000 0E000000 E8030000 02000000 FF03 01000000 F8 02000000 0500")
RATES = [1, 255, 256, 1000, 65_536, 2**24, 25_600_000, 2**31, LAST_U32]


# ---- integer 5/3

def wrapped(value, width):
    half = 1 << (8 * width - 1)
    return (value + half) % (2 * half) - half


# The left and the right detail of every even sample.
def beside(details, evens):
    last = len(details) - 1
    return [(details[max(i - 1, 0)], details[min(i, last)]) for i in range(evens)]


def forward(x, width):
    n = len(x)
    d = [wrapped(x[i] - (x[i - 1] + x[i + 1 if i + 1 < n else i - 1]) // 2, width) for i in range(1, n, 2)]
    a = [wrapped(even + (left + right + 2) // 4, width) for even, (left, right) in zip(x[::2], beside(d, (n + 1) // 2))]
    return a, d


def inverse(a, d, width):
    n = len(a) + len(d)
    x = [0] * n
    x[::2] = [wrapped(low - (left + right + 2) // 4, width) for low, (left, right) in zip(a, beside(d, len(a)))]
    for i in range(1, n, 2):
        x[i] = wrapped(d[i // 2] + (x[i - 1] + x[i + 1 if i + 1 < n else i - 1]) // 2, width)
    return x


def packed(samples, width):
    return struct.pack(f"<{len(samples)}{FORMATS[width]}", *samples)


def unpacked(data, width):
    return list(struct.unpack(f"<{len(data) // width}{FORMATS[width]}", data))


# How many samples level 0, 1, .. have, as long as there is a level more.
def sizes(n):
    found = [n]
    while found[-1] >= 3:
        found.append((found[-1] + 1) // 2)
    return found


def depth(n):
    return len(sizes(n)) - 1


# How many samples sections 1 to levels + 1 have.
def counts(n, levels):
    had = sizes(n)
    return [had[levels]] + [had[level - 1] // 2 for level in range(levels, 0, -1)]


# ---- what the documents say

def head(width, levels, n, point, rate):
    return HEAD.pack(10, width, levels, n, point) if rate is None else HEAD.pack(14, width, levels, n, point) + U32.pack(rate)


def file_of(samples, width, levels, point, rate):
    a, sections = samples, []
    for _ in range(levels):
        a, d = forward(a, width)
        sections.insert(0, d)
    sections.insert(0, a)
    body = (U32.pack(len(section)) + packed(section, width) for section in sections)
    return head(width, levels, len(samples), point, rate) + b"".join(body)


def ragged(width, *lengths):
    return next(((9, 0, length) for length in lengths if length % width), None)


def no_room(*areas):
    return next(((7, have, need) for have, need in areas if have < need), None)


# The answer to asking for a file's size.
def sized(width, n, levels):
    stored = max(levels, 1)
    if width not in FORMATS:
        return 8, 0, width
    if n > LIMIT:
        return 6, 0, 0
    if depth(n) < stored:
        return (1, n, 3) if levels <= 1 else (4, 0, 0)
    return 0, 18 + 4 * (stored + 1) + width * n, 0


# The answer to writing, and the file; lengths are in bytes.
def written(signal, width, levels, point, rate, room, *works):
    n = len(signal) // width
    said = ragged(width, len(signal), *works)
    if not said and rate == 0:
        said = 18, 0, 0
    if not said:
        size = sized(width, n, levels)
        said = size if size[0] else no_room((room, size[1]), *((work // width, n) for work in works))
    return (said, b"") if said else ((0, 0, 0), file_of(unpacked(signal, width), width, max(levels, 1), point, rate))


# What is refused before a field of section 0 is looked at, if it is.
def begun(file):
    if len(file) > MOST_BYTES:
        return 6, 0, 0
    if len(file) < 4:
        return 10, len(file), 0
    count, = U32.unpack_from(file)
    if count not in (10, 14):
        return 9, 0, count
    return (10, len(file), 0) if len(file) < 4 + count else None


# Where section 1 of a file starts, and the rate that a file has stored.
def body(file):
    return 4 + U32.unpack_from(file)[0]


def rate_in(file):
    return U32.unpack_from(file, 14)[0] if body(file) == 18 else 0


# The answer to reading a head, and its five fields.
def told(file):
    if said := begun(file):
        return *said, 0, 0, 0, 0, 0
    return 0, 0, 0, *HEAD.unpack_from(file)[1:], rate_in(file)


# What section 0 is refused for, if it is.
def headed(file, width, point):
    if said := begun(file):
        return said
    _, own, levels, n, place = HEAD.unpack_from(file)
    if own != width or width not in FORMATS:
        return 8, own, width
    if n < 3:
        return 1, n, 3
    if n > LIMIT:
        return 6, 0, 0
    if levels == 0 or levels > depth(n):
        return 4, 0, 0
    if place != point:
        return 11, place, point
    return (18, 0, 0) if body(file) == 18 and rate_in(file) == 0 else None


# The answer to looking a section up: its place and its length, or the refusal.
def found(file, width, point, number):
    if said := headed(file, width, point):
        return said
    _, _, levels, n, _ = HEAD.unpack_from(file)
    if not 1 <= number <= levels + 1:
        return 13, number, levels + 1
    end = body(file)
    for section, count in list(enumerate(counts(n, levels), 1))[:number]:
        at, end = end, end + 4 + count * width
        if len(file) >= at + 4 and (got := int.from_bytes(file[at:at + 4], "little")) != count:
            return 9, section, got
        if len(file) < end:
            return 10, len(file), 0
    return 0, at + 4, end - at - 4


# The answer to opening where there is room, and the samples.
def opened(file, width, point):
    if said := headed(file, width, point):
        return said, b""
    _, _, levels, n, _ = HEAD.unpack_from(file)
    at, sections = body(file), []
    for section, count in enumerate(counts(n, levels), 1):
        end = at + 4 + count * width
        if len(file) >= at + 4 and (found := int.from_bytes(file[at:at + 4], "little")) != count:
            return (9, section, found), b""
        if len(file) < end:
            if section == 1:
                return (10, len(file), 0), b""
            break
        sections.append(unpacked(file[at + 4:end], width))
        at = end
    else:
        if len(file) > at:
            return (12, len(file) - at, 0), b""
    samples, *details = sections
    for d in details:
        samples = inverse(samples, d, width)
    return (0, levels - len(details), len(samples)), packed(samples, width)


# The answer to asking for one sample, and the sample: what opening would put there.
def sampled(file, width, point, place):
    said, samples = opened(file, width, point)
    if said[0]:
        return *said, 0
    if place >= said[2]:
        return 13, place, said[2], 0
    return 0, 0, 0, unpacked(samples, width)[place]


# ---- asking

# A request, the numbers of its answer, and for each lent slice how many bytes at its front nobody knows, and all of it.
class Ask(NamedTuple):
    request: str
    said: tuple
    lent: list


def request(name, slices, *numbers):
    first, *rest = ("x" + data.hex() for data in slices)
    return " ".join([name, first, *map(str, numbers), *rest])


# What a call must leave: `front` in the first lent slice, and the work areas as they were past as many bytes as `need`.
def left(said, front, need, lent):
    if said[0]:
        return [(0, slice) for slice in lent]
    return [(0, front + lent[0][len(front):])] + [(need, slice) for slice in lent[1:]]


# Lengths of lent slices are in bytes.
def write(random, signal, width, levels, point, rate, *lengths):
    said, file = written(signal, width, levels, point, rate, *lengths)
    lent = [random.randbytes(length) for length in lengths]
    asked = request(f"pyramid_write_i{8 * width}", [signal, *lent], levels, point, rate)
    return Ask(asked, said, left(said, file, len(signal), lent))


# A call with room to spare, or with lent slices of the lengths that `lengths` gives for the bytes of the samples. The rate
# stands beside the answer, and is 0 where it is a refusal.
def open_file(random, file, width, point, lengths=None):
    said, samples = opened(file, width, point)
    unit = width if width in FORMATS else 1
    spare = random.choices((0, 1, 1, 2, 5), k=3)
    sized = lengths(len(samples)) if lengths else [len(samples) + unit * more for more in spare]
    if not said[0]:
        said = no_room(*((have // width, said[2]) for have in sized)) or said
    if width in FORMATS:
        said = ragged(width, *sized) or said
    lent = [random.randbytes(length) for length in sized]
    rate = 0 if said[0] else rate_in(file)
    return Ask(request("pyramid_open", [file, *lent], width, point), (*said, rate), left(said, samples, len(samples), lent))


def look_up(file, width, point, number):
    return Ask(request("pyramid_section", [file], width, point, number), found(file, width, point, number), [])


def read_sample(file, width, point, place):
    return Ask(request("pyramid_sample", [file], width, point, place), sampled(file, width, point, place), [])


def size_up(width, n, levels):
    return Ask(f"pyramid_size {width} {n} {levels}", sized(width, n, levels), [])


def read_head(file):
    return Ask(request("pyramid_head", [file]), told(file), [])


class Tally:
    def __init__(self):
        self.files = self.opens = self.refused = self.sections = self.missing = self.sizes = self.heads = self.samples = 0
        self.books = self.reasons = 0

    def count(self, ask, answer):
        said = len(ask.said)
        numbers, slices = answer.split(" ")[:said], answer.split(" ")[said:]
        wanted = [str(number) for number in ask.said]
        if numbers != wanted or not all(self.same(*pair) for pair in zip(ask.lent, slices, strict=True)):
            print("the desk differs from documents 01 and 02", ask.request, sep="\n  ")
            print("  wanted", *wanted, *("x" + "-" * (2 * skip) + data[skip:].hex() for skip, data in ask.lent))
            sys.exit(f"  got    {answer}")
        if ask.request.startswith("pyramid_open"):
            self.opens += 1
            self.refused += ask.said[0] != 0
        elif ask.request.startswith("pyramid_section"):
            self.sections += 1
            self.missing += ask.said[0] != 0
        elif ask.request.startswith("pyramid_size"):
            self.sizes += 1
        elif ask.request.startswith("pyramid_head"):
            self.heads += 1
        elif ask.request.startswith("pyramid_sample"):
            self.samples += 1
        elif ask.request.startswith("pyramid_why"):
            self.reasons += 1
        elif ask.request.startswith("book"):
            self.books += 1
        else:
            self.files += ask.said[0] == 0

    # Whether a slice of the answer has the bytes that it must have; the first few are anyone's.
    def same(self, wanted, word):
        skip, data = wanted
        return len(word) == 1 + 2 * len(data) and word[1 + 2 * skip:] == data[skip:].hex()


# Asks are sent in parts of about 4 MiB.
def compare(asks, tally):
    part, size = [], 0
    for ask in asks:
        part.append(ask)
        size += len(ask.request)
        if size > 1 << 22:
            send(part, tally)
            part, size = [], 0
    send(part, tally)
    return tally


def send(part, tally):
    lines = "".join(ask.request + "\n" for ask in part)
    server = subprocess.run(["tests/desk/run"], input=lines, stdout=subprocess.PIPE, text=True)
    answers = server.stdout.splitlines()
    for place, ask in enumerate(part):
        tally.count(ask, answers[place] if place < len(answers) else "no answer")
    if server.returncode or len(answers) > len(part):
        sys.exit(f"{len(answers)} answers to {len(part)} requests, and status {server.returncode}")


# ---- the asks

def recordings(random, width, n):
    most = 2 ** (8 * width - 1) - 1
    yield [random.randint(-most - 1, most) for _ in range(n)]
    yield random.choices((-most - 1, -most, -1, 0, 1, most), k=n)
    yield [(most, -most - 1)[i % 2] for i in range(n)]
    yield [random.randint(-4, 4) for _ in range(n)]
    yield [random.choice((-most - 1, most))] * n


def any_recording(random, width, n):
    return random.choice(list(recordings(random, width, n)))


def any_point(random):
    return random.choice([*POINTS, random.randint(0, LAST_U32)])


def any_rate(random):
    return random.choice([*RATES, random.randint(1, LAST_U32)])


# The rates of an old file and of a new one.
def both_kinds(random):
    return None, any_rate(random)


def any_file(random, width, n, rate, levels=None):
    levels = levels or random.randint(1, depth(n))
    return file_of(any_recording(random, width, n), width, levels, any_point(random), rate)


def own(file):
    _, width, levels, n, point = HEAD.unpack_from(file)
    return width, levels, n, point


# A file with other bytes at a place.
def changed(file, place, data):
    return file[:place] + data + file[place + len(data):]


# A file opened as itself.
def reopen(random, file, lengths=None):
    width, _, _, point = own(file)
    return open_file(random, file, width, point, lengths)


# P5 to P10, answers and all: P6 is an old file. The same samples for a rate of 1 Hz are a new one, whose sections end 4 bytes later.
def figures(random):
    yield write(random, P5, 1, 2, 14, 1000, 35, 5, 5)
    assert (file_of(unpacked(P5, 1), 1, 2, 14, None), file_of(unpacked(P5, 1), 1, 2, 14, 1000)) == (P6, NEW)
    for file, rate, ends in (P6, 0, (20, 25, 31)), (NEW, 1000, (24, 29, 35)):
        for cut in range(len(file) + 1):
            ask = open_file(random, file[:cut], 1, 14)
            said, samples = opened(file[:cut], 1, 14)
            if cut < ends[0]:
                figure = (10, cut, 0), [], 0
            elif cut < ends[1]:
                figure = (0, 2, 2), [-1, 3], rate
            elif cut < ends[2]:
                figure = (0, 1, 3), [3, -3, 7], rate
            else:
                figure = (0, 0, 5), [0, 3, -4, 1, 7], rate
            assert (said, unpacked(samples, 1)) == figure[:2] and ask.said == (*figure[0], figure[2])
            yield ask


# Files of every length to 60 and of a few above, and every prefix of those of at most 200 bytes.
def files(random):
    for width in FORMATS:
        for n in [*range(3, 61), 127, 128, 129, 255, 256, 257, 511, 513, 600, 1025]:
            for levels in range(depth(n) + 1):
                sorts = list(recordings(random, width, n))
                for samples in sorts if n < 8 else random.sample(sorts, 2):
                    point, rate = any_point(random), any_rate(random)
                    new, old = (file_of(samples, width, max(levels, 1), point, kind) for kind in (rate, None))
                    lengths = [len(new) + random.choice((0, 1, 2, 3, 9))]
                    lengths += [width * (n + random.choice((0, 1, 4))) for _ in range(2)]
                    yield write(random, packed(samples, width), width, levels, point, rate, *lengths)
                    for file in new, old:
                        for cut in range(len(file) + 1) if len(file) <= 200 else [len(file)]:
                            yield open_file(random, file[:cut], width, point)
    samples = [random.randint(-128, 127) for _ in range(70_001)]
    file = file_of(samples, 1, 16, LAST_U32, LAST_U32)
    yield write(random, packed(samples, 1), 1, 16, LAST_U32, LAST_U32, len(file) + 1, len(samples), len(samples) + 1)
    for cut in (len(file), len(file) - 1, len(file) // 2):
        yield open_file(random, file[:cut], 1, LAST_U32)


# Sections of every prefix of small files, of files with a byte changed, and asked by any number.
def sections(random):
    for width in FORMATS:
        for n in (3, 4, 5, 8, 9, 17, 20):
            for levels in range(1, depth(n) + 1):
                for rate in both_kinds(random):
                    yield from sections_of(random, any_file(random, width, n, rate, levels))


def sections_of(random, file):
    width, levels, _, point = own(file)
    for cut in range(len(file) + 1):
        for number in range(levels + 3):
            yield look_up(file[:cut], width, point, number)
    for place, byte in enumerate(file):
        other = changed(file, place, bytes([byte ^ random.choice((1, 2, 16, 128))]))
        yield look_up(other, width, point, random.randint(1, levels + 1))
    for number in (levels + 2, 255, 256, 257, 2**31, LAST_U32):
        yield look_up(file, width, point, number)
    yield look_up(file + b"\0", width, point, levels + 1)
    for asked in (0, 3, 5, 8, width ^ 3):
        yield look_up(file, asked, point, 1)
    yield look_up(file, width, point ^ 1, 1)


# Samples of fronts of files at any place, of the figures whole and cut, of files with a byte changed, and asked for another width or
# point.
def samples(random):
    for file, end in (P6, 25), (NEW, 29):
        figure = {end + 2: [3, -3, 7], end + 6: [0, 3, -4, 1, 7]}
        for cut in range(len(file) + 1):
            for place in range(7):
                ask = read_sample(file[:cut], 1, 14, place)
                if cut in figure:
                    values = figure[cut]
                    assert ask.said == ((0, 0, 0, values[place]) if place < len(values) else (13, place, len(values), 0))
                yield ask
    for width in FORMATS:
        for n in [*range(3, 21), 33, 64, 65, 257, 1025]:
            for rate in 2 * both_kinds(random):
                file = any_file(random, width, n, rate)
                point = own(file)[3]
                for cut in {len(file), len(file) - 1, *random.choices(range(len(file)), k=4)}:
                    for place in {0, 1, 2, n - 1, n, *random.choices(range(n), k=4), random.choice((2**31, 2**32, 2**63, 2**64 - 1))}:
                        yield read_sample(file[:cut], width, point, place)
                for at in random.choices(range(len(file)), k=8):
                    yield read_sample(changed(file, at, bytes([random.randrange(256)])), width, point, random.randrange(n))
                yield read_sample(file + b"\0", width, point, 0)
                for asked in (0, 3, 5, 8, width ^ 3, 256 + width):
                    yield read_sample(file, asked, point, 0)
                yield read_sample(file, width, point ^ 1, 0)


# A new file whose rate is 0: 18, after what is said of the other fields and before what is said of a number asked for, of the sections
# and of room. NEW with other bytes at a place and as many bytes at the end, and what opening says of it.
NO_RATE = [
    (0, "", 0, (18, 0, 0)),
    (4, "02", 0, (8, 2, 1)),
    (6, "02", 0, (1, 2, 3)),
    (6, "01000001", 0, (6, 0, 0)),
    (5, "00", 0, (4, 0, 0)),
    (5, "03", 0, (4, 0, 0)),
    (10, "0F", 0, (11, 15, 14)),
    (18, "03", 0, (18, 0, 0)),
    (29, "03", 0, (18, 0, 0)),
    (0, "", 9, (18, 0, 0)),
    (0, "", -1, (18, 0, 0)),
    (0, "", -16, (18, 0, 0)),
    (0, "", -17, (18, 0, 0)),
    (0, "", -18, (10, 17, 0)),
    (0, "0B", -18, (9, 0, 11)),
    (0, "0E01", -31, (9, 0, 270)),
    (0, "0B", -32, (10, 3, 0)),
    (0, "0A", 0, (9, 1, 0)),
]


def rates(random):
    for place, words, more, said in NO_RATE:
        file = changed(changed(NEW, 14, bytes(4)), place, bytes.fromhex(words))
        file = file + random.randbytes(more) if more > 0 else file[:len(file) + more]
        for areas in None, lambda _: [0, 0, 0]:
            ask = open_file(random, file, 1, 14, areas)
            assert ask.said == (*said, 0)
            yield ask
        for number in 0, 1, 3, 4, LAST_U32:
            ask = look_up(file, 1, 14, number)
            assert ask.said == said or file[0] == 10
            yield ask
        for at in 0, 5, 2**64 - 1:
            ask = read_sample(file, 1, 14, at)
            assert ask.said == (*said, 0)
            yield ask
        ask = read_head(file)
        assert ask.said[0] in (0, 9, 10) and ask.said[7] == 0
        yield ask
    # a rate that is not 0 has one byte that is not
    for rate in 1, 128, 2**8, 2**16, 2**24, 2**31, LAST_U32:
        file = changed(NEW, 14, U32.pack(rate))
        ask = open_file(random, file, 1, 14)
        assert ask.said == (0, 0, 5, rate) and read_head(file).said == (0, 0, 0, 1, 2, 5, 14, rate)
        yield from (ask, read_head(file), look_up(file, 1, 14, 3), write(random, P5, 1, 2, 14, rate, 35, 5, 5))
    # areas of no whole number of samples are before 18, and room is after it
    for lengths, said in ((10, 10, 10), (18, 0, 0)), ((0, 0, 0), (18, 0, 0)), ((10, 11, 10), (9, 0, 11)), ((9, 10, 11), (9, 0, 9)):
        ask = open_file(random, file_of([1] * 5, 2, 2, 14, 0), 2, 14, lambda _: lengths)
        assert ask.said == (*said, 0)
        yield ask
    # in writing: signal, levels, and the lengths of file and work areas
    for signal, levels, lengths, said in (
        (10, 2, (99, 10, 10), (18, 0, 0)),
        (10, 2, (0, 0, 0), (18, 0, 0)),
        (10, 3, (99, 10, 10), (18, 0, 0)),
        (4, 1, (99, 10, 10), (18, 0, 0)),
        (11, 2, (99, 10, 10), (9, 0, 11)),
        (10, 2, (99, 9, 10), (9, 0, 9)),
        (10, 2, (99, 10, 13), (9, 0, 13)),
    ):
        ask = write(random, random.randbytes(signal), 2, levels, 14, 0, *lengths)
        assert ask.said == said
        yield ask


# The start of a file: under 4 bytes is 10 whatever they are; a count that is neither 10 nor 14 is 9 from 4 bytes on; then fewer bytes
# than the count needs are 10.
def starts(random):
    for count in 0, 1, 9, 10, 11, 13, 14, 15, 18, 266, 270, 10 << 8, 14 << 24, 2**31 + 14, LAST_U32:
        file = U32.pack(count) + HEAD.pack(0, 1, 2, 5, 14)[4:] + NEW[14:]
        for cut in range(25):
            ask = open_file(random, file[:cut], 1, 14)
            if cut < 4 or count in (10, 14) and cut < 4 + count:
                assert ask.said == (10, cut, 0, 0)
            elif count not in (10, 14):
                assert ask.said == (9, 0, count, 0)
            yield from (ask, read_head(file[:cut]), look_up(file[:cut], 1, 14, 1), read_sample(file[:cut], 1, 14, 0))


# Writes that are refused, and those that just are not.
def write_bounds(random):
    for width in FORMATS:
        for n in [*range(40), 64, 65]:
            signal, deep = random.randbytes(width * n), depth(n)
            for levels in {0, 1, 2, deep, deep + 1, deep + 2, 23, 24, 255, 256, 257, 65_537, LAST_U32}:
                size, full = 18 + 4 * (max(levels, 1) + 1) + width * n, width * n
                lent = [(min(size, 500), full, full), (0, 0, 0)]
                if levels <= deep:
                    lent += [(size - 1, full, full), (size, full - width, full), (size, full, full - width)]
                    lent += [(size - 4, full, full), (size - 1, full - width, full - width), (size, full - width, full - width)]
                    lent += [(size + 1, full, full + width), (0, full, full), (size, 0, 0)]
                for lengths in lent:
                    lengths = [max(length, 0) for length in lengths]
                    rate = random.choice((0, any_rate(random), any_rate(random), any_rate(random)))
                    yield write(random, signal, width, levels, any_point(random), rate, *lengths)
            for off in range(1, width):
                full, size = width * n, 100 + width * n
                for rate in 0, 1000:
                    yield write(random, signal + bytes(off), width, 1, 7, rate, size, full + width, full + width)
                    yield write(random, signal + bytes(off), width, 1, 7, rate, size, full + 1, full + width + 1)
                    yield write(random, signal, width, 1, 7, rate, size, full + off, full)
                    yield write(random, signal, width, 1, 7, rate, 0, full, full + off)


# By how many samples, or bytes, the lent slices of an opening are longer than need be.
SAMPLES_MORE = [(0, 0, 0), (-1, 0, 0), (0, -1, 0), (0, 0, -1), (-1, -1, -1), (0, -1, -1), (-1, 0, 1), (1, 2, 3)]
BYTES_MORE = [(1, 0, 0), (0, 1, 0), (0, 0, 1), (1, 1, 1), (-1, 0, 0)]


# Every level of a file, with lent slices that are exactly full, a sample short, or no whole number of samples.
def open_bounds(random):
    for width in FORMATS:
        changes = [[width * more for more in change] for change in SAMPLES_MORE]
        changes += [[off * more for more in change] for off in range(1, width) for change in BYTES_MORE]
        for n in (3, 4, 5, 8, 9, 17, 33, 50, 257):
            for levels in range(1, depth(n) + 1):
                for rate in both_kinds(random):
                    file = any_file(random, width, n, rate, levels)
                    end = body(file)
                    for count in counts(n, levels):
                        end += 4 + width * count
                        yield reopen(random, file[:end], lambda full: [0, 0, 0])
                        for change in changes:
                            yield from with_room(random, file, end, lambda full: [max(0, full + more) for more in change])


# A file that ends there, and others that are refused before their lent slices are looked at.
def with_room(random, file, end, lengths):
    width, _, _, point = own(file)
    for other in file[:end], file[:9], file[:15], file + b"\0", changed(file, 4, b"\7"), changed(file, 14, bytes(4)):
        yield open_file(random, other, width, point, lengths)


# Files with a byte changed, with several, with more at the end, and opened for another width or point.
def damaged(random):
    for width in FORMATS:
        for n in (3, 4, 5, 6, 7, 8, 9, 12, 17, 20):
            for levels in range(1, depth(n) + 1):
                for rate in both_kinds(random):
                    file = any_file(random, width, n, rate, levels)
                    for place, byte in enumerate(file):
                        for to in {(byte + 1) % 256, (byte - 1) % 256, byte ^ random.choice((4, 16, 32, 64, 128))}:
                            other = changed(file, place, bytes([to]))
                            yield open_file(random, other, width, own(file)[3])
                            if random.random() < 0.2:
                                yield reopen(random, other[:random.randint(14, len(file))])
                    for more in 1, 2, 3, 4, 5, 8, 100:
                        yield reopen(random, file + random.randbytes(more))
                    yield reopen(random, file + file)
    for _ in range(3000):
        file = bytearray(any_file(random, random.choice(list(FORMATS)), random.randint(3, 40), random.choice(both_kinds(random))))
        width, _, _, point = own(file)
        for _ in range(random.choice((1, 2, 3))):
            place = random.choice((random.randrange(len(file)), random.choice((0, 4, 5, 6, 10, 14, 18))))
            file[place] = random.choice((0, 1, 2, 3, 4, 10, 14, 255, random.randrange(256)))
        cut = random.choice((len(file), random.randint(0, len(file))))
        yield open_file(random, bytes(file[:cut]), width, point)


def other_asked(random):
    for width in FORMATS:
        for n, rate in zip((3, 5, 9, 20), 2 * both_kinds(random)):
            file = any_file(random, width, n, rate)
            point = own(file)[3]
            for asked in 0, 1, 2, 3, 4, 5, 8, 255, 256 + width, 65_536 + width, 2**31 + width, LAST_U32:
                for other in {point, point ^ 1, point ^ 2**31, LAST_U32 - point, any_point(random)}:
                    for cut in len(file), len(file) - 1, 18, 17, 14, 13, 4, 3, 0:
                        yield open_file(random, file[:cut], asked, other)
                yield open_file(random, file, asked, point, lambda _: [1, 3, 5])
            for bit in range(32):
                yield open_file(random, file, width, point ^ 1 << bit)
    # files that say so themselves
    for width in 0, 3, 5, 8, 16, 255:
        for asked in 0, 1, 2, 3, 4, 5, 8, 16, 255:
            for rate in None, 0, 1000:
                yield open_file(random, head(width, 1, 5, 9, rate) + random.randbytes(40), asked, 9, lambda _: [7, 9, 11])


HEAD_LENGTHS = [*range(10), 16, 17, 255, 256, 257, 65_536, 65_537, LIMIT // 2]
HEAD_LENGTHS += [LIMIT - 1, LIMIT, LIMIT + 1, 2**31, LAST_U32]


# Heads of recordings of every length and number of levels near a bound, with as many sections as are small.
def heads(random):
    for width in FORMATS:
        for n in HEAD_LENGTHS:
            deep = depth(n) if n <= LIMIT else 23
            for levels in {0, 1, 2, deep - 1, deep, deep + 1, 23, 24, 32, 64, 255} & set(range(256)):
                for rate in None, 0, any_rate(random):
                    yield from headed_by(random, head(width, levels, n, 77, rate))


def headed_by(random, file):
    width, levels, n, _ = own(file)
    for point in 77, 78:
        yield open_file(random, file, width, point)
    if not 3 <= n <= LIMIT or not 0 < levels <= depth(n):
        return
    for count in counts(n, levels):
        known = len(file)
        file += U32.pack(count)
        if count < 100:
            file += random.randbytes(width * count)
        for cut in {*range(known, len(file), 3), known + 1, known + 4, len(file) - 1, len(file)}:
            yield open_file(random, file[:cut], width, 77)
        for wrong in {count + 1, abs(count - 1), count ^ 2**31, width * count} - {count}:
            yield open_file(random, changed(file, known, U32.pack(wrong)), width, 77)
        if count >= 100:
            break


# Sizes of files of every width, length and number of levels near a bound.
def file_sizes(random):
    for width in 0, 1, 2, 3, 4, 5, 8, 255, 257, 2**31 + 1, LAST_U32:
        for n in [*HEAD_LENGTHS, 2**32 + 5, 2**62, 2**63, 2**64 - 1]:
            deep = depth(n) if n <= LIMIT else 23
            for levels in sorted({0, 1, 2, max(deep - 1, 0), deep, deep + 1, 23, 24, 255, 256, 257, 65_537, LAST_U32}):
                yield size_up(width, n, levels)


# Heads of files and of fronts of files, with any bytes in their fields, and where section 0 has another count.
def own_heads(random):
    for width in FORMATS:
        for n in (3, 5, 20):
            for rate in (*both_kinds(random), 0):
                file = any_file(random, width, n, rate)
                for cut in range(len(file) + 1):
                    yield read_head(file[:cut])
    for _ in range(500):
        fields = random.randbytes(random.choice((10, 11, 13, 14, 15, 18, 54)))
        for count in 10, 14, random.choice((0, 9, 11, 13, 15, 10 + 256, 14 + 256, 10 + 2**31, 14 + 2**31, LAST_U32)):
            yield read_head(U32.pack(count) + fields)


# The longest recordings and files, and those that are too long.
def limits(random):
    for width in FORMATS:
        for n in LIMIT, LIMIT + 1:
            for levels in 0, 23, 24:
                for rate in 0, 1000:
                    yield write(random, random.randbytes(width * n), width, levels, 5, rate, 0, 0, 0)
    for rate, length in product((None, 0, 1000), (MOST_BYTES - 4, MOST_BYTES, MOST_BYTES + 1)):
        file = head(4, 23, LIMIT, 5, rate) + struct.pack("<IiiI", 2, 1, 2, 1)
        file += random.randbytes(length - len(file))
        yield open_file(random, file, 4, 6, lambda full: [0, 0, 0])
        yield open_file(random, file, 4, 5, lambda full: [0, 0, 0])
        yield open_file(random, file, 4, 5, lambda full: [0, 4, 7])
        yield read_head(file)
        yield read_sample(file, 4, 6, 0)
        yield read_sample(file, 4, 5, 0)


PARTS = [figures, rates, starts, files, sections, samples, write_bounds, open_bounds, damaged, other_asked, heads, file_sizes]
PARTS += [own_heads]


def main():
    parser = argparse.ArgumentParser()
    parser.add_argument("--seed", type=int, default=53)
    parser.add_argument("--large", dest="parts", action="store_const", const=[limits], default=PARTS)
    asked = parser.parse_args()
    os.chdir(os.path.join(os.path.dirname(os.path.abspath(__file__)), ".."))
    source = random.Random(asked.seed)
    tally = compare((ask for part in asked.parts for ask in part(source)), Tally())
    print(f"ok pyramid: {tally.files} files, {tally.opens} opens, {tally.refused} of them refused, {tally.sections} sections asked for, {tally.missing} of them refused, {tally.sizes} sizes, {tally.heads} heads, {tally.samples} samples")


if __name__ == "__main__":
    main()
