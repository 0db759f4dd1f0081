#!/usr/bin/env python3
# Both kinds of pyramid file across versions. The old files and the old book in tests/old/, which the library of 0.9.0 wrote, through
# every call of the desk, the files cut everywhere; and new files, which the desk writes, by an opener of before, tests/before.py:
# it refuses every front of them. Call: tests/kinds.py
# First tests/desk/build. The first answer that differs ends the run.
import os
import random

import before
import reader
from pyramid import FORMATS, HEAD, LAST_U32, NEW, P5, U32, Ask, Tally
from pyramid import any_point, any_rate, any_recording, compare, depth, file_of, look_up, open_file, own, packed, read_head
from pyramid import read_sample, request, unpacked, wrapped, write

LIMIT_BEFORE, LIMIT = 67_108_974, 67_108_978


# Samples that wrap at every width.
def samples_of(width, n):
    return [wrapped(i * i * 7919 + i * 104_729, width) for i in range(n)]


# Of each old file its width, levels and point, and its samples.
OLD_FILES = {
    "p6": (1, 2, 14, unpacked(P5, 1)),
    "i8": (1, 8, 0, samples_of(1, 300)),
    "i16": (2, 5, 16, samples_of(2, 601)),
    "i32": (4, 8, LAST_U32, samples_of(4, 257)),
    "least": (2, 1, 2**31, samples_of(2, 3)),
}
# The book was made in an area of 5A; these files were added, and the second was withdrawn again. Of what it left 100 bytes are kept.
IN_BOOK = ["p6", "i32", "i8", "least"]


def stored(name):
    with open(os.path.join("tests/old", name), "rb") as file:
        return file.read()


# Every front of every old file, in every call that reads one. The bytes are the ones that Python writes without a rate; the samples
# are those of the table.
def old_files(random):
    for name, (width, levels, point, samples) in OLD_FILES.items():
        file = stored(name + ".pyramid")
        assert file == file_of(samples, width, levels, point, None), name
        ask = open_file(random, file, width, point)
        assert ask.said == (0, 0, len(samples), 0) and ask.lent[0][1].startswith(packed(samples, width)), name
        assert before.open_file(file, width, point) == (0, 0, len(samples), samples), name
        for cut in range(len(file) + 1):
            front = file[:cut]
            yield open_file(random, front, width, point)
            yield read_head(front)
            yield look_up(front, width, point, cut % (levels + 3))
            yield read_sample(front, width, point, cut % (len(samples) + 1))
            yield Ask(request("pyramid_why", [front], width, point), reader.why(front, width, point), [])


# The area of a book that holds these files, and behind them what it had.
def laid(files, area):
    data = b"".join(files)
    front = U32.pack(64) + b"".join(file[:14] for file in files).ljust(64 * 14, b"\0") + U32.pack(len(data)) + data
    return front + area[len(front):]


# The old book, asked, and changed call by call: a new file is added to it, an old one withdrawn, and added again behind the new one.
def old_book(random):
    p6, gone, i8, least = (stored(name + ".pyramid") for name in IN_BOOK)
    new = NEW[:10] + U32.pack(20) + NEW[14:]
    area = stored("route.book")
    added = laid([p6, gone, i8, least], bytes(904 + len(p6 + gone + i8 + least)))
    assert area == laid([p6, i8, least], added)[:len(area)]
    free = len(area) - 904 - len(p6 + i8 + least)
    for name, words, said, files in (
        ("room", [], (0, free, 3), None),
        ("find", [14], (0, 904, 31), None),
        ("find", [0], (0, 935, 350), None),
        ("find", [2**31], (0, 1285, 28), None),
        ("find", [20], (16, 0, 0), None),
        ("add", [new, 14], (11, 20, 14), None),
        ("add", [new[:14] + bytes(4) + new[18:], 20], (18, 0, 0), None),
        ("add", [new[:-1], 20], (10, 34, 0), None),
        ("add", [new, 20], (0, 0, 0), [p6, i8, least, new]),
        ("add", [new, 20], (15, 0, 0), None),
        ("find", [20], (0, 1313, 35), None),
        ("room", [], (0, free - 35, 4), None),
        ("withdraw", [0], (0, 0, 0), [p6, least, new]),
        ("find", [20], (0, 963, 35), None),
        ("add", [i8, 0], (0, 0, 0), [p6, least, new, i8]),
        ("find", [0], (0, 998, 350), None),
        ("withdraw", [20], (0, 0, 0), [p6, least, i8]),
        ("room", [], (0, free, 3), None),
    ):
        asked = " ".join(["book_" + name, *("x" + word.hex() if isinstance(word, bytes) else str(word) for word in [area, *words])])
        area = laid(files, area) if files else area
        yield Ask(asked, said, [(0, area)] if name in ("add", "withdraw") else [])


# New files of every width and number of levels.
def new_files(random):
    for width in FORMATS:
        for n in (3, 4, 5, 8, 9, 17, 40):
            for levels in range(1, depth(n) + 1):
                yield file_of(any_recording(random, width, n), width, levels, any_point(random), any_rate(random))


# The desk writes the file itself: of what it opens as, for its point and its rate.
def rewrite(random, file):
    width, levels, n, point = own(file)
    ask = open_file(random, file, width, point, lambda full: [full, full, full])
    return write(random, ask.lent[0][1], width, levels, point, ask.said[3], len(file), width * n, width * n)


# What the opener and the lookup of before say of fronts of a new file; how many there were.
def refused_before(file, lengths):
    width, levels, _, point = own(file)
    for length in lengths:
        front = file[:length]
        refused = (6, 0, 0) if length > LIMIT_BEFORE else (10, length, 0) if length < 14 else (9, 0, 14)
        assert before.open_file(front, width, point) == (*refused, None), front[:40].hex()
        assert before.section(front, width, point, length % (levels + 2)) == (*refused, None), front[:40].hex()
    return len(lengths)


def main():
    os.chdir(os.path.join(os.path.dirname(os.path.abspath(__file__)), ".."))
    source, tally = random.Random(17), Tally()
    new = list(new_files(source))
    compare((ask for part in (old_files, old_book) for ask in part(source)), tally)
    compare((rewrite(source, file) for file in new), tally)
    fronts = sum(refused_before(file, range(len(file) + 1)) for file in new)
    longest = (HEAD.pack(14, 4, 23, 2**24, 14) + U32.pack(1000)).ljust(LIMIT, b"\0")
    fronts += refused_before(longest, range(LIMIT_BEFORE - 1, LIMIT + 1))
    told = f"{tally.opens} opens, {tally.samples} samples and {tally.reasons} reasons of old files, {tally.books} calls of an old book"
    print(f"ok kinds: {told}, {tally.files} new files, {fronts} fronts of new files refused by the opener of before")


if __name__ == "__main__":
    main()
