#!/usr/bin/env python3
# The desk's calls compared with tests/reader.py, a reader and a writer made from docs/FORMAT.md, on whole, cut and damaged
# files of both kinds, on books of them, and on recordings in pieces. Call: tests/format.py [--seed N]
# First tests/desk/build. The first answer that differs ends the run. The lent slices of a file's calls are looked at by
# tests/pyramid.py, of which only the talking to the server is used here.
import argparse
import os
import random
import re
import sys
from typing import NamedTuple

import reader
from pyramid import compare, request
from reader import MOST_SAMPLES, counts_of, depth


def bytes_of(values, width):
    return b"".join(value.to_bytes(width, "little", signed=True) for value in values)


# The file of a rate: an old one where it is 0.
def file_of(samples, width, levels, point, rate):
    return reader.write(samples, width, levels, point, rate)[3] if rate else reader.write_old(samples, width, levels, point)


# ---- asking the desk

# A request, and the words its answer starts with: the three numbers, of an opening also the rate, and the first lent slice, where
# it has one; of a recording in pieces all lent slices; the five numbers of a reason.
class Ask(NamedTuple):
    request: str
    wanted: list


class Tally:
    def __init__(self):
        self.done = {"write": 0, "open": 0, "why": 0, "section": 0, "book": 0, "stream": 0}
        self.refused = dict(self.done)

    def count(self, ask, answer):
        if answer.split(" ")[:len(ask.wanted)] != ask.wanted:
            print("the desk differs from docs/FORMAT.md", ask.request, sep="\n  ")
            print("  wanted", *ask.wanted)
            sys.exit(f"  got    {answer}")
        kind, verb = ask.request.split(" ")[0].split("_")[:2]
        verb = kind if kind in ("book", "stream") else verb
        (self.done if ask.wanted[0] == "0" else self.refused)[verb] += 1

    def told(self, verb, what):
        return f"{self.done[verb] + self.refused[verb]} {what} ({self.refused[verb]} refused)"


def words(said, *slices):
    return [*map(str, said), *("x" + data.hex() for data in slices)]


# Lent slices are as long as they must be; every byte of the first starts as another than is wanted.
def ask_write(samples, width, levels, point, rate):
    *said, file = reader.write(samples, width, levels, point, rate)
    file = file or b""
    signal = bytes_of(samples, width)
    lent = [bytes(byte ^ 255 for byte in file), signal, signal]
    return Ask(request(f"pyramid_write_i{8 * width}", [signal, *lent], levels, point, rate), words(said, file))


def ask_open(data, width, point):
    *said, samples = reader.open_file(data, width, point)
    output = bytes_of(samples or [], width)
    lent = [bytes(byte ^ 255 for byte in output)] * 3
    return Ask(request("pyramid_open", [data, *lent], width, point), words(said, output))


def ask_section(data, width, point, number):
    *said, _ = reader.section(data, width, point, number)
    return Ask(request("pyramid_section", [data], width, point, number), words(said))


def ask_why(data, width, point):
    return Ask(request("pyramid_why", [data], width, point), words(reader.why(data, width, point)))


# The file opened, asked why it does not open, and every section that it could have and one beside on either end.
def ask_all(data, width, point, levels):
    yield ask_open(data, width, point)
    yield ask_why(data, width, point)
    for number in range(levels + 3):
        yield ask_section(data, width, point, number)


# A book that is asked call by call, in the desk's area and in the reader's.
class Book:
    def __init__(self, area):
        self.area = area

    # A call of the book, as fresh, add, find, withdraw or room, and what the reader says of it.
    def ask(self, name, *words_after):
        said, after = getattr(reader, "book_" + name)(self.area, *words_after)
        sent = ["x" + word.hex() if isinstance(word, bytes) else str(word) for word in (self.area, *words_after)]
        self.area = after
        lent = [after] if name in ("fresh", "add", "withdraw") else []
        return Ask(" ".join(["book_" + name, *sent]), words(said, *lent))

    # What a damaged area is refused for, or answers; it is put back.
    def ask_all(self, file, point):
        area = self.area
        for name, *words_after in ("room",), ("find", point), ("withdraw", point), ("add", file, point), ("fresh",):
            yield self.ask(name, *words_after)
            self.area = area


# A recording in pieces, in the desk's state and in the reader's, with the bands that were written.
class Stream:
    def __init__(self, width, state=bytes(reader.STATE_BYTES)):
        self.width, self.state = width, state
        self.low = self.high = b""

    # The next piece, or the end where there is none, with areas of these bytes.
    def ask(self, piece, approx, details):
        name, sent = ("finish", []) if piece is None else ("piece", [piece])
        lent = [self.state, *sent, approx, details]
        said, self.state, low, high = getattr(reader, "stream_" + name)(self.width, *lent)
        if said[0] == 0:
            t = reader.u32(lent[0], 0)
            last = (t + 1) // 2, t // 2
            more = last if piece is None else (reader.written(t + len(piece) // self.width),) * 2
            self.low += low[:(more[0] - reader.written(t)) * self.width]
            self.high += high[:(more[1] - reader.written(t)) * self.width]
        return Ask(request(f"stream_{name}_i{8 * self.width}", lent), words(said, self.state, low, high))


# ---- the files

WIDTHS = 1, 2, 4
LAST_U32 = 2**32 - 1
SMALL = 200


def any_samples(random, width, n):
    most = (1 << (8 * width - 1)) - 1
    some = random.choice(([-most - 1, most], [-most - 1, -1, 0, 1, most], range(-9, 10), range(-most - 1, most + 1)))
    return [random.choice(some) for _ in range(n)]


def any_point(random):
    return random.choice((0, 14, 255, 256, 2**31, LAST_U32, random.randint(0, LAST_U32)))


def any_rate(random):
    return random.choice((1, 255, 256, 1000, 25_600_000, 2**31, LAST_U32, random.randint(1, LAST_U32)))


# A recording as an old file, as a new one, and as a new one whose rate was made 0.
def kinds(random, samples, width, levels, point):
    old, new = (file_of(samples, width, levels, point, rate) for rate in (0, any_rate(random)))
    return old, new, new[:14] + bytes(4) + new[18:]


# Each with its width, point and levels. Of the third kind every fault is one more: 18 is in its place among them.
def small_files(random):
    for width in WIDTHS:
        for n in (3, 4, 5, 6, 9, 17):
            levels, point = random.randint(1, depth(n)), any_point(random)
            for data in kinds(random, any_samples(random, width, n), width, levels, point):
                yield data, width, point, levels


# ---- the parts of the test

# A section of docs/FORMAT.md.
def section_of(heading):
    with open("docs/FORMAT.md", encoding="utf-8") as document:
        return re.search(rf"^## {heading}\n(.*?)(?=^## |\Z)", document.read(), re.MULTILINE | re.DOTALL)[1]


def numbers_in(text):
    return [int(number.replace(",", "")) for number in re.findall(r"-?\d+(?:,\d{3})*", text)]


# The examples of both kinds in docs/FORMAT.md, as they stand there: the bytes, and what each front of them opens as.
def examples(random):
    samples = [0, 3, -4, 1, 7]
    yield ask_write(samples, 1, 2, 14, 1000)
    for heading, rate in ("Example", 1000), ("Example of an old file", 0):
        text, cuts = section_of(heading), 0
        data = bytes.fromhex("".join(re.findall(r"^\| (`[^|]*)\|", text, re.MULTILINE)).replace("`", ""))
        assert data == file_of(samples, 1, 2, 14, rate)
        for fronts, what, beside in re.findall(r"^\| (\d[^|]*) \| ([^|]*) \| ([^|]*) \|$", text, re.MULTILINE):
            first, *_, last = 2 * numbers_in(fronts)
            level, *left = numbers_in(what)
            for cut in range(first, last + 1):
                said = (10, cut, 0) if what == "refused 10" else (0, level, len(left))
                assert cut == cuts and reader.open_file(data[:cut], 1, 14) == (*said, *numbers_in(beside), left or None)
                yield from ask_all(data[:cut], 1, 14, 2)
                cuts += 1
        assert cuts == len(data) + 1 and reader.open_file(data, 1, 14) == (0, 0, 5, rate, samples)


# Files of every width and both kinds, and each prefix of those that are small.
def written(random):
    for width in WIDTHS:
        for n in [*range(3, 40), *(random.randint(40, 1500) for _ in range(40))]:
            for levels in {1, depth(n), random.randint(1, depth(n))}:
                samples, point = any_samples(random, width, n), any_point(random)
                yield ask_write(samples, width, levels, point, any_rate(random))
                for data in kinds(random, samples, width, levels, point)[:2]:
                    for cut in range(len(data) + 1) if len(data) <= SMALL else [len(data), random.randint(14, len(data))]:
                        yield from ask_all(data[:cut], width, point, levels)


# Levels of every number, and no rate.
def too_deep(random):
    for width in WIDTHS:
        for n in range(20):
            for levels in (0, 1, depth(n), depth(n) + 1, 23, 24, 256, 257, LAST_U32):
                for rate in 0, any_rate(random):
                    yield ask_write(any_samples(random, width, n), width, levels, any_point(random), rate)


# Each byte changed, in the whole file and in one that is cut. A 4 changed in the first byte is the other kind.
def damaged(random):
    for data, width, point, levels in small_files(random):
        for place, byte in enumerate(data):
            for other in {(byte + 1) % 256, (byte - 1) % 256, byte ^ 4, byte ^ 128, 0, 255, random.randrange(256)} - {byte}:
                changed = data[:place] + bytes([other]) + data[place + 1:]
                yield from ask_all(changed, width, point, levels)
                yield from ask_all(changed[:random.randint(place, len(data))], width, point, levels)


def trailing(random):
    for data, width, point, levels in small_files(random):
        for more in (1, 2, 3, 4, 5, 8, 100, len(data)):
            yield from ask_all(data + random.randbytes(more), width, point, levels)


def other_asked(random):
    for data, width, point, levels in small_files(random):
        for asked in (0, 1, 2, 3, 4, 5, 8, 256 + width, LAST_U32):
            for other in (point, point ^ 1, point ^ 2**31, any_point(random)):
                yield from ask_all(data, asked, other, levels)
        for own in (0, 3, 5, 8, 255):
            yield from ask_all(data[:4] + bytes([own]) + data[5:], own, point, levels)


# Random bytes, alone and after a count of section 0, and after a section 0, of a recording of any length.
def noise(random):
    lengths = [0, 2, 3, 4, 5, 8, 9, MOST_SAMPLES // 2 + 1, MOST_SAMPLES, MOST_SAMPLES + 1, 2**31, LAST_U32]
    for _ in range(500):
        count = random.choice((b"", b"\x0a\0\0\0", b"\x0e\0\0\0"))
        yield from ask_all(count + random.randbytes(random.randint(0, 60)), random.choice(WIDTHS), 0, 1)
    for n in lengths:
        for levels in {0, 1, depth(n) - 1, depth(n), depth(n) + 1, 23, 24, 255} & {*range(256)}:
            for width in WIDTHS:
                count = counts_of(n, levels)[0].to_bytes(4, "little")
                for kind, rate in (10, b""), (14, any_rate(random).to_bytes(4, "little")), (14, bytes(4)):
                    front = bytes([kind, 0, 0, 0, width, levels]) + n.to_bytes(4, "little") + bytes([7, 0, 0, 0]) + rate
                    for data in (front, front + random.randbytes(40), front + count + random.randbytes(40)):
                        yield from ask_all(data, width, 7, 2)
                        yield ask_section(data, width, 7, levels + 1)


# The area that a table shows, a row for each part of it: its first byte, its bytes, of which one may stand for many.
def area_in(table):
    area = b""
    for first, cell in re.findall(r"^\| (\d+) \| (`.*?) \|", table, re.MULTILINE):
        assert int(first) == len(area), (first, len(area))
        for data, times in re.findall(r"`([^`]*)`(?: (\d+) times)?", cell):
            area += bytes.fromhex(data) * int(times or 1)
    return area


# The examples of a book in docs/FORMAT.md, as they stand there: the areas, byte by byte, and the answers below them.
def book_examples(random):
    for heading, rate in ("Example of a book", 0), ("Example of a book of both kinds", 1000):
        text = section_of(heading)
        areas = [area_in(table) for table in text.split("Point 14 is withdrawn")]
        answers = [re.findall(r"(\d+) \((\d+), (\d+)\)", row) for row in re.findall(r"^\| (?:find|how).*$", text, re.MULTILINE)]
        answers = [[tuple(map(int, said)) for said in column] for column in zip(*answers)]
        book = Book(b"\x5a" * 1000)
        yield book.ask("fresh")
        yield book.ask("add", file_of([0, 3, -4, 1, 7], 1, 2, 14, rate), 14)
        yield book.ask("add", file_of([7, 1, -4, 3, 0], 1, 2, 15, 0), 15)
        for area, said in zip(areas, answers, strict=True):
            assert len(area) == 1000 and book.area == area
            assert [reader.book_find(area, 14)[0], reader.book_find(area, 15)[0], reader.book_room(area)[0]] == said
            yield book.ask("find", 14)
            yield book.ask("find", 15)
            yield book.ask("room")
            yield book.ask("withdraw", 14)


def any_book_file(random, point):
    width, n = random.choice(WIDTHS), random.randint(3, 20)
    files = kinds(random, any_samples(random, width, n), width, random.randint(1, depth(n)), point)
    file = random.choices(files, (4, 4, 1))[0]
    cut = random.randrange(len(file))
    return random.choice((file, file, file, file[:cut], file + b"\0", file[:cut] + b"\1" + file[cut + 1:]))


# Drawn calls on small areas, with files that are whole, cut, longer or damaged.
def books(random):
    for _ in range(60):
        book = Book(random.randbytes(random.choice((903, 904, 904 + random.randrange(400), 1500))))
        points = random.sample((0, 14, 15, 16, 256, 2**31, LAST_U32), random.randint(1, 7))
        yield book.ask("room")
        yield book.ask("fresh")
        for _ in range(40):
            name, point = random.choice(("add", "add", "add", "find", "withdraw", "room")), random.choice(points)
            file = any_book_file(random, point)
            yield book.ask(name, *{"add": (file, point), "room": ()}.get(name, (point,)))


# Each byte of a directory and of the two counts changed; and the kind of an entry with the data bytes that it then says, which is a
# book: its files are not asked.
def damaged_books(random):
    book = Book(bytes(1100))
    yield book.ask("fresh")
    for point, rate in (14, 0), (15, any_rate(random)), (270, 0):
        yield book.ask("add", file_of(any_samples(random, 1, 5), 1, 2, point, rate), point)
    area, file = book.area, file_of(any_samples(random, 1, 4), 1, 1, 14, any_rate(random))
    for place in range(904):
        for other in {area[place] ^ 1, area[place] ^ 4, random.randrange(256)} - {area[place]}:
            yield from Book(area[:place] + bytes([other]) + area[place + 1:]).ask_all(file, 14)
    for place in 4, 18, 32:
        other = bytearray(area)
        other[place] ^= 4
        other[900] += other[place] - area[place]
        assert reader.book_room(bytes(other))[0] == (0, len(area) - 904 - other[900], 3)
        yield from Book(bytes(other)).ask_all(file, 14)


# The example of a recording in pieces in docs/FORMAT.md, as it stands there: the state after each sample, and what is written; and
# the end after one of the samples, which the line below the table gives.
def stream_example(random):
    row = r"^\| (none|the end|-?\d+) \| `(.*?)` \| *(-?\d*) *\| *(-?\d*) *\|$"
    text = section_of("Example of a recording in pieces")
    rows = re.findall(row, text, re.MULTILINE)
    early = re.search(r"\nAfter the sample (-?\d+) the end would write the approximation (-?\d+) and the detail (-?\d+)\.\n", text)
    assert [sample for sample, *_ in rows] == ["none", "0", "3", "-4", "1", "7", "the end"]
    stream, bands = Stream(1), [b"", b""]
    for sample, state, *more in rows:
        if sample != "none":
            yield stream.ask(None if sample == "the end" else bytes_of([int(sample)], 1), random.randbytes(2), random.randbytes(2))
        bands = [band + bytes_of([int(number)] if number else [], 1) for band, number in zip(bands, more)]
        assert stream.state == bytes.fromhex(state) and [stream.low, stream.high] == bands
        if sample == early[1]:
            ended = Stream(1, stream.state)
            yield ended.ask(None, random.randbytes(2), random.randbytes(2))
            assert [ended.low, ended.high] == [bytes_of([int(number)], 1) for number in early.groups()[1:]]


# Recordings in drawn pieces, with areas that are too short, of half a sample or just long enough; the bands are those of the whole.
def streams(random):
    for width in WIDTHS:
        for n in [*range(40), *(random.randint(40, 400) for _ in range(20))]:
            samples, stream, sent = any_samples(random, width, n), Stream(width), 0
            while sent < n or random.random() < 0.3:
                piece = samples[sent:sent + random.choice((0, 0, 1, 2, 3, random.randrange(60)))]
                need = (reader.written(sent + len(piece)) - reader.written(sent)) * width
                more = need + random.randrange(2 * width)
                for lengths in (need - 1, need), (need - width, need), (need, need - width), (more, need):
                    if random.random() < 0.2 and need:
                        yield stream.ask(bytes_of(piece, width), *map(random.randbytes, lengths))
                if reader.u32(stream.state, 0) == sent:
                    yield stream.ask(bytes_of(piece, width), random.randbytes(need + width), random.randbytes(need))
                sent += len(piece)
                assert reader.u32(stream.state, 0) == sent
            for lengths in (0, width), (width, 0), (width + 1, 1), (2 * width, width):
                yield stream.ask(None, *map(random.randbytes, lengths))
            if n >= 3:
                assert (stream.low, stream.high) == tuple(bytes_of(band, width) for band in reader.forward(samples, width))


# States that are damaged, of another length, or of many samples.
def states(random):
    for width in WIDTHS:
        for _ in range(1500):
            t = random.choice((random.randrange(6), MOST_SAMPLES - random.randrange(4), MOST_SAMPLES + 1, random.randrange(2**32)))
            some = 0, 0, 1, 255, 256, 65535, 65536, random.randrange(1 << 8 * width), LAST_U32
            state = b"".join(word.to_bytes(4, "little") for word in (t, *random.choices(some, k=3)))
            state = random.choice((state, state, state, state[:random.randrange(16)], state + bytes(random.randint(1, 16))))
            piece = random.randbytes(width * random.randrange(6))
            yield Stream(width, state).ask(piece, *(random.randbytes(width * random.randrange(4)) for _ in range(2)))
            yield Stream(width, state).ask(None, *(random.randbytes(width * random.randrange(2)) for _ in range(2)))


PARTS = [examples, written, too_deep, damaged, trailing, other_asked, noise]
PARTS += [book_examples, books, damaged_books, stream_example, streams, states]


def main():
    parser = argparse.ArgumentParser()
    parser.add_argument("--seed", type=int, default=53)
    asked = parser.parse_args()
    os.chdir(os.path.join(os.path.dirname(os.path.abspath(__file__)), ".."))
    source, tally = random.Random(asked.seed), Tally()
    compare((ask for part in PARTS for ask in part(source)), tally)
    told = {"open": "opens", "why": "asked why", "section": "sections", "book": "calls of books"}
    told["stream"] = "calls of recordings in pieces"
    print(f"ok format: {tally.done['write']} files, {', '.join(tally.told(verb, what) for verb, what in told.items())}")


if __name__ == "__main__":
    main()
