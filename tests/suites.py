# What tests/compare.py asks: its suites, and the table of them at the end. tests/tables/make-replay imports it too.
# A suite takes a source of numbers and one of compare.py's sizes. It is a generator of lists of asks, and is sent the
# desk's answers to each list. An ask is a request line and the answer that it must have, None where only the servers
# know it. Every lent slice starts as random bytes, so that one that should have been written, or should not, is seen.
import struct
from itertools import product
from typing import NamedTuple

LIMIT = 16_777_216
WIDTHS = {"i8": 1, "i16": 2, "i32": 4, "f32": 4, "f64": 8}
OTHER = {"forward": "inverse", "inverse": "forward"}
SMALLEST = {"cdf53": 3, "cdf97": 4}
MOST_LEVELS = 23


# The slices of a call: how many; the places of those that have a limit; how many, at the end, are lent; how many of
# those are work areas, which the Rust does not have; how many, from the first, are of samples that are read, together as
# many as a work area needs; the place of the one of u32 numbers.
class Slices(NamedTuple):
    count: int
    limited: tuple
    lent: int
    works: int = 0
    read: int = 1
    lengths: int = None


SLICES = {
    "forward": Slices(3, (0,), 2),
    "inverse": Slices(3, (0, 1, 2), 1, read=2),
    "dwt": Slices(5, (0,), 4, 2),
    "multi_dwt": Slices(4, (0,), 3, 2),
    "multi_idwt": Slices(6, (0, 1, 3), 3, 2, read=2, lengths=2),
}


# The lengths beside the powers of two, up to the last power.
def beside_powers(last):
    return {2**power + beside for power in range(2, last + 1) for beside in (-1, 0, 1)}


# Every short length, and those beside a power of two.
INTEGER_LENGTHS = sorted(set(range(3, 71)) | beside_powers(12))
FLOAT_LENGTHS = sorted(set(range(21)) | beside_powers(10))
# Those around every boundary of depth: 5/3 gains a level after a power of two, 9/7 after three times one.
LEVEL_LENGTHS = sorted(set(FLOAT_LENGTHS) | {3 * 2**power + beside for power in range(9) for beside in (-1, 0, 1)})
# Those around the boundaries of longer inputs too.
BOUNDARIES = sorted(beside_powers(13) | {3 * 2**power + beside for power in range(12) for beside in (-1, 0, 1)})
MORE_LEVELS = [32, 33, 255, 256, 65_536, 2**31, 2**32 - 1]


class Filter(NamedTuple):
    wavelet: str
    kind: str

    @property
    def width(self):
        return WIDTHS[self.kind]

    # A call on slices of bytes; levels, for a call that takes them, stand after the first.
    def request(self, verb, slices, *levels):
        first, *rest = map(word, slices)
        return " ".join([f"{self.wavelet}_{verb}_{self.kind}", first, *map(str, levels), *rest])


INTEGERS = [Filter("cdf53", kind) for kind in ("i8", "i16", "i32")]
FLOATS = [Filter(*names) for names in product(("cdf53", "cdf97"), ("f32", "f64"))]


# ---- asking

# Lists of items, each of about 256 KiB by the weight of its items.
def chunks(items, weight):
    chunk, size = [], 0
    for item in items:
        chunk.append(item)
        size += weight(item)
        if size >= 1 << 18:
            yield chunk
            chunk, size = [], 0
    yield chunk


# Requests to which only the servers know the answer.
def plain(requests):
    for chunk in chunks(requests, len):
        yield [(request, None) for request in chunk]


def word(data):
    return "x" + data.hex()


def words(slices):
    return " ".join(map(word, slices))


# A call of one level; lengths are in bytes, and every slice is random.
def any_call(random, verb, filter, *lengths):
    levels = [1] if verb in ("dwt", "multi_dwt") else []
    return filter.request(verb, map(random.randbytes, lengths), *levels)


# ---- samples

def bands(n):
    return (n + 1) // 2, n // 2


# Data as the slices that a call reads: the samples, or approximations and details.
def read_by(verb, filter, data):
    cut = filter.width * bands(len(data) // filter.width)[0]
    return [data] if verb == "forward" else [data[:cut], data[cut:]]


def call(random, verb, filter, data):
    lent = read_by(OTHER[verb], filter, random.randbytes(len(data)))
    return filter.request(verb, read_by(verb, filter, data) + lent)


# n samples of every sort in turn.
def drawn(random, kind, n):
    for sort in FLOAT_SORTS if kind in FORMATS else INTEGER_SORTS:
        yield sort(random, kind, n)


def any_sort(random, kind, n):
    return random.choice(FLOAT_SORTS if kind in FORMATS else INTEGER_SORTS)(random, kind, n)


def any_bits(random, kind, n):
    return random.randbytes(n * WIDTHS[kind])


def chosen(random, letters, n):
    return b"".join(random.choices(letters, k=n))


# ---- integers

def encoded(kind, numbers):
    return [number.to_bytes(WIDTHS[kind], "little", signed=True) for number in numbers]


# The numbers that wrap.
def extremes(kind):
    top = 1 << 8 * WIDTHS[kind] - 1
    return encoded(kind, [-top, -1, 0, 1, top - 1])


# The numbers whose halves and quarters are rounded.
def little(kind):
    return encoded(kind, range(-4, 5))


INTEGER_SORTS = [
    any_bits,
    lambda random, kind, n: chosen(random, extremes(kind), n),
    lambda random, kind, n: chosen(random, little(kind), n),
]


# ---- floats, by their bits

class Format(NamedTuple):
    number: str  # struct's letters for the number and for its bits
    bits: str
    fraction: int  # bits of the fraction
    top: int  # the exponent field of infinities and NaNs; the field of 1 is its half
    whole: int  # 5/3 gives whole numbers of at most this size back after one level: document 01's exact case
    exact: int  # the most levels of the exact case

    # The size of the exact case at so many levels, of which 0 means 1.
    def at(self, levels):
        return self.whole >> 4 * max(0, levels - 1)

    # Of a sign, a field and a fraction.
    def float(self, sign, field, fraction):
        return ((sign * (self.top + 1) + field) << self.fraction) + fraction


FORMATS = {"f32": Format("f", "I", 23, 2**8 - 1, 2**20, 6), "f64": Format("d", "Q", 52, 2**11 - 1, 2**49, 13)}


def packed(letter, numbers):
    return struct.pack(f"<{len(numbers)}{letter}", *numbers)


# Both signs of each field and fraction.
def signed(kind, pairs):
    format = FORMATS[kind]
    return [packed(format.bits, [format.float(sign, *pair)]) for pair in pairs for sign in (0, 1)]


def zeros(kind):
    return signed(kind, [(0, 0)])


# The zeros and the least subnormals, of which 9/7 makes negative zeros.
def least(kind):
    return signed(kind, [(0, size) for size in range(4)])


def infinities(kind):
    return signed(kind, [(FORMATS[kind].top, 0)])


# The least and the greatest quiet and signalling payload, and one between.
def nans(kind):
    top, quiet = FORMATS[kind].top, 1 << FORMATS[kind].fraction - 1
    return signed(kind, [(top, payload) for payload in (1, quiet - 1, quiet, quiet + 5, 2 * quiet - 1)])


# The numbers at either end of the subnormals and of the normals, and 1.
def ends(kind):
    top, all_ones = FORMATS[kind].top, (1 << FORMATS[kind].fraction) - 1
    return signed(kind, [(0, 1), (0, all_ones), (1, 0), (1, all_ones), (top - 1, 0), (top - 1, all_ones), (top // 2, 0)])


def specials(kind):
    return zeros(kind) + infinities(kind) + nans(kind) + ends(kind)


# Any sign and fraction, and an exponent field of the range.
def fields(random, kind, n, start, count):
    format, draw = FORMATS[kind], random.getrandbits
    floats = [(draw(1), start + int(random.random() * count), draw(format.fraction)) for _ in range(n)]
    return packed(format.bits, [format.float(*parts) for parts in floats])


def subnormal(random, kind, n):
    return fields(random, kind, n, 0, 2)


# Sums and products that lose bits below the least normal number.
def tiny(random, kind, n):
    return fields(random, kind, n, 0, FORMATS[kind].fraction + 4)


# Sums that overflow, some of which would not with the factor first.
def huge(random, kind, n):
    return fields(random, kind, n, FORMATS[kind].top - 3, 3)


def ordinary(random, kind, n):
    return fields(random, kind, n, FORMATS[kind].top // 2 - 3, 7)


# Sums that lie between two floats, or just beside the middle of them.
def middling(random, kind, n):
    format = FORMATS[kind]
    half, one = 1 << format.fraction - 1, format.top // 2
    fractions = [0, 1, 2, 3, half - 1, half, half + 1, 2 * half - 2, 2 * half - 1]
    exponents = [one, one + 1, one + 2, one + format.fraction, one + format.fraction + 1, one + format.fraction + 2]
    return chosen(random, signed(kind, product(exponents, fractions)), n)


# Whole numbers of the exact case, of several sizes; a zero has any sign.
def whole(random, kind, n, levels=1):
    most = FORMATS[kind].at(levels)
    sizes = random.choices([min(3, most), min(1000, most), most - 1], k=n)
    numbers = [random.randint(-size, size) for size in sizes]
    instead = [most, -most, 0.0, -0.0]
    return packed(FORMATS[kind].number, [number or random.choice(instead) for number in numbers])


# Ordinary numbers, and one in sixteen that is none.
def strewn(random, kind, n):
    width, numbers, instead = WIDTHS[kind], ordinary(random, kind, n), specials(kind)
    floats = [numbers[at:at + width] for at in range(0, len(numbers), width)]
    return b"".join(random.choice(instead) if random.random() < 1 / 16 else float for float in floats)


FLOAT_SORTS = [
    any_bits,
    ordinary,
    whole,
    middling,
    subnormal,
    tiny,
    huge,
    strewn,
    lambda random, kind, n: chosen(random, least(kind), n),
    lambda random, kind, n: chosen(random, zeros(kind) + ends(kind), n),
    lambda random, kind, n: chosen(random, specials(kind), n),
]


# ---- suites

# Both depths: the short inputs, and lengths of every size.
def depth(random, size):
    # n of up to 24 bits; for the longest ones the Rust makes and transforms megabytes
    few, many = {"small": (0, 40), "full": (40, 2000), "large": (400, 0), "drawn": (2, 100)}[size]
    lengths = [] if size == "drawn" else list(range(2 * many))
    lengths += random.choices(BOUNDARIES, k=many)
    lengths += [random.getrandbits(random.randrange(1, 17)) for _ in range(many)]
    lengths += [random.getrandbits(random.randrange(17, 25)) for _ in range(few)]
    lengths += [LIMIT + 1 + random.getrandbits(random.randrange(64)) for _ in range(many)]
    yield from plain(f"cdf{filter}_depth {n}" for n in lengths for filter in (53, 97))


# Integer 5/3, one level.
def integer(random, size):
    if size == "large":
        yield from one_by_one(at_the_limit(random, INTEGERS))
        return
    if size == "drawn":
        yield from any_level(random, INTEGERS, 1500)
        return
    rounds, longer = {"small": (10, 0), "full": (60, 2)}[size]
    yield from lengths_of_slices(random, INTEGERS, 500 * rounds)
    for verb in OTHER:
        yield from there_and_back(random, verb, short(longer))
        yield from there_and_back(random, verb, boundaries(random, INTEGERS, INTEGER_LENGTHS, rounds))
    yield from one_by_one(too_long(random, INTEGERS[0], *OTHER))


# Float 5/3 and 9/7, one level.
def floats(random, size):
    if size == "large":
        yield from one_by_one(at_the_limit(random, FLOATS))
        return
    if size == "drawn":
        yield from any_level(random, FLOATS, 1000)
        return
    rounds, longer = {"small": (3, 0), "full": (30, 1)}[size]
    yield from lengths_of_slices(random, FLOATS, 1000 * rounds)
    for verb in OTHER:
        yield from there_and_back(random, verb, short_floats(longer))
        yield from there_and_back(random, verb, boundaries(random, FLOATS, FLOAT_LENGTHS, rounds))
    yield from one_by_one(too_long(random, FLOATS[0], "forward"))


# multi_dwt of all filters.
def multi_dwt(random, size):
    if size == "large":
        yield from whole_recordings(random)
        return
    if size == "drawn":
        yield from levels_and_back(random, "multi_dwt", any_levels(random, 1000, *MORE_LEVELS))
        yield from levels_and_back(random, "multi_dwt", any_exact_levels(random, 300))
        yield from plain(any_rooms(random, "multi_dwt", 1500))
        return
    rounds = {"small": 1, "full": 12}[size]
    yield [("cdf53_multi_dwt_i8 x0003fc0107 2 x0000000000 x0000000000 x0000000000", "0 0 0 xff03f80500 - -")]  # P5
    yield from levels_and_back(random, "multi_dwt", of_levels(random, rounds, 2**32 - 1))
    yield from levels_and_back(random, "multi_dwt", exact_levels(random, rounds))
    yield from plain(wrong_rooms(random, "multi_dwt", 3000 * rounds))
    yield from one_by_one(too_long(random, INTEGERS[0], "multi_dwt"))


# multi_idwt of all filters.
def multi_idwt(random, size):
    if size == "large":
        for filter in INTEGERS:
            yield from one_by_one(too_long(random, filter, "multi_idwt"))
        return
    if size == "drawn":
        yield from levels_and_back(random, "multi_idwt", any_levels(random, 1000))
        yield from plain(any_rooms(random, "multi_idwt", 1000))
        yield from plain(wrong_slices(random, 1000))
        yield from plain(any_lists(random, 1000))
        return
    rounds = {"small": 1, "full": 12}[size]
    p5 = "cdf53_multi_idwt_i8 xff03 xf80500 x0100000002000000 x0000000000 x0000000000 x0000000000"
    yield [(p5, "0 0 0 x0003fc0107 - -")]
    yield from levels_and_back(random, "multi_idwt", of_levels(random, rounds))
    yield from plain(wrong_bands(random))
    yield from plain(few_details(random))
    yield from plain(wrong_lists(random))
    yield from plain(wrong_rooms(random, "multi_idwt", 3000 * rounds))
    yield from plain(wrong_slices(random, 3000 * rounds))
    yield from one_by_one(too_long(random, INTEGERS[0], "multi_idwt"))


# dwt of all filters.
def dwt(random, size):
    if size == "large":
        for filter in INTEGERS:
            yield from one_by_one(too_long(random, filter, "dwt"))
        return
    if size == "drawn":
        yield from last_of_many(random, any_levels(random, 1000, *MORE_LEVELS))
        yield from plain(any_rooms(random, "dwt", 1500))
        return
    rounds = {"small": 1, "full": 12}[size]
    yield [("cdf53_dwt_i8 x0003fc0107 2 x0000 x00 x0000000000 x0000000000", "0 0 0 xff03 xf8 - -")]  # P5
    yield from last_of_many(random, of_levels(random, rounds, 2**32 - 1))
    yield from plain(wrong_last_bands(random))
    yield from plain(wrong_rooms(random, "dwt", 3000 * rounds))
    yield from one_by_one(too_long(random, INTEGERS[0], "dwt"))


# Short, or at a boundary, or some thousands.
def any_length(random):
    short, beside, long = random.randrange(71), random.choice(BOUNDARIES), random.randrange(1000, 7000)
    return random.choices([short, beside, long], [12, 7, 1])[0]


def any_inputs(random, filters, count):
    for _ in range(count):
        filter = random.choice(filters)
        yield filter, any_sort(random, filter.kind, any_length(random))


# One level, there and back, and slices of wrong lengths.
def any_level(random, filters, count):
    for verb in OTHER:
        yield from there_and_back(random, verb, any_inputs(random, filters, count))
    yield from plain(wrong_lengths(random, filters, 2 * count))


# Inputs with levels within their depth, and others.
def any_levels(random, count, *beyond):
    for filter, data in any_inputs(random, INTEGERS + FLOATS, count):
        deep = depth_of(filter, len(data) // filter.width)
        others = [*range(9), deep + 1, MOST_LEVELS, MOST_LEVELS + 1, *beyond]
        yield filter, data, random.choice([random.randint(0, deep), deep, random.choice(others)])


def any_exact_levels(random, count):
    for _ in range(count):
        filter, n = Filter("cdf53", random.choice(list(FORMATS))), max(3, any_length(random))
        levels = random.randint(1, min(depth_of(filter, n), FORMATS[filter.kind].exact))
        yield filter, whole(random, filter.kind, n, levels), levels


# How many approximations so many levels of n samples have, and how many details each, the deepest first.
def pyramid(n, levels):
    lengths = []
    for _ in range(levels):
        n, details = bands(n)
        lengths.insert(0, details)
    return n, lengths


def depth_of(filter, n):
    return next(levels for levels in range(MOST_LEVELS + 1) if pyramid(n, levels)[0] < SMALLEST[filter.wavelet])


# Slices of random bytes, longer by so many than their lengths.
def lent(random, lengths, longer):
    return [random.randbytes(max(0, length + more)) for length, more in zip(lengths, longer)]


# Calls of many levels on data. Lent slices are longer by so many bytes than they must be: outputs, then work areas,
# which have more than they need.
def multi_dwt_call(random, filter, data, levels, longer=(0, 8, 16)):
    return filter.request("multi_dwt", [data, *lent(random, 3 * [len(data)], longer)], levels)


# The data are the deepest approximations and the details.
def multi_idwt_call(random, filter, data, levels, longer=(0, 8, 16)):
    approx, lengths = pyramid(len(data) // filter.width, max(1, levels))
    cut = filter.width * approx
    slices = [data[:cut], data[cut:], packed("I", lengths), *lent(random, 3 * [len(data)], longer)]
    return filter.request("multi_idwt", slices)


def dwt_call(random, filter, data, levels, longer=(0, 0, 8, 16)):
    counts = [filter.width * count for count in bands(last_length(len(data) // filter.width, levels))]
    return filter.request("dwt", [data, *lent(random, counts + 2 * [len(data)], longer)], levels)


# The length of the last level's input; no recording has more levels than the most.
def last_length(n, levels):
    return pyramid(n, min(max(1, levels), MOST_LEVELS + 1) - 1)[0]


LEVELS_CALLS = {"dwt": dwt_call, "multi_dwt": multi_dwt_call, "multi_idwt": multi_idwt_call}
LEVELS_BACK = {"multi_dwt": "multi_idwt", "multi_idwt": "multi_dwt"}


# Lengths around every boundary of depth, with levels to 8 and beyond the depth.
def of_levels(random, rounds, *beyond):
    for _, filter, n in product(range(rounds), INTEGERS + FLOATS, LEVEL_LENGTHS):
        for levels in *range(9), n.bit_length(), MOST_LEVELS, MOST_LEVELS + 1, *beyond:
            yield filter, any_sort(random, filter.kind, n), levels


def exact_levels(random, rounds):
    for _, filter, n in product(range(rounds), FLOATS, LEVEL_LENGTHS):
        if filter.wavelet == "cdf53":
            for levels in range(1, 1 + min(depth_of(filter, n), FORMATS[filter.kind].exact)):
                yield filter, whole(random, filter.kind, n, levels), levels


# Many levels, then back from what the desk answered, as in there_and_back.
def levels_and_back(random, verb, inputs):
    for chunk in chunks(inputs, lambda item: len(item[1]) + 40):
        answers = yield [(LEVELS_CALLS[verb](random, *item), None) for item in chunk]
        done = [pair for pair in zip(chunk, answers) if pair[1].startswith("0 0 0 ")]
        yield [back_again(random, verb, *pair) for pair in done]


# The other way on what the desk answered, and what that must give back.
def back_again(random, verb, item, answer):
    filter, data, levels = item
    request = LEVELS_CALLS[LEVELS_BACK[verb]](random, filter, unworded(answer.split(" ")[3]), levels)
    given = restored(verb, filter, data, levels)
    return request, given and f"0 0 0 {word(given)} - -"


# The last level's bands, which must be the front of what the desk answered for all levels.
def last_of_many(random, inputs):
    for chunk in chunks(inputs, lambda item: len(item[1]) + 40):
        answers = yield [(multi_dwt_call(random, *item), None) for item in chunk]
        yield [(dwt_call(random, *item), front(*item, answer)) for item, answer in zip(chunk, answers)]


# The two bands at the front of a pyramid, and two work areas; None where it was refused.
def front(filter, data, levels, answer):
    if not answer.startswith("0 0 0 "):
        return None
    last = last_length(len(data) // filter.width, levels)
    both = unworded(answer.split(" ")[3])[:filter.width * last]
    return f"0 0 0 {words(read_by('inverse', filter, both))} - -"


def unworded(word):
    return bytes.fromhex(word[1:])


# Slices of wrong lengths by samples and by bytes, and work areas that are empty, one short, exactly full or longer.
def wrong_rooms(random, verb, count):
    outputs = (SLICES[verb].lent - SLICES[verb].works) * [0]
    for filter, n in product(INTEGERS + FLOATS, (4, 5, 8, 9, 33)):
        for levels, *works in product(range(1 + depth_of(filter, n)), *2 * [(-n, -1, 0, 1)]):
            longer = [filter.width * more for more in outputs + works]
            yield LEVELS_CALLS[verb](random, filter, any_sort(random, filter.kind, n), levels, longer)
    yield from any_rooms(random, verb, count)


def any_rooms(random, verb, count):
    for _ in range(count):
        filter, n = random.choice(INTEGERS + FLOATS), random.choice([0, 1, 2, 3, 4, 5, 8, 9, 33, random.randrange(300)])
        data = random.randbytes(n * filter.width + random.choice([0, 0, 0, 1]))
        steps = [0, 0, 0, -filter.width, filter.width, 1, -1]
        longer = random.choices(steps, k=SLICES[verb].lent)
        yield LEVELS_CALLS[verb](random, filter, data, random.randrange(5), longer)


# Each band of the last level one short and one long, and both, at every level, with work areas and without.
def wrong_last_bands(random):
    for filter, n in product(INTEGERS + FLOATS, (3, 4, 5, 6, 7, 8, 9, 12, 13, 33)):
        for levels, *steps, room in product(range(depth_of(filter, n) + 2), (-1, 0, 1), (-1, 0, 1), (0, -n)):
            data = random.randbytes(filter.width * n)
            yield dwt_call(random, filter, data, levels, [filter.width * step for step in (*steps, room, room)])


# multi_idwt on random bands of so many samples; output and work areas are longer by so many samples than they must be.
def bands_call(random, filter, approx, details, lengths, longer=(0, 0, 0)):
    counts = [filter.width * count for count in (approx, details, *(approx + details + more for more in longer))]
    first, second, *rooms = map(random.randbytes, counts)
    return filter.request("multi_idwt", [first, second, packed("I", lengths), *rooms])


# Each band one short and one long, where the lengths add up to the details and where they do not.
def wrong_bands(random):
    for filter, n in product(INTEGERS + FLOATS, (3, 4, 5, 6, 7, 8, 9, 12, 13, 33)):
        for levels in range(1, 1 + depth_of(filter, n)):
            approx, lengths = pyramid(n, levels)
            for step in -1, 1:
                yield bands_call(random, filter, approx + step, n - approx, lengths)
                yield bands_call(random, filter, approx, n - approx + step, lengths)
                for place in range(levels):
                    wrong = [length + step * (at == place) for at, length in enumerate(lengths)]
                    yield bands_call(random, filter, approx, n - approx + step, wrong)
                    yield bands_call(random, filter, approx, n - approx, wrong)


# None and one detail at the deepest level, and up to three levels above it with as many details as approximations. Beside 2
# approximations this is the one way to a 17 back, but with one detail in 5/3 it is right; beside 1 and 3 it is always a 2.
# Output and work areas are right or not.
def few_details(random):
    for filter, approx, few, levels in product(INTEGERS + FLOATS, (1, 2, 3), (0, 1), range(4)):
        lengths = [few, *(2**level * (approx + few) for level in range(levels))]
        n = approx + sum(lengths)
        for longer in product((-1, 0, 1), (-n, 0), (-n, 0)):
            yield bands_call(random, filter, approx, n - approx, lengths, longer)


# Lists of lengths that are no pyramid's: in another order, with one more or fewer, empty, of the most levels and of one
# more, and such that 32 bits do not hold their sum.
def wrong_lists(random):
    top, most = 2**32 - 1, MOST_LEVELS
    for filter, n in product(INTEGERS + FLOATS, (0, 1, 2, 3, 4, 5, 8, 13, 33, 70)):
        approx, lengths = pyramid(n, depth_of(filter, n))
        lists = [lengths[::-1], lengths[1:], lengths[:-1], [0, *lengths], [*lengths, 0]]
        lists += [count * [length] for count, length in product((0, 1, most, most + 1), (0, 1))]
        for few in lists:
            yield bands_call(random, filter, approx, sum(few), few)
            yield bands_call(random, filter, approx, n - approx, few)
            yield bands_call(random, filter, 0, sum(few), few)
        huge = [[top, 1, *lengths], [*lengths, 1, top], [2**31, 2**31, *lengths]]
        for many in *huge, [top], most * [top], (most + 1) * [top]:
            yield bands_call(random, filter, approx, n - approx, many)
            yield bands_call(random, filter, 0, n - approx, many)


# Lists of lengths that are wrong in any way, with as many details as they say or as the pyramid has.
def any_lists(random, count):
    for _ in range(count):
        filter, n = random.choice(INTEGERS + FLOATS), random.randrange(200)
        approx, lengths = pyramid(n, random.randint(1, max(1, depth_of(filter, n) + 1)))
        wrong = wrong_list(random, lengths)
        details = random.choice([n - approx, min(sum(wrong), 1000), sum(wrong) % 2**32 % 1000])
        yield bands_call(random, filter, random.choice([approx, approx, approx, approx + 1, 1, 0]), details, wrong)


def wrong_list(random, lengths):
    at = random.randrange(len(lengths))
    before, after = lengths[:at], lengths[at + 1:]
    return random.choice([
        random.sample(lengths, len(lengths)),
        before,
        before + after,
        before + [max(0, lengths[at] + random.choice([-1, 1]))] + after,
        before + [random.getrandbits(random.randrange(33))] + after,
        before + [0] + lengths[at:],
        before + [lengths[at] // 2, lengths[at] - lengths[at] // 2] + after,
        before + [2**31, 2**31] + lengths[at:],
        before + [2**32 - 1, 1] + lengths[at:],
        random.randrange(MOST_LEVELS + 3) * [random.choice([0, 1, 2, 2**32 - 1])],
        (MOST_LEVELS - len(lengths) + random.randrange(2)) * [0] + lengths,
    ])


# Any of the six slices wrong, several at once, in samples and in bytes.
def wrong_slices(random, count):
    for _ in range(count):
        filter, n = random.choice(INTEGERS + FLOATS), random.choice([3, 4, 5, 8, 9, 13, 33, random.randrange(3, 300)])
        approx, lengths = pyramid(n, random.randrange(1, 5))
        steps = [0, 0, 0, 0, -filter.width, filter.width, 1, -1]
        counts = [filter.width * count for count in (approx, n - approx, n, n, n)]
        first, second, *rooms = lent(random, counts, random.choices(steps, k=5))
        numbers = packed("I", random.choice([lengths, lengths, lengths, lengths[::-1], wrong_list(random, lengths)]))
        numbers += random.randbytes(random.choice([0, 0, 0, 1, 3]))
        yield filter.request("multi_idwt", [first, second, numbers, *rooms])


# One slice over the limit and the others empty, for every slice that has one.
def too_long(random, filter, *verbs):
    for verb in verbs:
        for place in SLICES[verb].limited:
            lengths = SLICES[verb].count * [0]
            lengths[place] = filter.width * (LIMIT + 1)
            yield any_call(random, verb, filter, *lengths)


# As many samples as the limit; floats are a shorter recording again and again, which takes less time to draw.
def longest(random, filter):
    if filter in INTEGERS:
        return random.randbytes(filter.width * LIMIT)
    return 256 * ordinary(random, filter.kind, LIMIT // 256)


# Those of integers and of f32, as deep as they go, and back, in lines of up to 540 megabytes: --large
def whole_recordings(random):
    for filter in INTEGERS + [filter for filter in FLOATS if filter.kind == "f32"]:
        recording = filter, longest(random, filter), MOST_LEVELS
        [answer] = yield [(multi_dwt_call(random, *recording), None)]
        yield [(dwt_call(random, *recording), front(*recording, answer))]
        yield [back_again(random, "multi_dwt", recording, answer)]
        yield from one_by_one(too_long(random, filter, "multi_dwt"))


# A call, then the other on what the desk answered, which must give back what document 01 says.
def there_and_back(random, verb, inputs):
    for chunk in chunks(inputs, lambda item: len(item[1]) + 40):
        answers = yield [(call(random, verb, filter, data), None) for filter, data in chunk]
        back = []
        for (filter, data), answer in zip(chunk, answers):
            if answer.startswith("0 0 0 "):
                given = restored(verb, filter, data)
                lent = words(read_by(verb, filter, random.randbytes(len(data))))
                wanted = given and f"0 0 0 {words(read_by(verb, filter, given))}"
                back.append((f"{filter.wavelet}_{OTHER[verb]}_{filter.kind} {answer[6:]} {lent}", wanted))
        yield back


# What a call and then the other give back, where document 01 says it: in integers all, in floats whole numbers that went
# forward through 5/3 and are small enough. Each of those steps is exact, so every zero comes back positive.
def restored(verb, filter, data, levels=1):
    if filter in INTEGERS:
        return data
    if verb in ("inverse", "multi_idwt") or filter.wavelet == "cdf97" or levels > FORMATS[filter.kind].exact:
        return None
    format, count = FORMATS[filter.kind], len(data) // filter.width
    numbers = struct.unpack(f"<{count}{format.number}", data)
    if not all(number.is_integer() and abs(number) <= format.at(levels) for number in numbers):
        return None
    return packed(format.number, [number + 0.0 for number in numbers])


# Every short input of 8 bits over five samples, some longer ones over three.
def short(longer):
    for n in range(8 + longer):
        letters = extremes("i8") if n < 6 + longer else encoded("i8", [-128, 0, 127])
        for samples in product(letters, repeat=n):
            yield INTEGERS[0], b"".join(samples)


# Every short input over the zeros, the infinities and -1.
def short_floats(longer):
    for filter, n in product(FLOATS, range(3, 5 + longer)):
        letters = zeros(filter.kind) + infinities(filter.kind) + [packed(FORMATS[filter.kind].number, [-1])]
        for samples in product(letters, repeat=n):
            yield filter, b"".join(samples)


def boundaries(random, filters, lengths, rounds):
    for _, filter, n in product(range(rounds), filters, lengths):
        for data in drawn(random, filter.kind, n):
            yield filter, data


# Slices of random bytes: every choice of short lengths, then byte lengths, then some wrong lengths.
def lengths_of_slices(random, filters, count):
    yield from plain(lengths_grid(random, filters))
    yield from plain(odd_bytes(random, filters))
    yield from plain(wrong_lengths(random, filters, count))


# Every choice of three short lengths.
def lengths_grid(random, filters):
    for filter in filters:
        width = filter.width
        for n in range(10):
            for approx, details in product(range(n + 2), repeat=2):
                yield any_call(random, "forward", filter, n * width, approx * width, details * width)
        # among them all lengths with a 17 back: 2 approximations, and no detail or in 9/7 one
        for approx, details, n in product(range(7), range(7), range(14)):
            yield any_call(random, "inverse", filter, approx * width, details * width, n * width)


# Byte lengths that are no multiple of the width, in one slice or several; some would be refused without that too.
def odd_bytes(random, filters):
    for filter, n, longer in product(filters, range(7), (0, 1)):
        width = filter.width
        for x, a, d in product(sorted({0, 1, width // 2, width - 1}), repeat=3):
            if x % width or a % width or d % width:
                approx, details = bands(n)
                x, a, d = n * width + x, (approx + longer) * width + a, details * width + d
                yield any_call(random, "forward", filter, x, a, d)
                yield any_call(random, "inverse", filter, a, d, x)


# Lengths of which some are wrong by one or by more, and some byte lengths.
def wrong_lengths(random, filters, count):
    for _ in range(count):
        verb, filter, n = random.choice(list(OTHER)), random.choice(filters), random.randrange(1, 300)
        lengths = [n, *bands(n)] if verb == "forward" else [*bands(n), n]
        wrong = [max(0, length + random.choice([0, 0, -1, 1, random.randrange(-n, n)])) for length in lengths]
        odd = random.choice([[0, 0, 0], [0, 0, 0], random.choices(range(filter.width), k=3)])
        yield any_call(random, verb, filter, *(length * filter.width + more for length, more in zip(wrong, odd)))


# The limit itself in the narrowest samples, and beyond it in all, in lines of up to 270 megabytes: --large
def at_the_limit(random, filters):
    over = LIMIT + 1
    first, last = filters[0], filters[-1]
    for filter in filters:
        if filter.width == first.width:
            for n in LIMIT * first.width, over * first.width:
                approx = first.width * bands(n // first.width)[0]
                yield any_call(random, "forward", filter, n, approx, n - approx)
                yield any_call(random, "inverse", filter, approx, n - approx, n)
    for filter in filters:
        yield any_call(random, "forward", filter, filter.width * over, 0, 0)
        yield any_call(random, "inverse", filter, 0, 0, filter.width * over)
    yield any_call(random, "inverse", first, first.width * over, 0, 0)
    yield any_call(random, "inverse", first, 0, first.width * over, 0)
    # a band of forward has no limit of its own: 2, and 17
    yield any_call(random, "forward", first, 5 * first.width, first.width * over, 2 * first.width)
    yield any_call(random, "forward", first, 5 * first.width, 3 * first.width, first.width * over)
    yield any_call(random, "forward", last, last.width * over, 1, 0)  # 9 comes before 6
    yield any_call(random, "inverse", last, last.width * over, 0, 1)


def one_by_one(requests):
    for request in requests:
        yield [(request, None)]


SUITES = {
    "depth": depth,
    "integer": integer,
    "floats": floats,
    "dwt": dwt,
    "multi_dwt": multi_dwt,
    "multi_idwt": multi_idwt,
}
