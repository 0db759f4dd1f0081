# What tests/compare.py holds an answer of the desk to, and what it counts.
import os
import struct
from collections import Counter, defaultdict
from typing import NamedTuple

from ask import agree
from suites import FORMATS, LIMIT, MOST_LEVELS, SLICES, SMALLEST, WIDTHS

# The oracle asks the Rust's multi_dwt for no more levels (TOO_MANY_LEVELS in tests/oracle/requests.rs).
MOST_ASKED = 32


# A request; slices are words, a kind is that of the samples.
class Call(NamedTuple):
    wavelet: str
    verb: str
    kind: str
    numbers: list
    slices: list

    # In bytes.
    @property
    def counts(self):
        return [len(word) // 2 for word in self.slices]


def taken_apart(request):
    name, *words = request.split(" ")
    wavelet, *verb, kind = name.split("_")
    numbers = [int(word) for word in words if not word.startswith("x")]
    slices = [word for word in words if word.startswith("x")]
    return Call(wavelet, "_".join(verb) or kind, kind if verb else "", numbers, slices)


# ---- what document 01 adds to the Rust: the refusals of each kind, in order

def ragged(call, shape, width):
    widths = [4 if place == shape.lengths else width for place in range(len(call.slices))]
    return [f"9 0 {count}" for count, width in zip(call.counts, widths) if count % width]


def too_long(call, shape, width):
    limits = {place: LIMIT * width for place in shape.limited} | {shape.lengths: 4 * MOST_LEVELS}
    return ["6 0 0" for place, count in enumerate(call.counts) if count > limits.get(place, count)]


def lengths_in(word):
    return [number for number, in struct.iter_unpack("<I", bytes.fromhex(word[1:]))]


def wrong_sum(call, shape, width):
    if shape.lengths is None:
        return []
    total = sum(lengths_in(call.slices[shape.lengths]))
    return [f"9 0 {total}"] if total * width != call.counts[1] else []


def no_room(call, shape, width):
    counts = call.counts
    need = sum(counts[:shape.read])
    return [f"7 {count // width} {need // width}" for count in counts[len(counts) - shape.works:] if count < need]


# In the order of document 01; the last two only where the Rust has nothing else to say.
ADDITIONS = {
    "9: a byte length": ragged,
    "6: a length above its limit": too_long,
    "9: lengths that do not add up": wrong_sum,
    "7: a work area": no_room,
}


# What is added, by its name in the table above, and the answer; None where nothing is.
def addition(call, rust):
    if call.verb == "depth":
        return ("6: a length above its limit", "6 0 0") if call.numbers[0] > LIMIT else (None, None)
    shape = SLICES[call.verb]
    for name, refusals in list(ADDITIONS.items())[:4 if rust == "-" else 2]:
        found = refusals(call, shape, WIDTHS[call.kind])
        if found:
            return name, " ".join([found[0], *call.slices[-shape.lent:]])
    return None, None


# ---- which band is wrong, from the lengths of a request alone: document 01's 2 of approximations, document 02's 17 of details

def half_up(n):
    return (n + 1) // 2


def wrong_forward(n, approx, details):
    if approx != half_up(n):
        return f"2 {approx} {n}"
    return f"17 {details} {n}" if details != n // 2 else None


# Level by level from the deepest; the details' least is 1 in 5/3 and 2 in 9/7.
def wrong_inverse(approx, levels, least):
    for details in levels:
        n = approx + details
        if approx != max(2, half_up(n)):
            return f"2 {max(2, half_up(n))} {approx}"
        if details != max(least, n // 2):
            return f"17 {max(least, n // 2)} {details}"
        approx = n
    return None


# The length of the last level's input; None where there are not so many levels.
def last_input(n, levels, smallest):
    for _ in range(max(1, levels) - 1):
        if n < smallest:
            break
        n = half_up(n)
    return n if n >= smallest else None


# The refusal, of a call that nothing before the bands refuses: not 9, 6, 1, 4, 5, nor, in the inverse, 3.
def wrong_band(call):
    if call.verb not in ("forward", "inverse", "dwt", "multi_idwt"):
        return None
    shape, width, smallest = SLICES[call.verb], WIDTHS[call.kind], SMALLEST[call.wavelet]
    if any(refusals(call, shape, width) for refusals in (ragged, too_long, wrong_sum)):
        return None
    first, second, third = (count // width for count in call.counts[:3])
    if call.verb in ("forward", "dwt"):
        last = last_input(first, call.numbers[0] if call.numbers else 1, smallest)
        return last and wrong_forward(last, second, third)
    if call.verb == "inverse":
        return wrong_inverse(first, [second], smallest - 2) if third == first + second else None
    return wrong_inverse(first, lengths_in(call.slices[2]), smallest - 2) if first else None


# Whether the desk left alone what it must: after a refusal every lent slice, else work areas beyond the samples.
def spared(call, said):
    if call.verb == "depth":
        return True
    shape = SLICES[call.verb]
    before, after = call.slices[-shape.lent:], said.split(" ")[3:]
    if not said.startswith("0 "):
        return before == after
    need = 1 + sum(len(word) - 1 for word in call.slices[:shape.read])
    outputs = shape.lent - shape.works
    return all(was[need:] == now[need:] for was, now in zip(before[outputs:], after[outputs:]))


# ---- counting

# What of a request the Rust was not asked, or otherwise, or what of its answer is changed; None where neither is.
def apart(call, number, own):
    if own:
        return own
    if call.verb == "depth":
        return "a depth: how far the Rust's dwt goes"
    if call.verb == "multi_dwt" and call.numbers[0] > MOST_ASKED:
        return f"multi_dwt of more than {MOST_ASKED} levels, of the Rust with {MOST_ASKED}"
    if (call.verb, number) in (("dwt", "2"), ("dwt", "17"), ("multi_dwt", "3"), ("multi_idwt", "3")):
        return f"{number} of {call.verb}: a lent output's length, which the Rust makes itself"
    if number == "17":
        return "17: asked of the Rust, whose 2 is changed"
    return None


# What is among the samples that a call reads.
def contents(kind, data):
    if kind not in FORMATS:
        top = 1 << 8 * WIDTHS[kind] - 1
        ends = {-top, top - 1}.intersection(struct.unpack(f"<{len(data) // WIDTHS[kind]}{INTEGER_LETTERS[kind]}", data))
        return ["an integer at an end of its range"] * bool(ends)
    format = FORMATS[kind]
    sign, infinity, normal = format.float(1, 0, 0), format.float(0, format.top, 0), format.float(0, 1, 0)
    bits = set(struct.unpack(f"<{len(data) // WIDTHS[kind]}{format.bits}", data))
    sizes = {number & sign - 1 for number in bits}
    found = {
        "a NaN": any(size > infinity for size in sizes),
        "an infinity": infinity in sizes,
        "a negative zero": sign in bits,
        "a subnormal": any(0 < size < normal for size in sizes),
    }
    return [name for name, is_there in found.items() if is_there]


INTEGER_LETTERS = {"i8": "b", "i16": "h", "i32": "i"}
LENGTHS = {8: "3 to 8", 64: "9 to 64", 512: "65 to 512", 4096: "513 to 4,096", LIMIT: "over 4,096"}


class Tally:
    def __init__(self):
        self.requests = self.refused = self.differences = 0
        self.first, self.shortest = [], None
        self.calls, self.filters = defaultdict(Counter), defaultdict(Counter)
        self.apart, self.lengths, self.levels, self.contents = Counter(), Counter(), Counter(), Counter()

    def count(self, suite, request, said, rust, wanted):
        call = taken_apart(request)
        own, refusal = addition(call, rust)
        number = said.split(" ")[0]
        self.sort(suite, call, number, own)
        band = wrong_band(call)
        if not band and number in ("2", "17"):
            self.differ(request, said, "document 02", f"no {number}, by the lengths of the bands")
            return
        band = band and " ".join([band, *call.slices[-SLICES[call.verb].lent:]])
        known = {"the Rust": None if rust == "-" else rust, "document 01": refusal, "document 02": band, "the suite": wanted}
        known = {who: answer for who, answer in known.items() if answer is not None}
        for who, answer in known.items() or [("nobody", "an answer")]:
            if not (said[0].isdigit() and agree(answer, said)):
                self.differ(request, said, who, answer)
                return
        if not spared(call, said):
            self.differ(request, said, "document 01", "the same bytes in what is not written")

    def sort(self, suite, call, number, own):
        self.requests += 1
        self.refused += number != "0"
        self.calls[suite, call.verb][number] += 1
        self.filters[call.wavelet, call.kind or "depth"][number] += 1
        self.apart[apart(call, number, own)] += 1
        if number == "0" and call.slices:
            self.look_into(call)

    # Of a call that was done.
    def look_into(self, call):
        shape = SLICES[call.verb]
        data = bytes.fromhex("".join(word[1:] for word in call.slices[:shape.read]))
        n = len(data) // WIDTHS[call.kind]
        self.lengths[next(name for most, name in LENGTHS.items() if n <= most)] += 1
        if call.verb not in ("forward", "inverse"):
            self.levels[call.numbers[0] if call.numbers else call.counts[shape.lengths] // 4] += 1
        self.contents.update(contents(call.kind, data))

    def differ(self, request, said, who, answer):
        self.differences += 1
        if self.differences <= 5:
            # of long answers, where they part
            start = max(0, len(os.path.commonprefix([said, answer])) - 60)
            self.first.append(request[:200])
            for name, text in ("the desk", said), (who, answer):
                self.first.append(f"  {name} [{start}:] {text[start:][:120]}")
        if self.shortest is None or len(request) < len(self.shortest[0]):
            self.shortest = request, answer

    # Tables of all that was asked.
    def tables(self):
        yield from table("suite", "call", self.calls)
        yield ""
        yield from table("wavelet", "samples", self.filters)
        yield ""
        del self.apart[None]
        for title, counts in {
            "Not asked of the Rust, or asked or answered otherwise": self.apart,
            "Samples of the calls that were done": {name: self.lengths[name] for name in LENGTHS.values()},
            "Levels of the dwt, multi_dwt and multi_idwt that were done": dict(sorted(self.levels.items())),
            "Among the samples of the calls that were done": self.contents,
        }.items():
            if any(counts.values()):
                yield f"- {title}: " + "; ".join(f"{name} ({count:,})" for name, count in counts.items())


# What the calls that are compared can be refused with.
REFUSALS = ["1", "2", "3", "4", "5", "6", "7", "9", "17"]


# A row for each pair of names: how many, how many done, how many refused with each number.
def table(first, second, rows):
    yield f"| {first} | {second} | asked | done | {' | '.join(REFUSALS)} |"
    yield "|---" * (4 + len(REFUSALS)) + "|"
    for names, counts in rows.items():
        found = [counts.total(), *(counts[number] for number in ["0", *REFUSALS])]
        yield "| " + " | ".join([*names, *(f"{count:,}" for count in found)]) + " |"
