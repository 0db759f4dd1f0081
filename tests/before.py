# The reader of before C-17, which knows old files alone: tests/reader.py as it was in 0.9.0, written from the docs/FORMAT.md of then,
# cut down to its opener and its section lookup. tests/kinds.py asks it what an earlier version says of new files.
MOST_BYTES = 67_108_974
MOST_SAMPLES = 16_777_216


def keep(v, width):
    bits = 8 * width
    v &= (1 << bits) - 1
    return v - (1 << bits) if v >> (bits - 1) else v


def depth(n):
    levels = 0
    while n >= 3:
        levels += 1
        n = (n + 1) // 2
    return levels


def back(a, d, width):
    m = len(a) + len(d)
    half = len(d)
    x = [0] * m
    for i in range(len(a)):
        left = d[i - 1] if i > 0 else d[0]
        right = d[i] if i < half else d[half - 1]
        x[2 * i] = keep(a[i] - (left + right + 2) // 4, width)
    for i in range(half):
        right = x[2 * i + 2] if 2 * i + 2 < m else x[m - 2]
        x[2 * i + 1] = keep(d[i] + (x[2 * i] + right) // 2, width)
    return x


def u32(data, at):
    return int.from_bytes(data[at:at + 4], "little")


def numbers(data, width):
    return [int.from_bytes(data[k:k + width], "little", signed=True)
            for k in range(0, len(data), width)]


def counts_of(n, levels):
    """Counts of the sections 1 .. L + 1."""
    details = []
    m = n
    for _ in range(levels):
        details.append(m // 2)
        m = (m + 1) // 2
    return [m] + details[::-1]


def head(data, width, point):
    """-> refusal or None, L, n"""
    length = len(data)
    if length > MOST_BYTES:
        return (6, 0, 0), 0, 0
    if length < 14:
        return (10, length, 0), 0, 0
    count = u32(data, 0)
    if count != 10:
        return (9, 0, count), 0, 0
    own = data[4]
    if own != width or width not in (1, 2, 4):
        return (8, own, width), 0, 0
    levels = data[5]
    n = u32(data, 6)
    if n < 3:
        return (1, n, 3), 0, 0
    if n > MOST_SAMPLES:
        return (6, 0, 0), 0, 0
    if levels == 0 or levels > depth(n):
        return (4, 0, 0), 0, 0
    own = u32(data, 10)
    if own != point:
        return (11, own, point), 0, 0
    return None, levels, n


CUT = object()


def one(data, at, number, count, width):
    """One section at a place: CUT, a refusal (9, ..) or (place, how many bytes)."""
    if len(data) - at < 4:
        return CUT
    said = u32(data, at)
    if said != count:
        return (9, number, said)
    if len(data) - at - 4 < count * width:
        return CUT
    return (at + 4, count * width)


def open_file(data, width, point):
    refusal, levels, n = head(data, width, point)
    if refusal:
        return refusal + (None,)
    counts = counts_of(n, levels)
    at = 14
    parts = []
    cut = False
    for number, count in enumerate(counts, 1):
        got = one(data, at, number, count, width)
        if got is CUT:
            if number == 1:
                return (10, len(data), 0, None)
            cut = True
            break
        if len(got) == 3:
            return got + (None,)
        parts.append(numbers(data[got[0]:got[0] + got[1]], width))
        at = got[0] + got[1]
    if not cut and at < len(data):
        return (12, len(data) - at, 0, None)
    x = parts[0]
    for d in parts[1:]:
        x = back(x, d, width)
    return (0, levels - (len(parts) - 1), len(x), x)


def section(data, width, point, number):
    refusal, levels, n = head(data, width, point)
    if refusal:
        return refusal + (None,)
    if number == 0 or number > levels + 1:
        return (13, number, levels + 1, None)
    counts = counts_of(n, levels)
    at = 14
    for k in range(1, number + 1):
        got = one(data, at, k, counts[k - 1], width)
        if got is CUT:
            return (10, len(data), 0, None)
        if len(got) == 3:
            return got + (None,)
        at = got[0] + got[1]
    return (0, got[0], got[1], bytes(data[got[0]:at]))
