# A reader and a writer of the pyramid file, of both kinds, of the route book and of a recording in pieces, written from docs/FORMAT.md alone.
# tests/format.py holds the desk to it.

import struct

MOST_BYTES = 67108978
MOST_SAMPLES = 16777216
STATE_BYTES = 16
OLD, NEW = 10, 14  # section 0's count
ENTRIES, ENTRY, DATA, MOST_AREA = 64, 14, 904, 4294967295  # of a book; DATA is where its data starts
CODES = {1: "b", 2: "h", 4: "i"}


def u32(data, at):
    return struct.unpack_from("<I", data, at)[0]


def pack(values, width):
    return struct.pack("<%d%s" % (len(values), CODES[width]), *values)


def unpack(data, width):
    return list(struct.unpack("<%d%s" % (len(data) // width, CODES[width]), data))


def keep(value, width):
    half = 1 << (8 * width - 1)
    return ((value + half) & (2 * half - 1)) - half


# One level.


def depth(n):
    levels = 0
    while n >= 3:
        n, levels = (n + 1) // 2, levels + 1
    return levels


def counts_of(n, levels):
    details = []
    for _ in range(levels):
        details.insert(0, n // 2)
        n = (n + 1) // 2
    return [n] + details


def lifted(even, d, sign, width):  # the even ones and the details beside them; zip ends with the even ones
    return [keep(e + sign * ((l + r + 2) // 4), width) for e, l, r in zip(even, d[:1] + d, d + d[-1:])]


def forward(x, width):
    even, odd = list(x[0::2]), list(x[1::2])
    d = [keep(o - (l + r) // 2, width) for o, l, r in zip(odd, even, even[1:] + even[-1:])]
    return lifted(even, d, 1, width), d


def back(a, d, width):
    even = lifted(a, d, -1, width)
    odd = [keep(o + (l + r) // 2, width) for o, l, r in zip(d, even, even[1:] + even[-1:])]
    x = [0] * (len(even) + len(odd))
    x[0::2], x[1::2] = even, odd
    return x


# The pyramid file.


def sections(samples, width, levels):
    a, details = list(samples), []
    for _ in range(levels):
        a, d = forward(a, width)
        details.insert(0, d)
    return b"".join(struct.pack("<I", len(s)) + pack(s, width) for s in [a] + details)


def write(samples, width, levels, point, rate):
    n = len(samples)
    if rate == 0:
        return 18, 0, 0, None
    if n > MOST_SAMPLES:
        return 6, 0, 0, None
    if n < 3 and levels < 2:
        return 1, n, 3, None
    if levels > depth(n):
        return 4, 0, 0, None
    levels = max(levels, 1)
    return 0, 0, 0, struct.pack("<IBBIII", NEW, width, levels, n, point, rate) + sections(samples, width, levels)


def write_old(samples, width, levels, point):
    levels = max(levels, 1)
    return struct.pack("<IBBII", OLD, width, levels, len(samples), point) + sections(samples, width, levels)


def head(data, width, point):  # the tests down to and with 18: the refusal, if any
    if len(data) > MOST_BYTES:
        return 6, 0, 0
    if len(data) < 4:
        return 10, len(data), 0
    count = u32(data, 0)
    if count not in (OLD, NEW):
        return 9, 0, count
    if len(data) < 4 + count:
        return 10, len(data), 0
    its_width, levels, n, its_point = struct.unpack_from("<BBII", data, 4)
    if its_width != width or width not in CODES:
        return 8, its_width, width
    if n < 3:
        return 1, n, 3
    if n > MOST_SAMPLES:
        return 6, 0, 0
    if not 1 <= levels <= depth(n):
        return 4, 0, 0
    if its_point != point:
        return 11, its_point, point
    if count == NEW and u32(data, 14) == 0:
        return 18, 0, 0
    return None


def walk(data, last):  # sections 1 to last, after head: a wrong count, if any, and (place, bytes) of those that are whole
    width, levels, n = struct.unpack_from("<BBI", data, 4)
    at, whole = 4 + u32(data, 0), []
    for number, count in enumerate(counts_of(n, levels)[:last], 1):
        if len(data) - at < 4:
            break
        if u32(data, at) != count:
            return (9, number, u32(data, at)), whole
        at += 4
        if len(data) - at < width * count:
            break
        whole.append((at, width * count))
        at += width * count
    return None, whole


def parts(data, width, point):  # all the tests: the refusal, if any, and (place, bytes) of the sections that are whole
    refusal = head(data, width, point)
    if refusal:
        return refusal, []
    refusal, whole = walk(data, data[5] + 1)
    if not refusal and not whole:
        refusal = 10, len(data), 0
    if not refusal and len(whole) == data[5] + 1 and sum(whole[-1]) < len(data):
        refusal = 12, len(data) - sum(whole[-1]), 0
    return refusal, whole


def open_file(data, width, point):
    refusal, whole = parts(data, width, point)
    if refusal:
        return *refusal, 0, None
    a, *details = [unpack(data[at:at + size], width) for at, size in whole]
    for d in details:
        a = back(a, d, width)
    return 0, data[5] - len(details), len(a), u32(data, 14) if u32(data, 0) == NEW else 0, a


def section(data, width, point, number):
    refusal = head(data, width, point)
    if refusal:
        return *refusal, None
    if not 1 <= number <= data[5] + 1:
        return 13, number, data[5] + 1, None
    refusal, whole = walk(data, number)
    if not refusal and len(whole) < number:
        refusal = 10, len(data), 0
    if refusal:
        return *refusal, None
    at, size = whole[-1]
    return 0, at, size, data[at:at + size]


def why_head(data, width, point, number):  # where section 0 or the whole length stopped, what was wanted and what was found
    size = len(data)
    if size > MOST_BYTES:
        return 0, MOST_BYTES, size
    if number == 10:
        return size, (4 if size < 4 else 4 + u32(data, 0)) - size, 0
    if number == 9:
        return 0, NEW, u32(data, 0)
    its_width, levels, n, its_point = struct.unpack_from("<BBII", data, 4)
    return {
        8: (4, width, its_width),
        1: (6, 3, n),
        6: (6, MOST_SAMPLES, n),
        4: (5, depth(n), levels),
        11: (10, point, its_point),
        18: (14, 1, 0),
    }[number]


def why(data, width, point):  # of what opening says its number, section, place, wanted and found
    if refusal := head(data, width, point):
        return refusal[0], 0, *why_head(data, width, point, refusal[0])
    refusal, whole = walk(data, data[5] + 1)
    counts, size = counts_of(u32(data, 6), data[5]), len(data)
    at, number = sum(whole[-1]) if whole else 4 + u32(data, 0), len(whole) + 1  # the first section that is not whole
    if refusal:
        return 9, number, at, counts[number - 1], refusal[2]
    if number <= len(counts):
        end = at + 4 if size < at + 4 else at + 4 + width * counts[number - 1]
        return 0 if whole else 10, number, size, end - size, 0
    return (12, len(counts), at, at, size) if size > at else (0, 0, 0, 0, 0)


# The route book.


def area_of(area):
    if len(area) > MOST_AREA:
        return 6, 0, 0
    if len(area) < DATA:
        return 7, len(area), DATA
    return None


def entries_of(area):  # the refusal, if any, and (point, place, size) of the entries in use
    if refusal := area_of(area):
        return refusal, []
    used, points, at, bad = [], set(), DATA, (9, 0, 0)
    for i in range(ENTRIES):
        count, width, levels, n, point = struct.unpack_from("<IBBII", area, 4 + ENTRY * i)
        if count == 0:
            break
        if count not in (OLD, NEW) or width not in CODES or not 3 <= n <= MOST_SAMPLES or not 1 <= levels <= depth(n):
            return bad, []
        if point in points:
            return bad, []
        size = 4 + count + 4 * (levels + 1) + width * n
        used.append((point, at, size))
        points.add(point)
        at += size
    if u32(area, 0) != ENTRIES or any(area[4 + ENTRY * len(used):DATA - 4]) or u32(area, DATA - 4) != at - DATA or at > len(area):
        return bad, []
    return None, used


def end_of(used):
    return sum(used[-1][1:]) if used else DATA


def laid(area, entries, data):  # the area with these entries and data, and what is behind them as it was
    front = struct.pack("<I", ENTRIES) + entries.ljust(ENTRIES * ENTRY, b"\0") + struct.pack("<I", len(data)) + data
    return front + area[len(front):]


def book_fresh(area):
    if refusal := area_of(area):
        return refusal, area
    return (0, 0, 0), laid(area, b"", b"")


def book_add(area, file, point):
    refusal, used = entries_of(area)
    if refusal:
        return refusal, area
    refusal, whole = parts(file, file[4] if len(file) > 4 else 0, point)
    if not refusal and len(whole) < file[5] + 1:
        refusal = 10, len(file), 0
    if refusal:
        return refusal, area
    if point in [p for p, _, _ in used]:
        return (15, 0, 0), area
    end = end_of(used)
    if len(used) == ENTRIES or len(file) > len(area) - end:
        return (14, 0, 0), area
    return (0, 0, 0), laid(area, area[4:4 + ENTRY * len(used)] + file[:ENTRY], area[DATA:end] + file)


def book_find(area, point):
    refusal, used = entries_of(area)
    for p, at, size in used:
        if p == point:
            return (0, at, size), area
    return refusal or (16, 0, 0), area


def book_withdraw(area, point):
    refusal, used = entries_of(area)
    for i, (p, at, size) in enumerate(used):
        if p == point:
            place = 4 + ENTRY * i
            entries = area[4:place] + area[place + ENTRY:4 + ENTRY * len(used)]
            return (0, 0, 0), laid(area, entries, area[DATA:at] + area[at + size:end_of(used)])
    return refusal or (16, 0, 0), area


def book_room(area):
    refusal, used = entries_of(area)
    return refusal or (0, len(area) - end_of(used), len(used)), area


# A recording in pieces.


def written(t):
    return (t - 1) // 2 if t else 0


def state_of(width, state):  # t, e, o, d, or None where it is not a state
    if len(state) != STATE_BYTES:
        return None
    t, *kept = struct.unpack("<4I", state)
    zero = (t == 0, t == 0 or t % 2 == 1, t < 3)
    if t > MOST_SAMPLES or any(k >= (1 if z else 1 << (8 * width)) for k, z in zip(kept, zero)):
        return None
    return [t] + [keep(k, width) for k in kept]


def state_bytes(width, t, *kept):
    return struct.pack("<4I", t, *[k & ((1 << (8 * width)) - 1) for k in kept])


def lent(width, state, *areas):  # the refusal, if any, that both calls can give
    for area in areas:
        if len(area) % width:
            return 9, 0, len(area)
    return None if state_of(width, state) else (9, 0, 0)


def stream_piece(width, state, piece, approx, details):
    same = state, approx, details
    if refusal := lent(width, state, piece, approx, details):
        return refusal, *same
    t, e, o, d = state_of(width, state)
    n = len(piece) // width
    if t + n > MOST_SAMPLES:
        return (6, 0, 0), *same
    need = written(t + n) - written(t)
    for area in (approx, details):
        if len(area) // width < need:
            return (7, len(area) // width, need), *same
    new_a, new_d = [], []
    for x in unpack(piece, width):
        if t == 0:
            e = x
        elif t % 2:
            o = x
        else:
            detail = keep(o - (e + x) // 2, width)
            new_a.append(keep(e + ((detail if t == 2 else d) + detail + 2) // 4, width))
            new_d.append(detail)
            e, o, d = x, 0, detail
        t += 1
    a, b = pack(new_a, width), pack(new_d, width)
    return (0, 0, 0), state_bytes(width, t, e, o, d), a + approx[len(a):], b + details[len(b):]


def stream_finish(width, state, approx, details):
    same = state, approx, details
    if refusal := lent(width, state, approx, details):
        return refusal, *same
    t, e, o, d = state_of(width, state)
    if t < 3:
        return (1, t, 3), *same
    if not approx or (t % 2 == 0 and not details):
        return (7, 0, 1), *same
    last = d if t % 2 else keep(o - e, width)
    a, b = pack([keep(e + (d + last + 2) // 4, width)], width), b"" if t % 2 else pack([last], width)
    return (0, 0, 0), bytes(STATE_BYTES), a + approx[len(a):], b + details[len(b):]
