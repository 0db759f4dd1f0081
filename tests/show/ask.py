#!/usr/bin/env python3
# Gives a command files on standard input and compares what it prints with what is written here, or with what a writer
# of pyramid files that is written here put into them. A new file has a rate, an old one none. Call: tests/show/ask.py COMMAND..
import random
import struct
import subprocess
import sys
import time

P6 = bytes.fromhex("0A000000 0102 05000000 0E000000 02000000 FF03 01000000 F8 02000000 0500")
NEW = bytes.fromhex("0E000000 0102 05000000 0E000000 E8030000 02000000 FF03 01000000 F8 02000000 0500")
LIMIT = 65_536
SIGNED = {1: "b", 2: "h", 4: "i"}


def wrapped(width, number):
    half = 1 << 8 * width - 1
    return (number + half) % (2 * half) - half


# One level of the integer 5/3 filter: the approximations and the details, mirrored at both ends.
def level(width, x):
    n = len(x)
    at = lambda i: x[i] if i < n else x[2 * (n - 1) - i]
    details = [wrapped(width, x[i] - (x[i - 1] + at(i + 1)) // 2) for i in range(1, n, 2)]
    left = lambda i: details[max(i - 1, 0)]
    right = lambda i: details[min(i, len(details) - 1)]
    return [wrapped(width, x[2 * i] + (left(i) + right(i) + 2) // 4) for i in range((n + 1) // 2)], details


def section(width, x):
    return struct.pack(f"<I{len(x)}{SIGNED[width]}", len(x), *x)


# A file of samples, and the samples of each level, the samples themselves first.
def file_of(width, levels, point, rate, x):
    shown, bands = [x], []
    for _ in range(levels):
        x, details = level(width, x)
        shown.append(x)
        bands.insert(0, details)
    head = struct.pack("<IBBII", 14 if rate else 10, width, levels, len(shown[0]), point) + struct.pack("<I", rate) * (rate > 0)
    return head + section(width, x) + b"".join(section(width, d) for d in bands), shown


# What the first bytes of a file show.
def cut_shows(width, levels, point, rate, shown, size):
    end = (18 if rate else 14) + 4 + width * len(shown[levels])
    if size < end:
        return "refused 10\n"
    seen = levels
    while seen > 0:
        end += 4 + width * (len(shown[seen - 1]) // 2)
        if size < end:
            break
        seen -= 1
    if size > end:
        return "refused 12\n"
    lines = [
        f"point {point} width {width} samples {len(shown[0])} levels {levels} rate {rate}",
        f"level {seen} count {len(shown[seen])}",
    ]
    return "\n".join(lines + [str(v) for v in shown[seen]]) + "\n"


# A file with other bytes at a place.
def changed(file, place, words):
    new = bytes.fromhex(words)
    return file[:place] + new + file[place + len(new) :]


# P6, an old file, and the same samples in a new one, whose sections start 4 bytes later: what either shows, whole, cut and changed.
def written():
    for name, file, body, rate in ("P6", P6, 14, 0), ("the new file", NEW, 18, 1000):
        head = f"point 14 width 1 samples 5 levels 2 rate {rate}\n"
        yield f"{name}, whole", file, head + "level 0 count 5\n0\n3\n-4\n1\n7\n"
        for size in range(body + 11, body + 17):
            yield f"{name}, {size} bytes", file[:size], head + "level 1 count 3\n3\n-3\n7\n"
        for size in range(body + 6, body + 11):
            yield f"{name}, {size} bytes", file[:size], head + "level 2 count 2\n-1\n3\n"
        for size in range(body + 6):
            yield f"{name}, {size} bytes", file[:size], "refused 10\n"
        for what, place, words, number in (
            ("2 samples", 6, "02", 1),
            ("no levels", 5, "00", 4),
            ("3 levels of 5 samples", 5, "03", 4),
            ("16,777,217 samples", 6, "01000001", 6),
            ("width 0", 4, "00", 8),
            ("width 3", 4, "03", 8),
            ("width 8", 4, "08", 8),
            ("width 255", 4, "FF", 8),
            ("section 0 of 11 bytes", 0, "0B", 9),
            ("section 0 of 12 bytes", 0, "0C", 9),
            ("section 1 of 3 samples", body, "03", 9),
            ("section 2 of 2 samples", body + 6, "02", 9),
            ("section 3 of 258 samples", body + 11, "0201", 9),
            ("width 2 of a file of width 1", 4, "02", 9),
            ("section 0 of the other kind", 0, "0E" if file == P6 else "0A", 9),
        ):
            yield f"{name}, {what}", changed(file, place, words), f"refused {number}\n"
        for size in range(4, 18):
            yield f"{name}, section 0 of 11 bytes, {size} bytes", changed(file, 0, "0B")[:size], "refused 9\n"
        yield f"{name}, a trailing byte", file + b"\0", "refused 12\n"
        yield f"{name} and bytes up to 65,536", file + bytes(LIMIT - len(file)), "refused 12\n"
        yield f"{name} and bytes up to 65,537", file + bytes(LIMIT + 1 - len(file)), "refused 6\n"
        yield f"{name} and a million bytes", file + bytes(1_000_000), "refused 6\n"
    no_rate = changed(NEW, 14, "00000000")
    for size in range(18):
        yield f"a rate of 0, {size} bytes", no_rate[:size], "refused 10\n"
    for size in range(18, len(NEW) + 1):
        yield f"a rate of 0, {size} bytes", no_rate[:size], "refused 18\n"
    yield "a rate of 0 and 3 levels of 5 samples", changed(no_rate, 5, "03"), "refused 4\n"
    yield "a rate of 0 and section 1 of 3 samples", changed(no_rate, 18, "03"), "refused 18\n"
    yield "a rate of 0 and a trailing byte", no_rate + b"\0", "refused 18\n"
    yield "65,536 bytes of 0", bytes(LIMIT), "refused 9\n"
    yield "65,537 bytes of 0", bytes(LIMIT + 1), "refused 6\n"


def made():
    chance = random.Random(14)
    ends = lambda width: [-(1 << 8 * width - 1), (1 << 8 * width - 1) - 1, -1, 0, 1]
    for width in SIGNED:
        for count, levels in (3, 1), (4, 1), (5, 2), (8, 2), (9, 3), (16, 3), (17, 4):
            point = chance.choice([0, 1, 14, 255, 65_536, 2**31, 2**32 - 1])
            low, high = ends(width)[:2]
            x = [chance.choice(ends(width) + [chance.randint(low, high)] * 5) for _ in range(count)]
            for rate in 0, chance.choice([1, 256, 1000, 25_600_000, 2**31, 2**32 - 1]):
                whole, shown = file_of(width, levels, point, rate, x)
                for size in range(14, len(whole) + 2):
                    name = f"width {width}, {count} samples, {levels} levels, rate {rate}, {size} of {len(whole)} bytes"
                    yield name, (whole + b"\0")[:size], cut_shows(width, levels, point, rate, shown, size)
    old, new = [(1, 65_510, 2, 0), (2, 32_757, 1, 0), (4, 16_377, 2, 0)], [(1, 65_506, 2, 9), (2, 32_755, 1, 9), (4, 16_376, 2, 9)]
    for width, count, levels, rate in old + new:
        x = [wrapped(width, chance.getrandbits(32)) for _ in range(count)]
        whole, shown = file_of(width, levels, 7, rate, x)
        for size in len(whole), len(whole) - 1:
            yield f"width {width}, rate {rate}, {size} bytes", whole[:size], cut_shows(width, levels, 7, rate, shown, size)
    for rate, count in (0, 65_511), (9, 65_507):
        longer, _ = file_of(1, 2, 7, rate, [0] * count)
        yield f"width 1, rate {rate}, {len(longer)} bytes", longer, "refused 6\n"


def printed(command, data):
    ran = subprocess.run(command, input=data, stdout=subprocess.PIPE)
    return ran.stdout.decode("latin-1") + f"status {ran.returncode}\n" * (ran.returncode != 0)


# The same where the bytes come in two parts.
def printed_of_parts(command, first, second):
    with subprocess.Popen(command, stdin=subprocess.PIPE, stdout=subprocess.PIPE) as program:
        program.stdin.write(first)
        program.stdin.flush()
        time.sleep(0.2)
        return program.communicate(second)[0].decode("latin-1")


def main(*command):
    wrong, asked = [], 1
    for name, data, wanted in [*written(), *made()]:
        asked += 1
        got = printed(command, data)
        if got != wanted:
            wrong.append(f"{name}\n  wanted {wanted[:300]!r}\n  got    {got[:300]!r}")
    if printed_of_parts(command, NEW[:9], NEW[9:]) != printed(command, NEW):
        wrong.append("the new file in two parts shows something else")
    for text in wrong:
        print(text)
    if wrong:
        sys.exit(f"FAILED {len(wrong)} of {asked} inputs to show")
    print(f"ok {asked} inputs to show")


main(*sys.argv[1:])
