#!/usr/bin/env python3
"""Brings this repository's own words of specs/ and proofs/ from camel case to snake case, as 'approxLength' to 'approx_length': run once,
right after the kit's port.py, for docs/PORT.md.

usage: respell.py [--before COMMIT] [--check]    at the top of the repository; --check only prints the table and the names that would fall together.
COMMIT is the one before port.py ran: what port.py turned in specs/ and proofs/ is then turned in edits and pages too

A word turns if a file of specs/ or proofs/ declares it (or a part of it between dashes). Types, modules and Rust's names keep their spelling.
It turns .antt and .rt files, must-fail edits, and the pages that name them.
"""
import glob
import os
import re
import subprocess
import sys

WORD = r"[^\s(){}.;,@\"«»`|/]+"
DECLARED = re.compile(r"^\s*(?:(?:unfoldable|abbrev|pub|private|record|data) )*(" + WORD + r") :(?= |$)", re.M)
CAMEL = re.compile(r"^[a-z]+[a-z0-9']*(?:[A-Z][a-z0-9']*)+$")


# of std's words that stood in lemma names, of a definition that would be called as a tactic is, and of a lemma that would be called
# as a definition is
OTHERS = {"getD": "get_or"}
LEMMAS = {"first_of": "first_refusal", "get_d_sets": "get_or-sets", "get_d_tabulate": "get_or-tabulate", "get_d_words": "get_or-words"}
FALLS = {"there_and_back": "back-low-high"}  # the law of one level, beside the definition thereAndBack
FALLS_IN = ("crates/filter_cdf53i/proofs/Round.antt", "crates/law_levels/proofs/Undone.antt")


def snake(word):
    if word in OTHERS:
        return OTHERS[word]
    return re.sub(r"(?<=[a-z0-9'])([A-Z])", lambda m: "_" + m.group(1).lower(), word)


def read(path):
    with open(path, encoding="utf-8") as f:
        return f.read()


antt = sorted(glob.glob("crates/*/specs/**/*.antt", recursive=True) + glob.glob("crates/*/proofs/**/*.antt", recursive=True))
rt = sorted(glob.glob("crates/*/src/**/*.rt", recursive=True))
edits = sorted(glob.glob("crates/*/must-fail/*.edit"))
pages = [p for p in glob.glob("*.md") + glob.glob("docs/**/*.md", recursive=True) + ["tests/names.allow"] if os.path.exists(p)]
pages = [p for p in sorted(pages) if os.path.basename(p) not in ("PORT.md", "PORT-OTHER.md") and "landings" not in p]

table = {"rightA": "right_a", "rightD": "right_d", "highBytes": "high_bytes"}  # parameters of modules; the rest is found
for path in antt:
    for name in DECLARED.findall(read(path)):
        for part in name.split("-"):
            if CAMEL.match(part):
                table[part] = snake(part)

# what port.py turned of this repository's own names, for edits and pages: names declared in the commit before it, beside today's
def plain(name):
    return snake(name).replace("-", "_").replace("\u2032", "'")


turned = {}
if len(sys.argv) > 1 and sys.argv[1] == "--before":
    before = {}
    for path in antt:
        old = subprocess.run(["git", "show", sys.argv[2] + ":" + path], capture_output=True, text=True).stdout
        now = {plain(n): n for n in DECLARED.findall(read(path))}
        for name in DECLARED.findall(old):
            new = now.get(plain(name))
            if new and new != name:
                turned[name] = new
    for o, n in turned.items():
        n = {**LEMMAS, **FALLS}.get(n, n)
        turned[o] = "-".join(table.get(p, p) for p in n.split("-"))

# a word that is already there with the new spelling, declared in antt: the two would fall together
there = set()
for path in antt:
    for name in DECLARED.findall(read(path)):
        for part in [name, *name.split("-")]:
            there.add(part)
together = {o: n for o, n in table.items() if n in there}
twice = {}
for o, n in table.items():
    twice.setdefault(n, []).append(o)
for n, olds in sorted(twice.items()):
    if len(olds) > 1:
        print("together:", n, olds)
for o, n in sorted(together.items()):
    print("together:", o, n)

PATTERN = re.compile(r"(?<![A-Za-z0-9_'])(" + "|".join(sorted(map(re.escape, table), key=len, reverse=True)) + r")(?![A-Za-z0-9_'])")
if "--check" in sys.argv:
    for o, n in sorted(table.items()):
        print(o, n)
    raise SystemExit(0)
count = 0
for path in antt + rt + edits + pages:
    old = read(path)
    new = re.sub(r"(?<![A-Za-z0-9_'-])(" + "|".join({**LEMMAS, **(FALLS if path in FALLS_IN else {})}) + r")(?![A-Za-z0-9_'-])", lambda m: {**LEMMAS, **FALLS}[m.group(1)], old)
    new = PATTERN.sub(lambda m: table[m.group(1)], new)
    if path in edits or path in pages:
        new = re.sub(r"(?<![A-Za-z0-9_'-])[A-Za-z][A-Za-z0-9_'\u2032-]*", lambda m: turned.get(m.group(0), m.group(0)), new)
    if new != old:
        count += 1
        with open(path, "w", encoding="utf-8") as f:
            f.write(new)
print("respelled:", len(table), "words in", count, "files")
