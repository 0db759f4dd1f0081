#!/usr/bin/env python3
# Asks the desk and the Rust the same requests and compares.
# Call: tests/compare.py [--seed N] [--minutes M | --small | --drawn | --large] [SUITE]
# First tests/desk/build and tests/oracle/build. The suites are in tests/suites.py; without a name all are asked in turn.
# A suite takes up to a minute; --small is a shorter form of it, --drawn has only what is drawn at random, of any length,
# and --large asks about the limits alone, in lines of many megabytes.
# --minutes asks --small and then rounds of --drawn, at least one, until the time is over. Each round has a seed of its
# own, which is told where something differs, so that the round can be asked again. tests/run takes --minutes 0.
#
# The desk's answer must be the Rust's, and document 01's where it adds a refusal of its own, and document 02's where a
# band is wrong, and the suite's where it knows one; a request that none of them answers, or that is no call to either
# server, is a difference too. What the Rust says of wrong details is changed by the oracle (tests/oracle/requests.rs); in
# tests/tally.py the lengths alone tell which band is wrong, and no other request may be answered with 2 or 17. The shortest
# request that differs is kept in target/tests/differs.txt, a table for tests/ask.py. A request that takes a server
# over ten minutes ends the run and is kept there too.
# What a call must leave alone of lent slices is looked at too. What is counted is in tests/tally.py.
import argparse
import os
import random
import subprocess
import sys
import time
from concurrent.futures import ThreadPoolExecutor, wait

from suites import SUITES
from tally import Tally

NO_ANSWER = "no answer"
# A server that takes longer for a request, in seconds, is ended.
PATIENCE = 600
TOO_LATE = f"no answer in {PATIENCE} s"
# From the seed of a round to that of the next.
NEXT_SEED = 1_000_000


class Server:
    def __init__(self, command):
        self.command = command
        self.process = subprocess.Popen(command, stdin=subprocess.PIPE, stdout=subprocess.PIPE, text=True)
        self.answers, self.since = [], None

    def write(self, requests):
        try:
            self.process.stdin.writelines(request + "\n" for request in requests)
            self.process.stdin.flush()
        except BrokenPipeError:
            pass  # the answers that do not come say it

    def read(self, count):
        self.answers = []
        for _ in range(count):
            self.since = time.monotonic()
            self.answers.append(self.process.stdout.readline().rstrip("\n") or NO_ANSWER)
        self.since = None
        return self.answers

    def is_late(self):
        return self.since is not None and time.monotonic() - self.since > PATIENCE

    # The place of the first request that ends a new server when they are asked one at a time.
    def ended_by(self, requests):
        again = Server(self.command)
        for place, request in enumerate(requests):
            again.write([request])
            if again.read(1) == [NO_ANSWER]:
                return place
        return len(requests) - 1


# The server that takes too long for a request; None once all have read their answers.
def late_one(reading, servers):
    while wait(reading, timeout=1).not_done:
        for server in servers:
            if server.is_late():
                return server
    return None


class Servers:
    def __init__(self):
        self.desk, self.oracle = self.both = Server(["tests/desk/run"]), Server(["target/tests/oracle"])
        self.pool = ThreadPoolExecutor(4)

    # The answers of both; None, and the difference is counted, where one of them does not answer.
    def ask(self, requests, tally):
        for server in self.both:
            self.pool.submit(server.write, requests)
        reading = [self.pool.submit(server.read, len(requests)) for server in self.both]
        late = late_one(reading, self.both)
        if late:
            said = [TOO_LATE if server is late else "-" for server in self.both]
            tally.differ(requests[len(late.answers)], said[0], "the Rust", said[1])
            for server in self.both:
                server.process.kill()
            return None
        answers, rust = (answer.result() for answer in reading)
        if NO_ANSWER in answers + rust:
            place = (self.desk if NO_ANSWER in answers else self.oracle).ended_by(requests)
            tally.differ(requests[place], answers[place], "the Rust", rust[place])
            return None
        return answers, rust


# Asks both servers a suite.
def compare(servers, suite, size, seed, tally):
    asking, answers = SUITES[suite](random.Random(seed), size), None
    while True:
        try:
            asks = asking.send(answers)
        except StopIteration:
            return
        both = servers.ask([request for request, _ in asks], tally)
        if both is None:
            return
        answers = both[0]
        for (request, wanted), *said in zip(asks, *both):
            tally.count(suite, request, *said, wanted)


# The sizes and seeds to ask, one after the other.
def rounds(asked, start):
    if asked.minutes is None:
        yield asked.size, asked.seed
        return
    yield "small", asked.seed
    seed = asked.seed + NEXT_SEED
    yield "drawn", seed
    while time.monotonic() - start < 60 * asked.minutes:
        seed += NEXT_SEED
        yield "drawn", seed


def end(tally, suite, size, seed):
    with open("target/tests/differs.txt", "w") as kept:
        print(f"# --{size} --seed {seed} {suite}", " -> ".join(tally.shortest), sep="\n", file=kept)
    print(f"{suite}: {tally.differences} differences in {tally.requests} requests")
    print("\n".join(tally.first))
    print("the shortest again: tests/ask.py target/tests/differs.txt tests/desk/run")
    sys.exit(f"the round again: tests/compare.py --{size} --seed {seed} {suite}")


def options():
    parser = argparse.ArgumentParser()
    parser.add_argument("--seed", type=int, default=53)
    sizes = parser.add_mutually_exclusive_group()
    sizes.add_argument("--minutes", type=float)
    for size in "full", "small", "drawn", "large":
        sizes.add_argument(f"--{size}", dest="size", action="store_const", const=size, default="full")
    parser.add_argument("suite", nargs="?", choices=SUITES)
    return parser.parse_args()


def main():
    asked, start = options(), time.monotonic()
    os.chdir(os.path.join(os.path.dirname(os.path.abspath(__file__)), ".."))
    servers, tally, count = Servers(), Tally(), 0
    for count, (size, seed) in enumerate(rounds(asked, start), 1):
        for suite in [asked.suite] if asked.suite else SUITES:
            compare(servers, suite, size, seed, tally)
            if tally.differences:
                end(tally, suite, size, seed)
    minutes, seconds = divmod(int(time.monotonic() - start), 60)
    print("\n".join(tally.tables()))
    print(f"- Rounds: {count}")
    name = " ".join(["compare", *filter(None, [asked.suite])])
    took = f"{minutes} min {seconds} s, seed {asked.seed}"
    print(f"ok {name}: {tally.requests} requests in {took}, {tally.refused} refused, none differ")


main()
