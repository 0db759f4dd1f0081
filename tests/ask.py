#!/usr/bin/env python3
# Asks a server the requests of a table and compares the answers. Call: tests/ask.py TABLE COMMAND..
# A table has lines `REQUEST -> ANSWER` and # comments. A word `-` on either side matches any word, and an
# answer `-` any answer; those rows are passed over in the count.
import subprocess
import sys


def rows(table):
    with open(table) as lines:
        for line in lines:
            line = line.rstrip("\n")
            if line and not line.startswith("#"):
                request, arrow, answer = line.partition(" -> ")
                if not arrow:
                    sys.exit(f"{table}: no answer in this line: {line[:200]}")
                yield request, answer


def agree(wanted, got):
    wanted, got = wanted.split(" "), got.split(" ")
    return len(wanted) == len(got) and all(w == g or "-" in (w, g) for w, g in zip(wanted, got))


def main(table, *command):
    asked = list(rows(table))
    requests = "".join(request + "\n" for request, _ in asked)
    server = subprocess.run(command, input=requests, stdout=subprocess.PIPE, text=True)
    answers = server.stdout.splitlines()
    wrong, passed_over = [], 0
    for place, (request, wanted) in enumerate(asked):
        got = answers[place] if place < len(answers) else "no answer"
        if "-" in (wanted, got):
            passed_over += 1
        elif not agree(wanted, got):
            wrong.append(f"{request[:200]}\n  wanted {wanted[:200]}\n  got    {got[:200]}")
    if len(answers) > len(asked):
        wrong.append(f"{len(answers)} answers to {len(asked)} requests")
    if server.returncode != 0:
        wrong.append(f"the server ended with status {server.returncode}")
    compared = len(asked) - passed_over
    if wrong or not compared:
        print(f"{table}: {len(wrong)} differences in {compared} answers")
        print("\n".join(wrong[:10]))
        sys.exit(1)
    print(f"ok {table}: {compared} answers" + (f", {passed_over} passed over" if passed_over else ""))


if __name__ == "__main__":
    if len(sys.argv) < 3:
        sys.exit("usage: tests/ask.py TABLE COMMAND..")
    main(*sys.argv[1:])
