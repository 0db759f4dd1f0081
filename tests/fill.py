#!/usr/bin/env python3
# Fills in the answers: requests and comments on stdin, a table on stdout. Call: tests/fill.py COMMAND.. <requests
import subprocess
import sys

lines = sys.stdin.read().splitlines()
requests = [line for line in lines if line and not line.startswith("#")]
server = subprocess.run(sys.argv[1:], input="\n".join(requests), stdout=subprocess.PIPE, text=True, check=True)
answers = server.stdout.splitlines()
if len(answers) != len(requests):
    sys.exit(f"tests/fill.py: {len(answers)} answers to {len(requests)} requests")
answers = iter(answers)
for line in lines:
    print(line if not line or line.startswith("#") else f"{line} -> {next(answers)}")
