#!/usr/bin/env python3
"""Compares answers over every delay with answers by seeds, on made scenarios.

    compare_delays.py PROGRAM SEED COUNT [SEEDS]

For each of COUNT small scenarios that bench/made_scenarios.py makes of SEED, the built PROGRAM has to agree with itself:

- where no link has a spread, `answer --every-delay` says what `answer` says;
- the answer over every delay is never after that of any of SEEDS seeds (20 unless told), by size and then in the order of sets;
- a set that it answers misses when it is run with its late messages, by `run --delays`.

Prints each scenario where one of these fails. The last line is `N passed, M failed`; the status is 1 if one failed.
"""
import os
import random
import re
import subprocess
import sys
import tempfile
from pathlib import Path

HERE = Path(__file__).resolve().parent
KINDS = {"omit": 0, "crash": 1, "pause": 2}


def asked(program, words, text, desk):
    """The lines and the status of the program."""
    path = Path(desk) / "scenario.toml"
    path.write_text(text)
    done = subprocess.run([program, *words], capture_output=True, cwd=desk, timeout=120)
    return done.stdout.decode().splitlines(), done.returncode


def place(fault):
    """Where a fault stands in the order of faults: by step, then kind, then nodes."""
    kind, rest = fault.split(" ", 1)
    nodes, step = rest.split(" @")
    return int(step), KINDS[kind], [int(node) for node in nodes.split(">")]


def key(lines):
    """Where an answer stands: a set by its size and its faults, and none behind all."""
    if lines[0].startswith("none"):
        return (10**9, [])
    count = int(lines[0].split()[1])
    return (count, [place(fault) for fault in lines[1 : 1 + count]])


def with_spread(text, spread):
    """The scenario with this spread on each link, and no links or seed of its own."""
    head = text.split("[[links]]")[0]
    head = re.sub(r"(?m)^(spread|seed) *=.*\n", "", head)
    return f"spread = {spread}\n{head}"


def problems(program, text, spread, seeds, desk):
    """What fails of a scenario."""
    plain = with_spread(text, 0)
    one, _ = asked(program, ["answer", "scenario.toml"], plain, desk)
    other, _ = asked(program, ["answer", "scenario.toml", "--every-delay"], plain, desk)
    if one != other:
        yield f"without spread: {one} and {other}"
    wide = with_spread(text, spread)
    every, status = asked(program, ["answer", "scenario.toml", "--every-delay"], wide, desk)
    if status == 1:
        count = int(every[0].split()[1])
        faults = ",".join(every[1 : 1 + count])
        late = ",".join(line.removeprefix("arrive ") for line in every[1 + count :])
        told, ended = asked(program, ["run", "scenario.toml", faults, "--delays", late], wide, desk)
        if ended != 1 or told[-1] != "misses":
            yield f"{every} is no miss: {told[-1]}"
    for seed in range(seeds):
        by_seed, _ = asked(program, ["answer", "scenario.toml"], f'seed = "{seed:064x}"\n{wide}', desk)
        if key(by_seed) < key(every):
            yield f"seed {seed}: {by_seed} before {every}"


def main():
    program, seed, count = os.path.abspath(sys.argv[1]), sys.argv[2], sys.argv[3]
    seeds = int(sys.argv[4]) if len(sys.argv) > 4 else 20
    made = subprocess.run(
        [sys.executable, HERE.parent / "bench" / "made_scenarios.py", seed, count], capture_output=True, check=True
    ).stdout.decode()
    dice = random.Random(int(seed))
    passed = failed = 0
    with tempfile.TemporaryDirectory() as desk:
        for text in made.split("~\n"):
            if not text.strip():
                continue
            wrong = list(problems(program, text, dice.randint(1, 2), seeds, desk))
            for line in wrong:
                print(f"{text}{line}\n")
            failed += bool(wrong)
            passed += not wrong
    print(f"{passed} passed, {failed} failed")
    return 1 if failed else 0


sys.exit(main())
