#!/usr/bin/env python3
"""Makes small scenarios, of which a plain search runs at most 700 sets: always the same for one seed.

    made_scenarios.py SEED COUNT [PROTOCOL]     prints so many, of all protocols or of one, with a line `~` after each
    made_scenarios.py SEED COUNT --rows FILE FOLDER
                                                writes so many of each protocol as a table, each into a file of that
                                                FOLDER, as they stand in crates/search_examples/src/made
    made_scenarios.py SEED COUNT --deep FILE    writes so many of each protocol, whose promises are deep formulas over few points, as a table
                                                into the FILE crates/search_examples/src/made/deep.rt

FILE of --rows has the answers to the scenarios of SEED, a line each. Of these are taken, for each protocol, the first ones that some set of faults
defeats, the empty set left out, and a few of the others:

    made_scenarios.py 18 1200 | while IFS= read -r -d '~' text; do leastfault answer - <<<"$text" | paste -sd,; done >answers
    made_scenarios.py 18 50 --rows answers crates/search_examples/src/made
"""
import json
import random
import sys
from math import comb
from pathlib import Path

FACTS = {
    "retry": ["has", "lacks"],
    "redundant": ["has", "lacks"],
    "two_phase": ["committed", "not_committed", "aborted", "not_aborted", "blocked", "free"],
    "three_phase": ["committed", "not_committed", "aborted", "not_aborted", "blocked", "free"],
    "primary_backup": ["holds", "empty", "done", "not_done", "primary", "backup", "claimed", "unclaimed"],
}
NAMED = {
    "retry": ["delivered"],
    "redundant": ["delivered"],
    "two_phase": ["agreement", "unblocked"],
    "three_phase": ["agreement", "unblocked"],
    "primary_backup": ["one_primary", "durable"],
}
# what the nodes mostly show in the end where no fault comes
USUAL = {
    "retry": ["has"],
    "redundant": ["has"],
    "two_phase": ["committed", "not_aborted", "free"],
    "three_phase": ["committed", "not_aborted", "free"],
    "primary_backup": ["unclaimed"],
}
BOUNDS = ["nodes", "horizon", "last_omission", "crashes", "budget"]
MOST = 700
FEW = 200
WIDTH = 140


# what stands for the beginning of a list in a row of deep formulas, as crates/search_examples/src/texts.rt reads it
SHORT = {"all": "(", "any": "<", "down": "!", "shows": "?"}


def sets(made):
    """How many sets of faults the bounds allow."""
    nodes, horizon = made["nodes"], made["horizon"]
    omissions = nodes * (nodes - 1) * made["last_omission"]
    total = 0
    for crashes in range(made["crashes"] + 1):
        for pauses in range(made.get("pauses", 0) + 1):
            steps = comb(nodes, crashes) * comb(nodes, pauses) * horizon ** (crashes + pauses)
            for lost in range(made["budget"] - crashes - pauses + 1):
                total += steps * comb(omissions, lost)
    return total


def atom(chance, protocol, nodes, horizon):
    node = chance.randrange(nodes)
    if chance.random() < 0.6:
        step, fact = horizon, chance.choice(USUAL[protocol])
    else:
        step, fact = chance.randint(1, horizon), chance.choice(FACTS[protocol])
    if chance.random() < 0.1:
        return ["down", node, step]
    shows = ["shows", node, step, fact]
    return ["any", ["down", node, step], shows] if chance.random() < 0.3 else shows


def formula(chance, protocol, nodes, horizon, depth):
    if depth == 0 or chance.random() < 0.3:
        return atom(chance, protocol, nodes, horizon)
    parts = [formula(chance, protocol, nodes, horizon, depth - 1) for _ in range(chance.choice([0, 1, 2, 2, 2, 2, 3, 3, 3, 3]))]
    return [chance.choice(["all", "any"])] + parts


def deep(chance, points, depth):
    """A formula over a few points: atoms of them stand in it several times, and those of one step beside those of others."""
    if depth == 0 or chance.random() < 0.1:
        return list(chance.choice(points))
    parts = [deep(chance, points, depth - 1) for _ in range(chance.choice([0, 1, 2, 2, 2, 2, 2, 2, 3, 3]))]
    return [chance.choice(["all", "any"])] + parts


def promises_much(chance, protocol):
    """The next scenario of few sets, with a formula of three to six levels."""
    while True:
        made = scenario(chance, protocol)
        made["budget"] = min(made["budget"], 2)
        if sets(made) > FEW:
            continue
        nodes, horizon = made["nodes"], made["horizon"]
        points = []
        for _ in range(chance.randint(2, 4)):
            node, step = chance.randrange(nodes), chance.randint(1, horizon)
            usual = chance.random() < 0.6
            points.append(["shows", node, step, chance.choice((USUAL if usual else FACTS)[protocol])])
            points.append(chance.choice([["down", node, step], ["shows", node, step, chance.choice(FACTS[protocol])]]))
        made["outcome"] = deep(chance, points, chance.randint(2, 5))
        if len(json.dumps(made["outcome"])) < 420:
            return made


def short(part):
    """A formula as a row of deep formulas has it."""
    if isinstance(part, list):
        return SHORT[part[0]] + ",".join(short(one) for one in part[1:]) + "]"
    return json.dumps(part)


def scenario(chance, protocol):
    nodes = chance.randint(3 if protocol == "primary_backup" else 2, 4)
    horizon = chance.randint(4, 9)
    made = {
        "nodes": nodes,
        "horizon": horizon,
        "last_omission": chance.randint(0, horizon - 1),
        "crashes": chance.randint(0, min(nodes, 2)),
        "budget": chance.choice([1, 2, 2, 2, 3, 3]),
    }
    if chance.random() < 0.5:
        made["pauses"] = chance.randint(1, 2)
        made["pause_length"] = chance.randint(1, 4)
    if chance.random() < 0.15:
        made["least"] = 2
    if chance.random() < 0.4:
        made["spread"] = chance.randint(1, 3)
        made["seed"] = "".join(chance.choice("0123456789abcdef") for _ in range(64))
    made["tries" if protocol in ("retry", "redundant") else "patience"] = chance.randint(1, 6)
    if protocol in ("two_phase", "three_phase") and chance.random() < 0.3:
        made["votes"] = [chance.random() < 0.9 for _ in range(nodes - 1)]
    if chance.random() < 0.5:
        made["outcome"] = chance.choice(NAMED[protocol])
    else:
        made["outcome"] = formula(chance, protocol, nodes, horizon, 2)
    if chance.random() < 0.15:
        start, end = chance.sample(range(nodes), 2)
        made["links"] = {"from": start, "to": end, "least": chance.randint(1, 3), "spread": chance.randint(0, 2)}
    return made


def small(chance, protocol):
    """The next scenario that has few sets."""
    while True:
        made = scenario(chance, protocol)
        if sets(made) <= MOST:
            return made


def lines(made):
    """The lines of a scenario but for its bounds and its protocol, in the order in which they stand."""
    found = [f"{key} = {json.dumps(value)}" for key, value in made.items() if key not in BOUNDS + ["links"]]
    if "links" in made:
        found += ["[[links]]"] + [f"{key} = {value}" for key, value in made["links"].items()]
    return found


def text(protocol, made):
    bounds = [f"{key} = {made[key]}" for key in BOUNDS]
    return "\n".join(bounds + [f'protocol = "{protocol}"'] + lines(made)) + "\n"


def row(made):
    """A row of a table, in as many string literals as it takes."""
    bounds = " ".join(str(made[key]) for key in BOUNDS)
    left = json.dumps(bounds + "|" + ";".join(lines(made)))[1:-1] + "\\n"
    while len(left) > WIDTH:
        at = max(left.rfind(mark, 0, WIDTH) for mark in ("; ", ";", ", ")) + 1
        yield left[:at]
        left = left[at:]
    yield left


def made_up(chance, protocols):
    """The next scenario of one of the protocols."""
    protocol = chance.choice(protocols)
    return protocol, small(chance, protocol)


def chosen(chance, count, answers):
    """For each protocol so many scenarios, of which a tenth need no fault and three tenths are defeated by none."""
    found = {protocol: [] for protocol in FACTS}
    few = {(protocol, kind): count * share // 10 for protocol in FACTS for kind, share in (("least 0", 1), ("none", 3))}
    for answer in answers:
        protocol, made = made_up(chance, list(FACTS))
        kind = (protocol, "none" if answer.startswith("none") else answer.strip())
        if few.get(kind, 1) > 0 and len(found[protocol]) < count:
            found[protocol].append(made)
            if kind in few:
                few[kind] -= 1
    return found


def tables(found, folder):
    for protocol, scenarios in found.items():
        lines = [
            f"//! Made scenarios of `{protocol}`, as `bench/made_scenarios.py` makes them.",
            "",
            f"/// Scenarios of `{protocol}`: the numbers of the bounds, and further lines but for the protocol's.",
            f"pub(crate) const {protocol.upper()}: &str = concat!(",
        ]
        lines += [f'    "{part}",' for made in scenarios for part in row(made)]
        (folder / f"{protocol}.rt").write_text("\n".join(lines + [");", ""]))


def deep_row(protocol, made):
    bounds = " ".join(str(made[key]) for key in BOUNDS)
    outcome = "outcome = " + short(made.pop("outcome"))
    found = lines(made)
    before = found.index("[[links]]") if "[[links]]" in found else len(found)
    left = json.dumps("|".join([protocol, bounds, ";".join(found[:before] + [outcome] + found[before:])]))[1:-1] + "\\n"
    while len(left) > WIDTH:
        at = max(left.rfind(mark, 0, WIDTH) for mark in (";", ",")) + 1
        yield left[:at]
        left = left[at:]
    yield left


def deep_table(chance, count, file):
    rows = [
        "//! Made scenarios whose promises are deep formulas over few points, as `bench/made_scenarios.py` makes them.",
        "",
        "/// Their protocols, the numbers of their bounds, and further lines, with one character for the beginning of each list.",
        "pub(crate) const DEEP: &str = concat!(",
    ]
    for protocol in FACTS:
        for _ in range(count):
            rows += [f'    "{part}",' for part in deep_row(protocol, promises_much(chance, protocol))]
    Path(file).write_text("\n".join(rows + [");", ""]))


def main():
    chance = random.Random(int(sys.argv[1]))
    count, more = int(sys.argv[2]), sys.argv[3:]
    if more and more[0] == "--deep":
        deep_table(chance, count, more[1])
        return
    if more and more[0] == "--rows":
        with open(more[1]) as answers:
            tables(chosen(chance, count, answers), Path(more[2]))
        return
    for _ in range(count):
        protocol, made = made_up(chance, more or list(FACTS))
        print(text(protocol, made) + "~")


main()
