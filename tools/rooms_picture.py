#!/usr/bin/env python3
"""Prints docs/rooms.svg: how the bytes of a scenario and a protocol become a reply.

    tools/rooms_picture.py > docs/rooms.svg

A room has a column and a row. A line goes from the right side of one room to the left side of another, or down.
"""

COLUMNS = [16, 216, 416, 616, 816]
WIDTH, HEIGHT, ROW, TOP = 1008, 490, 62, 16
ROOM, HIGH = 176, 44

# name: column, row, what it gives in a few words
ROOMS = {
    "lf_words": (0, 0, "what is asked"),
    "lf_streams": (0, 3.5, "files and streams"),
    "lf_protocol_file": (1, 1.5, "rules and promises"),
    "lf_own_scenario": (1, 2.8, "a scenario of them"),
    "lf_scenario": (1, 4.1, "a scenario"),
    "lf_tree": (1, 5.4, "a certificate"),
    "lf_outcome": (2, 3.45, "the type Scenario"),
    "lf_book, lf_pool": (3, 1.25, "answer, certificate"),
    "lf_windows, lf_symmetry": (3, 2.4, "answer by states"),
    "lf_why": (3, 3.55, "reasons of an answer"),
    "lf_trace, lf_rendering": (3, 4.7, "lines, JSON, a picture"),
    "lf_check": (3, 5.85, "yes, or no and why"),
    "leastfault": (4, 3.5, "a reply and a status"),
}

ENGINES = [name for name, (column, _, _) in ROOMS.items() if column == 3]
ACROSS = [("lf_streams", name) for name in ("lf_protocol_file", "lf_own_scenario", "lf_scenario", "lf_tree")]
ACROSS += [("lf_own_scenario", "lf_outcome"), ("lf_scenario", "lf_outcome"), ("lf_tree", "lf_check")]
ACROSS += [("lf_outcome", name) for name in ENGINES]
ACROSS += [(name, "leastfault") for name in ENGINES]
DOWN = [("lf_protocol_file", "lf_own_scenario")]

# what stands below all engines
BAND = "below all engines:  lf_faults: sets of faults · lf_latency: arrivals · lf_protocols: machines · lf_sim: runs · lf_outcome: truth · lf_cone: reaches"


def place(name):
    column, row, _ = ROOMS[name]
    return COLUMNS[column], TOP + row * ROW


def line(path):
    print(f'<path d="{path}" fill="none" stroke="#667788" marker-end="url(#tip)"/>')


def box(x, y, width, high):
    print(f'<rect x="{x}" y="{y:g}" width="{width}" height="{high}" rx="4" fill="#eef3f8" stroke="#667788"/>')


def text(x, y, colour, words, more=""):
    print(f'<text x="{x}" y="{y:g}" text-anchor="middle" fill="{colour}"{more}>{words}</text>')


def main():
    print(f'<svg xmlns="http://www.w3.org/2000/svg" viewBox="0 0 {WIDTH} {HEIGHT}" font-family="sans-serif" font-size="12">')
    print("<title>From the bytes of a scenario and a protocol to the bytes of a reply</title>")
    print(f'<rect width="{WIDTH}" height="{HEIGHT}" fill="#ffffff"/>')
    print('<defs><marker id="tip" viewBox="0 0 8 8" refX="8" refY="4" markerWidth="7" markerHeight="7" orient="auto">'
          '<path d="M0 0L8 4L0 8z" fill="#667788"/></marker></defs>')
    for start, end in ACROSS:
        (x, y), (u, v) = place(start), place(end)
        x, y, v = x + ROOM, y + HIGH // 2, v + HIGH // 2
        if y == v:
            line(f"M{x} {y:g}H{u}")
        elif end == "lf_check" and start == "lf_tree":
            # straight on below the room of the next column
            line(f"M{x} {y:g}H{u - 100}C{u - 50} {y:g} {u - 40} {v:g} {u} {v:g}")
        else:
            line(f"M{x} {y:g}C{x + 13} {y:g} {u - 13} {v:g} {u} {v:g}")
    for start, end in DOWN:
        (x, y), (u, v) = place(start), place(end)
        line(f"M{x + ROOM // 2} {y + HIGH:g}V{v:g}")
    (x, y), (u, v) = place("lf_words"), place("leastfault")
    line(f"M{x + ROOM} {y + HIGH // 2:g}H{u + ROOM // 2 - 12}Q{u + ROOM // 2} {y + HIGH // 2:g} {u + ROOM // 2} {y + HIGH // 2 + 12:g}V{v:g}")
    for name, (_, _, what) in ROOMS.items():
        x, y = place(name)
        box(x, y, ROOM, HIGH)
        text(x + ROOM // 2, y + 18, "#112233", name, ' font-weight="bold"')
        text(x + ROOM // 2, y + 35, "#334455", what)
    box(COLUMNS[0], HEIGHT - 40, WIDTH - 2 * COLUMNS[0], 28)
    text(WIDTH // 2, HEIGHT - 22, "#334455", BAND)
    print("</svg>")


main()
