#!/usr/bin/env python3
"""A plate with a boss, from its mesh to its plan: examples/sample.py [LIBRARY], by default target/staticlib/libmandrikelo.so.

It prints examples/sample.out, as examples/sample.c and examples/sample.cpp do. docs/USING.md says what the numbers mean."""
import pathlib
import sys
from ctypes import CDLL, c_double, c_size_t, c_uint32

LIBRARY = sys.argv[1] if len(sys.argv) > 1 else pathlib.Path(__file__).resolve().parent.parent / "target/staticlib/libmandrikelo.so"
REFUSED_PARAMETER, REFUSED_RUNS = 9, 13
doors = CDLL(str(LIBRARY))


def doubles(numbers):
    """A table, or zeros where a count is given."""
    return (c_double * numbers)() if isinstance(numbers, int) else (c_double * len(numbers))(*numbers)


def words(count):
    return (c_uint32 * count)()


def table(entries):
    """A table is a pointer and how many numbers it has."""
    return entries, c_size_t(len(entries))


def call(name, *handed):
    """Calls a door: whole numbers are uint32_t, others double."""
    handed = [c_uint32(x) if isinstance(x, int) else c_double(x) if isinstance(x, float) else x for x in handed]
    return getattr(doors, f"mandrikelo_{name}")(*handed)


def passed(name, *handed):
    refusal = call(name, *handed)
    if refusal:
        sys.exit(f"{name}: refused {refusal}")


def face(p):
    """Four corners, as two triangles."""
    return [x for i in (0, 1, 2, 0, 2, 3) for x in p[i]]


def block(x0, y0, x1, y1, low, top):
    """The top and the four walls of a block."""
    corners = [(x0, y0), (x1, y0), (x1, y1), (x0, y1)]
    out = face([(*c, top) for c in corners])
    for a, b in zip(corners, corners[1:] + corners[:1]):
        out += face([(*a, low), (*b, low), (*b, top), (*a, top)])
    return out


def main():
    mesh = doubles(block(0, 0, 40, 30, 0, 10) + block(15, 10, 25, 20, 10, 14))
    print("version", call("version"))

    # The index, in tables of the size that it needs.
    n, rooms = len(mesh) // 9, (c_size_t * 2)()
    passed("rooms", *table(mesh), 0.0, 3.0, rooms)
    starts, members, marks = words(rooms[0]), words(rooms[1]), words(n)
    boxes = doubles(5 * n)
    measures, sizes, bad = doubles(6), words(3), words(2)
    passed("build", *table(mesh), 0.0, 3.0, *table(starts), *table(members), *table(boxes), measures, sizes, bad)
    print(f"{sizes[0]} triangles in {sizes[1]} by {sizes[2]} cells, {starts[sizes[1] * sizes[2]]} members")
    index = (*table(mesh), measures, sizes, *table(starts), *table(members), *table(boxes), *table(marks))

    # The stamp that comes back goes into the next question.
    high, tip, counts, on, lengths = doubles(1), doubles(1), words(3), words(3), doubles(2)
    passed("max_height", *index, 0, 13.0, 15.0, 13.0, 15.0, 3.0, high, counts, on)
    passed("max_height", *index, counts[1], 10.0, 15.0, 10.0, 15.0, 3.0, tip, counts, on)
    print(f"disk of radius 3: {high[0]:.3f} beside the boss, {tip[0]:.3f} off it")
    drill = doubles([0, 0, 3, 1.8 / 3])  # its tip is 1.8 high at the radius 3: rise is the slope
    passed("max_sections", *index, counts[1], 12.0, 15.0, *table(drill), tip, counts, on)
    print(f"drill of radius 3, 1.8 high: tip {tip[0]:.3f} beside the boss")
    stamp = counts[1]
    for lift in (0, 1):
        passed("bull_chord_clear", *index, stamp, 4.0, 15.0, 10.5, 10.0, 15.0, 10.5, 3.0, 1.0, float(lift), counts)
        print(f"tip at 10.5 over the face at 10, lift {lift}:", "clear" if counts[0] == 1 else "blocked")
        stamp = counts[2]

    # The plan; a parameter out of its range first. Levels are at most n, and the runs' room is doubled after 13.
    parameters, levels, runs = doubles([0.001, 0.01, 0, 0.25, 0, 20, 30]), doubles(5 * n), doubles(5)
    while refusal := call("plan", *index, parameters, 0, *table(levels), *table(runs), lengths, counts):
        if refusal == REFUSED_PARAMETER and parameters[2] == 0:
            print(f"stepover 0: refused {refusal}")
            parameters[2] = 4
        elif refusal == REFUSED_RUNS:
            runs = doubles(2 * len(runs))
        else:
            sys.exit(f"plan: refused {refusal}")
    print(f"{counts[0]} levels, {counts[1]} rows, {counts[2]} runs; cut {lengths[0]:.3f}, dropped {lengths[1]:.3f}")
    print("first run from {:.3f}, {:.3f} to {:.3f}, {:.3f} at {:.3f}, its level at {:.3f}".format(*runs[:5], levels[0]))


main()
