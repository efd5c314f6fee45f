"""A sheet made record by record: the frame in many lines, so that its loop takes several records, and a hole with an area in it.

made.py N writes the one with N lines on the frame (4 to 100) to standard output.
"""

import sys

from stragumella import Kind, Record

NAME = b"\x81\x40"
# The ring around the hole's area, clockwise: twenty points, which take three records.
HOLE = [
    *((4000, y) for y in range(4000, 6000, 400)),
    *((x, 6000) for x in range(4000, 6000, 400)),
    *((6000, y) for y in range(6000, 4000, -400)),
    *((x, 4000) for x in range(6000, 3600, -500)),
]


def in_rows(numbers, a_record):
    """Numbers in rows of so many, the last one filled up with 0."""
    rows = [numbers[i : i + a_record] for i in range(0, len(numbers), a_record)]
    return [(*row, *[0] * (a_record - len(row))) for row in rows]


def node(serial, item, point, entries):
    frame = int(not {0, 10000}.isdisjoint(point))
    return Record(Kind.NODE, (1, item, serial, *point, frame, len(entries), *entries, *[0] * (9 - len(entries))))


def line(serial, item, start, end, link, left, right, points):
    numbers = (1, item, serial, item if item == 9 else 1, start, link, end, link, *left, *right, len(points), 0, 0)
    rows = in_rows([number for point in points for number in point], 14)
    return [Record(Kind.LINE, numbers), *(Record(Kind.COORDINATES, row) for row in rows)]


def area(serial, code, point, loops):
    lines = sum(len(entries) for _, entries in loops)
    rows = [(loop, len(entries), *row) for loop, entries in loops for row in in_rows(entries, 12)]
    return [Record(Kind.AREA, (1, code, serial, *point, len(loops), lines), NAME * 20), *(Record(Kind.LOOP, row) for row in rows)]


def framed(n):
    """The sheet with n lines on the frame."""
    frame = [*((0, 100 * i) for i in range(n - 3)), (0, 10000), (10000, 10000), (10000, 0)]
    whole, hole, nobody = (13101, 1), (13102, 2), (88888, 0)
    layer = [node(i + 1, 3, point, (i + 1, -(i or n))) for i, point in enumerate(frame)]
    layer.append(node(n + 1, 1, HOLE[0], (n + 1, -n - 1)))
    for i in range(n):
        after = (i + 1) % n
        layer += line(i + 1, 9, i + 1, after + 1, 1, nobody, whole, [frame[i], frame[after]])
    layer += line(n + 1, 1, n + 1, n + 1, 0, whole, hole, HOLE)
    layer += area(1, whole[0], (9000, 9000), [(1, list(range(1, n + 1))), (-2, [-n - 1])])
    layer += area(2, hole[0], (5000, 5000), [(1, [n + 1])])
    counts = (n + 1, n + 1, 2, 0)
    head = [
        Record(Kind.MESH, (533945, 1, *counts, len(layer) + 1), NAME * 10),
        Record(Kind.LAYER, (1, *counts, len(layer), 0, 0), letters=2),
    ]
    return b"".join(record.write() for record in head + layer)


if __name__ == "__main__":
    sys.stdout.buffer.write(framed(int(sys.argv[1])))
