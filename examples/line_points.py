"""The points of a line: line_points.py FILE MESH LAYER N prints a line "X Y" a point, in sheet coordinates, from the line's start to its end."""

import sys

from stragumella import Refused, Sheet


def main(name: str, mesh: str, layer: str, n: str) -> None:
    line = Sheet.open(name).mesh(int(mesh)).layer(int(layer)).line(int(n))
    for point in line.points:
        print(point.x, point.y)


if __name__ == "__main__":
    try:
        main(*sys.argv[1:])
    except Refused as refused:
        sys.exit(f"{sys.argv[1]}: refused: {refused}")
