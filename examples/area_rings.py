"""The rings of an area: area_rings.py FILE MESH LAYER N prints of each loop a line "ring SERIAL" and a line "X Y" a point.

Serial 1 is the ring around the area; a serial below 0 is a hole. The node between two lines is printed once, and the ring is closed.
"""

import sys

from stragumella import Refused, Sheet


def main(name: str, mesh: str, layer: str, n: str) -> None:
    area = Sheet.open(name).mesh(int(mesh)).layer(int(layer)).area(int(n))
    for ring in area.rings:
        print("ring", ring.serial)
        for point in ring.points:
            print(point.x, point.y)


if __name__ == "__main__":
    try:
        main(*sys.argv[1:])
    except Refused as refused:
        sys.exit(f"{sys.argv[1]}: refused: {refused}")
