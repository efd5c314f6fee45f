"""A layer's figures: layer_figures.py FILE prints a line a layer with its counts and both its sums, and below it a line an area.

Measures are doubled areas, in sheet coordinates. The areas' sum and the sum along the lines between an area and the outside are equal in every
layer of an accepted sheet; that is proved, and printed here for whoever wants to see it. An unstructured layer has no areas, and both of its sums are 0.
"""

import sys

from stragumella import Layer, Refused, Sheet


def print_layer(layer: Layer) -> None:
    counts = f"nodes={len(layer.nodes)} lines={len(layer.lines)} areas={len(layer.areas)}"
    print(f"mesh={layer.mesh.code} layer={layer.code} {counts} sum={layer.sums.areas} outside={layer.sums.outside}")
    for area in layer.areas:
        print(f"  area={area.serial} code={area.code} measure={area.measure}")


def main(name: str) -> None:
    for layer in Sheet.open(name).layers:
        print_layer(layer)


if __name__ == "__main__":
    try:
        main(*sys.argv[1:])
    except Refused as refused:
        sys.exit(f"{sys.argv[1]}: refused: {refused}")
