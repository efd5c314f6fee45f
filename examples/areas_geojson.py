"""The areas of a sheet for a map: areas_geojson.py FILE prints GeoJSON (RFC 7946), a feature an area, in degrees.

An unstructured layer has no areas, and so no feature.

Our rings run clockwise around an area and counterclockwise around a hole; GeoJSON asks for the other way, so each is turned.
"""

import json
import sys
from typing import Any

from stragumella import Area, Refused, Ring, Sheet


def in_degrees(ring: Ring) -> list[tuple[float, float]]:
    return [(place.longitude, place.latitude) for place in reversed(ring.positions)]


def feature(area: Area) -> dict[str, Any]:
    layer = area.layer
    known = {"mesh": layer.mesh.code, "layer": layer.code, "area": area.serial, "code": area.code, "measure": area.measure}
    rings = [in_degrees(ring) for ring in area.rings]
    return {"type": "Feature", "properties": known, "geometry": {"type": "Polygon", "coordinates": rings}}


def main(name: str) -> None:
    features = [feature(area) for layer in Sheet.open(name).layers for area in layer.areas]
    print(json.dumps({"type": "FeatureCollection", "features": features}))


if __name__ == "__main__":
    try:
        main(*sys.argv[1:])
    except Refused as refused:
        sys.exit(f"{sys.argv[1]}: refused: {refused}")
