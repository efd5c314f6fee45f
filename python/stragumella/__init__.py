"""Japanese map sheets by a proved library: judged, measured, read and written.

    sheet = stragumella.Sheet.open("sheet.dat")
    print(sheet.judge())
    for layer in sheet.layers:
        for area in layer.areas:
            print(layer.mesh.code, layer.code, area.serial, area.code, area.measure)

A sheet that breaks a rule raises `Refused`, with the refusal's number, record, column and text. Every answer is the library's
(include/stragumella.h of the project says what is proved of it); this package hands over bytes and gives names to numbers.
"""

from ._facts import VERSION as __version__
from .records import Kind, Record
from .refused import Refused
from .sheet import Area, Layer, Line, Mesh, Node, Outcome, Point, Position, Ring, Sheet, Sums, position

__all__ = [
    "Area",
    "Kind",
    "Layer",
    "Line",
    "Mesh",
    "Node",
    "Outcome",
    "Point",
    "Position",
    "Record",
    "Refused",
    "Ring",
    "Sheet",
    "Sums",
    "__version__",
    "position",
]
