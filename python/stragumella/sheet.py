"""Sheets: judged, and then gone through by mesh, layer, node, line and area.

An accepted sheet keeps every rule, so nothing is checked here a second time. Serials count from 1, and number n of a layer's nodes, lines
or areas stands at [n - 1]; `layer.area(n)` takes the serial itself. Area 0 is nobody: `line.left` is None there. An unstructured layer (H1) has
nodes and lines and no areas.
"""

from __future__ import annotations

import ctypes
import os
from collections.abc import Callable, Iterable, Iterator, Sequence
from dataclasses import dataclass, field
from functools import cached_property
from typing import TYPE_CHECKING, Any, Generic, NamedTuple, Optional, TypeVar, Union, overload

from . import _library
from .records import Buffer, Kind, Record, as_bytes, fits_32_bits, text_of
from .refused import Refused

if TYPE_CHECKING:
    import numpy
    from numpy.typing import NDArray

_NOT_PERMITTED = 6
_STRUCTURED = 2
_POINTS_A_RECORD = 7
_ENTRIES_A_RECORD = 12


class Outcome(NamedTuple):
    """The counts of an accepted sheet."""

    meshes: int
    layers: int
    nodes: int
    lines: int
    areas: int
    records: int


class Sums(NamedTuple):
    """The two sums of a layer, doubled areas: of its areas' measures, and along the lines between an area and the outside.

    They are equal in every layer of an accepted sheet: no ground is lost. An unstructured layer has no areas, and both are 0.
    """

    areas: int
    outside: int


class Point(NamedTuple):
    """A point in sheet coordinates, 0 to 10000: x runs east, y north."""

    x: int
    y: int


class Position(NamedTuple):
    """A point in degrees."""

    latitude: float
    longitude: float


def position(mesh: int, x: int, y: int) -> Position:
    """The latitude and longitude of a point on the sheet with that mesh code. Refused with 6 where one of them is not permitted."""
    if not (fits_32_bits(mesh) and fits_32_bits(x) and fits_32_bits(y)):
        raise Refused(_NOT_PERMITTED)
    place = _library.position(mesh, x, y)
    if place.number != 0:
        raise Refused(place.number)
    return Position(place.latitude, place.longitude)


def _array(rows: Sequence[Any], columns: Optional[int] = None) -> NDArray[numpy.int64]:
    """Whole numbers as an array of numpy, which the package asks for here and nowhere else; with columns, so many a row."""
    import numpy

    array = numpy.array(rows, dtype=numpy.int64)
    return array if columns is None else array.reshape(-1, columns)


# ---- what is in a layer


@dataclass(frozen=True)
class Node:
    """A node. `entries` are its lines: n for line n that starts here, -n for one that ends here."""

    layer: Layer = field(repr=False)
    record: int
    serial: int
    item: int
    x: int
    y: int
    frame: bool
    entries: tuple[int, ...]

    @property
    def position(self) -> Position:
        return self.layer.mesh.position(self.x, self.y)


@dataclass(frozen=True)
class Line:
    """A line, from its start node to its end node, with an area or nobody on either side.

    An area number 0 is nobody, the outside of the sheet, and has code 88888 beside it. A code 0 in layer 5 is land. In an unstructured layer
    (`layer.structured` is False) a line says nothing of its sides: both codes and both area numbers are 0, and left and right are None.
    """

    layer: Layer = field(repr=False)
    record: int
    serial: int
    item: int
    kind: int
    start_node: int
    start_link: int
    end_node: int
    end_link: int
    left_code: int
    left_area: int
    right_code: int
    right_area: int
    count: int

    @cached_property
    def points(self) -> tuple[Point, ...]:
        """All points from start to end. Seven stand in a record; the count alone says where they end, since (0, 0) is a point."""
        records = range(self.record + 1, self.record + 1 + -(-self.count // _POINTS_A_RECORD))
        sheet = self.layer.mesh.sheet
        numbers = [n for k in records for n in sheet.record(k, Kind.COORDINATES).numbers]
        return tuple(map(Point, numbers[0 : 2 * self.count : 2], numbers[1 : 2 * self.count : 2]))

    @property
    def positions(self) -> tuple[Position, ...]:
        """The points in degrees."""
        return self.layer.mesh.positions(self.points)

    @property
    def start(self) -> Node:
        return self.layer.node(self.start_node)

    @property
    def end(self) -> Node:
        return self.layer.node(self.end_node)

    @property
    def left(self) -> Optional[Area]:
        """The area on the left, or None: nobody, and in an unstructured layer always."""
        return self.layer.area(self.left_area) if self.left_area else None

    @property
    def right(self) -> Optional[Area]:
        """The area on the right, or None: nobody, and in an unstructured layer always."""
        return self.layer.area(self.right_area) if self.right_area else None

    def array(self) -> NDArray[numpy.int64]:
        """The points as an array of numpy, a row a point."""
        return _array(self.points, 2)


@dataclass(frozen=True)
class Ring:
    """A loop of an area. Serial 1 is the ring around it, clockwise; a serial below 0 is a hole, counterclockwise.

    `entries` are its lines in order: n is line n from start to end, -n the same line backwards.
    """

    area: Area = field(repr=False)
    record: int
    serial: int
    entries: tuple[int, ...]

    @cached_property
    def points(self) -> tuple[Point, ...]:
        """Its points in order, the node between two lines once; the last is the first."""
        points: list[Point] = []
        for entry in self.entries:
            line = self.area.layer.line(abs(entry)).points
            points += (line if entry > 0 else line[::-1])[1 if points else 0 :]
        return tuple(points)

    @property
    def positions(self) -> tuple[Position, ...]:
        """The points in degrees."""
        return self.area.layer.mesh.positions(self.points)

    def array(self) -> NDArray[numpy.int64]:
        """The points as an array of numpy, a row a point."""
        return _array(self.points, 2)


@dataclass(frozen=True)
class Area:
    """An area. Its measure is its doubled area in sheet coordinates; holes are taken away."""

    layer: Layer = field(repr=False)
    record: int
    serial: int
    code: int
    x: int
    y: int
    loops: int
    name: bytes
    measure: int

    @property
    def name_text(self) -> Optional[str]:
        """The name as text (CP932), or None where it has none."""
        return text_of(self.name)

    @property
    def position(self) -> Position:
        return self.layer.mesh.position(self.x, self.y)

    @cached_property
    def rings(self) -> tuple[Ring, ...]:
        """Its loops, the ring around it first."""
        rings: list[Ring] = []
        k = self.record + 1
        for _ in range(self.loops):
            ring = self._ring(k)
            rings.append(ring)
            k += -(-len(ring.entries) // _ENTRIES_A_RECORD)
        return tuple(rings)

    def _ring(self, first: int) -> Ring:
        """The loop that begins at that record. Its entries stand twelve in a record, and each record says how many there are."""
        sheet = self.layer.mesh.sheet
        serial, count = sheet.record(first, Kind.LOOP).numbers[:2]
        records = range(first, first + -(-count // _ENTRIES_A_RECORD))
        entries = [n for k in records for n in sheet.record(k, Kind.LOOP).numbers[2:]]
        return Ring(self, first, serial, tuple(entries[:count]))


T = TypeVar("T")


class Things(Sequence[T], Generic[T]):
    """A layer's nodes, lines or areas. Each is read when it is asked for; number n stands at [n - 1]."""

    def __init__(self, count: int, make: Callable[[int], T]) -> None:
        self._count = count
        self._make = make

    def __len__(self) -> int:
        return self._count

    @overload
    def __getitem__(self, i: int) -> T: ...

    @overload
    def __getitem__(self, i: slice) -> tuple[T, ...]: ...

    def __getitem__(self, i: Union[int, slice]) -> Union[T, tuple[T, ...]]:
        numbers = range(1, self._count + 1)
        return tuple(map(self._make, numbers[i])) if isinstance(i, slice) else self._make(numbers[i])


# ---- layers, meshes, sheets


class Layer:
    """A layer of a mesh: code 1 is boundary and coastline, 5 river and lake.

    number        from 1 through the whole sheet
    record        its H
    letters       of its H: 1 for H1, an unstructured layer, which has nodes and lines and no areas; 2 for H2, a structured one
    first_made    and last_changed: year times 100 plus month; 0 is missing
    measures      of its areas, in order
    """

    mesh: Mesh
    number: int
    record: int
    code: int
    letters: int
    first_made: int
    last_changed: int
    measures: memoryview
    nodes: Things[Node]
    lines: Things[Line]
    areas: Things[Area]

    def __init__(self, mesh: Mesh, number: int, row: _Row) -> None:
        h = mesh.sheet.record(row.header, Kind.LAYER)
        self.mesh = mesh
        self.number = number
        self.record = row.header
        self.code = h["layer"]
        self.letters = row.letters
        self.first_made = h["first_made"]
        self.last_changed = h["last_changed"]
        self.measures = row.measures
        self.nodes = Things(row.nodes, self._node)
        self.lines = Things(row.lines, self._line)
        self.areas = Things(row.areas, self._area)
        self._row = row

    def __repr__(self) -> str:
        return f"<Layer {self.code} of mesh {self.mesh.code}>"

    @property
    def structured(self) -> bool:
        """Whether it has areas and its lines tell what lies beside them (H2); an unstructured layer (H1) has lines alone."""
        return self.letters == _STRUCTURED

    @property
    def sums(self) -> Sums:
        return self.mesh.sheet.sums[self.number - 1]

    def node(self, serial: int) -> Node:
        """The node with that serial."""
        return self._named(self.nodes, serial, "node")

    def line(self, serial: int) -> Line:
        """The line with that serial."""
        return self._named(self.lines, serial, "line")

    def area(self, serial: int) -> Area:
        """The area with that serial. There is no area 0: it is nobody."""
        return self._named(self.areas, serial, "area")

    def records_by_kind(self) -> tuple[tuple[Kind, Sequence[int]], ...]:
        """The record numbers of its N, L and A records."""
        nodes = range(self.record + 1, self.record + 1 + len(self.nodes))
        return (Kind.NODE, nodes), (Kind.LINE, self._row.line_records), (Kind.AREA, self._row.area_records)

    def node_array(self) -> NDArray[numpy.int64]:
        """The nodes' points as an array of numpy, a row a node."""
        return _array([(node.x, node.y) for node in self.nodes], 2)

    def measure_array(self) -> NDArray[numpy.int64]:
        """The measures as an array of numpy."""
        return _array(self.measures)

    def _named(self, things: Things[T], serial: int, what: str) -> T:
        if not 1 <= serial <= len(things):
            raise LookupError(f"no {what} {serial} in layer {self.code} of mesh {self.mesh.code}: there are {len(things)}")
        return things[serial - 1]

    def _node(self, serial: int) -> Node:
        k = self.record + serial
        numbers = self.mesh.sheet.record(k, Kind.NODE).numbers
        _, item, _, x, y, frame, count = numbers[:7]
        return Node(self, k, serial, item, x, y, frame == 1, numbers[7 : 7 + count])

    def _line(self, serial: int) -> Line:
        k = self._row.line_records[serial - 1]
        return Line(self, k, serial, *_without_serial(self.mesh.sheet.record(k, Kind.LINE)))

    def _area(self, serial: int) -> Area:
        k = self._row.area_records[serial - 1]
        a = self.mesh.sheet.record(k, Kind.AREA)
        return Area(self, k, serial, a["code"], a["x"], a["y"], a["loops"], a.name, self.measures[serial - 1])


def _without_serial(line: Record) -> tuple[int, ...]:
    """An L's numbers as `Line` has them: item, kind and on to the count of points."""
    _, item, _, *others = line.numbers[:13]
    return (item, *others)


class Mesh:
    """A mesh, with the number of its M record and its name of 20 bytes of Shift JIS."""

    sheet: Sheet
    record: int
    code: int
    name: bytes
    layers: tuple[Layer, ...]

    def __init__(self, sheet: Sheet, record: int, first: int, rows: Sequence[_Row]) -> None:
        m = sheet.record(record, Kind.MESH)
        self.sheet = sheet
        self.record = record
        self.code = m["mesh_code"]
        self.name = m.name
        here = range(first, first + m["layers"])
        self.layers = tuple(Layer(self, number, rows[number - 1]) for number in here)

    def __repr__(self) -> str:
        return f"<Mesh {self.code}>"

    def __iter__(self) -> Iterator[Layer]:
        return iter(self.layers)

    @property
    def name_text(self) -> Optional[str]:
        """The name as text (CP932), or None where it has none."""
        return text_of(self.name)

    def layer(self, code: int) -> Layer:
        """The layer with that code."""
        for layer in self.layers:
            if layer.code == code:
                return layer
        raise LookupError(f"no layer {code} in mesh {self.code}")

    def position(self, x: int, y: int) -> Position:
        """A point of this mesh in degrees. Refused with 6 where x or y is not 0 to 10000."""
        return position(self.code, x, y)

    def positions(self, points: Iterable[Point]) -> tuple[Position, ...]:
        """Points of this mesh in degrees."""
        return tuple(self.position(x, y) for x, y in points)


class _Row(NamedTuple):
    """A row of the table, with the layer's parts of what stands behind the rows and of the measures."""

    header: int
    nodes: int
    lines: int
    areas: int
    letters: int
    line_records: memoryview
    area_records: memoryview
    measures: memoryview


_ROW_WORDS = 5


def _rows(table: memoryview, measures: memoryview, outcome: Outcome) -> tuple[_Row, ...]:
    """The table by rows: a row a layer, then every line's record, then every area's (include/stragumella.h)."""
    rows: list[_Row] = []
    line = _ROW_WORDS * outcome.layers
    area = line + outcome.lines
    measure = 0
    for at in range(0, _ROW_WORDS * outcome.layers, _ROW_WORDS):
        header, nodes, lines, areas, letters = table[at : at + _ROW_WORDS]
        parts = table[line : line + lines], table[area : area + areas], measures[measure : measure + areas]
        rows.append(_Row(header, nodes, lines, areas, letters, *parts))
        line, area, measure = line + lines, area + areas, measure + areas
    return tuple(rows)


def _view(lent: Any, form: str) -> memoryview:
    """What a call left in a lent array, to be read alone."""
    return memoryview(lent).cast("B").cast(form).toreadonly()


class Sheet:
    """A file's bytes, and what the library says of them.

    Whatever needs an accepted sheet judges it first, once, and raises `Refused` where it is not. `need`, `due` and `record` take every file.
    """

    def __init__(self, data: Buffer) -> None:
        self.data = as_bytes(data)

    @classmethod
    def open(cls, path: Union[str, os.PathLike[str]]) -> Sheet:
        """Reads a file. A file with more records than a sheet has is refused whatever stands in them, so one more is read and no further."""
        with open(path, "rb") as file:
            return cls(file.read((_library.MOST_RECORDS + 1) * _library.RECORD_BYTES))

    def judge(self) -> Outcome:
        """The counts of an accepted sheet. Raises `Refused` with the first broken rule, its record and its column."""
        return self._judged[0]

    @cached_property
    def need(self) -> int:
        """The words of the table that the library fills: 0 for a file that is refused in stage 1 or 2 (1 to 8)."""
        return int(_library.need(self.data, len(self.data)))

    @property
    def record_count(self) -> int:
        """How many whole records the file has."""
        return len(self.data) // _library.RECORD_BYTES

    def due(self, record: int) -> Optional[Kind]:
        """The kind of record that is due there by the walk through the file, of refused files too; None where none is told."""
        told = _library.due(self.data, len(self.data), record) if 0 < record <= _library.MOST_RECORDS + 1 else 0
        return Kind(told) if told else None

    def record(self, record: int, kind: Optional[int] = None) -> Record:
        """A record by its number, read as that kind or as what is due there. Refused as by `Record.read`, with this record's number."""
        if not 1 <= record <= self.record_count:
            raise LookupError(f"no record {record}: there are {self.record_count}")
        start = (record - 1) * _library.RECORD_BYTES
        try:
            return Record.read(self.due(record) or 0 if kind is None else kind, self.data[start : start + _library.RECORD_BYTES])
        except Refused as refused:
            raise Refused(refused.number, record, refused.column) from None

    def records(self) -> Iterator[Record]:
        """Every record of an accepted sheet in file order, each read once. (`record` walks from the file's start in each call.)"""
        begun = Kind.MESH
        for k, kind in enumerate(self._kinds()[1:], 1):
            begun = Kind(kind) if kind else begun
            within = Kind.COORDINATES if begun is Kind.LINE else Kind.LOOP
            yield self.record(k, begun if kind else within)

    def _kinds(self) -> bytearray:
        """By record number: the kind of each M, H, N, L and A. A 0 behind an L is its coordinates, behind an A its loops."""
        kinds = bytearray(self.record_count + 1)
        for layer in self.layers:
            kinds[layer.mesh.record] = Kind.MESH
            kinds[layer.record] = Kind.LAYER
            for kind, records in layer.records_by_kind():
                for k in records:
                    kinds[k] = kind
        return kinds

    @cached_property
    def meshes(self) -> tuple[Mesh, ...]:
        """The meshes in file order. An M stands right before its first layer's H."""
        rows = self._judged[1]
        meshes: list[Mesh] = []
        first = 1
        while first <= len(rows):
            mesh = Mesh(self, rows[first - 1].header - 1, first, rows)
            meshes.append(mesh)
            first += len(mesh.layers)
        return tuple(meshes)

    def __iter__(self) -> Iterator[Mesh]:
        return iter(self.meshes)

    def mesh(self, code: int) -> Mesh:
        """The mesh with that code."""
        for mesh in self.meshes:
            if mesh.code == code:
                return mesh
        raise LookupError(f"no mesh {code}")

    @property
    def layers(self) -> tuple[Layer, ...]:
        """The layers of all meshes, in file order."""
        return tuple(layer for mesh in self.meshes for layer in mesh.layers)

    @property
    def measures(self) -> memoryview:
        """The measures of all areas in file order, 64 bits each."""
        return self._judged[2]

    def measure_array(self) -> NDArray[numpy.int64]:
        """The measures as an array of numpy."""
        return _array(self.measures)

    @cached_property
    def sums(self) -> tuple[Sums, ...]:
        """The two sums of each layer, in file order."""
        layers = self.judge().layers
        table = (ctypes.c_uint32 * self.need)()
        sums = (ctypes.c_int64 * (2 * layers))()
        self._call(_library.all_sums, table, sums)
        return tuple(map(Sums, sums[0::2], sums[1::2]))

    @cached_property
    def _judged(self) -> tuple[Outcome, tuple[_Row, ...], memoryview]:
        """The counts, the table by rows and the measures. A file has never more areas than its table has words."""
        table = (ctypes.c_uint32 * self.need)()
        measures = (ctypes.c_int64 * self.need)()
        outcome = self._call(_library.judge, table, measures)
        taken = _view(measures, "q")[: outcome.areas]
        return outcome, _rows(_view(table, "I"), taken, outcome), taken

    def _call(self, call: Callable[..., Any], table: Any, figures: Any) -> Outcome:
        """Judges by one of the two calls that lend a table and a buffer for figures."""
        told = call(self.data, len(self.data), table, len(table), figures, len(figures))
        if told.number != 0:
            raise Refused(told.number, told.record, told.column)
        return Outcome(told.meshes, told.layers, told.nodes, told.lines, told.areas, told.records)
