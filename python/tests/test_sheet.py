"""Sheets: what the package says of the samples is what the tool says, and what it walks through hangs together."""

import random
import tempfile
import threading
import unittest
from pathlib import Path

from made import HOLE, framed
from outside import COASTS, LAND, MIXED, REFUSED, SMALLEST, UNSTRUCTURED, told, with_bytes
from stragumella import Kind, Outcome, Refused, Sheet, Sums

TAKEN = [SMALLEST, *COASTS, LAND, UNSTRUCTURED, MIXED]


def doubled(points):
    """The measure of a closed row of points (RULES 7)."""
    return sum(b.x * a.y - a.x * b.y for a, b in zip(points, points[1:]))


def answer(data):
    """Number, record and column of the judge's answer."""
    try:
        Sheet(data).judge()
    except Refused as refused:
        return refused.number, refused.record, refused.column
    return 0, 0, 0


class Smallest(unittest.TestCase):
    """Sheet S, number by number (RULES 11)."""

    def setUp(self):
        self.sheet = Sheet.open(SMALLEST)

    def test_judge(self):
        self.assertEqual(self.sheet.judge(), Outcome(1, 1, 1, 1, 1, 7))
        self.assertEqual(self.sheet.need, 7)
        self.assertEqual(self.sheet.record_count, 7)
        self.assertEqual(list(self.sheet.measures), [200000000])
        self.assertEqual(self.sheet.sums, (Sums(200000000, 200000000),))

    def test_records_totals(self):
        """A records total leaves out the record that bears it."""
        data = SMALLEST.read_bytes()
        self.assertEqual([self.sheet.record(k)["records"] for k in (1, 2)], [6, 5])
        self.assertEqual(answer(with_bytes(data, 1, 52, b"    7")), (10, 1, 52))
        self.assertEqual(answer(with_bytes(data, 2, 25, b"    6")), (10, 2, 25))
        alone = [self.sheet.record(1).replace(nodes=0, lines=0, areas=0, records=1), self.sheet.record(2).replace(nodes=0, lines=0, areas=0, records=0)]
        self.assertEqual(Sheet(b"".join(record.write() for record in alone)).judge(), Outcome(1, 1, 0, 0, 0, 2))

    def test_mesh_and_layer(self):
        (mesh,) = self.sheet
        (layer,) = mesh
        self.assertEqual((mesh.code, mesh.record, mesh.name, mesh.name_text), (533945, 1, b"\x81\x40" * 10, "\u3000" * 10))
        self.assertEqual((layer.code, layer.record, layer.number, layer.first_made, layer.last_changed), (1, 2, 1, 0, 0))
        self.assertEqual((layer.letters, layer.structured), (2, True))
        self.assertIs(self.sheet.mesh(533945).layer(1), layer)
        self.assertEqual(layer.sums, Sums(200000000, 200000000))

    def test_node(self):
        (node,) = self.sheet.layers[0].nodes
        self.assertEqual((node.serial, node.record, node.item, node.x, node.y, node.frame), (1, 3, 3, 0, 0, True))
        self.assertEqual(node.entries, (1, -1))
        self.assertEqual(node.position.longitude, 139.625)

    def test_line(self):
        (line,) = self.sheet.layers[0].lines
        self.assertEqual((line.serial, line.record, line.item, line.kind, line.count), (1, 4, 9, 9, 5))
        self.assertEqual((line.start_node, line.start_link, line.end_node, line.end_link), (1, 2, 1, 2))
        self.assertEqual((line.left_code, line.left_area, line.right_code, line.right_area), (88888, 0, 13101, 1))
        self.assertEqual(line.points, ((0, 0), (0, 10000), (10000, 10000), (10000, 0), (0, 0)))
        self.assertEqual(line.start, line.end)

    def test_area_0_is_nobody(self):
        layer = self.sheet.layers[0]
        (line,) = layer.lines
        self.assertIsNone(line.left)
        self.assertEqual(line.right, layer.areas[0])
        for serial in (0, -1, 2):
            with self.assertRaises(LookupError):
                layer.area(serial)

    def test_area(self):
        (area,) = self.sheet.layers[0].areas
        self.assertEqual((area.serial, area.record, area.code, area.x, area.y), (1, 6, 13101, 5000, 5000))
        self.assertEqual((area.measure, area.name, area.name_text), (200000000, b"\x81\x40" * 20, "\u3000" * 20))
        (ring,) = area.rings
        self.assertEqual((ring.serial, ring.entries, ring.record), (1, (1,), 7))
        self.assertEqual(ring.points, self.sheet.layers[0].lines[0].points)

    def test_what_is_not_there(self):
        layer = self.sheet.layers[0]
        for ask in (layer.node, layer.line, self.sheet.mesh, self.sheet.meshes[0].layer, self.sheet.record):
            with self.assertRaises(LookupError):
                ask(99)
        with self.assertRaises(IndexError):
            layer.areas[1]
        with self.assertRaises(OSError):
            Sheet.open("no-such-file")

    def test_things_are_rows(self):
        areas = self.sheet.layers[0].areas
        self.assertEqual((len(areas), areas[-1], areas[:5], list(areas)), (1, areas[0], (areas[0],), [areas[0]]))


class Unstructured(unittest.TestCase):
    """Layers with the letters H1: nodes and lines, no areas."""

    def test_alone(self):
        """S as an unstructured layer (RULES 11.4)."""
        sheet = Sheet.open(UNSTRUCTURED)
        self.assertEqual((sheet.judge(), sheet.need), (Outcome(1, 1, 1, 1, 0, 5), 6))
        (layer,) = sheet.layers
        self.assertEqual((layer.letters, layer.structured, layer.sums), (1, False, Sums(0, 0)))
        self.assertEqual((len(layer.nodes), len(layer.lines), len(layer.areas), list(layer.measures)), (1, 1, 0, []))
        (line,) = layer.lines
        self.assertEqual((line.left_code, line.left_area, line.right_code, line.right_area), (0, 0, 0, 0))
        self.assertEqual((line.left, line.right), (None, None))
        self.assertEqual(line.points, Sheet.open(SMALLEST).layers[0].lines[0].points)
        for serial in (0, 1):
            with self.assertRaises(LookupError):
                layer.area(serial)

    def test_beside_structured_ones(self):
        """Each layer is that of the sheet that it was made of, with its areas or without."""
        sheet, whole = Sheet.open(MIXED), Sheet.open(COASTS[0])
        self.assertEqual([[layer.letters for layer in mesh] for mesh in sheet], [[1, 2], [2, 1], [1, 1], [2, 2], [1]])
        for layer in sheet.layers:
            same = whole.mesh(layer.mesh.code).layer(layer.code)
            self.assertEqual(layer.structured, layer.letters == 2)
            self.assertEqual([(n.serial, n.x, n.y, n.entries) for n in layer.nodes], [(n.serial, n.x, n.y, n.entries) for n in same.nodes])
            self.assertEqual([line.points for line in layer.lines], [line.points for line in same.lines])
            for line, other in zip(layer.lines, same.lines):
                sides = (other.left_code, other.left_area, other.right_code, other.right_area)
                found = (line.left_code, line.left_area, line.right_code, line.right_area)
                self.assertEqual(found, sides if layer.structured else (0, 0, 0, 0))
            areas = [(area.code, area.measure, area.name) for area in same.areas]
            self.assertEqual([(area.code, area.measure, area.name) for area in layer.areas], areas if layer.structured else [])
            self.assertEqual(layer.sums, same.sums if layer.structured else Sums(0, 0))

    def test_changed_in_one_place(self):
        """RULES 11.4."""
        data = UNSTRUCTURED.read_bytes()
        for record, column, text, wanted in (
            (2, 1, b"H2", (6, 4, 30)),
            (2, 1, b"H3", (3, 2, 1)),
            (2, 15, b"    1", (6, 2, 15)),
            (4, 30, b"88888", (6, 4, 30)),
            (4, 35, b"    1", (6, 4, 35)),
            (4, 40, b"13101", (6, 4, 40)),
            (4, 45, b"    1", (6, 4, 45)),
            (3, 24, b" 1    1    0", (14, 4, 24)),
            (1, 42, b"    1", (10, 1, 42)),
        ):
            self.assertEqual(answer(with_bytes(data, record, column, text)), wanted)
        layer_5 = data
        for record, column, text in ((2, 3, b" 5"), (3, 3, b" 5 1"), (4, 3, b" 5"), (4, 30, b" 0000")):
            layer_5 = with_bytes(layer_5, record, column, text)
        self.assertEqual(answer(layer_5), (0, 0, 0))
        self.assertEqual(Sheet(layer_5).record(4).marks, (1, 0))
        self.assertEqual(answer(with_bytes(SMALLEST.read_bytes(), 2, 1, b"H1")), (6, 2, 15))


class Samples(unittest.TestCase):
    """All accepted samples, against the tool and against themselves."""

    def test_counts(self):
        for path, object_ in zip(TAKEN, told("check", *TAKEN)):
            self.assertEqual(Sheet.open(path).judge()._asdict(), {key: object_[key] for key in Outcome._fields})

    def test_measures(self):
        for path, object_ in zip(TAKEN, told("measure", *TAKEN)):
            sheet = Sheet.open(path)
            areas = [
                {"mesh": mesh.code, "layer": layer.code, "area": area.serial, "code": area.code, "measure": area.measure}
                for mesh in sheet
                for layer in mesh
                for area in layer.areas
            ]
            self.assertEqual(areas, object_["areas"])
            self.assertEqual([area["measure"] for area in areas], list(sheet.measures))

    def test_sums(self):
        for path, object_ in zip(TAKEN, told("sums", *TAKEN)):
            sheet = Sheet.open(path)
            layers = [{"mesh": layer.mesh.code, "layer": layer.code, **layer.sums._asdict()} for layer in sheet.layers]
            self.assertEqual(layers, object_["layers"])
            for layer in sheet.layers:
                self.assertEqual(layer.sums, (sum(layer.measures), sum(layer.measures)))

    def test_rings(self):
        for path in TAKEN:
            for layer in Sheet.open(path).layers:
                for area in layer.areas:
                    self.assertEqual(area.measure, sum(doubled(ring.points) for ring in area.rings))
                    self.assertEqual([ring.serial for ring in area.rings], [1, *range(-2, -area.loops - 1, -1)])
                    for ring in area.rings:
                        self.assertEqual(ring.points[0], ring.points[-1])
                        self.assertEqual(doubled(ring.points) > 0, ring.serial > 0)

    def test_outside(self):
        """The sum along the lines between an area and nobody, walked here."""
        for path in TAKEN:
            for layer in Sheet.open(path).layers:
                outside = sum(
                    doubled(line.points) * ((line.left is None) - (line.right is None))
                    for line in layer.lines
                )
                self.assertEqual(outside, layer.sums.outside)

    def test_lines_and_nodes(self):
        for path in TAKEN:
            for layer in Sheet.open(path).layers:
                for line in layer.lines:
                    self.assertEqual(len(line.points), line.count)
                    self.assertEqual(line.points[0], (line.start.x, line.start.y))
                    self.assertEqual(line.points[-1], (line.end.x, line.end.y))
                    self.assertIn(line.serial, line.start.entries)
                    self.assertIn(-line.serial, line.end.entries)

    def test_positions(self):
        for layer in Sheet.open(COASTS[0]).layers:
            for thing in (*layer.lines, *(ring for area in layer.areas for ring in area.rings)):
                self.assertEqual(list(thing.positions), [layer.mesh.position(*point) for point in thing.points])

    def test_serials(self):
        for path in TAKEN:
            for layer in Sheet.open(path).layers:
                for things, by_serial in ((layer.nodes, layer.node), (layer.lines, layer.line), (layer.areas, layer.area)):
                    self.assertEqual([thing.serial for thing in things], list(range(1, len(things) + 1)))
                    self.assertEqual([by_serial(thing.serial) for thing in things], list(things))

    def test_records(self):
        """Every record of a sheet, read as what is due and written, is the sheet."""
        for path in TAKEN:
            sheet = Sheet.open(path)
            self.assertEqual(b"".join(record.write() for record in sheet.records()), sheet.data)
            for k, record in list(enumerate(sheet.records(), 1))[:: max(1, sheet.record_count // 40)]:
                self.assertEqual(sheet.due(k), record.kind)
                self.assertEqual(sheet.record(k), record)

    def test_threads(self):
        """Sheets can be judged at the same time: the library keeps no state."""
        counts = []
        threads = [threading.Thread(target=lambda: counts.append(Sheet.open(COASTS[1]).judge())) for _ in range(4)]
        for thread in threads:
            thread.start()
        for thread in threads:
            thread.join()
        self.assertEqual(counts, [Sheet.open(COASTS[1]).judge()] * 4)


class Made(unittest.TestCase):
    """Sheets that are made of records: loops and lines of several records, a hole."""

    def test_loops_of_several_records(self):
        for n in (4, 11, 12, 13, 24, 25, 40):
            sheet = Sheet(framed(n))
            self.assertEqual(sheet.judge()[:5], (1, 1, n + 1, n + 1, 2))
            whole, hole = sheet.layers[0].areas
            self.assertEqual([(ring.serial, ring.entries) for ring in whole.rings], [(1, tuple(range(1, n + 1))), (-2, (-n - 1,))])
            self.assertEqual([(ring.serial, ring.entries) for ring in hole.rings], [(1, (n + 1,))])
            self.assertEqual((whole.measure, hole.measure), (200000000 - 8000000, 8000000))
            self.assertEqual(whole.measure, sum(doubled(ring.points) for ring in whole.rings))
            self.assertEqual(list(hole.rings[0].points), HOLE)
            self.assertEqual(hole.rings[0].points, whole.rings[1].points[::-1])
            self.assertEqual(len(whole.rings[0].points), n + 1)
            self.assertEqual(b"".join(record.write() for record in sheet.records()), sheet.data)


class RefusedSheets(unittest.TestCase):
    """Files that break a rule, and whatever bytes there are."""

    def test_samples(self):
        for path, object_ in zip(REFUSED, told("check", *REFUSED)):
            with self.assertRaises(Refused) as caught:
                Sheet.open(path).judge()
            refused = caught.exception
            for key, found in (("number", refused.number), ("record", refused.record), ("column", refused.column), ("message", refused.text)):
                self.assertEqual(found, object_[key], path.name)

    def test_everything_of_an_accepted_sheet_is_refused(self):
        for ask in (
            lambda sheet: sheet.judge(),
            lambda sheet: sheet.meshes,
            lambda sheet: sheet.layers,
            lambda sheet: sheet.measures,
            lambda sheet: sheet.sums,
            lambda sheet: list(sheet),
            lambda sheet: next(sheet.records()),
            lambda sheet: sheet.mesh(533945),
        ):
            sheet = Sheet.open(REFUSED[0])
            for _ in range(2):
                with self.assertRaises(Refused) as caught:
                    ask(sheet)
                self.assertEqual(str(caught.exception), "4 at 7,1: the file ends where a record is due")

    def test_refused_sheets_have_records(self):
        sheet = Sheet.open(REFUSED[0])
        self.assertEqual((sheet.need, sheet.record_count), (0, 6))
        self.assertEqual([sheet.due(k) for k in range(9)], [None, *(Kind(k) for k in range(1, 8)), None])
        self.assertEqual(sheet.record(4)["right_code"], 13101)
        self.assertIsNone(sheet.due(2**32 + 1))
        self.assertIsNone(sheet.due(-1))

    def test_a_record_that_is_refused_says_which(self):
        sheet = Sheet(with_bytes(SMALLEST.read_bytes(), 4, 18, b"00001"))
        with self.assertRaises(Refused) as caught:
            sheet.record(4)
        self.assertEqual(str(caught.exception), "5 at 4,18: the field is ill formed")

    def test_bytes_of_every_sort(self):
        data = SMALLEST.read_bytes()
        for same in (data, bytearray(data), memoryview(data)):
            self.assertEqual(answer(same), (0, 0, 0))
        changed = bytearray(data)
        sheet = Sheet(changed)
        changed[:] = bytes(len(data))
        self.assertEqual(sheet.judge().records, 7)
        for wrong in (7, "text", None):
            with self.assertRaises(TypeError):
                Sheet(wrong)
        self.assertEqual(answer(b""), (1, 1, 1))
        self.assertEqual(answer(b"\0" * 74), (2, 1, 73))

    def test_damaged(self):
        """Files with a byte or two changed get the tool's answer."""
        source = random.Random(17)
        whole = [path.read_bytes() for path in TAKEN]
        with tempfile.TemporaryDirectory() as folder:
            paths = []
            for i in range(240):
                data = bytearray(whole[i % len(whole)])
                for _ in range(source.randrange(1, 3)):
                    data[source.randrange(min(len(data), 74 * 60))] = source.choice(b" -0123456789HLNA\x81")
                paths.append(Path(folder) / str(i))
                paths[-1].write_bytes(data)
            objects = told("check", *paths)
            self.assertEqual(len(objects), len(paths))
            for path, object_ in zip(paths, objects):
                found = tuple(object_.get(key, 0) for key in ("number", "record", "column"))
                self.assertEqual(answer(path.read_bytes()), found, path.read_bytes())


if __name__ == "__main__":
    unittest.main()
