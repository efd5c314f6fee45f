"""Arrays of numpy, where it is there; what is said where it isn't."""

import sys
import unittest
from unittest import mock

from outside import COASTS, SMALLEST
from stragumella import Sheet

try:
    import numpy
except ImportError:
    numpy = None


class WithoutNumpy(unittest.TestCase):
    def test_nothing_else_needs_it(self):
        with mock.patch.dict(sys.modules, {"numpy": None}):
            layer = Sheet.open(SMALLEST).layers[0]
            self.assertEqual(len(layer.lines[0].points), 5)
            with self.assertRaises(ImportError):
                layer.lines[0].array()


@unittest.skipIf(numpy is None, "numpy is not here")
class WithNumpy(unittest.TestCase):
    def setUp(self):
        self.sheet = Sheet.open(COASTS[1])

    def test_points(self):
        for layer in self.sheet.layers:
            for thing in (*layer.lines, *(ring for area in layer.areas for ring in area.rings)):
                array = thing.array()
                self.assertEqual((array.shape, array.dtype), ((len(thing.points), 2), numpy.int64))
                self.assertEqual(list(map(tuple, array.tolist())), list(thing.points))

    def test_measures(self):
        self.assertEqual(self.sheet.measure_array().tolist(), list(self.sheet.measures))
        for layer in self.sheet.layers:
            self.assertEqual(int(layer.measure_array().sum()), layer.sums.areas)

    def test_nodes(self):
        for layer in self.sheet.layers:
            self.assertEqual(layer.node_array().tolist(), [[node.x, node.y] for node in layer.nodes])

    def test_an_array_is_the_callers(self):
        line = self.sheet.layers[0].lines[0]
        line.array()[:] = 0
        self.assertEqual(line.array().tolist(), [list(point) for point in line.points])

    def test_memory_is_taken_as_it_stands(self):
        view = numpy.asarray(self.sheet.measures)
        self.assertEqual((view.dtype, view.flags.writeable), (numpy.int64, False))


if __name__ == "__main__":
    unittest.main()
