"""Single records read and written, positions, and the exception."""

import pickle
import unittest

from outside import LAND, SMALLEST, UNSTRUCTURED, told
from stragumella import Kind, Position, Record, Refused, Sheet, position
from stragumella._facts import FIELDS, REFUSALS

S = SMALLEST.read_bytes()
LAYER = S[74 : 2 * 74]
LINE = S[3 * 74 : 4 * 74]


class Records(unittest.TestCase):
    def refused(self, number, record, column, call, *given):
        with self.assertRaises(Refused) as caught:
            call(*given)
        refused = caught.exception
        self.assertEqual((refused.number, refused.record, refused.column), (number, record, column))

    def test_fields_as_the_tool_shows_them(self):
        sheet = Sheet(S)
        for k in range(1, 8):
            (object_,) = told("record", k, SMALLEST)
            fields = {key: value for key, value in object_["fields"].items() if not key.startswith("name")}
            record = sheet.record(k)
            self.assertEqual(record.letters, fields.pop("letters", 0))
            self.assertEqual(record.fields, fields)
            self.assertEqual(record.name.hex().upper(), object_["fields"].get("name", ""))

    def test_written_and_read(self):
        record = Record.read(Kind.LINE, LINE)
        changed = record.replace(points=12, left_area=3)
        self.assertEqual((changed["points"], changed["left_area"], changed["right_area"]), (12, 3, 1))
        self.assertEqual(Record.read(Kind.LINE, changed.write()), changed)
        self.assertEqual(record.write(), LINE)

    def test_names(self):
        record = Record.read(Kind.MESH, S[:74])
        self.assertEqual(record.name_text, "\u3000" * 10)
        named = record.replace(name="東京首部".encode("cp932") + b"\x81\x40" * 6)
        self.assertEqual(Record.read(Kind.MESH, named.write()).name_text, "東京首部" + "\u3000" * 6)
        unknown = record.replace(name=b"\xfc\xfc" * 10)
        self.assertEqual(Record.read(Kind.MESH, unknown.write()), unknown)
        self.assertIsNone(unknown.name_text)

    def test_no_such_field(self):
        record = Record.read(Kind.LINE, LINE)
        with self.assertRaises(KeyError):
            record["mesh_code"]
        with self.assertRaises(KeyError):
            record.replace(mesh_code=1)

    def test_readings_refused(self):
        self.refused(1, 1, 1, Record.read, Kind.LINE, LINE[:73])
        self.refused(1, 1, 1, Record.read, Kind.LINE, b"")
        self.refused(2, 1, 74, Record.read, Kind.LINE, LINE[:73] + b" ")
        self.refused(3, 1, 1, Record.read, Kind.NODE, LINE)
        self.refused(5, 1, 1, Record.read, Kind.COORDINATES, LINE)
        for kind in (0, 8, -1, 2**32 + 4, 2**70):
            self.refused(3, 1, 1, Record.read, kind, LINE)

    def test_writings_refused(self):
        record = Record.read(Kind.LINE, LINE)
        for number in (100000, -10000, 2**31, -(2**31) - 1, 2**32 + 1, 2**70):
            self.refused(20, 0, 0, record.replace(left_code=number).write)
        self.refused(20, 0, 0, Record(Kind.LINE, record.numbers + (0, 0)).write)
        self.refused(20, 0, 0, Record(Kind.LINE, record.numbers + (1,)).write)
        self.refused(20, 0, 0, Record(Kind.LINE, record.numbers, b"\x81\x40").write)
        self.refused(20, 0, 0, Record(Kind.MESH, (533945, 1, 1, 1, 1, 0, 6), b"\x81").write)
        self.refused(20, 0, 0, Record(Kind.MESH, (533945, 1, 1, 1, 1, 0, 6), b"\x81\x40" * 21).write)
        self.refused(20, 0, 0, Record(9, ()).write)
        with self.assertRaises(TypeError):
            record.replace(left_code=1.5).write()

    def test_land(self):
        """" 0000" is 0 with a mark, in layer 5."""
        sheet = Sheet.open(LAND)
        line, area = sheet.record(4), sheet.record(6)
        self.assertEqual((line["right_code"], line.marks, line.mark("left_code"), line.mark("right_code")), (0, (0, 1), 0, 1))
        self.assertEqual((area["code"], area.marks, area.mark("code")), (0, (0,), 0))
        self.assertEqual(line.write(), LAND.read_bytes()[3 * 74 : 4 * 74])
        self.assertEqual(line.replace(marks=(0, 0)).write()[39:44], b"    0")
        self.assertEqual(Record.read(Kind.AREA, area.replace(marks=(1,)).write()).marks, (1,))
        self.assertEqual(Record(Kind.LINE, line.numbers).write(), line.replace(marks=()).write())
        self.assertEqual([sheet.layers[0].areas[0].code, sheet.layers[0].lines[0].right_code], [0, 0])
        for marks in ((0, 2), (0, 2**32 + 1), (0, -1), (0, 2**70), (1, 1), (0, 1, 0)):
            self.refused(20, 0, 0, line.replace(marks=marks).write)
        self.refused(20, 0, 0, line.replace(layer=1).write)
        self.refused(20, 0, 0, line.replace(right_code=1).write)
        self.refused(20, 0, 0, area.replace(marks=(0, 1)).write)
        self.refused(20, 0, 0, sheet.record(3).replace(marks=(1,)).write)
        self.refused(5, 1, 40, Record.read, Kind.LINE, LINE[:39] + b" 0000" + LINE[44:])
        with self.assertRaises(KeyError):
            line.mark("left_area")
        (object_,) = told("record", 4, LAND)
        self.assertEqual(object_["fields"]["right_code_mark"], 1)

    def test_letters(self):
        """1 for H1 and 2 for H2 in an H, 0 in every other kind."""
        for letters in (1, 2):
            bytes_ = b"H%d" % letters + LAYER[2:]
            record = Record.read(Kind.LAYER, bytes_)
            self.assertEqual((record.letters, record.write()), (letters, bytes_))
            self.assertEqual(record.replace(nodes=3).letters, letters)
            self.assertEqual(record.replace(letters=3 - letters).write()[:2], b"H%d" % (3 - letters))
            self.assertEqual(Record(Kind.LAYER, record.numbers, letters=letters), record)
        (object_,) = told("record", 2, UNSTRUCTURED)
        self.assertEqual((object_["fields"]["letters"], Sheet.open(UNSTRUCTURED).record(2).letters), (1, 1))
        for letters in (b"H3", b"H0", b"H ", b"h1", b"1H"):
            self.refused(3, 1, 1, Record.read, Kind.LAYER, letters + LAYER[2:])
        record = Record.read(Kind.LAYER, LAYER)
        for number in (0, 3, -1, 257, 2**32, 2**32 + 1, 2**32 + 2, -(2**32) + 2, 2**70):
            self.refused(20, 0, 0, record.replace(letters=number).write)
        self.refused(20, 0, 0, Record(Kind.LAYER, record.numbers).write)
        with self.assertRaises(TypeError):
            record.replace(letters=1.5).write()
        with self.assertRaises(KeyError):
            record["letters"]
        for k in (1, 3, 4, 5, 6, 7):
            other = Sheet(S).record(k)
            self.assertEqual((other.letters, len(other.write())), (0, 74))
            for number in (1, 2, -1, 2**32):
                self.refused(20, 0, 0, other.replace(letters=number).write)

    def test_kinds_are_the_lists(self):
        self.assertEqual([kind.name for kind in Kind], list(FIELDS))
        for kind in Kind:
            column = 1
            for _, start, width, _ in FIELDS[kind.name]:
                self.assertEqual(start, column)
                column += width
            self.assertEqual(column, 75)


class Positions(unittest.TestCase):
    def test_the_rules_cases(self):
        self.assertEqual(position(533945, 10000, 10000), Position(35.75, 139.75))
        self.assertEqual(position(533945, 0, 0).longitude, 139.625)
        (object_,) = told("where", 533945, 1, 1)
        self.assertEqual(position(533945, 1, 1)._asdict(), {key: object_[key] for key in ("latitude", "longitude")})

    def test_refused(self):
        for mesh, x, y in ((533985, 0, 0), (533945, -1, 0), (533945, 0, 10001), (2**32 + 533945, 0, 0), (533945, 2**32, 0), (533945, 0, -(2**40))):
            with self.assertRaises(Refused) as caught:
                position(mesh, x, y)
            self.assertEqual(caught.exception.number, 6)


class Exceptions(unittest.TestCase):
    def test_texts_are_the_tools(self):
        for number in REFUSALS:
            (object_,) = told("explain", number)
            refused = Refused(number)
            self.assertEqual((refused.text, refused.rule, refused.section, refused.mend), tuple(object_[key] for key in ("message", "rule", "section", "mend")))

    def test_one_exception_that_travels(self):
        refused = Refused(12, 5, 41)
        self.assertEqual(str(refused), "12 at 5,41: the number or point disagrees with what it names")
        self.assertEqual(repr(refused), "Refused(12, 5, 41)")
        again = pickle.loads(pickle.dumps(refused))
        self.assertEqual((type(again), again.number, again.record, again.column, again.text), (Refused, 12, 5, 41, refused.text))

    def test_a_number_of_a_later_version(self):
        self.assertEqual(str(Refused(99, 1, 2)), "99 at 1,2: an unknown refusal")


if __name__ == "__main__":
    unittest.main()
