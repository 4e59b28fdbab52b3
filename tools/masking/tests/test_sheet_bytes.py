import math
import random
import struct
import types
import unittest

from masking.names import names_of
from masking.sheet_bytes import BadSheet, Head, Row, Sheet, bytes_of, read_sheet, sheet_of
from masking.table import read_table
from masking.tests.room import InRoom, drawn_table
from masking.tests.test_table import LARGEST_TABLES

# Document 01's sheet of four rows, and its bytes.
FOUR = Sheet(Head(4, 1, 2, 1, 0, 2, 1_000_000), [Row(0, (1.0,)), Row(1, (2.0,)), Row(0, (3.0,)), Row(1, (4.0,))])
FOUR_HEAD = b"HD" + bytes([4, 0, 1, 2, 1, 0]) + bytes(4) + bytes([2, 0, 0, 0]) + bytes([0x40, 0x42, 0x0F, 0])
FOUR_ROWS = [b"RW" + bytes([code]) + struct.pack("<d", value) for code, value in ((0, 1), (1, 2), (0, 3), (1, 4))]
FOUR_BYTES = FOUR_HEAD + b"".join(FOUR_ROWS)


def number_bytes(number):
    return number.to_bytes(4, "little")


class Bytes(unittest.TestCase):
    def test_the_four_rows(self):
        self.assertEqual(bytes_of(FOUR), FOUR_BYTES)
        self.assertEqual(read_sheet(FOUR_BYTES), FOUR)

    def test_each_number_has_its_place(self):
        head = Head(1, 2, 3, 4096, 70_000, 80_000, 90_000)
        data = b"HD" + bytes([1, 0, 2, 3, 0, 0x10]) + number_bytes(70_000) + number_bytes(80_000) + number_bytes(90_000)
        row = b"RW\2" + struct.pack("<d", -0.0) + struct.pack("<d", 1e12)
        self.assertEqual(bytes_of(Sheet(head, [Row(2, (-0.0, 1e12))])), data + row)
        self.assertEqual(read_sheet(data + row).head, head)


class Packed(InRoom):
    TERMS = types.SimpleNamespace(support=1, gap=0, error=None, bound=1_000_000)

    def packed(self, text, terms=TERMS):
        path = self.file("t.csv", text)
        table = read_table(path)
        return sheet_of(table, names_of(path, table), terms)

    def test_the_four_rows(self):
        self.assertEqual(self.packed("v,label\n1,0\n2,1\n3,0\n4,1\n"), FOUR)

    def test_the_starting_error_is_that_of_the_commonest_label(self):
        table = "v,label\n1,a\n2,b\n3,b\n4,c\n5,b\n"
        self.assertEqual(self.packed(table).head[3:], (1, 0, 2, 1_000_000))
        self.assertEqual(self.packed(table, types.SimpleNamespace(support=7, gap=8, error=0, bound=9)).head[3:], (7, 8, 0, 9))

    def test_what_is_packed_is_read(self):
        draw = random.Random(82)
        for table in [drawn_table(draw)[0] for _ in range(50)] + LARGEST_TABLES:
            sheet = self.packed(table)
            data = bytes_of(sheet)
            self.assertEqual(read_sheet(data), sheet)
            self.assertEqual(bytes_of(read_sheet(data)), data)


class Refusals(unittest.TestCase):
    def check(self, data, number, place=0):
        with self.assertRaises(BadSheet) as caught:
            read_sheet(data)
        self.assertEqual(caught.exception.refused, (number, place))

    def with_head(self, **numbers):
        return bytes_of(FOUR._replace(head=FOUR.head._replace(**numbers)))

    def with_row(self, at, **parts):
        rows = list(FOUR.rows)
        rows[at] = rows[at]._replace(**parts)
        return bytes_of(FOUR._replace(rows=rows))

    def test_header(self):
        for data in (b"", FOUR_HEAD[:-1], b"RW" + FOUR_BYTES[2:]):
            self.check(data, 20)

    def test_sizes(self):
        for numbers in ({"rows": 0}, {"rows": 4097}, {"labels": 0}, {"labels": 33}):
            self.check(self.with_head(**numbers), 1)
        for columns in (0, 17):
            self.check(FOUR_BYTES[:4] + bytes([columns]) + FOUR_BYTES[5:], 1)

    def test_what_is_too_large_to_be_read(self):
        for rows in (2049, 4096):
            self.check(self.with_head(rows=rows), 21)
        self.check(FOUR_BYTES[:2] + struct.pack("<HB", 1639, 5) + FOUR_BYTES[5:], 21)
        self.check(self.with_head(rows=2048), 22, 4)
        self.check(FOUR_BYTES[:2] + struct.pack("<HB", 2048, 4) + FOUR_BYTES[5:], 22, 1)

    def test_rows(self):
        self.check(FOUR_HEAD, 22, 0)
        self.check(FOUR_BYTES[:-1], 22, 3)
        self.check(FOUR_HEAD + FOUR_ROWS[0] + b"HD" + FOUR_BYTES[len(FOUR_HEAD + FOUR_ROWS[0]) + 2:], 22, 1)
        self.check(FOUR_BYTES + b"\0", 23)

    def test_terms(self):
        for term, most in (("support", 4096), ("gap", 1_000_000), ("error", 1_000_000), ("bound", 1_000_000)):
            self.assertEqual(getattr(read_sheet(self.with_head(**{term: most})).head, term), most)
            self.check(self.with_head(**{term: most + 1}), 4)

    def test_values(self):
        for value in (math.inf, -math.inf, math.nan, math.nextafter(1e12, math.inf), -math.nextafter(1e12, math.inf)):
            self.check(self.with_row(2, values=(value,)), 5, 2)
        for value in (1e12, -1e12):
            self.assertEqual(read_sheet(self.with_row(2, values=(value,))).rows[2].values, (value,))

    def test_places_of_values_count_column_by_column(self):
        rows = [Row(0, (1.0, 2.0)), Row(0, (3.0, math.inf)), Row(0, (math.nan, 4.0))]
        head = Head(3, 2, 1, 1, 0, 0, 0)
        self.check(bytes_of(Sheet(head, rows)), 5, 2)
        self.check(bytes_of(Sheet(head, [rows[0], rows[1], rows[0]])), 5, 4)

    def test_codes(self):
        self.check(self.with_row(3, code=2), 6, 3)

    def test_their_order(self):
        """Of two conditions the one that the finder gives first."""
        terms, infinite = self.with_head(support=65535), self.with_row(0, values=(math.inf,))
        code = len(FOUR_HEAD) + len(b"RW")
        self.check(b"RW" + self.with_head(rows=0)[2:], 20)
        self.check(self.with_head(rows=0, labels=0, support=65535)[:-1], 1)
        self.check(self.with_head(rows=2049)[:-1], 21)
        self.check(terms[:-1], 22, 3)
        self.check(terms + b"x", 23)
        self.check(infinite[:6] + b"\xff\xff" + infinite[8:], 4)
        self.check(infinite[:code] + b"\x09" + infinite[code + 1:], 5)
        self.check(self.with_row(0, code=9)[:code + 1] + self.with_row(1, values=(math.inf,))[code + 1:], 5, 1)
