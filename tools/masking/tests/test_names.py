import random

from masking.names import Names, check_belongs, counts_of, names_of, names_text, numbers_for_names, read_names
from masking.sheet_bytes import Head, Row, Sheet
from masking.table import read_table
from masking.tests.room import InRoom, drawn_table, read

FOUR = "v,label\n1,a\n2,b\n3,a\n4,b\n"


class NamesOfTables(InRoom):
    def names(self, text):
        path = self.file("t.csv", text)
        return names_of(path, read_table(path))

    def test_what_is_kept(self):
        names = self.names("ratio,height,curtain\n1.85,400,flat\n\n2.39,410,scope\n1.37,420,flat\n")
        self.assertEqual(names, ("t.csv", ["ratio", "height"], "curtain", ["flat", "scope"], [2, 1], [2, 4, 5]))

    def test_order_of_codes(self):
        names = self.names("v,label\n1,10\n1,9\n1,9\n1,-1\n")
        self.assertEqual((names.labels, names.counts), (["-1", "9", "10"], [1, 2, 1]))
        self.assertEqual(self.names("v,label\n1,10\n1,9\n1,flat\n").labels, ["10", "9", "flat"])
        self.assertEqual(self.names("v,label\n1,7\n1,007\n1,07\n").labels, ["007", "07", "7"])

    def test_a_long_run_of_digits_is_text(self):
        self.assertEqual(self.names(f"v,label\n1,{'1' * 18}\n1,2\n").labels, ["2", "1" * 18])
        self.assertEqual(self.names(f"v,label\n1,{'1' * 19}\n1,2\n").labels, ["1" * 19, "2"])


class NamesFiles(InRoom):
    def test_text(self):
        names = Names("t.csv", ["ratio", "a \"b\""], "curtain", ["½", "scope"], [1, 1], [2, 3])
        self.assertEqual(names_text(names), '{\n  "csv": "t.csv",\n  "columns": ["ratio", "a \\"b\\""],\n  "label": "curtain",\n'
                                            '  "labels": ["½", "scope"],\n  "counts": [1, 1],\n  "lines": [2, 3]\n}\n')

    def test_they_come_back(self):
        draw = random.Random(83)
        for _ in range(50):
            path = self.file("t.csv", drawn_table(draw)[0])
            names = names_of(path, read_table(path))
            self.assertEqual(read_names(self.file("t.names", names_text(names))), names)

    def test_names_that_are_none(self):
        self.pack(FOUR)
        good = read(self.path("t.names"))
        damaged = [good.replace(old, new) for old, new in (
            (b'"v"', b"7"), (b'["v"]', b'"v"'), (b'"t.csv"', b"1"), (b'"label": "label"', b'"label": null'), (b'["a", "b"]', b'["a", 1]'),
            (b"[2, 2]", b"[2, 2.0]"), (b"[2, 2]", b"[2, true]"), (b"[2, 3, 4, 5]", b'["2", 3, 4, 5]'), (b"{\n", b'{\n  "more": 1,\n'))]
        self.assertNotIn(good, damaged)
        for data in (b"", b"[]", b"{}", b'{"csv": 1}', b"[" * 100000, *damaged):
            self.assert_refused("u.names: not a names file as pack writes it", read_names, self.file("u.names", data))
        self.assert_refused("u.names line 1: not UTF-8 text", read_names, self.file("u.names", b"\xff"))


class Belonging(InRoom):
    SHEET = Sheet(Head(3, 2, 2, 1, 0, 1, 9), [Row(1, (1.0, 2.0)), Row(0, (1.0, 2.0)), Row(1, (3.0, 4.0))])
    NAMES = Names("t.csv", ["a", "b"], "label", ["x", "y"], [1, 2], [2, 3, 4])

    def test_counts(self):
        self.assertEqual(counts_of(self.SHEET), [1, 2])
        self.assertEqual(counts_of(self.SHEET._replace(head=self.SHEET.head._replace(labels=3))), [1, 2, 0])

    def test_numbers_stand_for_names(self):
        self.assertEqual(numbers_for_names(self.SHEET.head), ("", ["column 0", "column 1"], "label", ["0", "1"], [], []))

    def test_what_belongs_together(self):
        check_belongs("t.sheet", self.SHEET, self.NAMES)
        for other in ({"lines": [2, 3]}, {"columns": ["a"]}, {"labels": ["x"]}, {"counts": [2, 1]}):
            said = "t.sheet: the sheet and its names do not belong together"
            self.assert_refused(said, check_belongs, "t.sheet", self.SHEET, self.NAMES._replace(**other))
