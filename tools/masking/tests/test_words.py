import math
import os
import struct

from masking.sheet_bytes import BadSheet, read_sheet
from masking.tests.room import HEAD_SIZE, ROW_FIXED, VALUE_SIZE, InRoom, run
from masking.words import PLACES, REASONS, explain_refused


def bits(value):
    return struct.pack(">d", value).hex().upper()


FOUR = "v,label\n1,a\n2,b\n3,a\n4,b\n"
SQUARE = "ratio,height,curtain\n1.37,400,1\n1.37,500,2\n1.37,420,1\n2.39,400,2\n2.39,500,3\n2.39,510,1\n"


class Explanations(InRoom):
    def test_splits_on_both_sides(self):
        self.pack(FOUR)
        lines = self.explain("FOUND error=0 column=0 at=4004000000000000 tried=1\n"
                             "L SPLIT column=0 at=3FF8000000000000 left=0/0 right=1/0\nR SPLIT column=0 at=400C000000000000 left=0/0 right=1/0\n")
        self.assertEqual(lines, [
            "A rule was found that names 0 of 4 rows wrongly (cuts tried: 1):",
            "if v ≤ 1.5: label a (0 of 1 wrong)",
            "if 1.5 < v ≤ 2.5: label b (0 of 1 wrong)",
            "if 2.5 < v ≤ 3.5: label a (0 of 1 wrong)",
            "if v > 3.5: label b (0 of 1 wrong)",
        ])

    def test_leaves_on_both_sides(self):
        self.pack(FOUR, "--error", "3", "--support", "2")
        lines = self.explain("FOUND error=2 column=0 at=4004000000000000 tried=1\nL LEAF label=0 error=1\nR LEAF label=0 error=1\n")
        self.assertEqual(lines[1:], ["if v ≤ 2.5: label a (1 of 2 wrong: line 3)", "if v > 2.5: label a (1 of 2 wrong: line 5)"])

    def test_a_leaf_and_a_split(self):
        self.pack(SQUARE)
        root, height = bits(1.88), bits(450.0)
        left = self.explain(f"FOUND error=2 column=0 at={root} tried=2\nL SPLIT column=1 at={height} left=0/0 right=1/0\nR LEAF label=2 error=2\n")
        self.assertEqual(left[1:4], [
            "if ratio ≤ 1.88 and height ≤ 450: curtain 1 (0 of 2 wrong)",
            "if ratio ≤ 1.88 and height > 450: curtain 2 (0 of 1 wrong)",
            "if ratio > 1.88: curtain 3 (2 of 3 wrong: lines 5, 7)",
        ])
        right = self.explain(f"FOUND error=2 column=0 at={root} tried=2\nL LEAF label=0 error=1\nR SPLIT column=1 at={height} left=1/0 right=2/1\n")
        self.assertEqual(right[1:4], [
            "if ratio ≤ 1.88: curtain 1 (1 of 3 wrong: line 3)",
            "if ratio > 1.88 and height ≤ 450: curtain 2 (0 of 1 wrong)",
            "if ratio > 1.88 and height > 450: curtain 3 (1 of 2 wrong: line 7)",
        ])
        self.assertEqual(right[4:], ["No rule of this kind whose first question leaves rows on both sides makes fewer than 2 mistakes on these rows."])

    def test_a_value_on_the_threshold_goes_left(self):
        self.pack("v,label\n-0,a\n0,a\n5e-324,b\n")
        lines = self.explain(f"FOUND error=0 column=0 at={bits(-0.0)} tried=1\nL LEAF label=0 error=0\nR LEAF label=1 error=0\n")
        self.assertEqual(lines[1:], ["if v ≤ 0: label a (0 of 2 wrong)", "if v > 0: label b (0 of 1 wrong)"])

    def test_many_wrong_rows(self):
        self.pack("v,label\n" + "".join(f"{1 + row // 8},{'a' if row < 7 else 'b'}\n" for row in range(16)), "--error", "20", "--support", "2")
        lines = self.explain(f"FOUND error=15 column=0 at={bits(1.5)} tried=1\nL LEAF label=1 error=7\nR LEAF label=0 error=8\n")
        self.assertEqual(lines[1:], ["if v ≤ 1.5: label b (7 of 8 wrong: lines 2, 3, 4, 5, 6 and 2 more)",
                                     "if v > 1.5: label a (8 of 8 wrong: lines 10, 11, 12, 13, 14 and 3 more)"])

    def test_five_wrong_rows_are_all_named(self):
        self.pack("v,label\n" + "1,a\n" * 5 + "2,b\n", "--error", "9")
        lines = self.explain(f"FOUND error=5 column=0 at={bits(1.5)} tried=1\nL LEAF label=1 error=5\nR LEAF label=1 error=0\n")
        self.assertEqual(lines[1], "if v ≤ 1.5: label b (5 of 5 wrong: lines 2, 3, 4, 5, 6)")

    def test_kept(self):
        self.pack(FOUR, "--support", "2")
        told = ["No rule was found that names fewer than 2 of 4 rows wrongly (cuts tried: 1).", "Always label a, the commonest, names 2 wrongly."]
        self.assertEqual(self.explain("KEPT error=2 tried=1\n"), told)
        self.pack(FOUR, "--gap", "1")
        nothing = "No rule of this kind whose first question leaves rows on both sides makes fewer than 1 mistakes on these rows."
        self.assertEqual(self.explain("KEPT error=2 tried=1\n"), told + [nothing])
        self.pack(FOUR, "--gap", "2")
        self.assertEqual(self.explain("KEPT error=2 tried=0\n")[1:], told[1:])
        self.pack(FOUR, "--bound", "0")
        self.assertEqual(self.explain("KEPT error=2 tried=0\n")[1:], told[1:])

    def test_listings_of_another_sheet(self):
        self.pack(FOUR)
        root = "FOUND error=1 column=0 at=4004000000000000 tried=1\n"
        for listing, said in (
            (root + "L LEAF label=0 error=0\nR LEAF label=0 error=1\n", "it tells 0 wrong where the rows have 1: if v ≤ 2.5"),
            (root + "L LEAF label=0 error=1\nR LEAF label=0 error=1\n", "do not add up"),
            (root + "L LEAF label=2 error=1\nR LEAF label=0 error=1\n", "a label that the sheet does not have"),
            (root + "L SPLIT column=1 at=3FF8000000000000 left=0/0 right=1/0\nR LEAF label=0 error=1\n", "names a column"),
            ("KEPT error=3 tried=1\n", "not the sheet's starting error"),
        ):
            status, out, err = run("explain", self.path("t.names"), self.file("listing", listing))
            self.assertEqual((status, out), (1, ""))
            self.assertIn(said, err)


class RefusalsInWords(InRoom):
    def setUp(self):
        super().setUp()
        self.data = self.pack("ratio,height,curtain\n1.85,400,flat\n\n2.39,410,scope\n1.37,420,flat\n")

    def told(self, listing, data):
        self.file("t.sheet", data)
        return self.explain(listing + "\n")

    def damaged(self, at, new):
        return self.data[:at] + new + self.data[at + len(new):]

    def check(self, number, place, data, *expected):
        """The package's own reading refuses the bytes so, and the explanation says what it should."""
        with self.assertRaises(BadSheet) as caught:
            read_sheet(data)
        self.assertEqual(caught.exception.refused, (number, place))
        lines = self.told(f"REFUSED {number} place={place}", data)
        self.assertTrue(lines[0].startswith(f"The sheet was refused, reason {number}: "))
        self.assertEqual(lines[1:], list(expected))

    def test_those_of_the_header(self):
        self.check(20, 0, self.data[:10], "The sheet has 10 bytes, and a header 20.")
        self.check(20, 0, b"", "The sheet has 0 bytes, and a header 20.")
        self.check(20, 0, self.damaged(0, b"HW"), "The sheet begins with b'HW'.")
        self.check(20, 0, b"HW" + self.data[2:HEAD_SIZE], "The sheet begins with b'HW'.")
        self.check(1, 0, self.damaged(4, b"\x11"), "The header tells 3 rows, 17 columns, 2 labels.")
        self.check(1, 0, self.damaged(2, b"\0\0"), "The header tells 0 rows, 2 columns, 2 labels.")
        self.check(1, 0, self.damaged(5, b"\x21"), "The header tells 3 rows, 2 columns, 33 labels.")
        self.check(21, 0, self.damaged(2, b"\x01\x08"), "The header tells 2049 rows, 2 columns, 2 labels.")
        self.check(4, 0, self.damaged(6, b"\xff\xff"), "The header tells support 65535, gap 0, error 1, bound 1000000.")

    def test_those_of_the_rows(self):
        row = ROW_FIXED + 2 * VALUE_SIZE
        self.check(22, 1, self.damaged(HEAD_SIZE + row, b"RX"), "Place 1 is row 1 counted from 0, t.csv line 4.", "That row begins with b'RX'.")
        self.check(22, 2, self.data[:-1], "Place 2 is row 2 counted from 0, t.csv line 5.", "The sheet ends 1 bytes before that row does.")
        self.check(22, 3, self.damaged(2, b"\4"), "Place 3 is row 3 counted from 0, no row of t.csv.", "The sheet ends 19 bytes before that row does.")
        self.check(23, 0, self.data + b"RW", "There are 2 bytes too many.")
        infinite, too_large = struct.pack("<d", math.inf), struct.pack("<d", -1e13)
        self.check(5, 1, self.damaged(HEAD_SIZE + row + ROW_FIXED, infinite),
                   "Place 1 is ratio in row 1 counted from 0, t.csv line 4.", "The value there is inf.")
        self.check(5, 5, self.damaged(HEAD_SIZE + 2 * row + ROW_FIXED + VALUE_SIZE, too_large),
                   "Place 5 is height in row 2 counted from 0, t.csv line 5.", "The value there is -10000000000000.0.")
        self.check(6, 1, self.damaged(HEAD_SIZE + row + ROW_FIXED - 1, b"\7"),
                   "Place 1 is row 1 counted from 0, t.csv line 4.", "The code there is 7, and the sheet has 2 labels, coded from 0.")

    def test_those_of_its_parts(self):
        for listing, expected in (
            ("REFUSED 2 place=0", []),
            ("REFUSED 3 place=0", []),
            ("REFUSED 7 place=4", ["Place 4 is sorted place 1 of height."]),
            ("REFUSED 8 place=2", ["Place 2 is sorted place 2 of ratio."]),
            ("REFUSED 9 place=1", ["Place 1 is height."]),
            ("REFUSED 10 place=0", ["Place 0 is the rule's first question."]),
            ("REFUSED 10 place=1", ["Place 1 is the left side's question."]),
            ("REFUSED 11 place=1", ["Place 1 is the left side."]),
            ("REFUSED 11 place=2", ["Place 2 is the right side."]),
            ("REFUSED 12 place=2", ["Place 2 is the right side's question."]),
            ("REFUSED 12 place=3", ["Place 3 is no question of a rule."]),
        ):
            lines = self.told(listing, self.data)
            number = int(listing.split()[1])
            self.assertEqual(lines, [f"The sheet was refused, reason {number}: {REASONS[number]}.", *expected])

    def test_places_that_the_sheet_does_not_have(self):
        """A listing of another sheet is told as far as it goes."""
        row = "row 2 counted from 0, t.csv line 5."
        for listing, data, expected in (
            ("REFUSED 5 place=99", self.data, ["Place 99 is column 33 in row 0 counted from 0, t.csv line 2."]),
            ("REFUSED 5 place=5", self.data[:-1], ["Place 5 is height in " + row]),
            ("REFUSED 5 place=5", b"HD", ["Place 5 is height in " + row]),
            ("REFUSED 5 place=1", self.damaged(2, b"\0\0"), ["Place 1 is height in row 0 counted from 0, t.csv line 2.", "The value there is 400.0."]),
            ("REFUSED 6 place=3", self.data + b"RW", ["Place 3 is row 3 counted from 0, no row of t.csv."]),
            ("REFUSED 6 place=2", b"HD", ["Place 2 is " + row]),
            ("REFUSED 9 place=2", self.data, ["Place 2 is column 2."]),
            ("REFUSED 22 place=2", self.data, ["Place 2 is " + row, "That row begins with b'RW'."]),
            ("REFUSED 22 place=2", b"HD", ["Place 2 is " + row]),
            ("REFUSED 23 place=0", self.data, []),
        ):
            with self.subTest(listing=listing, data=data):
                self.assertEqual(self.told(listing, data)[1:], expected)

    def test_without_names(self):
        """Numbers stand for them."""
        for refused, expected in (((5, 1), "Place 1 is column 0 in row 1 counted from 0."), ((22, 2), "Place 2 is row 2 counted from 0.")):
            self.assertEqual(explain_refused(refused, None, self.data)[1], expected)

    def test_an_unknown_number(self):
        self.assertEqual(self.told("REFUSED 99 place=4", self.data), ["The sheet was refused, reason 99: no reason known by this number."])

    def test_without_the_sheet(self):
        os.remove(self.path("t.sheet"))
        for number in REASONS:
            lines = self.explain(f"REFUSED {number} place=1\n")
            self.assertEqual(len(lines), 2 if number in PLACES else 1)
        self.assertEqual(self.explain("REFUSED 5 place=4\n")[1], "Place 4 is height in row 1 counted from 0, t.csv line 4.")
