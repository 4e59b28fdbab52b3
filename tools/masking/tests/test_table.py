import io
import random
import struct

from masking.names import Names
from masking.sheet_bytes import Head, Row, Sheet
from masking.table import read_table, write_table
from masking.tests.room import InRoom, drawn_table

# A table that cannot be packed, and what is said of it after its name.
REFUSED_TABLES = [
    ("", "line 1: no header"),
    ("a,label\n", "line 1: no row after the header"),
    ("\n\na,label\n", "line 3: no row after the header"),
    ("label\nx\n", "line 1: 1 column"),
    ("a;b;label\n1;2;x\n", "line 1: 1 column"),
    ("a,a,label\n1,2,x\n", "line 1: two columns are called 'a'"),
    ("a,label,label\n1,2,x\n", "line 1: two columns are called 'label'"),
    ("a,,label\n1,2,x\n", "line 1: the name of column 2 is empty"),
    ("a,\x1b[1m,label\n1,2,x\n", "line 1: the name of column 2 has a control character"),
    ("a,label\n1,x\n2\n", "line 3: 1 fields, but the header has 2"),
    ("a,label\n1,x\n2,3,x\n", "line 3: 3 fields, but the header has 2"),
    ("a,label\n1,x\n\n2,\n", "line 4: the label (label) is empty"),
    ("a,label\n1,x\n2,\"x\ny\"\n", "line 3: the label (label) has a control character"),
    ("a,label\n1,x\n,\n", "line 3: the label (label) is empty"),
    ("a,label\n1,x\n,x\n", "line 3: a is empty"),
    ("a,label\n1,x\nwide,x\n", "line 3: a is 'wide', not a number"),
    ("a,label\n1,x\n\"1,85\",x\n", "line 3: a is '1,85', not a number (a decimal is written with a point)"),
    ("a,label\n1_000,x\n", "line 2: a is '1_000', not a number"),
    ("a,label\n٣,x\n", "line 2: a is '٣', not a number"),
    ("a,label\n0x10,x\n", "line 2: a is '0x10', not a number"),
    ("a,label\nNaN,x\n", "line 2: a is 'NaN', which is not finite"),
    ("a,label\n1,x\n-inf,x\n", "line 3: a is '-inf', which is not finite"),
    ("a,label\n1,x\nInfinity,x\n", "line 3: a is 'Infinity', which is not finite"),
    ("a,label\n1000000000000.0002,x\n", "line 2: a is 1000000000000.0002, of a magnitude above 1,000,000,000,000"),
    ("a,label\n1,x\n-1e400,x\n", "line 3: a is -1e400, of a magnitude above 1,000,000,000,000"),
    ("a,label\n1,x\n2,\"x\n3,y\n", "line 3: not CSV"),
    ("a,label\n1,\"x\"y\n", "line 2: not CSV"),
    (b"a,label\n1,x\n2,\xff\n", "line 3: not UTF-8 text"),
]

# The largest tables, each by a limit or two, and what is said of one row, label or column more.
ROWS, CELLS = ["1,x\n"] * 2048, ["1,2,3,4,5,x\n"] * 1638
LABELS, COLUMNS = [f"1,l{number}\n" for number in range(32)], [str(number) for number in range(16)]
LARGEST_TABLES = [
    "a,label\n" + "".join(ROWS),
    "a,b,c,d,e,label\n" + "".join(CELLS),
    "a,label\n" + "".join(LABELS),
    ",".join(COLUMNS) + ",label\n" + "1," * len(COLUMNS) + "x\n",
    "a,b,c,d,label\n" + "1,2,3,4,x\n" * 2048,
]
TOO_LARGE_TABLES = [
    (LARGEST_TABLES[0] + ROWS[0], "line 2050: more than 2,048 rows"),
    (LARGEST_TABLES[1] + CELLS[0], "line 1640: more than 8,192 cells"),
    (LARGEST_TABLES[2] + "1,one more\n1,l0\n", "line 34: 'one more' is label number 33"),
    (",".join(COLUMNS) + ",16,label\n", "line 1: 17 columns"),
]


class Refusals(InRoom):
    def test_each_with_its_line(self):
        for table, said in REFUSED_TABLES:
            with self.subTest(table=table):
                self.assert_refused("bad.csv " + said, read_table, self.file("bad.csv", table))

    def test_limits(self):
        for table in LARGEST_TABLES:
            self.assertEqual(len(read_table(self.file("t.csv", table)).rows), table.count("\n") - 1)
        for table, said in TOO_LARGE_TABLES:
            self.assert_refused("bad.csv " + said, read_table, self.file("bad.csv", table))


class Tables(InRoom):
    def test_what_is_read(self):
        table = read_table(self.file("t.csv", "ratio,height,curtain\n1.85,400,flat\n\n2.39,410,scope\n"))
        self.assertEqual(table, (["ratio", "height"], "curtain", [(2, (1.85, 400.0), "flat"), (4, (2.39, 410.0), "scope")]))

    def test_decimals_become_the_nearest_doubles(self):
        texts = ["1.85", "-0", "+1e3", ".5", "5.", "1e-400", "0.1000000000000000055511151231257827", " 7 ", "999999999999.99999999", "1000000000000.00001"]
        table = read_table(self.file("t.csv", "v,label\n" + "".join(f"{text},x\n" for text in texts)))
        self.assertEqual([struct.pack("<d", row.values[0]) for row in table.rows], [struct.pack("<d", float(text)) for text in texts])

    def test_forms_of_csv(self):
        plain = read_table(self.file("t.csv", "a,b,label\n1,2,x\n3,4,y\n"))
        for form, lines in (
            (b"\xef\xbb\xbfa,b,label\r\n1,2,x\r\n3,4,y\r\n", [2, 3]),
            (b"\n a , b,label\n\n1, 2,x\n\n3,4, \"y\"\n\n", [4, 6]),
            (b"  \na,b,label\n \t \n1,2,x\n3,4,y\n", [4, 5]),
            (b"a,b,label\r1,2,x\r3,4,y", [2, 3]),
        ):
            table = read_table(self.file("t.csv", form))
            rows = [row._replace(line=line) for row, line in zip(plain.rows, lines)]
            self.assertEqual(table, plain._replace(rows=rows))
        self.assertEqual([row.line for row in read_table(self.file("t.csv", b"\na,label\n\n1,x\n\n\n3,y\n")).rows], [4, 7])

    def test_a_field_may_have_commas_and_quotes(self):
        table = read_table(self.file("t.csv", '"a, b",label\n1,"the ""third"""\n'))
        self.assertEqual((table.columns, table.rows[0].label), (["a, b"], 'the "third"'))


class Written(InRoom):
    def written(self, sheet, names):
        out = io.StringIO()
        write_table(out, sheet, names)
        return out.getvalue()

    def test_what_is_written(self):
        sheet = Sheet(Head(2, 1, 2, 1, 0, 1, 9), [Row(1, (0.1,)), Row(0, (-0.0,))])
        names = Names("t.csv", ["a, b"], "curtain", ["flat", "scope"], [1, 1], [2, 3])
        self.assertEqual(self.written(sheet, names), '"a, b",curtain\n0.1,scope\n-0.0,flat\n')

    def test_it_is_read_as_it_was(self):
        draw = random.Random(81)
        for _ in range(20):
            table = read_table(self.file("t.csv", drawn_table(draw)[0]))
            labels = sorted({row.label for row in table.rows})
            sheet = Sheet(None, [Row(labels.index(row.label), row.values) for row in table.rows])
            names = Names("t.csv", table.columns, table.label, labels, [], [])
            self.assertEqual(read_table(self.file("again.csv", self.written(sheet, names))), table)
