import math
import os
import random
import shutil
import struct
import subprocess
import sys

from masking.names import read_names
from masking.sheet_bytes import bytes_of, read_sheet
from masking.tests.room import (
    HEAD_SIZE, HOUSE_LISTING, REFUSED_LISTING, ROW_FIXED, SHEET, TOOLS, VALUE_SIZE, InRoom, drawn_table, example, read, run)
from masking.tests.test_sheet_bytes import FOUR_BYTES
from masking.tests.test_table import LARGEST_TABLES, REFUSED_TABLES, TOO_LARGE_TABLES

FOUR = "v,label\n1,0\n2,1\n3,0\n4,1\n"


class RoundTrip(InRoom):
    def again(self, *names):
        """Unpacks t.sheet and packs what comes out with the options that unpack tells."""
        status, table, err = run("unpack", self.path("t.sheet"), *names)
        self.assertEqual(status, 0)
        told = err.strip().split("packed with ")[1].split()
        return self.pack(table, *told, name="again")

    def test_drawn_tables(self):
        draw = random.Random(8)
        for _ in range(150):
            table, options = drawn_table(draw)
            first = self.pack(table, *options)
            self.assertEqual(self.again(self.path("t.names")), first)
            self.assertEqual(self.again(), first)
            self.assertEqual(bytes_of(read_sheet(first)), first)

    def test_names_come_back(self):
        draw = random.Random(80)
        for _ in range(20):
            table, options = drawn_table(draw)
            self.pack(table, *options)
            self.again(self.path("t.names"))
            first, second = (read_names(self.path(name))._replace(csv="") for name in ("t.names", "again.names"))
            self.assertEqual(first, second)


class Pack(InRoom):
    def test_bytes_of_the_four_rows(self):
        self.assertEqual(self.pack(FOUR), FOUR_BYTES)

    def test_names_stand_beside_the_sheet(self):
        self.pack("v,label\n1,10\n\n1,9\n1,9\n1,-1\n")
        self.assertEqual(read_names(self.path("t.names")), ("t.csv", ["v"], "label", ["-1", "9", "10"], [1, 2, 1], [2, 4, 5, 6]))

    def test_the_sheet_stands_beside_the_table(self):
        self.assertEqual(run("pack", self.file("a.b.csv", FOUR)), (0, "", ""))
        self.assertEqual(sorted(os.listdir(self.room)), ["a.b.csv", "a.b.names", "a.b.sheet"])

    def test_terms(self):
        table = "v,label\n1,a\n2,b\n3,b\n"
        self.assertEqual(read_sheet(self.pack(table)).head[3:], (1, 0, 1, 1000000))
        options = ["--support", "4096", "--gap", "1000000", "--error", "0", "--bound", "7"]
        self.assertEqual(read_sheet(self.pack(table, *options)).head[3:], (4096, 1000000, 0, 7))
        for wrong in (["--support", "4097"], ["--gap", "1000001"], ["--error", "-1"], ["--bound", "1e3"]):
            self.assertEqual(run("pack", self.path("t.csv"), *wrong)[0], 2)

    def test_forms_of_csv(self):
        plain = self.pack("a,b,label\n1,2,x\n3,4,y\n")
        for form in (b"\xef\xbb\xbfa,b,label\r\n1,2,x\r\n3,4,y\r\n", b"\n a , b,label\n\n1, 2,x\n\n3,4, \"y\"\n\n", b"a,b,label\r1,2,x\r3,4,y"):
            self.assertEqual(self.pack(form), plain)

    def test_the_largest_tables(self):
        for table in LARGEST_TABLES:
            self.assertEqual(read_sheet(self.pack(table)).head.rows, table.count("\n") - 1)

    def test_refused_tables(self):
        """A table that cannot be packed is named with its line, and nothing is written."""
        for table, said in REFUSED_TABLES + TOO_LARGE_TABLES:
            with self.subTest(said=said):
                status, out, err = run("pack", self.file("bad.csv", table))
                self.assertEqual((status, out), (1, ""))
                self.assertIn("sheet: bad.csv " + said, err.replace(self.room + os.sep, ""))
                self.assertEqual(os.listdir(self.room), ["bad.csv"])

    def test_files(self):
        self.assertEqual(run("pack", self.path("nowhere.csv"))[0], 1)
        self.pack("a,label\n1,x\n")
        for out in ("t.csv", "t.names"):
            self.assertIn("three files", run("pack", self.path("t.csv"), "-o", self.path(out))[2])
        self.assertEqual(run("pack", self.path("t.csv"), "-o", self.path("no/where.sheet"))[0], 1)
        self.assertEqual(read(self.path("t.csv")), b"a,label\n1,x\n")


class Unpack(InRoom):
    def test_what_is_printed(self):
        self.pack("ratio,curtain\n1.85,flat\n2,scope\n", "--gap", "3")
        told = "sheet: packed with --support 1 --gap 3 --error 1 --bound 1000000\n"
        self.assertEqual(run("unpack", self.path("t.sheet"), self.path("t.names")), (0, "ratio,curtain\n1.85,flat\n2.0,scope\n", told))
        self.assertEqual(run("unpack", self.path("t.sheet")), (0, "column 0,label\n1.85,0\n2.0,1\n", told))

    def test_refusals(self):
        data = self.pack("a,label\n1,x\n3,y\n")
        self.assertIn("reason 22", run("unpack", self.file("t.sheet", data[:-1]))[2])
        self.assertIn("t.csv line 3", run("unpack", self.path("t.sheet"), self.path("t.names"))[2])
        self.pack("a,label\n1,x\n3,y\n4,y\n", name="other")
        self.assertIn("do not belong together", run("unpack", self.path("other.sheet"), self.path("t.names"))[2])
        self.assertEqual(run("unpack", self.path("nowhere.sheet"))[0], 1)


class Explain(InRoom):
    def test_the_sheet_may_stand_elsewhere(self):
        self.pack(FOUR)
        here = self.explain("KEPT error=2 tried=1\n")
        os.rename(self.path("t.sheet"), self.path("elsewhere"))
        self.assertEqual(self.explain("KEPT error=2 tried=1\n", "--sheet", self.path("elsewhere")), here)
        self.assertEqual(run("explain", self.path("t.names"), self.path("listing"))[0], 1)

    def test_what_is_no_listing(self):
        self.pack(FOUR)
        for listing in ("", "\n", "kept\n", "KEPT error=2 tried=1\nKEPT error=2 tried=1\n"):
            status, out, err = run("explain", self.path("t.names"), self.file("listing", listing))
            self.assertEqual((status, out), (1, ""))
            self.assertTrue(err.startswith(f"sheet: {self.path('listing')}: "))

    def test_names_that_are_none(self):
        self.pack(FOUR)
        self.file("listing", "KEPT error=2 tried=1\n")
        for names in (b"", b"{}", read(self.path("t.names")).replace(b'"v"', b"7"), b"\xff"):
            status, out, err = run("explain", self.file("u.names", names), self.path("listing"), "--sheet", self.path("t.sheet"))
            self.assertEqual((status, out), (1, ""))
            self.assertIn("u.names", err)


class AsAProgram(InRoom):
    EXPLAIN = ["explain", example("house.names")]
    SENTENCE = "if ratio ≤ 1.5095: curtain academy (0 of 12 wrong)\n"

    def output(self, program, *arguments, **more):
        done = subprocess.run([*program, *arguments], input=HOUSE_LISTING.encode(), stdout=subprocess.PIPE, check=True, **more)
        return done.stdout.decode("utf-8")

    def test_in_any_locale(self):
        """The listing comes on standard input, and the words go out as UTF-8."""
        environment = {**os.environ, "LC_ALL": "POSIX", "PYTHONIOENCODING": "latin-1"}
        self.assertIn(self.SENTENCE, self.output([SHEET], *self.EXPLAIN, env=environment))

    def test_from_any_folder_and_by_a_link(self):
        os.mkdir(self.path("links"))
        os.symlink(SHEET, self.path("links/one"))
        os.symlink("one", self.path("links/two"))
        os.symlink(TOOLS, self.path("tools"))
        for program in (SHEET, self.path("links/one"), self.path("links/two"), self.path("tools/sheet"), os.path.relpath(SHEET, self.room)):
            self.assertIn(self.SENTENCE, self.output([program], *self.EXPLAIN, cwd=self.room))
        self.assertIn(self.SENTENCE, self.output([sys.executable, "-I", self.path("links/two")], *self.EXPLAIN, cwd=self.room))

    def test_a_call_leaves_nothing_in_its_folder(self):
        shutil.copy(SHEET, self.path("sheet"))
        shutil.copytree(os.path.join(TOOLS, "masking"), self.path("masking"), ignore=shutil.ignore_patterns("__pycache__"))
        before = sorted(os.walk(self.room))
        environment = {name: value for name, value in os.environ.items() if name != "PYTHONDONTWRITEBYTECODE"}
        self.assertIn(self.SENTENCE, self.output([self.path("sheet")], *self.EXPLAIN, env=environment))
        self.assertEqual(sorted(os.walk(self.room)), before)

    def test_bad_usage(self):
        for arguments in ([], ["what"], ["pack"], ["explain"], ["unpack", "a", "b", "c"]):
            self.assertEqual(run(*arguments)[:2], (2, ""))

    def test_help(self):
        status, out, err = run("--help")
        self.assertEqual((status, err), (0, ""))
        for command in ("pack", "unpack", "explain"):
            self.assertIn(f"\n    {command} ", out)
            self.assertTrue(run(command, "--help")[1].startswith(f"usage: sheet {command} "))


class Examples(InRoom):
    def test_the_sheet_is_the_packed_table(self):
        shutil.copy(example("house.csv"), self.path("house.csv"))
        self.assertEqual(run("pack", self.path("house.csv"))[0], 0)
        self.assertEqual(read(self.path("house.sheet")), read(example("house.sheet")))
        for name in ("house.names", "refused.names"):
            self.assertEqual(read(self.path("house.names")), read(example(name)))

    def test_the_refused_sheet_is_the_house_with_one_reading_damaged(self):
        house, columns, column, row = read(example("house.sheet")), 3, 1, 12
        at = HEAD_SIZE + row * (ROW_FIXED + VALUE_SIZE * columns) + ROW_FIXED + VALUE_SIZE * column
        self.assertEqual(read(example("refused.sheet")), house[:at] + struct.pack("<d", math.inf) + house[at + VALUE_SIZE:])

    def test_readme_tells_what_is_printed(self):
        readme = read(example("README.md")).decode()
        for name, listing in (("house", HOUSE_LISTING), ("refused", REFUSED_LISTING)):
            status, told, _ = run("explain", example(name + ".names"), self.file("listing", listing))
            self.assertEqual(status, 0)
            self.assertIn(f"```\n{listing}\n{told}```\n", readme)
