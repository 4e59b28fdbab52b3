"""What the tests share: a folder for each test, the command run in it, drawn tables, and the examples' listings."""
import contextlib
import csv
import importlib.machinery
import importlib.util
import io
import math
import os
import stat
import tempfile
import unittest

from masking.files import Refusal

TOOLS = os.path.dirname(os.path.dirname(os.path.dirname(os.path.realpath(__file__))))
ROOT = os.path.dirname(TOOLS)
SHEET = os.path.join(TOOLS, "sheet")

# The command that answers sheets, where there is one: tools/test-sheet knows it.
FINDER = None

HOUSE_LISTING = """FOUND error=2 column=0 at=4000D810624DD2F2 tried=7
L SPLIT column=0 at=3FF826E978D4FDF4 left=0/0 right=1/1
R SPLIT column=1 at=40774D999999999A left=1/0 right=2/1
"""
REFUSED_LISTING = "REFUSED 5 place=64\n"

# Document 01's sizes of a header, of a row before its values and of a value, written out so that a wrong one in the package is seen.
HEAD_SIZE, ROW_FIXED, VALUE_SIZE = 20, 3, 8


def example(name):
    return os.path.join(ROOT, "examples", name)


def read(path):
    with open(path, "rb") as file:
        return file.read()


def write(path, data):
    with open(path, "wb") as file:
        file.write(data)


def script(path, text):
    os.makedirs(os.path.dirname(path), exist_ok=True)
    write(path, text.encode())
    os.chmod(path, os.stat(path).st_mode | stat.S_IXUSR)


def load_command():
    """tools/sheet as a module, though its name has no ending."""
    loader = importlib.machinery.SourceFileLoader("sheet", SHEET)
    module = importlib.util.module_from_spec(importlib.util.spec_from_loader("sheet", loader))
    loader.exec_module(module)
    return module


command = load_command()


def run(*arguments):
    """The command's status, output and errors."""
    out, err = io.StringIO(), io.StringIO()
    with contextlib.redirect_stdout(out), contextlib.redirect_stderr(err):
        try:
            status = command.main(list(arguments))
        except SystemExit as end:
            status = end.code
    return status, out.getvalue(), err.getvalue()


class InRoom(unittest.TestCase):
    """A test with a folder of its own."""

    def setUp(self):
        room = tempfile.TemporaryDirectory()
        self.addCleanup(room.cleanup)
        self.room = room.name

    def path(self, name):
        return os.path.join(self.room, name)

    def file(self, name, content):
        """Writes text or bytes; the file's path."""
        write(self.path(name), content if isinstance(content, bytes) else content.encode())
        return self.path(name)

    def pack(self, table, *options, name="t"):
        """Packs a table's text; the sheet's bytes."""
        status, out, err = run("pack", self.file(name + ".csv", table), "-o", self.path(name + ".sheet"), *options)
        self.assertEqual((status, out, err), (0, "", ""))
        return read(self.path(name + ".sheet"))

    def explain(self, listing, *options, name="t"):
        """The lines that explain a listing of the packed sheet."""
        status, out, err = run("explain", self.path(name + ".names"), self.file("listing", listing), *options)
        self.assertEqual((status, err), (0, ""))
        return out.splitlines()

    def assert_refused(self, said, call, *arguments):
        """The call refuses, and what it says begins so; the room's files are called by their names."""
        with self.assertRaises(Refusal) as caught:
            call(*arguments)
        self.assertEqual(str(caught.exception).replace(self.room + os.sep, "")[:len(said)], said)


VALUES = [0.0, -0.0, 5e-324, -5e-324, 1.0, math.nextafter(1.0, 2.0), 1e12, -1e12, 0.1, 1.85, 2.39, 1e-300]
LABELS = ["flat", "scope", "curtain, two", 'the "third"', "Vorhang 4 ½", "1", "2", "10", "−", "#", "a;b"]
TERMS = (("--support", [0, 1, 2, 3, 9]), ("--gap", [0, 1, 2]), ("--error", [0, 3, 20, 10**6]), ("--bound", [0, 2, 10**6]))


def drawn_table(draw):
    """A random table as CSV text, and options for pack."""
    columns, rows = draw.randint(1, 5), draw.randint(1, 40)
    labels = draw.sample(LABELS, draw.randint(1, 5))
    out = io.StringIO()
    writer = csv.writer(out)
    writer.writerow([f"c {number}, \"{'x' * number}\"" for number in range(columns)] + ["label"])
    for _ in range(rows):
        kind = draw.random()
        values = [draw.choice(VALUES) if kind < 0.3 else draw.randint(0, 4) if kind < 0.8 else draw.uniform(-9, 9) for _ in range(columns)]
        label = labels[int(values[0] > 1.5) % len(labels)] if draw.random() < 0.7 else draw.choice(labels)
        writer.writerow([repr(value) for value in values] + [label])
    options = []
    for option, choices in TERMS:
        if draw.random() < 0.3:
            options += [option, str(draw.choice(choices))]
    return out.getvalue(), options
