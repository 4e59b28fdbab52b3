"""The package beside the finder itself; skipped where there is none to ask."""
import random
import subprocess

from masking.sheet_bytes import BadSheet, read_sheet
from masking.tests import room
from masking.tests.room import HOUSE_LISTING, REFUSED_LISTING, InRoom, drawn_table, example, read


def ask(data):
    done = subprocess.run(room.FINDER, input=data, stdout=subprocess.PIPE, check=True)
    return done.stdout.decode("ascii")


class AgainstTheFinder(InRoom):
    def setUp(self):
        if room.FINDER is None:
            self.skipTest("the finder is not built")
        super().setUp()

    def test_examples(self):
        self.assertEqual(ask(read(example("house.sheet"))), HOUSE_LISTING)
        self.assertEqual(ask(read(example("refused.sheet"))), REFUSED_LISTING)

    def test_wrong_rows_of_each_leaf(self):
        """The explanation counts each leaf's mistakes from the rows, and refuses a listing that tells others."""
        draw, seen = random.Random(88), set()
        for _ in range(60):
            table, options = drawn_table(draw)
            listing = ask(self.pack(table, *options))
            seen.update(line.split()[0] if line[1] != " " else line[:3] for line in listing.splitlines())
            self.explain(listing)
        self.assertEqual(seen, {"FOUND", "KEPT", "L L", "L S", "R L", "R S"})

    def test_refusals(self):
        """Of damaged bytes the package's own reading gives the finder's number and place."""
        draw = random.Random(888)
        for _ in range(60):
            table, options = drawn_table(draw)
            data = bytearray(self.pack(table, *options))
            data[draw.randrange(min(len(data), 40) if draw.random() < 0.5 else len(data))] = draw.choice([0, 1, 0x7F, 0xFF])
            data = bytes(data[:draw.choice([len(data), len(data), draw.randrange(len(data))])]) + draw.choice([b"", b"", b"RW"])
            listing = ask(data)
            try:
                read_sheet(data)
                self.assertFalse(listing.startswith("REFUSED"))
            except BadSheet as bad:
                self.assertEqual(listing, "REFUSED {} place={}\n".format(*bad.refused))
