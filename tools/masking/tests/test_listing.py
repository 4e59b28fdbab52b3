from masking.listing import Found, Kept, Leaf, Split, read_listing
from masking.sheet_bytes import Refused
from masking.tests.room import InRoom

FOUND = "FOUND error=7 column=1 at=4004000000000000 tried=9\n"
LEAF = "L LEAF label=0 error=1\n"
SPLIT = "R SPLIT column=2 at=BFF8000000000000 left=3/4 right=5/2\n"


def answer(listing):
    return read_listing("listing", listing.encode())


class Listings(InRoom):
    def test_found(self):
        left, right = Leaf(0, 1), Split(2, -1.5, Leaf(3, 4), Leaf(5, 2))
        self.assertEqual(answer(FOUND + LEAF + SPLIT), Found(7, 9, Split(1, 2.5, left, right)))
        turned = FOUND + SPLIT.replace("R ", "L ") + LEAF.replace("L ", "R ", 1)
        self.assertEqual(answer(turned), Found(7, 9, Split(1, 2.5, right, left)))

    def test_kept_and_refused(self):
        kept, refused = answer("KEPT error=2 tried=1\n"), answer("REFUSED 22 place=3\n")
        self.assertEqual((type(kept), kept.error, kept.tried), (Kept, 2, 1))
        self.assertEqual((type(refused), refused.number, refused.place), (Refused, 22, 3))

    def test_the_largest_numbers(self):
        most = 2**64 - 1
        self.assertEqual(answer(f"KEPT error={most} tried={most}\n"), (most, most))

    def test_what_is_no_listing(self):
        right = LEAF.replace("L ", "R ", 1)
        for listing in ("\n", "kept\n", "KEPT error=2\n", "KEPT error=2 tried=1 \n", "KEPT error=2 tried=1\nKEPT error=2 tried=1\n", FOUND, FOUND + LEAF,
                        FOUND + LEAF + LEAF, FOUND + right + right, FOUND + LEAF + "R LEAF label=0\n", FOUND + LEAF + "R LEAF label=0 error=1\n\nx\n",
                        FOUND.replace("4004", "4x04") + LEAF + right, FOUND + LEAF + SPLIT.replace("BFF8", "bff8"), "REFUSED 5\n",
                        "REFUSED five place=1\n", "REFUSED 5 place=1\nREFUSED 5 place=1\n", "KEPT error=٣ tried=1\n", f"KEPT error={'1' * 21} tried=1\n"):
            with self.subTest(listing=listing):
                self.assert_refused("listing: not a listing of the finder", answer, listing)

    def test_none_at_all(self):
        self.assert_refused("listing: empty, where the finder's listing was expected", answer, "")
