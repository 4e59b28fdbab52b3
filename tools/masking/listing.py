"""The finder's listing: FOUND and a rule's two sides, KEPT, or REFUSED. Anything else is refused whole, since a listing that was cut
short or edited is no answer of the finder."""
import collections
import re
import struct

from masking.files import Refusal
from masking.sheet_bytes import Refused

Leaf = collections.namedtuple("Leaf", "label error")
Split = collections.namedtuple("Split", "column threshold left right")
Found = collections.namedtuple("Found", "error tried tree")
Kept = collections.namedtuple("Kept", "error tried")

NUMBER = r"(\d{1,20})"
BITS = r"([0-9A-F]{16})"
FIRST_LINES = {
    "FOUND": re.compile(f"FOUND error={NUMBER} column={NUMBER} at={BITS} tried={NUMBER}", re.ASCII),
    "KEPT": re.compile(f"KEPT error={NUMBER} tried={NUMBER}", re.ASCII),
    "REFUSED": re.compile(f"REFUSED {NUMBER} place={NUMBER}", re.ASCII),
}
LEAF = re.compile(f"[LR] LEAF label={NUMBER} error={NUMBER}", re.ASCII)
SPLIT = re.compile(f"[LR] SPLIT column={NUMBER} at={BITS} left={NUMBER}/{NUMBER} right={NUMBER}/{NUMBER}", re.ASCII)
SIDE_MARKS = "LR"


def threshold_of(digits):
    """The double of these bits, the highest first."""
    return struct.unpack(">d", bytes.fromhex(digits))[0]


def side_of(mark, line):
    """The side that a listing's second (L) or third (R) line tells, or None."""
    leaf, split = LEAF.fullmatch(line), SPLIT.fullmatch(line)
    if not line.startswith(mark) or not (leaf or split):
        return None
    if leaf:
        return Leaf(int(leaf[1]), int(leaf[2]))
    return Split(int(split[1]), threshold_of(split[2]), Leaf(int(split[3]), int(split[4])), Leaf(int(split[5]), int(split[6])))


def found_of(first, lines):
    sides = [side_of(mark, line) for mark, line in zip(SIDE_MARKS, lines)]
    if len(lines) != len(SIDE_MARKS) or None in sides:
        return None
    return Found(int(first[1]), int(first[4]), Split(int(first[2]), threshold_of(first[3]), *sides))


def answer_of(lines):
    """What a listing's lines tell, or None if they are no listing."""
    word = lines[0].split(" ")[0]
    first = FIRST_LINES[word].fullmatch(lines[0]) if word in FIRST_LINES else None
    if first and word == "FOUND":
        return found_of(first, lines[1:])
    if not first or len(lines) != 1:
        return None
    kind = Kept if word == "KEPT" else Refused
    return kind(int(first[1]), int(first[2]))


def read_listing(name, data):
    """What the finder answered: Found, Kept or Refused. The name is that of the place where the bytes came from."""
    if not data:
        raise Refusal(f"{name}: empty, where the finder's listing was expected")
    answer = answer_of(data.decode("ascii", "replace").rstrip("\n").split("\n"))
    if answer is None:
        raise Refusal(f"{name}: not a listing of the finder")
    return answer
