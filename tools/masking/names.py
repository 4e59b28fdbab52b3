"""The names file beside a sheet: what its bytes have no place for. The table's file name, the names of columns and labels, how many
rows have each label, and the line of the table that each row came from."""
import collections
import json
import os
import re

from masking.files import Refusal, read_text

# A label that is coded by its number; one of more digits is text.
WHOLE = re.compile(r"-?[0-9]{1,18}")

Names = collections.namedtuple("Names", "csv columns label labels counts lines")


def coded(labels):
    """The labels in the order of their codes."""
    if all(WHOLE.fullmatch(label) for label in labels):
        return sorted(labels, key=lambda label: (int(label), label))
    return sorted(labels)


def names_of(path, table):
    """The names of a table that was read from a file."""
    count = collections.Counter(row.label for row in table.rows)
    labels = coded(count)
    lines = [row.line for row in table.rows]
    return Names(os.path.basename(path), table.columns, table.label, labels, [count[label] for label in labels], lines)


def names_text(names):
    """JSON, one entry to a line."""
    entries = (f"  {json.dumps(key)}: {json.dumps(value, ensure_ascii=False)}" for key, value in names._asdict().items())
    return "{\n" + ",\n".join(entries) + "\n}\n"


def is_list_of(kind, value):
    return isinstance(value, list) and all(type(item) is kind for item in value)


def read_names(path):
    try:
        names = Names(**json.loads(read_text(path)))
    except (ValueError, TypeError, RecursionError):
        raise Refusal(f"{path}: not a names file as pack writes it") from None
    texts = isinstance(names.csv, str) and isinstance(names.label, str)
    if not (texts and is_list_of(str, names.columns) and is_list_of(str, names.labels)
            and is_list_of(int, names.counts) and is_list_of(int, names.lines)):
        raise Refusal(f"{path}: not a names file as pack writes it")
    return names


def numbers_for_names(head):
    """What stands for names where none are kept."""
    columns = [f"column {number}" for number in range(head.columns)]
    return Names("", columns, "label", [str(code) for code in range(head.labels)], [], [])


def counts_of(sheet):
    """How many rows of a sheet have each code."""
    count = collections.Counter(row.code for row in sheet.rows)
    return [count[code] for code in range(sheet.head.labels)]


def check_belongs(path, sheet, names):
    """Names of another sheet would tell wrong lines and positions without a word of warning."""
    told = (len(names.lines), len(names.columns), len(names.labels), names.counts)
    if told != (sheet.head.rows, sheet.head.columns, sheet.head.labels, counts_of(sheet)):
        raise Refusal(f"{path}: the sheet and its names do not belong together: rows, columns, labels or rows of each label differ in number")
