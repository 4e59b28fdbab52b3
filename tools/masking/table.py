"""A table of measured screenings as CSV: a header of names, then a screening a line, its label last.

What a sheet cannot represent is refused at its line, while a person can still mend the table.
"""
import collections
import csv
import io
import re
import unicodedata

from masking.files import at_line, read_text
from masking.sheet_bytes import MOST_CELLS, MOST_COLUMNS, MOST_LABELS, MOST_READ, MOST_VALUE

DECIMAL = re.compile(r"[+-]?([0-9]+\.?[0-9]*|\.[0-9]+)([eE][+-]?[0-9]+)?")
NOT_FINITE = re.compile(r"[+-]?(nan|inf|infinity)", re.IGNORECASE)
CONTROL = "Cc"  # Unicode's category of control characters

# A column of measurements and the label's.
LEAST_NAMES = 2

Table = collections.namedtuple("Table", "columns label rows")
TableRow = collections.namedtuple("TableRow", "line values label")


def read_records(path):
    """Each record that is not empty, with the line on which it begins; blanks around fields are gone."""
    reader = csv.reader(io.StringIO(read_text(path), newline=""), strict=True, skipinitialspace=True)
    while True:
        line = reader.line_num + 1
        try:
            record = next(reader)
        except StopIteration:
            return
        except csv.Error as error:
            raise at_line(path, line, f"not CSV: {error}") from None
        fields = [field.strip() for field in record]
        if any(fields) or len(fields) > 1:
            yield line, fields


def check_text(path, line, what, text):
    if not text:
        raise at_line(path, line, f"{what} is empty")
    if any(unicodedata.category(letter) == CONTROL for letter in text):
        raise at_line(path, line, f"{what} has a control character: {text!r}")


def check_header(path, line, names):
    if len(names) < LEAST_NAMES:
        raise at_line(path, line, f"{len(names)} column; at least one of measurements and the label's are needed, with commas between")
    if len(names) - 1 > MOST_COLUMNS:
        raise at_line(path, line, f"{len(names) - 1} columns of measurements; a sheet has at most {MOST_COLUMNS}")
    for number, name in enumerate(names):
        check_text(path, line, f"the name of column {number + 1}", name)
        if name in names[:number]:
            raise at_line(path, line, f"two columns are called {name!r}")


def read_value(path, line, name, text):
    """The double nearest to a decimal."""
    if NOT_FINITE.fullmatch(text):
        raise at_line(path, line, f"{name} is {text!r}, which is not finite")
    if not DECIMAL.fullmatch(text):
        hint = " (a decimal is written with a point)" if DECIMAL.fullmatch(text.replace(",", ".")) else ""
        raise at_line(path, line, f"{name} is {text!r}, not a number{hint}" if text else f"{name} is empty")
    value = float(text)
    if abs(value) > MOST_VALUE:
        raise at_line(path, line, f"{name} is {text}, of a magnitude above {MOST_VALUE:,.0f}")
    return value


def read_row(path, line, names, fields):
    if len(fields) != len(names):
        raise at_line(path, line, f"{len(fields)} fields, but the header has {len(names)}")
    check_text(path, line, f"the label ({names[-1]})", fields[-1])
    values = tuple(read_value(path, line, name, text) for name, text in zip(names, fields[:-1]))
    return TableRow(line, values, fields[-1])


def check_size(path, rows, labels, columns):
    """Refuses at the row with which the table becomes too large."""
    line = rows[-1].line
    if len(rows) > MOST_READ:
        raise at_line(path, line, f"more than {MOST_READ:,} rows")
    if len(rows) * columns > MOST_CELLS:
        raise at_line(path, line, f"more than {MOST_CELLS:,} cells (rows times columns of measurements)")
    if len(labels) > MOST_LABELS:
        raise at_line(path, line, f"{rows[-1].label!r} is label number {len(labels)}; a sheet has at most {MOST_LABELS}")


def read_table(path):
    records = read_records(path)
    line, names = next(records, (1, None))
    if names is None:
        raise at_line(path, line, "no header")
    check_header(path, line, names)
    rows, labels = [], set()
    for row_line, fields in records:
        rows.append(read_row(path, row_line, names, fields))
        labels.add(rows[-1].label)
        check_size(path, rows, labels, len(names) - 1)
    if not rows:
        raise at_line(path, line, "no row after the header")
    return Table(names[:-1], names[-1], rows)


def write_table(file, sheet, names):
    """A sheet's table, each number as the shortest decimal that is it, so that it packs to the same bytes again."""
    writer = csv.writer(file, lineterminator="\n")
    writer.writerow([*names.columns, names.label])
    for row in sheet.rows:
        writer.writerow([*map(repr, row.values), names.labels[row.code]])
