"""A sheet's bytes as document 01 has them: a header marked HD, then the rows, each marked RW, with a label's code and its values.

They are checked as the finder checks them, so that what it would refuse is known here by the same number and place.
"""
import collections
import math
import struct

# The limits of a sheet, and those of the program that reads one.
MOST_ROWS, MOST_COLUMNS, MOST_LABELS = 4096, 16, 32
MOST_READ, MOST_CELLS = 2048, 8192
MOST_VALUE = 1e12
# MOST_ERROR holds for the gap, the starting error and the bound.
MOST_SUPPORT, MOST_ERROR = 4096, 1_000_000

# Document 01's numbers of the reasons for which a reader refuses.
SIZE_OUTSIDE, TERM_ABOVE, VALUE_OUTSIDE, LABEL_HIGH = 1, 4, 5, 6
HEAD_WRONG, SHEET_LARGE, ROW_WRONG, BYTES_LEFT = 20, 21, 22, 23

HEAD_MARK, ROW_MARK = b"HD", b"RW"
HEAD = struct.Struct("<2sHBBHIII")
ROW_FIXED = struct.Struct("<2sB")
VALUE = struct.Struct("<d")

Head = collections.namedtuple("Head", "rows columns labels support gap error bound")
Row = collections.namedtuple("Row", "code values")
Sheet = collections.namedtuple("Sheet", "head rows")
Refused = collections.namedtuple("Refused", "number place")


class BadSheet(Exception):
    """Bytes that the finder refuses; it carries the number and the place."""

    def __init__(self, number, place=0):
        super().__init__(number, place)
        self.refused = Refused(number, place)


def sheet_of(table, names, terms):
    """The table's sheet, its labels coded in the names' order. With no starting error given, it is that of the commonest label alone."""
    code = {label: number for number, label in enumerate(names.labels)}
    error = len(table.rows) - max(names.counts) if terms.error is None else terms.error
    head = Head(len(table.rows), len(table.columns), len(names.labels), terms.support, terms.gap, error, terms.bound)
    return Sheet(head, [Row(code[row.label], row.values) for row in table.rows])


def values_format(head):
    return struct.Struct(f"<{head.columns}d")


def bytes_of(sheet):
    values = values_format(sheet.head)
    rows = (ROW_FIXED.pack(ROW_MARK, row.code) + values.pack(*row.values) for row in sheet.rows)
    return HEAD.pack(HEAD_MARK, *sheet.head) + b"".join(rows)


def read_head(data):
    if len(data) < HEAD.size or not data.startswith(HEAD_MARK):
        raise BadSheet(HEAD_WRONG)
    return Head(*HEAD.unpack_from(data)[1:])


def row_size(head):
    return ROW_FIXED.size + VALUE.size * head.columns


def row_start(head, row):
    return HEAD.size + row * row_size(head)


def code_start(head, row):
    return row_start(head, row) + len(ROW_MARK)


def value_start(head, column, row):
    return row_start(head, row) + ROW_FIXED.size + VALUE.size * column


def row_at(data, head, row):
    record = data[row_start(head, row):row_start(head, row + 1)]
    if len(record) < row_size(head) or not record.startswith(ROW_MARK):
        raise BadSheet(ROW_WRONG, row)
    _, code = ROW_FIXED.unpack_from(record)
    return Row(code, values_format(head).unpack_from(record, ROW_FIXED.size))


def outside_limits(head):
    return not (1 <= head.rows <= MOST_ROWS and 1 <= head.columns <= MOST_COLUMNS and 1 <= head.labels <= MOST_LABELS)


def terms_above(head):
    return head.support > MOST_SUPPORT or max(head.gap, head.error, head.bound) > MOST_ERROR


def check_cells(sheet):
    for column in range(sheet.head.columns):
        for row, (_, values) in enumerate(sheet.rows):
            if not math.isfinite(values[column]) or abs(values[column]) > MOST_VALUE:
                raise BadSheet(VALUE_OUTSIDE, column * sheet.head.rows + row)
    for row, (code, _) in enumerate(sheet.rows):
        if code >= sheet.head.labels:
            raise BadSheet(LABEL_HIGH, row)


def read_sheet(data):
    """The sheet in these bytes, checked as the finder does, in its order: 20, 1, 21, 22, 23, 4, 5, 6."""
    head = read_head(data)
    if outside_limits(head):
        raise BadSheet(SIZE_OUTSIDE)
    if head.rows > MOST_READ or head.rows * head.columns > MOST_CELLS:
        raise BadSheet(SHEET_LARGE)
    sheet = Sheet(head, [row_at(data, head, row) for row in range(head.rows)])
    if len(data) > row_start(head, head.rows):
        raise BadSheet(BYTES_LEFT)
    if terms_above(head):
        raise BadSheet(TERM_ABOVE)
    check_cells(sheet)
    return sheet
