"""A listing in plain words: a sentence for each leaf of a rule, that no rule was found, or why a sheet was refused.

Nothing is told of a rule that the sheet's own rows do not bear out: each leaf's mistakes are counted again from them.
"""
import os

from masking.files import Refusal, read_bytes
from masking.listing import Found, Leaf
from masking.names import check_belongs, numbers_for_names
from masking.sheet_bytes import (
    BYTES_LEFT, HEAD, HEAD_MARK, HEAD_WRONG, LABEL_HIGH, MOST_CELLS, MOST_COLUMNS, MOST_ERROR, MOST_LABELS, MOST_READ, MOST_ROWS, MOST_SUPPORT,
    MOST_VALUE, ROW_MARK, ROW_WRONG, SHEET_LARGE, SIZE_OUTSIDE, TERM_ABOVE, VALUE, VALUE_OUTSIDE, BadSheet, Refused, code_start, read_head,
    read_sheet, row_start, value_start)

# How many wrong rows a sentence names.
MOST_NAMED = 5


# ---- a rule in words


def leaves_of(tree, path=()):
    """Each leaf with the questions on its way: column, threshold, whether the answer is yes."""
    if isinstance(tree, Leaf):
        yield path, tree
        return
    yield from leaves_of(tree.left, path + ((tree.column, tree.threshold, True),))
    yield from leaves_of(tree.right, path + ((tree.column, tree.threshold, False),))


def reaches(path, row):
    return all((row.values[column] <= threshold) == yes for column, threshold, yes in path)


def number_text(value):
    """The shortest decimal that is this double; the two zeros are one value."""
    text = repr(value + 0.0)
    return text[:-2] if text.endswith(".0") else text


def condition(name, questions):
    """What the questions about one column come to."""
    most = min((threshold for threshold, yes in questions if yes), default=None)
    least = max((threshold for threshold, yes in questions if not yes), default=None)
    if least is None:
        return f"{name} ≤ {number_text(most)}"
    if most is None:
        return f"{name} > {number_text(least)}"
    return f"{number_text(least)} < {name} ≤ {number_text(most)}"


def conditions(path, names):
    asked = {}
    for column, threshold, yes in path:
        asked.setdefault(column, []).append((threshold, yes))
    return " and ".join(condition(names.columns[column], questions) for column, questions in asked.items())


def some_of(lines):
    named = ", ".join(str(line) for line in lines[:MOST_NAMED])
    more = f" and {len(lines) - MOST_NAMED} more" if len(lines) > MOST_NAMED else ""
    return f"line{'s' if len(lines) > 1 else ''} {named}{more}"


def leaf_sentence(path, leaf, sheet, names):
    """One leaf in words. Its mistakes are counted from the rows, and must be those that the listing tells."""
    reached = [number for number, row in enumerate(sheet.rows) if reaches(path, row)]
    wrong = [names.lines[number] for number in reached if sheet.rows[number].code != leaf.label]
    if len(wrong) != leaf.error:
        raise Refusal(f"the listing is not of this sheet: it tells {leaf.error} wrong where the rows have {len(wrong)}: if {conditions(path, names)}")
    where = f": {some_of(wrong)}" if wrong else ""
    return f"if {conditions(path, names)}: {names.label} {names.labels[leaf.label]} ({len(wrong)} of {len(reached)} wrong{where})"


def check_codes(tree, head):
    leaves = list(leaves_of(tree))
    columns = {column for path, _ in leaves for column, _, _ in path}
    if max(columns) >= head.columns or max(leaf.label for _, leaf in leaves) >= head.labels:
        raise Refusal("the listing is not of this sheet: it names a column or a label that the sheet does not have")


def nothing_better(error, head):
    """The certificate's first sentence for this sheet, where it says something."""
    least = min(error, head.bound) - head.gap
    if head.support > 1 or least < 1:
        return []
    return [f"No rule of this kind whose first question leaves rows on both sides makes fewer than {least} mistakes on these rows."]


def explain_found(found, sheet, names):
    check_codes(found.tree, sheet.head)
    sentences = [leaf_sentence(path, leaf, sheet, names) for path, leaf in leaves_of(found.tree)]
    if found.error != sum(leaf.error for _, leaf in leaves_of(found.tree)):
        raise Refusal("the listing is not of this sheet: its leaves' errors do not add up to its error")
    first = f"A rule was found that names {found.error} of {sheet.head.rows} rows wrongly (cuts tried: {found.tried}):"
    return [first, *sentences, *nothing_better(found.error, sheet.head)]


def explain_kept(kept, sheet, names):
    if kept.error != sheet.head.error:
        raise Refusal("the listing is not of this sheet: it keeps an error that is not the sheet's starting error")
    most = max(names.counts)
    commonest = names.labels[names.counts.index(most)]
    first = f"No rule was found that names fewer than {kept.error} of {sheet.head.rows} rows wrongly (cuts tried: {kept.tried})."
    always = f"Always {names.label} {commonest}, the commonest, names {sheet.head.rows - most} wrongly."
    return [first, always, *nothing_better(kept.error, sheet.head)]


# ---- a refusal in words


# Document 01's reasons that the finder does not give; the functions that it is made of do.
LENGTH_WRONG, SCRATCH_SHORT, ORDER_WRONG, VALUE_FALLS, CUTS_WRONG = 2, 3, 7, 8, 9
COLUMN_HIGH, LEAF_HIGH, THRESHOLD_ENDLESS = 10, 11, 12

REASONS = {
    SIZE_OUTSIDE: f"the number of rows, columns or labels is outside its limits (1 to {MOST_ROWS:,}, 1 to {MOST_COLUMNS}, 1 to {MOST_LABELS})",
    LENGTH_WRONG: "an input list has the wrong length",
    SCRATCH_SHORT: "the scratch memory is too short, or a list for the preparer has the wrong length",
    TERM_ABOVE: f"support is above {MOST_SUPPORT:,}, or gap, error or bound above {MOST_ERROR:,}",
    VALUE_OUTSIDE: f"a value is not finite, or of a magnitude above {MOST_VALUE:,.0f}",
    LABEL_HIGH: "a label's code is too high",
    ORDER_WRONG: "an entry of the order list is not below the number of rows, or names a row met before in its column",
    VALUE_FALLS: "a sorted value is below the one before it",
    CUTS_WRONG: "a column's count or cuts are not exactly its value changes",
    COLUMN_HIGH: "a question of the rule asks a column that is not there",
    LEAF_HIGH: "a leaf of the rule has a label that is not there",
    THRESHOLD_ENDLESS: "a threshold of the rule is not finite",
    HEAD_WRONG: "the header is short, or does not begin with HD",
    SHEET_LARGE: f"more than {MOST_READ:,} rows or {MOST_CELLS:,} cells",
    ROW_WRONG: "a row is short, or does not begin with RW",
    BYTES_LEFT: "further bytes follow the last row",
}
QUESTIONS = {0: "the rule's first question", 1: "the left side's question", 2: "the right side's question"}
SIDES = {1: "the left side", 2: "the right side"}


class Scene:
    """What a refusal is explained from: the names, or None, and the sheet's bytes, or none."""

    def __init__(self, names, data):
        self.names, self.data = names, data
        try:
            self.head = read_head(data)
        except BadSheet:
            self.head = None

    def rows(self):
        return self.head.rows if self.head else len(self.names.lines)

    def column_and_rest(self, place):
        """Places of cells count column by column; a header that tells no rows divides by none."""
        return divmod(place, max(self.rows(), 1))

    def column(self, number):
        if self.names is None or number >= len(self.names.columns):
            return f"column {number}"
        return self.names.columns[number]

    def row(self, number):
        told = f"row {number} counted from 0"
        if self.names is None:
            return told
        lines = self.names.lines
        return f"{told}, " + (f"{self.names.csv} line {lines[number]}" if number < len(lines) else f"no row of {self.names.csv}")

    def cell(self, place):
        column, row = self.column_and_rest(place)
        return f"{self.column(column)} in {self.row(row)}"

    def sorted_cell(self, place):
        column, rank = self.column_and_rest(place)
        return f"sorted place {rank} of {self.column(column)}"

    def question(self, place):
        return QUESTIONS.get(place, "no question of a rule")

    def side(self, place):
        return SIDES.get(place, "no side of a rule")


PLACES = {
    VALUE_OUTSIDE: Scene.cell,
    LABEL_HIGH: Scene.row,
    ORDER_WRONG: Scene.sorted_cell,
    VALUE_FALLS: Scene.sorted_cell,
    CUTS_WRONG: Scene.column,
    COLUMN_HIGH: Scene.question,
    LEAF_HIGH: Scene.side,
    THRESHOLD_ENDLESS: Scene.question,
    ROW_WRONG: Scene.row,
}


def told_header(scene, place):
    if len(scene.data) < HEAD.size:
        return f"The sheet has {len(scene.data)} bytes, and a header {HEAD.size}."
    return f"The sheet begins with {scene.data[:len(HEAD_MARK)]!r}."


def told_size(scene, place):
    head = scene.head
    return head and f"The header tells {head.rows} rows, {head.columns} columns, {head.labels} labels."


def told_terms(scene, place):
    head = scene.head
    return head and f"The header tells support {head.support}, gap {head.gap}, error {head.error}, bound {head.bound}."


def told_value(scene, place):
    start = scene.head and value_start(scene.head, *scene.column_and_rest(place))
    if not start or start + VALUE.size > len(scene.data):
        return None
    return f"The value there is {VALUE.unpack_from(scene.data, start)[0]!r}."


def told_code(scene, place):
    start = scene.head and code_start(scene.head, place)
    if not start or start >= len(scene.data):
        return None
    return f"The code there is {scene.data[start]}, and the sheet has {scene.head.labels} labels, coded from 0."


def told_row(scene, place):
    if not scene.head:
        return None
    start, end = row_start(scene.head, place), row_start(scene.head, place + 1)
    if len(scene.data) < end:
        return f"The sheet ends {end - len(scene.data)} bytes before that row does."
    return f"That row begins with {scene.data[start:start + len(ROW_MARK)]!r}."


def told_rest(scene, place):
    rest = scene.head and len(scene.data) - row_start(scene.head, scene.head.rows)
    return rest and f"There are {rest} bytes too many."


DETAILS = {
    SIZE_OUTSIDE: told_size,
    TERM_ABOVE: told_terms,
    VALUE_OUTSIDE: told_value,
    LABEL_HIGH: told_code,
    HEAD_WRONG: told_header,
    SHEET_LARGE: told_size,
    ROW_WRONG: told_row,
    BYTES_LEFT: told_rest,
}


def explain_refused(refused, names, data):
    """A refusal in words; what the sheet's bytes show at the place is told where there are bytes."""
    number, place = refused
    scene = Scene(names, data or b"")
    lines = [f"The sheet was refused, reason {number}: {REASONS.get(number, 'no reason known by this number')}."]
    if number in PLACES:
        lines.append(f"Place {place} is {PLACES[number](scene, place)}.")
    detail = DETAILS[number](scene, place) if data is not None and number in DETAILS else None
    return lines + [detail] if detail else lines


# ---- a sheet's file, and any answer about it


def load_sheet(path, names):
    """The sheet of a file with its names, or numbers for names where none are given; bytes that are no sheet are refused in words."""
    data = read_bytes(path)
    try:
        sheet = read_sheet(data)
    except BadSheet as bad:
        raise Refusal(f"{path}: " + " ".join(explain_refused(bad.refused, names, data))) from None
    if names is None:
        return sheet, numbers_for_names(sheet.head)
    check_belongs(path, sheet, names)
    return sheet, names


def explain_answer(answer, names, path):
    """The lines that tell what the finder answered to the sheet in a file. A refusal is told without the file too, if it is not there."""
    if isinstance(answer, Refused):
        return explain_refused(answer, names, read_bytes(path) if os.path.exists(path) else None)
    sheet, names = load_sheet(path, names)
    return (explain_found if isinstance(answer, Found) else explain_kept)(answer, sheet, names)
