"""Random stocks, and random queries that the engine's check accepts by the way they are made."""
from typing import NamedTuple

from model import AGGREGATES, APPLIES, SIGNS, Line
from tables import Table

MOST_LINES = 32
MOST_COLUMNS = 32
MOST_WIDE = 8
MOST_TABLES = 16
DEEPEST = 4
EXTREMES = (-2147483648, -2147483647, 2147483646, 2147483647)

# how often a kind is chosen, where it fits
WEIGHTS = {
    "select": 5, "keep": 1, "extend column": 2, "extend constant": 1, "extend truth": 2, "pad": 1, "match": 2.5, "semimatch": 1.5,
    "antimatch": 1.5, "union": 2.5, "diff": 2, "distinct": 1.5, "group": 2, "total": 2, "apply cross": 4, "apply outer": 4,
    "apply semi": 2, "apply anti": 2, "apply some": 3.5, "apply all": 3.5,
}
LEAST_ROOM = dict.fromkeys(WEIGHTS, 3) | dict.fromkeys(("keep", "extend column", "extend constant", "pad", "distinct", "group", "total"), 2)


class Node(NamedTuple):
    """A line with the lines below it. The marks say of each own column whether it comes from a sum; conditions have none."""

    kind: str
    operands: tuple
    details: tuple
    marks: tuple = ()

    @property
    def width(self):
        return len(self.marks)

    @property
    def size(self):
        return 1 + sum(operand.size for operand in self.operands)


# Stocks


def random_cell(dice):
    chance = dice.random()
    if chance < 0.2:
        return None
    return dice.choice(EXTREMES) if chance < 0.22 else dice.randrange(5) - dice.randrange(2)


def random_row(dice, width):
    return tuple(random_cell(dice) for _ in range(width))


def random_table(dice):
    """A table of few rows, some of them equal, often of one to three columns. Few tables have more rows."""
    width = dice.randint(1, MOST_WIDE) if dice.random() < 0.15 else dice.randint(1, 3)
    count = dice.choices((0, dice.randint(1, 6), dice.randint(20, 60)), (10, 88, 2))[0]
    rows = []
    for _ in range(count):
        rows.append(dice.choice(rows) if rows and dice.random() < 0.25 else random_row(dice, width))
    return Table(width, rows)


def random_stock(dice):
    count = dice.choice((0, 1, MOST_TABLES)) if dice.random() < 0.06 else dice.randint(1, 5)
    return [random_table(dice) for _ in range(count)]


# Queries


class Maker:
    """Makes random trees of lines over tables of given widths."""

    def __init__(self, dice, table_widths):
        self.dice = dice
        self.table_widths = table_widths

    def query(self):
        """The lines of a query."""
        room = MOST_LINES if self.dice.random() < 0.1 else min(MOST_LINES, self.dice.randint(1, 6) + int(self.dice.expovariate(1 / 10)))
        return numbered(self.dice, self.rows(room, (), 0))

    def rows(self, room, context, depth):
        """Lines with rows, at most `room` of them, in a context with these marks, inside so many Applies."""
        if room > 1 and self.dice.random() < 0.97:
            kinds = [kind for kind in WEIGHTS if room >= LEAST_ROOM[kind] and (depth < DEEPEST or kind not in APPLIES)]
            kind = self.dice.choices(kinds, [WEIGHTS[kind] for kind in kinds])[0]
            return self.apply(kind, room, context, depth) if kind in APPLIES else self.plain(kind, room, context, depth)
        return self.leaf(context)

    def leaf(self, context):
        fitting = [table for table, width in enumerate(self.table_widths) if len(context) + width <= MOST_COLUMNS]
        if fitting and self.dice.random() < 0.93:
            table = self.dice.choice(fitting)
            return Node("table", (), (table,), (False,) * self.table_widths[table])
        return Node("unit", (), (), (False,))

    def narrow_leaf(self):
        """A leaf of one column."""
        fitting = [table for table, width in enumerate(self.table_widths) if width == 1]
        if fitting:
            return Node("table", (), (self.dice.choice(fitting),), (False,))
        return Node("unit", (), (), (False,))

    def plain(self, kind, room, context, depth):
        """A line of a kind that is not an Apply; where it would be too long, its first operand alone."""
        match kind:
            case "select" | "extend truth":
                return self.tested(kind, room, context, depth)
            case "match" | "semimatch" | "antimatch":
                return self.matching(kind, room, context, depth)
            case "union" | "diff":
                return self.paired(kind, room, context, depth)
        below = self.rows(room - 1, context, depth)
        spare = MOST_COLUMNS - len(context) - below.width
        match kind:
            case "keep":
                return self.kept(below)
            case "distinct":
                return Node(kind, (below,), (), below.marks)
            case "group":
                return self.grouped(below, context)
            case "total":
                aggregate, column, mark = self.aggregate(context + below.marks, below.width)
                return Node(kind, (below,), (aggregate, column), (mark,))
        if spare == 0:
            return below
        match kind:
            case "extend column":
                column = self.column(context + below.marks, below.width)
                return Node(kind, (below,), (column,), below.marks + ((context + below.marks)[column],))
            case "extend constant":
                return Node(kind, (below,), (self.constant(),), below.marks + (False,))
            case "pad":
                nulls = self.dice.choice((1, 1, 2, 2, 3, self.dice.randint(1, spare), spare))
                nulls = min(nulls, spare)
                return Node(kind, (below,), (nulls,), below.marks + (False,) * nulls)
        raise ValueError(kind)

    def tested(self, kind, room, context, depth):
        tests = self.dice.randint(1, min(room - 2, 5))
        below = self.rows(room - 1 - tests, context, depth)
        if kind == "extend truth" and len(context) + below.width == MOST_COLUMNS:
            return below
        test = self.condition(tests, context + below.marks, below.width)
        return Node(kind, (below, test), (), below.marks + (False,) * (kind == "extend truth"))

    def kept(self, below):
        count = self.dice.randint(1, below.width)
        head = self.dice.randint(0, count)
        marks = below.marks[:head] + below.marks[below.width - (count - head):]
        return Node("keep", (below,), (head, count - head), marks)

    def grouped(self, below, context):
        most = min(below.width, MOST_COLUMNS - len(context) - 1)
        if most == 0:
            return below
        keys = self.dice.randint(1, most)
        aggregate, column, mark = self.aggregate(context + below.marks, below.width)
        return Node("group", (below,), (keys, aggregate, column), below.marks[:keys] + (mark,))

    def matching(self, kind, room, context, depth):
        left, right = self.two(room - 1, context, depth)
        least = 0
        if kind == "match":
            least = max(0, len(context) + left.width + right.width - MOST_COLUMNS)
        most = min(left.width, right.width)
        if least > most:
            return left
        shared = self.dice.choice((least, most, self.dice.randint(least, most), max(least, min(most, 1))))
        rest = right.marks[shared:] if kind == "match" else ()
        return Node(kind, (left, right), (shared,), left.marks + rest)

    def paired(self, kind, room, context, depth):
        """A Union or a Diff: of equal leaves, of an operand and part of the same rows, or with a line more where widths differ."""
        if room == 3:
            left, right = self.leaf(context), self.leaf(context)
            if left.width != right.width:
                right = Node(*left)
        elif room > 4 and self.dice.random() < 0.4:
            left = self.rows((room - 3) // 2, context, depth)
            right = self.part(left, context)
        else:
            left, right = self.two(room - 2, context, depth)
            right = self.as_wide(right, left.width)
        marks = left.marks
        if kind == "union":
            marks = tuple(one or other for one, other in zip(left.marks, right.marks))
        return Node(kind, (left, right), (), marks)

    def part(self, node, context):
        """Some of the rows of a node, read from a copy of it."""
        copy = copied(node)
        if self.dice.random() < 0.4:
            return Node("distinct", (copy,), (), node.marks)
        return Node("select", (copy, self.condition(1, context + node.marks, node.width)), (), node.marks)

    def two(self, room, context, depth):
        """Two operands in one context."""
        share = self.dice.randint(1, room - 1)
        return self.rows(share, context, depth), self.rows(room - share, context, depth)

    def as_wide(self, node, width):
        """The node, or a line that cuts or pads it to a width."""
        if node.width > width:
            head = self.dice.randint(0, width)
            return Node("keep", (node,), (head, width - head), node.marks[:head] + node.marks[node.width - (width - head):])
        if node.width < width:
            return Node("pad", (node,), (width - node.width,), node.marks + (False,) * (width - node.width))
        return node

    def apply(self, kind, room, context, depth):
        """An Apply; where no column is left for the right operand, its left operand alone."""
        share = self.dice.randint(1, min(room - 2, 12))
        left = self.rows(share, context, depth)
        inside = context + left.marks
        if len(inside) == MOST_COLUMNS:
            return left
        rest = room - 1 - share
        match kind:
            case "apply cross" | "apply outer":
                right = self.rows(rest, inside, depth + 1)
                return Node(kind, (left, right), (), left.marks + right.marks)
            case "apply semi" | "apply anti":
                return Node(kind, (left, self.rows(rest, inside, depth + 1)), (), left.marks)
        right = self.as_wide(self.rows(rest - 1, inside, depth + 1), 1) if rest > 1 else self.narrow_leaf()
        details = (self.sign(), self.column(inside, left.width))
        return Node(kind, (left, right), details, left.marks + (False,))

    def condition(self, room, marks, width):
        """A condition of at most `room` lines over a long row, of which the last `width` columns are the row's own."""
        if room == 1:
            if self.dice.random() < 0.12:
                return Node("isnull", (), (self.column(marks, width),))
            return Node("compare", (), (*self.side(marks, width), self.sign(), *self.side(marks, width)))
        if room == 2 or self.dice.random() < 0.3:
            return Node(self.dice.choice(("not", "unknown")), (self.condition(room - 1, marks, width),), ())
        share = self.dice.randint(1, room - 2)
        parts = self.condition(share, marks, width), self.condition(room - 1 - share, marks, width)
        return Node(self.dice.choice(("and", "or")), parts, ())

    def side(self, marks, width):
        if self.dice.random() < 0.25:
            return "constant", self.constant()
        return "column", self.column(marks, width)

    def column(self, marks, width):
        """A column of a long row: one of its own columns, or else of the context."""
        context = len(marks) - width
        if context and self.dice.random() < 0.45:
            return self.dice.randrange(context)
        return context + self.dice.randrange(width)

    def aggregate(self, marks, width):
        """An aggregate, its column, and whether what it gives comes from a sum. What comes from a sum is not summed."""
        column = self.column(marks, width)
        aggregate = self.dice.choice([one for one in AGGREGATES if one != "sum" or not marks[column]])
        return aggregate, column, aggregate == "sum" or (marks[column] and aggregate in ("least", "greatest"))

    def sign(self):
        return self.dice.choice(("=", "=", *SIGNS))

    def constant(self):
        return self.dice.choice(EXTREMES) if self.dice.random() < 0.05 else self.dice.randrange(-2, 6)


def copied(node):
    return Node(node.kind, tuple(map(copied, node.operands)), node.details, node.marks)


def numbered(dice, root):
    """A tree as lines in an order in which operands come first: left to right, or any such order."""
    order = in_any_order(dice, root) if dice.random() < 0.5 else in_plain_order(root)
    numbers = {id(node): number for number, node in enumerate(order)}
    return [Line(node.kind, tuple(numbers[id(operand)] for operand in node.operands), node.details) for node in order]


def in_plain_order(node):
    return [below for operand in node.operands for below in in_plain_order(operand)] + [node]


def in_any_order(dice, root):
    """Backwards from the end, each time a node whose reader has its place."""
    order, open_nodes = [], [root]
    while open_nodes:
        node = open_nodes.pop(dice.randrange(len(open_nodes)))
        order.append(node)
        open_nodes += node.operands
    return order[::-1]


def random_query(dice, table_widths):
    """The lines of a random query over tables of these widths."""
    return Maker(dice, table_widths).query()
