"""Queries as PostgreSQL's SQL, nested as they are: an Apply is LATERAL, EXISTS or a quantified comparison.

Each line becomes one SELECT with the columns c0, c1 and so on. Where a line is read, it stands in FROM under an alias of its own, l with its
number, so that a column of the context is a column of an alias further out. Every cell is a bigint.
"""
from model import own_widths

AGGREGATES = {
    "rows": "count(*)",
    "filled": "count(k)",
    "sum": "coalesce(sum(k), 0)::bigint",
    "least": "min(k)",
    "greatest": "max(k)",
}
NULL = "NULL::bigint"


def constant(value):
    return f"({value})::bigint"


def cell(value):
    return NULL if value is None else constant(value)


def truth(condition):
    """A truth value as a cell: 1, 0, or NULL for unknown."""
    return f"CASE WHEN {condition} THEN {constant(1)} WHEN NOT {condition} THEN {constant(0)} END"


def listed(columns):
    """A list of SELECT in which the columns are named c0, c1 and so on."""
    return ", ".join(f"{column} AS c{place}" for place, column in enumerate(columns))


def alike(left, right):
    """Whether columns are the same one by one, NULL as NULL."""
    return " AND ".join(f"{one} IS NOT DISTINCT FROM {other}" for one, other in zip(left, right)) or "true"


class Translation:
    """Translates the lines of one query."""

    def __init__(self, lines, table_widths):
        self.lines = lines
        self.widths = own_widths(lines, table_widths)

    def columns(self, line):
        """The columns of a line under its alias."""
        return [f"l{line}.c{place}" for place in range(self.widths[line])]

    def named(self, line, context):
        """A line as a part of FROM."""
        return f"({self.rows(line, context)}) AS l{line}"

    def rows(self, at, context):
        """The SELECT of a line, where `context` has the columns of its context."""
        kind, operands, details = self.lines[at]
        if kind == "table":
            return f"SELECT {listed(self.columns(at))} FROM t{details[0]} AS l{at}"
        if kind == "unit":
            return f"SELECT {constant(0)} AS c0"
        if kind in ("union", "diff"):
            word = "UNION ALL" if kind == "union" else "EXCEPT ALL"
            return f"({self.rows(operands[0], context)}) {word} ({self.rows(operands[1], context)})"
        if kind.startswith("apply"):
            return self.apply(at, context)
        if kind.endswith("match"):
            return self.matching(at, context)
        return self.single(at, context)

    def single(self, at, context):
        """A line with one operand that gives it rows."""
        kind, operands, details = self.lines[at]
        own = self.columns(operands[0])
        long_row = context + own
        source = self.named(operands[0], context)
        match kind:
            case "select":
                return f"SELECT {listed(own)} FROM {source} WHERE {self.condition(operands[1], long_row)}"
            case "keep":
                head, tail = details
                return f"SELECT {listed(own[:head] + own[len(own) - tail:])} FROM {source}"
            case "extend column":
                return f"SELECT {listed(own + [long_row[details[0]]])} FROM {source}"
            case "extend constant":
                return f"SELECT {listed(own + [constant(details[0])])} FROM {source}"
            case "extend truth":
                return f"SELECT {listed(own + [truth(self.condition(operands[1], long_row))])} FROM {source}"
            case "pad":
                return f"SELECT {listed(own + [NULL] * details[0])} FROM {source}"
            case "distinct":
                return f"SELECT DISTINCT {listed(own)} FROM {source}"
            case "group":
                keys, aggregate, column = details
                return self.grouped(at, own[:keys], aggregate, long_row[column], source)
            case "total":
                aggregate, column = details
                return self.grouped(at, [], aggregate, long_row[column], source)
        raise ValueError(kind)

    def grouped(self, at, keys, aggregate, column, source):
        """An aggregate over column k of a row of keys and that column. SQL would take an aggregate over a column of the context alone for
        one of the outer SELECT."""
        inner = listed(keys) + ", " * bool(keys) + f"{column} AS k"
        names = [f"g{at}.c{place}" for place in range(len(keys))]
        by = f" GROUP BY {', '.join(names)}" if names else ""
        return f"SELECT {listed(names + [AGGREGATES[aggregate]])} FROM (SELECT {inner} FROM {source}) AS g{at}{by}"

    def matching(self, at, context):
        kind, (left, right), (shared,) = self.lines[at]
        own, other = self.columns(left), self.columns(right)
        same = alike(own[:shared], other[:shared])
        first, second = self.named(left, context), self.named(right, context)
        if kind == "match":
            return f"SELECT {listed(own + other[shared:])} FROM {first} JOIN {second} ON {same}"
        word = "EXISTS" if kind == "semimatch" else "NOT EXISTS"
        return f"SELECT {listed(own)} FROM {first} WHERE {word} (SELECT 1 FROM {second} WHERE {same})"

    def apply(self, at, context):
        kind, (left, right), details = self.lines[at]
        own, other = self.columns(left), self.columns(right)
        first, inside = self.named(left, context), context + own
        match kind:
            case "apply cross":
                return f"SELECT {listed(own + other)} FROM {first} CROSS JOIN LATERAL {self.named(right, inside)}"
            case "apply outer":
                return f"SELECT {listed(own + other)} FROM {first} LEFT JOIN LATERAL {self.named(right, inside)} ON true"
            case "apply semi":
                return f"SELECT {listed(own)} FROM {first} WHERE EXISTS ({self.rows(right, inside)})"
            case "apply anti":
                return f"SELECT {listed(own)} FROM {first} WHERE NOT EXISTS ({self.rows(right, inside)})"
        sign, column = details
        word = "SOME" if kind == "apply some" else "ALL"
        quantified = f"({inside[column]} {sign} {word} ({self.rows(right, inside)}))"
        return f"SELECT {listed(own + [f'{quantified}::int::bigint'])} FROM {first}"

    def condition(self, at, long_row):
        """A condition over the columns of a long row."""
        kind, operands, details = self.lines[at]
        parts = [self.condition(part, long_row) for part in operands]
        match kind:
            case "compare":
                left, right = self.side(*details[:2], long_row), self.side(*details[3:], long_row)
                return f"({left} {details[2]} {right})"
            case "isnull":
                return f"({long_row[details[0]]} IS NULL)"
            case "not":
                return f"(NOT {parts[0]})"
            case "unknown":
                return f"({parts[0]} IS UNKNOWN)"
            case "and" | "or":
                return f"({parts[0]} {kind.upper()} {parts[1]})"
        raise ValueError(kind)

    def side(self, form, value, long_row):
        return long_row[value] if form == "column" else constant(value)


def query_text(lines, table_widths):
    """A query as one statement."""
    return Translation(lines, table_widths).rows(len(lines) - 1, []) + ";"


def creation(number, width):
    return f"CREATE TEMP TABLE t{number} ({', '.join(f'c{place} bigint' for place in range(width))}) ON COMMIT DROP;"


def filling(number, rows):
    """The setting of a table's rows, whatever it had."""
    text = f"DELETE FROM t{number};"
    if rows:
        text += f" INSERT INTO t{number} VALUES {', '.join(f'({listed_cells(row)})' for row in rows)};"
    return text


def listed_cells(row):
    return ", ".join(map(cell, row))


def settings(tables, last=None):
    """Statements that set tables to their rows: where there are no last ones, tables are made, and else those changed that differ."""
    statements = []
    for number, table in enumerate(tables):
        if last is None:
            statements.append(creation(number, table.width))
        if table.rows != (last[number].rows if last else []):
            statements.append(filling(number, table.rows))
    return statements
