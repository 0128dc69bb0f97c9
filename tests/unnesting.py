"""The model's flat plans."""
from model import APPLIES, Line, aggregated, own_widths, rows_operands


class Unnesting:
    """Writes the flat lines of a query, operands first and left before right."""

    def __init__(self, lines, table_widths):
        self.lines = lines
        self.widths = own_widths(lines, table_widths)
        self.flat = []

    def write(self, kind, operands=(), details=()):
        """One more flat line; its number."""
        self.flat.append(Line(kind, operands, details))
        return len(self.flat) - 1

    def condition(self, number):
        kind, operands, details = self.lines[number]
        return self.write(kind, tuple(self.condition(part) for part in operands), details)

    def rows(self, number, columns=0, domain=None):
        """The flat line of a line in a context of so many columns, whose rows, each once, are the domain line's."""
        line = self.lines[number]
        kind, operands, details = line
        if kind in APPLIES:
            return self.apply(line, columns, domain)
        flat = tuple(self.rows(operand, columns, domain) for operand in rows_operands(line))
        flat += tuple(self.condition(part) for part in operands[len(flat):])
        if domain is not None:
            match kind:
                case "table" | "unit":
                    return self.write("match", (domain, self.write(kind, (), details)), (0,))
                case "keep" | "match" | "semimatch" | "antimatch" | "group":
                    details = (columns + details[0], *details[1:])
                case "total":
                    return self.total(*details, flat[0], columns, domain)
        return self.write(kind, flat, details)

    def total(self, aggregate, column, operand, columns, domain):
        """A group for each context row, and the aggregate over no rows where there is none."""
        groups = self.write("group", (operand,), (columns, aggregate, column))
        missed = self.write("antimatch", (domain, operand), (columns,))
        nothing = aggregated(aggregate, [])
        if nothing is None:
            missed = self.write("pad", (missed,), (1,))
        else:
            missed = self.write("extend constant", (missed,), (nothing,))
        return self.write("union", (groups, missed))

    def apply(self, line, columns, domain):
        left = self.rows(line.operands[0], columns, domain)
        wide = columns + self.widths[line.operands[0]]
        inside = self.write("distinct", (left,))
        right = self.rows(line.operands[1], wide, inside)
        match line.kind:
            case "apply cross":
                return self.write("match", (left, right), (wide,))
            case "apply semi":
                return self.write("semimatch", (left, right), (wide,))
            case "apply anti":
                return self.write("antimatch", (left, right), (wide,))
            case "apply outer":
                joined = self.write("match", (left, right), (wide,))
                alone = self.write("antimatch", (left, right), (wide,))
                padded = self.write("pad", (alone,), (self.widths[line.operands[1]],))
                return self.write("union", (joined, padded))
        return self.quantified(line, left, right, wide)

    def quantified(self, line, left, right, wide):
        """Some and all: the left rows with a deciding inner row, with an unknown one only, and with neither."""
        sign, column = line.details
        deciding = self.write("compare", (), ("column", column, sign, "column", wide))
        unknown = self.write("unknown", (deciding,))
        decided, undecided = 1, 0
        if line.kind == "apply all":
            deciding = self.write("not", (deciding,))
            decided, undecided = 0, 1
        deciders = self.write("select", (right, deciding))
        unknowns = self.write("select", (right, unknown))
        first = self.write("semimatch", (left, deciders), (wide,))
        first = self.write("extend constant", (first,), (decided,))
        others = self.write("antimatch", (left, deciders), (wide,))
        second = self.write("semimatch", (others, unknowns), (wide,))
        second = self.write("pad", (second,), (1,))
        third = self.write("antimatch", (others, unknowns), (wide,))
        third = self.write("extend constant", (third,), (undecided,))
        return self.write("union", (self.write("union", (first, second)), third))


def unnested(lines, table_widths):
    """The flat lines of a query."""
    unnesting = Unnesting(lines, table_widths)
    unnesting.rows(len(lines) - 1)
    return unnesting.flat
