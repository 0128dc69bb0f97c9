"""What a comparison has covered."""
from collections import Counter

from model import AGGREGATES, APPLIES, KINDS, SIGNS, own_widths, rows_operands
from moments import MOST_CELLS


class Tally:
    """What has been compared."""

    def __init__(self):
        self.queries = self.sessions = self.movements = self.rows = self.readings = self.ask_over = self.run_over = self.longest_plan = 0
        self.kinds, self.aggregates, self.signs = Counter(), Counter(), Counter()
        self.depths, self.sizes, self.long_rows = Counter(), Counter(), Counter()

    def count(self, steps):
        self.sessions += 1
        for step in steps:
            if step.lines is None:
                self.movements += sum(call.command.split()[0] in ("add", "withdraw", "clear") for call in step.calls)
            else:
                self.count_query(step)

    def count_query(self, step):
        self.queries += 1
        if min(step.ask.need, step.run.need) <= MOST_CELLS:
            self.rows += len(step.ask.rows)
        self.readings += sum(call.command.split()[0] in ("ask", "run") for call in step.calls)
        self.ask_over += step.ask.need > MOST_CELLS
        self.run_over += step.run.need > MOST_CELLS
        self.longest_plan = max(self.longest_plan, len(step.flat))
        for line in step.lines:
            self.kinds[line.kind] += 1
            self.aggregates.update(word for word in line.details if word in AGGREGATES)
            self.signs.update(word for word in line.details if word in SIGNS)
        depth, columns = nesting(step.lines, [table.width for table in step.tables])
        self.depths[depth] += 1
        self.sizes[len(step.lines)] += 1
        self.long_rows[columns] += 1

    def text(self):
        return [
            "kinds: " + listed({kind: self.kinds[kind] for kind in KINDS}),
            "aggregates: " + listed(self.aggregates),
            "signs: " + listed(self.signs),
            "queries by the depth of their Applies: " + listed(dict(sorted(self.depths.items()))),
            f"queries of over 16 lines: {sum(self.sizes[size] for size in range(17, 33))}, of 32: {self.sizes[32]}; "
            f"with a long row of over 16 columns: {sum(self.long_rows[size] for size in range(17, 33))}, of 32: {self.long_rows[32]}; "
            f"longest flat plan: {self.longest_plan} lines",
            f"{self.sessions} stocks, {self.movements} movements, {self.rows} rows compared, {self.readings} asks and runs; "
            f"over 65,536 cells needed {self.ask_over} asks and {self.run_over} runs",
        ]

    def missing(self):
        """What never occurred."""
        wanted = ((KINDS, self.kinds), (AGGREGATES, self.aggregates), (SIGNS, self.signs), (range(5), self.depths))
        return [str(one) for names, counts in wanted for one in names if not counts[one]]


def listed(counts):
    return ", ".join(f"{name} {count}" for name, count in counts.items())


def nesting(lines, table_widths):
    """The most Applies that stand around a line of a query, and the columns of its longest long row."""
    widths = own_widths(lines, table_widths)

    def below(number, depth, context):
        line = lines[number]
        most = [(depth, context + widths[number])]
        for place, operand in enumerate(rows_operands(line)):
            inside = line.kind in APPLIES and place == 1
            most.append(below(operand, depth + inside, context + inside * widths[line.operands[0]]))
        return tuple(map(max, zip(*most)))

    return below(len(lines) - 1, 0, 0)
