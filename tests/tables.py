"""The model's tables, and the moving of their rows."""
from typing import NamedTuple


class Table(NamedTuple):
    width: int
    rows: list


class Entry:
    """A row of a table that rows may be added to and withdrawn from."""

    def __init__(self, row, added):
        self.row = row
        self.added = added
        self.hidden = False


class Layer:
    """Tables over which rows are added, withdrawn, and cleared."""

    def __init__(self, tables):
        self.widths = [table.width for table in tables]
        self.entries = [[Entry(row, False) for row in table.rows] for table in tables]

    def tables(self):
        """The tables with the rows that are shown."""
        shown = ([entry.row for entry in entries if not entry.hidden] for entries in self.entries)
        return [Table(width, rows) for width, rows in zip(self.widths, shown)]

    def moved(self):
        """How many rows are added or hidden."""
        return sum(entry.added or entry.hidden for entries in self.entries for entry in entries)

    def add(self, table, row):
        self.entries[table].append(Entry(row, True))

    def withdraw(self, table, place):
        entry = [entry for entry in self.entries[table] if not entry.hidden][place]
        if entry.added:
            self.entries[table].remove(entry)
        else:
            entry.hidden = True

    def clear(self):
        for table, entries in enumerate(self.entries):
            self.entries[table] = [entry for entry in entries if not entry.added]
            for entry in self.entries[table]:
                entry.hidden = False
