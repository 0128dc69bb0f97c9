#!/usr/bin/env python3
"""Times the benchmark's two queries beside sqlite3's in-memory database, on the same rows and in one run.

Build first:    (cd crates/benchmark && rt run)
Then:           bench/run.py [REPEATS [ROUNDS]]     (50 repeats and 20 rounds, where not given)

Each round runs the program and then each SQL query so many times and takes the mean; of the rounds the best counts, on both sides. The
program is timed with 65,536 cells lent and with just those that are needed, since a run sets every lent cell. Both sides have their query prepared:
the program has checked and unnested it, sqlite3 keeps its compiled statement. sqlite3 runs each query as it is written (nested), and
flattened by hand. No index is made, as our operators have none; sqlite3 may make its own. Before anything is timed, both SQL forms must give the same
rows, as many as the program counts. sqlite3 is called from Python, and what such a call costs by itself is printed, not subtracted.
"""
import pathlib
import re
import sqlite3
import subprocess
import sys
import time

PROGRAM = pathlib.Path(__file__).resolve().parent.parent / "crates/benchmark/out/benchmark"
LINE = re.compile(r"(\d+) kits, \d+ shipments, (\w+): (\d+) rows, (\d+) cells, (\d+) ns, (\d+) ns with no cell to spare")

SQL = {
    "reorder": {
        "nested": """SELECT kit, wanted FROM kits
            WHERE wanted = (SELECT count(*) FROM shipments WHERE shipments.kit = kits.kit)""",
        # the count is of the shipments' column, so that a kit without one has 0
        "flattened": """SELECT kits.kit, wanted FROM kits LEFT JOIN shipments ON shipments.kit = kits.kit
            GROUP BY kits.kit, wanted HAVING wanted = count(shipments.kit)""",
    },
    "missing": {
        "nested": "SELECT kit, wanted FROM kits WHERE kit NOT IN (SELECT kit FROM shipments)",
        # no kit is NULL, but a shipment's may be, and then no kit is missing for sure
        "flattened": """SELECT kits.kit, wanted FROM kits LEFT JOIN shipments ON shipments.kit = kits.kit
            WHERE shipments.kit IS NULL AND NOT EXISTS (SELECT 1 FROM shipments WHERE kit IS NULL)""",
    },
}


def rows(kits):
    """The rows of crates/benchmark/src/rows.rt."""
    shipments = [s // (s % 5 + 2) for s in range(2 * kits)]
    if kits == 45:
        shipments[-1] = None
    return [(k, None if k % 11 == 5 else k % 4) for k in range(kits)], [(s,) for s in shipments]


def database(kits):
    base = sqlite3.connect(":memory:")
    base.execute("CREATE TABLE kits (kit INTEGER, wanted INTEGER)")
    base.execute("CREATE TABLE shipments (kit INTEGER)")
    known, shipped = rows(kits)
    base.executemany("INSERT INTO kits VALUES (?, ?)", known)
    base.executemany("INSERT INTO shipments VALUES (?)", shipped)
    base.commit()
    return base


def ours(repeats):
    """(kits, query) to rows, cells and nanoseconds per call, with all cells lent and with those needed."""
    text = subprocess.run([PROGRAM, str(repeats)], check=True, capture_output=True, text=True).stdout
    return {(int(k), q): tuple(map(int, rest)) for k, q, *rest in LINE.findall(text)}


def timed(base, sql, repeats):
    start = time.perf_counter_ns()
    for _ in range(repeats):
        base.execute(sql).fetchall()
    return (time.perf_counter_ns() - start) // repeats


def compare_answers(first):
    for (kits, query), (count, *_) in first.items():
        base = database(kits)
        nested, flattened = (sorted(base.execute(sql).fetchall()) for sql in SQL[query].values())
        if nested != flattened or len(nested) != count:
            sys.exit(f"{kits} kits, {query}: {count} rows, but sqlite3 has {len(nested)} and {len(flattened)}")


def round_of(repeats):
    result = {}
    for key, (_, _, most, least) in ours(repeats).items():
        base = database(key[0])
        result[key] = [most, least] + [timed(base, sql, repeats) for sql in SQL[key[1]].values()]
    return result


def main():
    repeats = int(sys.argv[1]) if len(sys.argv) > 1 else 50
    rounds = int(sys.argv[2]) if len(sys.argv) > 2 else 20
    if not PROGRAM.exists():
        sys.exit("no program: (cd crates/benchmark && rt run) builds it")
    first = ours(1)
    compare_answers(first)
    results = [round_of(repeats) for _ in range(rounds)]
    call = min(timed(sqlite3.connect(":memory:"), "SELECT 1", repeats) for _ in range(rounds))
    print(f"sqlite3 {sqlite3.sqlite_version}, {repeats} repeats, best of {rounds} rounds; microseconds per call")
    print(f"a call of sqlite3 that does nothing: {call / 1000:.1f}")
    print("| kits | query | rows | cells | run, 65,536 lent | run, need lent | sqlite3 nested | sqlite3 flattened | run / nested | run / flattened |")
    print("|---:|---|---:|---:|---:|---:|---:|---:|---:|---:|")
    for key in first:
        count, cells, *_ = first[key]
        best = [min(times) for times in zip(*(result[key] for result in results))]
        most, least, nested, flattened = best
        times = " | ".join(f"{nanos / 1000:.1f}" for nanos in best)
        print(f"| {key[0]} | {key[1]} | {count} | {cells} | {times} | {most / nested:.2f} ({least / nested:.2f})"
              f" | {most / flattened:.2f} ({least / flattened:.2f}) |")


main()
