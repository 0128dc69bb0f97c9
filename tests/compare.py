#!/usr/bin/env python3
"""Compares the engine with PostgreSQL on random nested queries over random small tables.

Every query goes through the program `console`, both asked and run, and through PostgreSQL as nested SQL. The rows must be the same, each as
often. Besides, everything that the console answers is compared with a model of the rules (model.py): the width, the flat plan, the rows in
their order, and the exact cells that an answer needs, with the line at which fewer run out. docs/COMPARISON.md says more.

Build first:    (cd crates/console && rt run < /dev/null)
Install:        apt-get install postgresql
A short run:    tests/compare.py --seed 1 --queries 1500
A long one:     tests/compare.py --queries 20000
"""
import argparse
import itertools
import pathlib
import random
import re
import signal
import subprocess
import sys
import time
from collections import Counter
from typing import NamedTuple

import sql
from model import Heavy, own_widths
from moments import MOST_CELLS, Answer, asked, ran
from random_queries import random_query, random_row, random_stock
from server import Broken, Missing, Server
from tables import Layer
from tally import Tally
from unnesting import unnested

CONSOLE = pathlib.Path(__file__).resolve().parent.parent / "crates/console/out/console"
# a query beyond these is drawn again: rows laid while asking, cells standing while running
ASKING_BOUND = 40000
RUNNING_BOUND = 150000
CONSOLE_SECONDS = 600
# a layer has room for 64 added and 64 hidden rows
MOST_MOVED = 60
# from so many queries on, every kind of line has to occur
QUERIES_FOR_ALL_KINDS = 1000


class Call(NamedTuple):
    """A command of the console, the lines written before it that have no answer, and the answer that the model expects."""

    command: str
    header: str
    body: tuple = ()
    before: tuple = ()

    def script(self):
        return [*self.before, self.command]


class Said(NamedTuple):
    """An answer of the console: its first line, and the lines that belong to it."""

    header: str
    body: list


class Step(NamedTuple):
    """Calls that belong together; with a query among them, its lines, its flat lines, the tables it is put to, and the model's answers."""

    calls: list
    lines: list = None
    flat: list = None
    tables: list = None
    ask: Answer = None
    run: Answer = None

    def statement(self):
        return sql.query_text(self.lines, [table.width for table in self.tables])


class Mismatch(Exception):
    """Something is not as expected; the text tells all of it."""


# What is put to the console


def row_text(row):
    return " ".join("NULL" if cell is None else str(cell) for cell in row)


def row_lines(rows):
    return [f"row {row_text(row)}" for row in rows]


def opening(tables):
    """The step that opens a session over tables."""
    before = [line for table in tables for line in (f"table {table.width}", *row_lines(table.rows))]
    return Step([Call("open", f"open {len(tables)}", before=before)])


def movement(dice, layer):
    """A step that moves some rows and looks at them."""
    calls = []
    for _ in range(dice.randint(1, 3)):
        tables = layer.tables()
        number = dice.randrange(len(tables))
        width, rows = tables[number]
        chance = dice.random()
        if chance < 0.1 or layer.moved() > MOST_MOVED:
            layer.clear()
            calls.append(Call("clear", "clear 0"))
        elif chance < 0.5 and rows:
            place = dice.randrange(len(rows))
            layer.withdraw(number, place)
            calls.append(Call(f"withdraw {number} {place}", f"withdraw {len(rows) - 1}"))
        else:
            row = random_row(dice, width)
            layer.add(number, row)
            calls.append(Call(f"add {number} {row_text(row)}", f"add {len(rows) + 1}"))
        shown = layer.tables()[number].rows
        calls.append(Call(f"show {number}", f"show {len(shown)}", row_lines(shown)))
    return Step(calls)


def reading(word, answer, width, lent):
    """An ask or run with so many cells lent, and what is to come of it."""
    line = answer.line_out(lent)
    if lent > MOST_CELLS:
        return Call(f"{word} {lent}", "refused 11 0")
    if line is not None:
        return Call(f"{word} {lent}", f"refused 12 {line}")
    return Call(f"{word} {lent}", f"{word} {len(answer.rows)} {width}", row_lines(answer.rows))


def readings(dice, word, answer, width):
    """A reading with just the cells that are needed, or all that may be lent; then some with fewer, and at times with more."""
    lent = [min(answer.need, MOST_CELLS)]
    if lent[0] > 0:
        lent += [lent[0] - 1, dice.randrange(lent[0])]
    if dice.random() < 0.05:
        lent += [MOST_CELLS, MOST_CELLS + 1]
    return [reading(word, answer, width, count) for count in lent]


def drawn(dice, tables):
    """A random query, its flat lines, and the model's answers to asking and to running. Drawn again where it is too much to work out, and
    mostly where there are no rows."""
    widths = [table.width for table in tables]
    while True:
        lines = random_query(dice, widths)
        flat = unnested(lines, widths)
        try:
            ask, run = asked(lines, tables, ASKING_BOUND), ran(flat, tables, RUNNING_BOUND)
        except Heavy:
            continue
        if ask.rows or dice.random() < 0.3:
            return lines, flat, ask, run


def case(dice, tables):
    """A random query, laid, unnested, asked and run."""
    lines, flat, ask, run = drawn(dice, tables)
    width = own_widths(lines, [table.width for table in tables])[-1]
    calls = [
        Call("lay", f"lay {len(lines)} {width}", before=[f"line {line.words()}" for line in lines]),
        Call("unnest", f"unnest {len(flat)}"),
        Call("plan", f"plan {len(flat)}", [f"{number} {line.words()}" for number, line in enumerate(flat)]),
        *readings(dice, "ask", ask, width),
        *readings(dice, "run", run, width),
    ]
    return Step(calls, lines, flat, tables, ask, run)


def session(seed, number, queries):
    """The steps of one session: a random stock, and random queries with movements between them."""
    dice = random.Random(f"{seed} {number}")
    stock = random_stock(dice)
    layer = Layer(stock)
    steps = [opening(stock)]
    for _ in range(queries):
        if stock and dice.random() < 0.3:
            steps.append(movement(dice, layer))
        steps.append(case(dice, layer.tables()))
    return steps


# What comes back


def console_answers(console, steps):
    """The console's answers to all calls of a session, in order."""
    script = "".join(f"{line}\n" for step in steps for call in step.calls for line in call.script())
    try:
        done = subprocess.run([console], input=script, capture_output=True, text=True, timeout=CONSOLE_SECONDS)
    except subprocess.TimeoutExpired:
        raise Mismatch(f"the console has not ended after {CONSOLE_SECONDS} seconds\n\n{script}") from None
    if done.returncode != 0:
        raise Mismatch(f"the console ended with status {done.returncode}: {done.stderr.strip()}\n\n{script}")
    return parted(done.stdout.splitlines())


def parted(lines):
    """Lines parted into answers: the first line of some says how many belong to it."""
    answers, lines = [], iter(lines)
    for header in lines:
        follow = re.match(r"(?:ask|run|plan|show) (\d+)", header)
        answers.append(Said(header, list(itertools.islice(lines, int(follow[1]) if follow else 0))))
    return answers


def server_answers(server, steps):
    """PostgreSQL's rows for each query of a session."""
    cases = [step for step in steps if step.lines is not None]
    earlier = [None, *(step.tables for step in cases)]
    before = ["\n".join(sql.settings(step.tables, last)) for step, last in zip(cases, earlier)]
    return server.answers(before, [step.statement() for step in cases])


def without_word(lines):
    return [line.removeprefix("row ") for line in lines]


def faults(step, answers, server_rows):
    """What is wrong with the answers to a step, one sentence each."""
    found = []
    for call, answer in zip(step.calls, answers):
        if answer.header != call.header:
            found.append(f"`{call.command}` is answered by `{answer.header}`, expected was `{call.header}`")
        elif answer.body != list(call.body):
            found.append(f"`{call.command}` has other lines or another order than the model's:\n" + "\n".join(beside(answer.body, call.body)))
    if step.lines is not None:
        for word in ("ask", "run"):
            rows = given(step, answers, word)
            if rows is not None and Counter(rows) != Counter(server_rows):
                found.append(f"{word} and PostgreSQL do not give the same rows")
    return found


def given(step, answers, word):
    """The rows of the first ask or run of a step that was answered with rows."""
    for call, answer in zip(step.calls, answers):
        if call.command.startswith(f"{word} ") and answer.header.startswith(f"{word} "):
            return without_word(answer.body)
    return None


def beside(ours, theirs):
    width = max(map(len, ours), default=0)
    return [f"    {one:<{width}}  |  {other}" for one, other in itertools.zip_longest(ours, theirs, fillvalue="")]


def bag_text(rows):
    if rows is None:
        return ["    none were given, since over 65,536 cells are needed or the call was refused"]
    return [f"    {count} x {row}" for row, count in sorted(Counter(rows).items())] or ["    no rows"]


def report(where, steps, place, found, answers, server_rows):
    """All about a step that is not as expected."""
    step = steps[place]
    calls = [call for earlier in steps[:place] if earlier.lines is None for call in earlier.calls] + step.calls
    text = [f"{where}:", *(f"  {fault}" for fault in found), "", "console script:", *(line for call in calls for line in call.script())]
    if step.lines is not None:
        text += ["", "SQL:", "BEGIN;", *sql.settings(step.tables), step.statement(), "ROLLBACK;"]
        for name, rows in (("ask", given(step, answers, "ask")), ("run", given(step, answers, "run")), ("PostgreSQL", server_rows)):
            text += ["", f"rows of {name}:", *bag_text(rows)]
    return "\n".join(text)


def compare(where, console, server, steps):
    """Puts a session to the console and its queries to PostgreSQL. Raises Mismatch where something is not as expected."""
    answers = iter(console_answers(console, steps))
    try:
        rows = iter(server_answers(server, steps))
    except Broken as trouble:
        raise Mismatch(f"{where}: {trouble}") from None
    for place, step in enumerate(steps):
        server_rows = next(rows) if step.lines is not None else None
        its_answers = list(itertools.islice(answers, len(step.calls)))
        found = faults(step, its_answers, server_rows)
        if len(its_answers) < len(step.calls):
            found.append(f"`{step.calls[len(its_answers)].command}` is not answered")
        if found:
            raise Mismatch(report(where, steps, place, found, its_answers, server_rows))
    for answer in answers:
        raise Mismatch(f"{where}: the console says `{answer.header}` after its last answer")


# The script


def options():
    parser = argparse.ArgumentParser(description=__doc__, formatter_class=argparse.RawDescriptionHelpFormatter)
    parser.add_argument("--seed", type=int, help="the same seed and batch give the same queries; without it, one is drawn and printed")
    parser.add_argument("--queries", type=int, default=1500, help="how many queries are compared (default: %(default)s)")
    parser.add_argument("--batch", type=int, default=10, help="how many queries are put to one stock, in one session (default: %(default)s)")
    parser.add_argument("--only", type=int, metavar="SESSION", help="only the session of this number, as a failure names it")
    parser.add_argument("--console", type=pathlib.Path, default=CONSOLE, help="the program console (default: crates/console/out/console)")
    return parser.parse_args()


def session_sizes(queries, batch):
    return [min(batch, queries - done) for done in range(0, queries, batch)]


def compare_all(server, asked_for, seed):
    """Compares session after session; what was compared."""
    tally = Tally()
    for number, queries in enumerate(session_sizes(asked_for.queries, asked_for.batch)):
        if asked_for.only in (None, number):
            steps = session(seed, number, queries)
            compare(f"seed {seed}, session {number}", asked_for.console, server, steps)
            tally.count(steps)
            if tally.queries % 5000 == 0:
                print(f"{tally.queries} queries", flush=True)
    return tally


def main():
    asked_for = options()
    if not asked_for.console.exists():
        return f"{asked_for.console} is not there. To build it: (cd crates/console && rt run < /dev/null)"
    seed = random.SystemRandom().randrange(10**9) if asked_for.seed is None else asked_for.seed
    began = time.monotonic()
    signal.signal(signal.SIGTERM, lambda *_: sys.exit("ended from outside"))
    try:
        with Server() as server:
            print(f"seed {seed}, {asked_for.queries} queries, PostgreSQL {server.version}", flush=True)
            tally = compare_all(server, asked_for, seed)
    except (Missing, Broken, Mismatch) as trouble:
        return str(trouble)
    print(*tally.text(), sep="\n")
    missing = tally.missing() if tally.queries >= QUERIES_FOR_ALL_KINDS else []
    if missing:
        return f"never occurred: {', '.join(missing)}"
    print(f"{tally.queries} queries are the same, asked, run and in PostgreSQL {server.version}; seed {seed}, {time.monotonic() - began:.0f} seconds")
    return 0


if __name__ == "__main__":
    sys.exit(main())
