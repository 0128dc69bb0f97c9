#!/usr/bin/env python3
"""Runs every script under examples/ through the console and holds what it writes to the stored answers.

Build first:    (cd crates/console && rt run < /dev/null)
Then:           tests/examples.py
"""
import pathlib
import subprocess
import sys

ROOT = pathlib.Path(__file__).resolve().parent.parent
CONSOLE = ROOT / "crates/console/out/console"


def answers(script):
    with open(script, "rb") as commands:
        return subprocess.run([CONSOLE], stdin=commands, check=True, capture_output=True).stdout


def main():
    if not CONSOLE.exists():
        sys.exit("no program: (cd crates/console && rt run < /dev/null) builds it")
    scripts = sorted((ROOT / "examples").glob("*.txt"))
    wrong = [s.name for s in scripts if answers(s) != s.with_suffix(".out").read_bytes()]
    for name in wrong:
        print(f"{name}: other answers than stored")
    print(f"{len(scripts) - len(wrong)} passed, {len(wrong)} failed")
    sys.exit(1 if wrong else 0)


main()
