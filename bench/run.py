"""Compares dedup with other programs that print the distinct ids of a file. `make bench` calls it; README.md says more."""

from __future__ import annotations

import argparse
import sys
from pathlib import Path

from inputs import KINDS, input_file
from laps import memory_floor, run_laps
from machine import machine_lines
from programs import build, dedups, yardsticks
from rounds import build_rounds, tell_rounds
from table import column_widths, print_head, print_rows


def main() -> None:
    options = read_options()
    options.folder.mkdir(parents=True, exist_ok=True)
    missing: list[str] = []
    generator = build(options.folder, "ids.c", ("cc", "-O2", "-std=c99"), missing)
    if generator is None:
        sys.exit(f"bench: no inputs can be made: missing {missing[0]}")
    programs = yardsticks(options.folder, missing) + dedups(options.dedup, options.workers, options.lists)
    teller = build_rounds(options.folder, missing)
    widths = column_widths(KINDS, options.sizes, programs)
    print_head(widths)
    for size in options.sizes:
        for kind in KINDS:
            file = input_file(options.folder, generator, kind, size)
            rows = run_laps(programs, file, options.runs, options.folder)
            tell_rounds(teller, rows, file)
            print_rows(kind, size, rows, widths)
    print()
    print(f"- least memory that a row can show: {memory_floor(options.folder) / 1e6:.0f} MB")
    for line in machine_lines(missing):
        print(f"- {line}")


def read_options() -> argparse.Namespace:
    reader = argparse.ArgumentParser(description=__doc__, allow_abbrev=False)
    reader.add_argument("--dedup", type=absolute, required=True, help="the program dedup")
    reader.add_argument("--folder", type=absolute, required=True, help="where inputs, outputs and built programs lie")
    reader.add_argument("--sizes", type=positive, nargs="+", required=True, help="how many ids an input has")
    reader.add_argument("--runs", type=positive, required=True, help="how often each program runs over an input")
    reader.add_argument("--workers", nargs="*", required=True, help="values of dedup's option --workers")
    reader.add_argument("--lists", nargs="*", required=True, help="values of dedup's option --list")
    return reader.parse_args()


def absolute(text: str) -> Path:
    return Path(text).resolve()


def positive(text: str) -> int:
    number = int(text)
    if number < 1:
        raise argparse.ArgumentTypeError(f"{text} is not above 0")
    return number


if __name__ == "__main__":
    main()
