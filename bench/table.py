"""The table: a row for each input and program, in Markdown that is aligned for readers of plain text too."""

from __future__ import annotations

from statistics import median

from laps import Row
from programs import BASE, Program

NAMES = ("Input", "Ids", "Program", "Seconds", "Times as fast", "MB", "Rounds", "Words", "Lowest to highest, or fault")
NUMBERS = ("Ids", "Seconds", "Times as fast", "MB", "Rounds", "Words")
# The status of dedup where it refuses its words.
BAD_WORDS = 2


def column_widths(kinds: tuple[str, ...], sizes: list[int], programs: list[Program]) -> list[int]:
    """Widths for the whole table, known before its first row, so that rows can be printed as they come."""
    widths = [max(len(name), 7) for name in NAMES]
    widths[0] = max(map(len, kinds))
    widths[1] = max(len(f"{size:,}") for size in sizes)
    widths[2] = max(len(program.name) for program in programs) + len("``")
    widths[7] = len("999,999,999")
    return widths


def print_head(widths: list[int]) -> None:
    print_cells(list(NAMES), widths)
    rules = ["-" * (width - 1) + (":" if name in NUMBERS else "-") for name, width in zip(NAMES, widths)]
    print_cells(rules, widths)


def print_rows(kind: str, size: int, rows: list[Row], widths: list[int]) -> None:
    base = next((median_seconds(row) for row in rows if row.program == BASE and not row.failed()), None)
    for row in rows:
        measured = ["", "", "", "", "", fault_of(row)] if row.failed() else figures_of(row, base)
        print_cells([kind, f"{size:,}", f"`{row.program.name}`", *measured], widths)


def figures_of(row: Row, base: float | None) -> list[str]:
    """The figures of a program that didn't fail; `base` is the median of the program that all are compared with."""
    seconds = [run.seconds for run in row.runs]
    ratio = "" if base is None else f"{base / median_seconds(row):.2f}"
    peak = max(run.peak for run in row.runs)
    rounds = ["", ""] if row.rounds is None else [str(row.rounds.count), f"{row.rounds.words:,}"]
    spread = f"{min(seconds):.3f} to {max(seconds):.3f}"
    return [f"{median_seconds(row):.3f}", ratio, f"{peak / 1e6:,.0f}", *rounds, spread]


def fault_of(row: Row) -> str:
    """How the last run of a program failed."""
    last = row.runs[-1]
    if last.status == BAD_WORDS and row.program.in_rounds:
        return "missing: this dedup refuses the words"
    said = last.complaint.replace("|", "\\|") or "it says nothing of it"
    ended = f"status {last.status}" if last.status > 0 else f"signal {-last.status}"
    return f"failed with {ended}: {said}"


def median_seconds(row: Row) -> float:
    return median(run.seconds for run in row.runs)


def print_cells(cells: list[str], widths: list[int]) -> None:
    laid = [
        cell.rjust(width) if name in NUMBERS else cell.ljust(width)
        for name, cell, width in zip(NAMES, cells, widths)
    ]
    print(f"| {' | '.join(laid)} |", flush=True)
