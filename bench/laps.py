"""Laps: in each, every program runs once over the same input."""

from __future__ import annotations

import os
import subprocess
import sys
import tempfile
import time
from dataclasses import dataclass, field
from pathlib import Path

from inputs import read_once
from programs import Program, first_line

# Lines are bytes to all programs: sort and awk are slower where they read them as text of a language.
ENVIRONMENT = {**os.environ, "LC_ALL": "C"}


@dataclass(frozen=True)
class Run:
    """One run of a program."""

    seconds: float
    # Peak memory in bytes.
    peak: int
    # The exit status, or below 0 a signal's number.
    status: int
    # The first line on standard error.
    complaint: str


@dataclass(frozen=True)
class Rounds:
    """The rounds of a run of dedup."""

    count: int
    # The words of their openings and those that workers drew.
    words: int


@dataclass
class Row:
    """The runs of one program over one input."""

    program: Program
    runs: list[Run] = field(default_factory=list)
    # Of one more run, where the program works in rounds and they could be told.
    rounds: Rounds | None = None

    def failed(self) -> bool:
        return any(run.status != 0 for run in self.runs)


def run_laps(programs: list[Program], file: Path, laps: int, folder: Path) -> list[Row]:
    """A row for each program. One that fails sits out the laps that follow."""
    rows = [Row(program) for program in programs]
    output, reference = folder / "output", folder / "reference"
    reference.unlink(missing_ok=True)
    read_once(file)
    for lap in range(laps):
        print(f"bench: {file.stem}, lap {lap + 1} of {laps}", file=sys.stderr, flush=True)
        for row in turned(rows, lap):
            if not row.failed():
                row.runs.append(run_once((*row.program.words, str(file)), output))
                if lap == 0 and row.program.rising and not row.failed():
                    agree(row.program, output, reference)
    output.unlink(missing_ok=True)
    reference.unlink(missing_ok=True)
    return rows


def turned(rows: list[Row], lap: int) -> list[Row]:
    """The rows, with another one first in each lap, so that a program is first now and last then."""
    first = lap % max(len(rows), 1)
    return rows[first:] + rows[:first]


def run_once(words: tuple[str, ...], output: Path) -> Run:
    """Runs a program; the clock goes from its start until it has ended."""
    # A new file for each run: a long one takes time to cut off, and the program would pay for it.
    output.unlink(missing_ok=True)
    with output.open("wb") as out, tempfile.TemporaryFile() as errors:
        start = time.perf_counter()
        child = subprocess.Popen(words, stdin=subprocess.DEVNULL, stdout=out, stderr=errors, env=ENVIRONMENT)
        _, ended, used = os.wait4(child.pid, 0)
        seconds = time.perf_counter() - start
        child.returncode = os.WEXITSTATUS(ended) if os.WIFEXITED(ended) else -os.WTERMSIG(ended)
        errors.seek(0)
        return Run(seconds, used.ru_maxrss * 1024, child.returncode, first_line(errors.read(1000)))


def memory_floor(folder: Path) -> int:
    """The peak of a program that needs next to nothing: a program starts as a copy of this one, and that counts."""
    output = folder / "output"
    floor = run_once(("true",), output).peak
    output.unlink()
    return floor


def agree(program: Program, output: Path, reference: Path) -> None:
    """The first output of rising ids is the reference; the comparison ends where a later one has other bytes."""
    if not reference.exists():
        output.replace(reference)
    elif subprocess.run(["cmp", reference, output], stdout=sys.stderr).returncode != 0:
        sys.exit(f"bench: DIFFERENT IDS: `{program.name}` printed {output}, the first program {reference}")
