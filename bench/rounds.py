"""How many rounds a run of dedup takes and how many words these have. The program doesn't tell; one that does is built."""

from __future__ import annotations

import shutil
import subprocess
import tempfile
from pathlib import Path

from laps import Row, Rounds
from programs import HERE

REPOSITORY = HERE.parent
NAME = "rounds_of_dedup"


def build_rounds(folder: Path, missing: list[str]) -> Path | None:
    """The program that tells a run's rounds; where it can't be built, `missing` is told why."""
    # Sources of a program stand in a crate alone, so it is built in a copy of the repository elsewhere.
    with tempfile.TemporaryDirectory() as name:
        copy = Path(name)
        shutil.copytree(REPOSITORY / "crates", copy / "crates")
        for file in ("Makefile", "HANDLES", "crates.txt"):
            shutil.copy2(REPOSITORY / file, copy)
        with (copy / "crates.txt").open("a") as crates:
            crates.write(f"{NAME}_main: dedup rounds outside\n")
        # The line is of no other crate: none is old by it.
        shutil.copystat(REPOSITORY / "crates.txt", copy / "crates.txt")
        source = copy / "crates" / f"{NAME}_main" / "src"
        source.mkdir(parents=True)
        shutil.copy2(HERE / "rounds_main.txt", source / "main.rt")
        built = Path("crates") / f"{NAME}_main" / "out" / f"{NAME}_main"
        done = subprocess.run(["make", "-s", "-C", copy, built], capture_output=True)
        if done.returncode != 0:
            missing.append(f"rounds and words, whose program isn't built: {last_line(done.stderr)}")
            return None
        shutil.copy2(copy / built, folder / NAME)
    return folder / NAME


def tell_rounds(teller: Path | None, rows: list[Row], file: Path) -> None:
    """Gives each row of dedup the rounds of a run over the file; none where the run fails."""
    for row in rows:
        if teller is not None and row.program.in_rounds and not row.failed():
            words = (teller, *row.program.words[1:], file)
            done = subprocess.run(words, stdin=subprocess.DEVNULL, capture_output=True)
            if done.returncode == 0:
                row.rounds = Rounds(*map(int, done.stdout.split()))


def last_line(said: bytes) -> str:
    """The last line of what a program said; empty where it said nothing."""
    lines = said.decode(errors="replace").strip().splitlines()
    return lines[-1] if lines else ""
