"""The programs that are compared."""

from __future__ import annotations

import shutil
import subprocess
from dataclasses import dataclass
from pathlib import Path

HERE = Path(__file__).resolve().parent


@dataclass(frozen=True)
class Program:
    """A program, called with `words` and then a file."""

    name: str
    words: tuple[str, ...]
    # It prints the distinct ids, rising, one a line, and nothing else.
    rising: bool
    # It is dedup, which works in rounds.
    in_rounds: bool = False


# The program that all others are compared with.
BASE = Program("sort -nu --parallel=4", ("sort", "-nu", "--parallel=4"), rising=True)

TOOLS = (
    BASE,
    Program("sort -nu --parallel=1", ("sort", "-nu", "--parallel=1"), rising=True),
    Program("sort -u", ("sort", "-u"), rising=False),
    Program("awk '!seen[$0]++'", ("awk", "!seen[$0]++"), rising=False),
)

# Sources of plain programs over a hash set, and how each is built.
HASH_SETS = (
    ("hash_set.rs", ("rustc", "-O", "--edition", "2021")),
    ("hash_set.cpp", ("g++", "-O2", "-std=c++17")),
)


def yardsticks(folder: Path, missing: list[str]) -> list[Program]:
    """What dedup is compared with, as far as this machine has it; `missing` is told of the rest."""
    missing += [name for name in ("sort", "awk") if shutil.which(name) is None]
    found = [tool for tool in TOOLS if tool.words[0] not in missing]
    for source, compiler in HASH_SETS:
        built = build(folder, source, compiler, missing)
        if built is not None:
            found.append(Program(source, (str(built),), rising=True))
    return found


def dedups(program: Path, workers: list[str], lists: list[str]) -> list[Program]:
    """dedup with each list, by each number of workers."""
    options = [("--workers", count, "--list", listing) for listing in lists for count in workers]
    return [
        Program(f"dedup {' '.join(words)}", (str(program), *words), rising=words[-1] == "ids", in_rounds=True)
        for words in options
    ]


def build(folder: Path, source: str, compiler: tuple[str, ...], missing: list[str]) -> Path | None:
    """The program that a source beside this file gives; where it can't be built, `missing` is told why."""
    if shutil.which(compiler[0]) is None:
        missing.append(f"{compiler[0]}, which builds {source}")
        return None
    built = folder / source.replace(".", "_")
    done = subprocess.run([*compiler, "-o", built, HERE / source], stderr=subprocess.PIPE)
    if done.returncode != 0:
        missing.append(f"{source}, which {compiler[0]} doesn't build: {first_line(done.stderr)}")
        return None
    return built


def first_line(said: bytes) -> str:
    """The first line of what a program said; empty where it said nothing."""
    lines = said.decode(errors="replace").strip().splitlines()
    return lines[0] if lines else ""
