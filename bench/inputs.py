"""The files of ids that the programs read."""

from __future__ import annotations

import subprocess
import sys
from pathlib import Path

from programs import HERE

KINDS = ("generated", "random", "rising")
SEED = 1


def input_file(folder: Path, generator: Path, kind: str, size: int) -> Path:
    """A file of `size` ids: made once, and again where the source of the generator is newer."""
    made = folder / f"{kind}-{size}.txt"
    if not made.exists() or made.stat().st_mtime < (HERE / "ids.c").stat().st_mtime:
        print(f"bench: making {made}", file=sys.stderr, flush=True)
        part = made.with_suffix(".part")
        with part.open("wb") as out:
            done = subprocess.run([generator, kind, str(size), str(SEED)], stdout=out)
        if done.returncode != 0:
            sys.exit(f"bench: {made} can't be made")
        part.replace(made)
    return made


def read_once(file: Path) -> None:
    """Brings a file into the system's cache, so that the first program doesn't pay for the disk."""
    with file.open("rb", buffering=0) as source:
        while source.read(1 << 20):
            pass
