"""What the table was measured on."""

from __future__ import annotations

import os
import platform
import shutil
import subprocess
import time

from programs import first_line

# How each program tells its version; the first words that it takes count.
VERSIONS = (
    ("sort", ("--version",)),
    ("awk", ("--version", "-Wversion")),
    ("rustc", ("--version",)),
    ("g++", ("--version",)),
)


def machine_lines(missing: list[str]) -> list[str]:
    """The machine and its programs, a line each; `missing` is what it doesn't have."""
    memory = os.sysconf("SC_PHYS_PAGES") * os.sysconf("SC_PAGE_SIZE")
    found = [(name, version(name, options)) for name, options in VERSIONS if shutil.which(name) is not None]
    return [
        f"date: {time.strftime('%Y-%m-%d %H:%M %z')}",
        f"machine: {platform.machine()}, {len(os.sched_getaffinity(0))} processors, {memory / 1e9:.1f} GB of memory",
        f"load of the last 15 minutes, these runs included: {os.getloadavg()[2]:.1f}",
        f"kernel: {platform.system()} {platform.release()}",
        f"dedup: commit {commit()}",
        *[f"{name}: {said}" for name, said in found],
        f"missing on this machine: {'; '.join(missing) or 'nothing'}",
    ]


def version(name: str, options: tuple[str, ...]) -> str:
    """The first line that a program says of its version."""
    for option in options:
        done = subprocess.run([name, option], stdin=subprocess.DEVNULL, capture_output=True)
        if done.returncode == 0:
            return first_line(done.stdout or done.stderr)
    return "doesn't tell its version"


def commit() -> str:
    """The commit of the repository, with `-dirty` where files differ from it."""
    words = ["git", "describe", "--always", "--dirty", "--exclude=*"]
    if shutil.which("git") is None:
        return "unknown: git is missing"
    done = subprocess.run(words, cwd=os.path.dirname(__file__), capture_output=True)
    return first_line(done.stdout) or "unknown"
