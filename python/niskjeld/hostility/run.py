"""Runs changed inputs, and the same calls under limits and with devices."""

from __future__ import annotations

import os
import random
import resource
import subprocess
import sys
import tempfile
import time
from collections import Counter
from dataclasses import dataclass, field
from pathlib import Path

from .changes import changed
from .inputs import Trial, trials
from .limits import limits
from .outcomes import wrong_with

MOST_SECONDS = 1.0
CPU_SECONDS = 20  # after so much processor time a run is ended


@dataclass
class Found:
    """What was run, and what went wrong."""

    runs: int = 0
    ends: Counter[tuple[str, int]] = field(default_factory=Counter)
    wrong: list[str] = field(default_factory=list)
    slowest: float = 0.0


@dataclass(frozen=True)
class End:
    status: int
    printed: bytes
    said: bytes
    seconds: float
    left: dict[str, bytes]


def laid_out(files: dict[str, bytes], folder: Path) -> None:
    for name, text in files.items():
        (folder / name).write_bytes(text)


def _limited() -> None:
    resource.setrlimit(resource.RLIMIT_CPU, (CPU_SECONDS, CPU_SECONDS))
    resource.setrlimit(resource.RLIMIT_CORE, (0, 0))


def end_of(program: Path, words: tuple[str, ...], folder: Path) -> End:
    used = resource.getrusage(resource.RUSAGE_CHILDREN)
    began = time.monotonic()
    done = subprocess.run([program, *words], cwd=folder, capture_output=True, stdin=subprocess.DEVNULL, preexec_fn=_limited, check=False)
    seconds = time.monotonic() - began
    after = resource.getrusage(resource.RUSAGE_CHILDREN)
    # The processor's time where it is less than the clock's: another process may have held this one up.
    seconds = min(seconds, after.ru_utime + after.ru_stime - used.ru_utime - used.ru_stime)
    left = {path.name: path.read_bytes() for path in folder.iterdir() if path.is_file()}
    return End(done.returncode, done.stdout, done.stderr, seconds, left)


def changed_trial(trial: Trial, dice: random.Random) -> Trial:
    """With one file changed, seldom two; or the list of a walk."""
    files = dict(trial.files)
    for name in dice.sample(sorted(files), min(len(files), dice.choice([1, 1, 1, 2]))):
        files[name] = changed(files[name], dice)
    words = trial.words
    if words[0] == "walk" and dice.random() < 0.3:
        text = changed(words[-1].encode(), dice).replace(b"\x00", b",").decode(errors="replace")
        words = (*words[:-1], text)
    return Trial(words, files, trial.saves)


def wrong_end(trial: Trial, end: End) -> str | None:
    wrong = wrong_with(trial.words[0], end.status, end.printed, end.said)
    if wrong is None and end.seconds > MOST_SECONDS:
        wrong = f"it took {end.seconds:.2f} s"
    left = {name: text for name, text in end.left.items() if name != trial.saves}
    if wrong is None and left != trial.files:
        wrong = "a file was changed or made that should not be"
    if wrong is None and trial.saves and (trial.saves in end.left) != (end.status == 0):
        wrong = f"with status {end.status} its certificate {'was saved' if trial.saves in end.left else 'was not saved'}"
    return wrong


def told_of(trial: Trial, end: End) -> tuple[int, list[bytes]]:
    """What two programs have to agree on: of a plan the vectors, since several lists may have one."""
    lines = end.printed.splitlines()
    return end.status, [line.split(b" :")[0] for line in lines] if trial.words[0] == "plan" else lines


def try_one(programs: list[Path], against: Path | None, trial: Trial, found: Found, kept: Path) -> None:
    wanted: tuple[int, list[bytes]] | None = None
    for program in (*([against] if against else []), *programs):
        with tempfile.TemporaryDirectory() as made:
            laid_out(trial.files, Path(made))
            end = end_of(program, trial.words, Path(made))
        if program == against:
            wanted = told_of(trial, end)
            continue
        found.ends[trial.words[0], end.status] += 1
        found.slowest = max(found.slowest, end.seconds)
        wrong = wrong_end(trial, end)
        if wrong is None and wanted is not None and wanted != told_of(trial, end):
            other = b" ".join(wanted[1])[:80]
            wrong = f"it ended with {end.status} and {end.printed[:80]!r}, another program with {wanted[0]} and {other!r}"
        wanted = wanted or told_of(trial, end)
        if wrong is not None:
            folder = kept / f"{len(found.wrong) + 1}"
            folder.mkdir(parents=True)
            laid_out(trial.files, folder)
            (folder / "words").write_text("\n".join(trial.words) + "\n", encoding="utf-8", errors="replace")
            found.wrong.append(f"{folder}: {program.name} {' '.join(trial.words)}: {wrong}")
    found.runs += 1


def change_and_run(
    programs: list[Path], against: Path | None, seconds: float, seed: int, runs: int | None, found: Found, kept: Path
) -> None:
    dice, kinds, until = random.Random(seed), trials(), time.monotonic() + seconds
    while (found.runs < runs) if runs is not None else (time.monotonic() < until):
        try_one(programs, against, changed_trial(dice.choice(kinds), dice), found, kept)
        if len(found.wrong) >= 20:
            break
        if sys.stderr.isatty() and found.runs % 100 == 0:
            print(f"\r{found.runs:,} changed inputs, {len(found.wrong)} wrong", end="", file=sys.stderr, flush=True)
    if sys.stderr.isatty():
        print(file=sys.stderr)


def hostile(programs: list[Path], seconds: float, seed: int, runs: int | None, against: Path | None) -> int:
    """Says on standard output what was run, and on standard error what went wrong."""
    kept = Path(tempfile.mkdtemp(prefix="hostile-"))
    found = Found()
    change_and_run(programs, against, seconds, seed, runs, found, kept)
    ends: Counter[int] = Counter()
    for (_, status), number in found.ends.items():
        ends[status] += number
    told = ", ".join(f"{number:,} ended with {status}" for status, number in sorted(ends.items()))
    limited, wrong = limits(programs)
    print(f"hostile: {found.runs:,} changed inputs: {told}; the slowest took {found.slowest:.2f} s")
    print(f"hostile: {limited:,} runs with little memory, broken outputs and devices")
    for line in (*found.wrong, *wrong):
        print(f"hostile: {line}", file=sys.stderr)
    if not found.wrong:
        os.rmdir(kept)
    print(f"hostile: {len(found.wrong) + len(wrong)} wrong")
    return 1 if found.wrong or wrong else 0


