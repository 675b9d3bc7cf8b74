"""Little memory, outputs that take nothing, and what is no file in the place of a file."""

from __future__ import annotations

import os
import resource
import subprocess
import tempfile
from pathlib import Path
from typing import Any, Callable

from ..program import TOP, Status
from .outcomes import wrong_with

KIB = 1024
ROAD = TOP / "examples" / "narrow_road" / "narrow_road"
CITY = TOP / "examples" / "city" / "city"
SCENE = tuple(f"{ROAD}.{ending}" for ending in ("xml", "book", "lattice"))
TOWN = tuple(f"{CITY}.{ending}" for ending in ("xml", "book", "lattice"))
CALLS: dict[str, tuple[str, ...]] = {
    "plan": ("plan", *TOWN, "saved"),
    "check": ("check", *TOWN, f"{CITY}.certificate"),
    "judge": ("judge", *SCENE, str(ROAD.parent / "driven.records")),
    "walk": ("walk", *SCENE, "keep,keep"),
    "show": ("show", TOWN[0]),
    "derive": ("derive", SCENE[1], str(ROAD.parent / "patient.script")),
    "accept": ("accept", SCENE[1], str(ROAD.parent / "patient.book")),
    "pick": ("pick", str(TOP / "examples" / "parked_car.book"), str(TOP / "examples" / "parked_car.table")),
    "compare": ("compare", str(TOP / "examples" / "parked_car.book"), str(TOP / "examples" / "parked_car.table")),
}


def _memory(most: int) -> Callable[[], None]:
    def limit() -> None:
        resource.setrlimit(resource.RLIMIT_AS, (most, most))
        resource.setrlimit(resource.RLIMIT_CORE, (0, 0))

    return limit


def _done(program: Path, words: tuple[str, ...], folder: Path, **how: object) -> subprocess.CompletedProcess[bytes]:
    given: dict[str, Any] = {"stdout": subprocess.PIPE, "stderr": subprocess.PIPE, "stdin": subprocess.DEVNULL, "timeout": 20, **how}
    done: subprocess.CompletedProcess[bytes] = subprocess.run([program, *words], cwd=folder, check=False, **given)
    return done


def least_to_start(program: Path, folder: Path) -> int:
    """The KiB with which the system starts the program at all: it prints its usage."""
    low, high = 256, 65_536
    while high - low > 4:
        most = (low + high) // 2
        starts = _done(program, ("no", "command"), folder, preexec_fn=_memory(most * KIB)).returncode == Status.USAGE
        low, high = (low, most) if starts else (most, high)
    return high


def little_memory(program: Path, folder: Path, told: list[str]) -> int:
    """From what it takes to start up to enough: it prints all, or nothing and ends with 5."""
    runs, least = 0, least_to_start(program, folder)
    for command, words in CALLS.items():
        whole = _done(program, words, folder)
        for more in (*range(0, 1024, 16), *range(1024, 6144, 128), 65_536):
            (folder / "saved").unlink(missing_ok=True)
            most = least + more
            done = _done(program, words, folder, preexec_fn=_memory(most * KIB))
            runs += 1
            wrong = wrong_with(command, done.returncode, done.stdout, done.stderr)
            if wrong is None and done.returncode == Status.DONE and done.stdout != whole.stdout:
                wrong = "it printed something else than with enough"
            if wrong is None and done.returncode not in (Status.DONE, Status.NO_MEMORY):
                wrong = f"it ended with {done.returncode}"
            if wrong is None and done.returncode == Status.NO_MEMORY and (folder / "saved").exists():
                wrong = "a certificate was saved"
            if wrong is not None:
                told.append(f"{command} with {most} KiB: {wrong}")
    return runs


def broken_outputs(program: Path, folder: Path, told: list[str]) -> int:
    """A full device, a closed output, and a pipe that nobody reads."""
    runs = 0
    for command, words in CALLS.items():
        for name in ("full", "closed", "broken"):
            done = _into(program, words, folder, name)
            runs += 1
            if done.returncode != Status.WRITE_FAULT or done.stderr:
                told.append(f"{command} into a {name} output: it ended with {done.returncode} and said {done.stderr[:80]!r}")
    return runs


def _into(program: Path, words: tuple[str, ...], folder: Path, name: str) -> subprocess.CompletedProcess[bytes]:
    if name == "full":
        with open("/dev/full", "wb") as full:
            return _done(program, words, folder, stdout=full)
    if name == "closed":
        return _done(program, words, folder, stdout=None, preexec_fn=lambda: os.close(1))
    reads, writes = os.pipe()
    os.close(reads)
    try:
        return _done(program, words, folder, stdout=writes)
    finally:
        os.close(writes)


def no_files(program: Path, folder: Path, told: list[str]) -> int:
    """Folders, devices, pipes and what can't be written in the place of files."""
    (folder / "a_folder").mkdir()
    os.mkfifo(folder / "pipe")
    runs = 0
    for command, words in CALLS.items():
        for at in range(1, len(words)):
            if words[at] == "keep,keep":
                continue
            for name in ("a_folder", "/dev/null", "nowhere", "/dev/full", "pipe"):
                saves = command == "plan" and at == 4
                if name == "pipe" and saves:
                    continue
                done = _with(program, (*words[:at], name, *words[at + 1 :]), folder, name)
                runs += 1
                wrong = wrong_with(command, done.returncode, done.stdout, done.stderr)
                if wrong is not None:
                    told.append(f"{command} with {name} as its word {at}: {wrong}")
    return runs


def _with(program: Path, words: tuple[str, ...], folder: Path, name: str) -> subprocess.CompletedProcess[bytes]:
    """A pipe is given bytes by a child that ends with the call; /dev/full and such are read as they are."""
    if name != "pipe":
        return _done(program, words, folder)
    fed = subprocess.Popen(["sh", "-c", "printf 'rule a\\n' > pipe"], cwd=folder, stderr=subprocess.DEVNULL)
    try:
        return _done(program, words, folder)
    finally:
        fed.kill()
        fed.wait()


def limits(programs: list[Path]) -> tuple[int, list[str]]:
    """How many runs there were, and what went wrong."""
    runs, told = 0, []
    for program in programs:
        with tempfile.TemporaryDirectory() as made:
            for part in (little_memory, broken_outputs, no_files):
                said: list[str] = []
                try:
                    runs += part(program, Path(made), said)
                except subprocess.TimeoutExpired as late:
                    said.append(f"{' '.join(str(word) for word in late.cmd[1:])} did not end within {late.timeout:g} s")
                told += [f"{program.name}: {line}" for line in said]
    return runs, told
