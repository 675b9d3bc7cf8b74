"""Runs jobs on the processors of this machine or on a Dask cluster, and keeps each result as it comes."""

from __future__ import annotations

import importlib
import json
import os
import sys
import tempfile
import zipfile
from concurrent.futures import ProcessPoolExecutor, as_completed
from pathlib import Path
from typing import Any, Callable, Iterator

from ..program import Fault
from . import job as jobs
from .job import Job
from .pages import draw

Result = dict[str, Any]
NO_DASK = "--scheduler needs Dask's `distributed`: on Debian apt install python3-distributed, and run this by /usr/bin/python3"
PACKAGE = Path(__file__).resolve().parents[1]


def kept(job: Job, folder: Path) -> Result | None:
    """The result of an earlier run over the same files."""
    path = folder / "results" / f"{job.name}.json"
    try:
        told = json.loads(path.read_text(encoding="utf-8"))
        return told["result"] if told["digest"] == job.digest() else None
    except (OSError, ValueError, KeyError):
        return None


def keep(job: Job, told: Result, folder: Path) -> None:
    """Draws the scenario and writes the result, whole or not at all: it is kept once its pages stand."""
    draw(job, told, folder)
    path = folder / "results" / f"{job.name}.json"
    path.parent.mkdir(parents=True, exist_ok=True)
    new = path.with_suffix(".new")
    new.write_text(json.dumps({"digest": job.digest(), "result": told}), encoding="utf-8")
    os.replace(new, path)


def _here(job: Job, folder: str) -> Result:
    told = jobs.run(job)
    keep(job, told, Path(folder))
    return told


def on_this_machine(todo: list[Job], folder: Path, processes: int) -> Iterator[tuple[Job, Result]]:
    with ProcessPoolExecutor(max_workers=processes) as pool:
        waiting = {pool.submit(_here, job, str(folder)): job for job in todo}
        try:
            for done in as_completed(waiting):
                yield waiting[done], done.result()
        except BaseException:
            pool.shutdown(wait=False, cancel_futures=True)
            raise


def _package(folder: Path) -> Path:
    """The package as one file that a worker can import."""
    path = folder / "niskjeld_jobs.zip"
    with zipfile.ZipFile(path, "w") as packed:
        for file in sorted(PACKAGE.rglob("*")):
            if file.suffix in (".py", ".css", ".js"):
                packed.write(file, Path("niskjeld") / file.relative_to(PACKAGE))
    return path


def on_a_cluster(todo: list[Job], folder: Path, scheduler: str) -> Iterator[tuple[Job, Result]]:
    """The same jobs by the workers of a Dask cluster; what a worker that ends had begun is done by another."""
    try:
        dask: Any = importlib.import_module("distributed")
    except ImportError:
        raise Fault(NO_DASK) from None
    try:
        client = dask.Client(scheduler, timeout="10s")
    except (OSError, ValueError) as fault:
        raise Fault(f"{scheduler}: no scheduler answers: {fault}") from None
    with client, tempfile.TemporaryDirectory() as made:
        client.upload_file(str(_package(Path(made))))
        waiting = {client.submit(jobs.run, job, key=f"niskjeld-{job.name}-{job.digest()[:16]}", retries=3): job for job in todo}
        for done in dask.as_completed(list(waiting)):
            job, told = waiting[done], done.result()
            keep(job, told, folder)
            yield job, told


def progress(done: int, of: int, name: str) -> None:
    """A bar on standard error, where that is a terminal."""
    if sys.stderr.isatty():
        full = 30 * done // max(1, of)
        bar = f"[{'#' * full}{'.' * (30 - full)}] {done}/{of} {name[:30]:<30}"
        print(f"\r{bar}", end="" if done < of else "\n", file=sys.stderr, flush=True)


def run_all(todo: list[Job], folder: Path, runner: Callable[[list[Job]], Iterator[tuple[Job, Result]]]) -> list[Result]:
    """The results of all jobs in their order; those that an earlier run has kept are taken from there."""
    results = {job.name: told for job in todo if (told := kept(job, folder)) is not None}
    left = [job for job in todo if job.name not in results]
    progress(len(results), len(todo), "")
    for job, told in runner(left) if left else ():
        results[job.name] = told
        progress(len(results), len(todo), job.name)
    return [results[job.name] for job in todo]
