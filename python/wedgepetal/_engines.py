"""Who does the work on an archive: processes of this machine, or a Dask cluster. Both give lines as they come."""
from __future__ import annotations

import ctypes
import itertools
import multiprocessing
import os
import signal
import sys
from concurrent.futures import FIRST_COMPLETED, Future, ProcessPoolExecutor, wait
from concurrent.futures.process import BrokenProcessPool
from typing import TYPE_CHECKING, Dict, Iterable, Iterator, List

from ._jobs import Job, Line, died, do

if TYPE_CHECKING:
    from distributed import Client

AHEAD = 2
"""For each worker so many shots wait, or are worked on."""


def cores() -> int:
    """How many cores this process may use."""
    return len(os.sched_getaffinity(0))


def on_processes(job: Job, shots: Iterable[str], jobs: int) -> Iterator[Line]:
    """Does the work in processes. If one of them is killed or crashes, each shot that waited or was worked on is done again in
    a process that has no other shot, so that the shot at fault is named and no other is lost."""
    left = iter(shots)
    again: List[str] = [""]
    while again:
        again = []
        yield from _together(job, left, jobs, again)
        yield from _one_by_one(job, again)


def _together(job: Job, left: Iterator[str], jobs: int, again: List[str]) -> Iterator[Line]:
    """Does the work in one pool, until nothing is left or a process ends: then these shots are to be done again."""
    waiting: Dict["Future[Line]", str] = {}
    open_shots: Dict[str, None] = {}
    with _pool(jobs) as pool:

        def hand_over(count: int) -> None:
            for shot in itertools.islice(left, count):
                open_shots[shot] = None
                waiting[pool.submit(do, job, shot)] = shot

        try:
            hand_over(AHEAD * jobs)
            while waiting:
                for future in wait(waiting, return_when=FIRST_COMPLETED).done:
                    line = future.result()
                    del open_shots[waiting.pop(future)]
                    yield line
                    hand_over(1)
        except BrokenProcessPool:
            again.extend(open_shots)
        finally:
            for future in waiting:
                future.cancel()


def _one_by_one(job: Job, shots: Iterable[str]) -> Iterator[Line]:
    """Does the work with one shot at a time in a process, and another process if it ends."""
    left = iter(shots)
    ended = True
    while ended:
        ended = False
        with _pool(1) as pool:
            for shot in left:
                try:
                    yield pool.submit(do, job, shot).result()
                except BrokenProcessPool:
                    yield died(job, shot)
                    ended = True
                    break


def _pool(jobs: int) -> ProcessPoolExecutor:
    return ProcessPoolExecutor(jobs, multiprocessing.get_context("spawn"), _end_with, (os.getpid(),))


def _end_with(run: int) -> None:
    """A worker ends when the run is killed, and leaves an interruption to it."""
    signal.signal(signal.SIGINT, signal.SIG_IGN)
    if sys.platform == "linux":
        ctypes.CDLL(None).prctl(1, signal.SIGKILL)  # PR_SET_PDEATHSIG
    if os.getppid() != run:  # which was killed before
        os._exit(1)


def on_dask(job: Job, shots: Iterable[str], client: Client) -> Iterator[Line]:
    """Does the work on a Dask cluster, which hands the shots of a lost worker to another. The folders must be the same for all
    workers."""
    from distributed import KilledWorker, as_completed

    left = iter(shots)
    threads = sum(client.nthreads().values()) or 1
    names: Dict[str, str] = {}

    def submit(count: int) -> List["Future[Line]"]:
        futures = []
        for shot in itertools.islice(left, count):
            future = client.submit(do, job, shot, pure=False)
            names[future.key] = shot
            futures.append(future)
        return futures

    coming = as_completed(submit(AHEAD * threads))
    for future in coming:
        shot = names.pop(future.key)
        try:
            line = future.result()
        except KilledWorker:
            line = died(job, shot)
        yield line
        coming.update(submit(1))
