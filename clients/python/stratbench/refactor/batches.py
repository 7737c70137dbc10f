"""Files are done a few at a time, since a process of the workbench loads the modules once for them: here, in processes side by side, or on
the workers of a cluster."""

from __future__ import annotations

import pickle
import signal
from collections.abc import Callable, Iterable, Iterator, Sequence
from concurrent.futures import ProcessPoolExecutor
from concurrent.futures.process import BrokenProcessPool
from itertools import repeat
from typing import Final

from ..cluster import Cluster, Lost
from .sources import refactored
from .task import Outcome, Task

# The most files that a process of the workbench does, and their most bytes where there are more files. Where processes run side by
# side, each gets so many of such batches at least, if there are the files, so that all end at about the same time.
_BATCH: Final = 16
_BYTES: Final = 1_000_000
_SHARE: Final = 4


def outcomes(
    work: Sequence[tuple[str, bytes]], task: Task, jobs: int, cluster: str | None = None, say: Callable[[str], None] | None = None
) -> Iterator[Outcome]:
    """Yields what comes of files, in their order. Raises `Lost` where a process or the cluster was lost. `say` gets a line for each
    worker of the cluster that is left out."""
    if cluster is not None:
        with Cluster(cluster, say) as workers:
            batches = [pickle.dumps((batch, tuple(task))) for batch in _batches(work, workers.threads())]
            for answer in workers.answers((__name__, "answered"), batches):
                yield from (Outcome(*it) for it in pickle.loads(answer))
    elif jobs == 1:
        for batch in _batches(work, jobs):
            yield from refactored(batch, task)
    else:
        with ProcessPoolExecutor(jobs, initializer=_worker) as pool:
            try:
                for found in pool.map(refactored, _batches(work, jobs), repeat(task)):
                    yield from found
            except BrokenProcessPool:
                raise Lost("a process ended") from None


# Ctrl-C goes to all processes of a terminal. The one that was started ends the others.
def _worker() -> None:
    signal.signal(signal.SIGINT, signal.SIG_IGN)
    for it in (signal.SIGTERM, signal.SIGHUP):
        signal.signal(it, signal.SIG_DFL)


def answered(batch: bytes) -> bytes:
    """Does a batch of a cluster's, in a process of its worker, and returns the outcomes."""
    work, task = pickle.loads(batch)
    return pickle.dumps([tuple(it) for it in refactored(work, Task(*task))])


def _batches(work: Iterable[tuple[str, bytes]], jobs: int) -> Iterator[list[tuple[str, bytes]]]:
    work = list(work)
    most = _BATCH if jobs == 1 else max(1, min(_BATCH, -(-len(work) // (_SHARE * jobs))))
    batch: list[tuple[str, bytes]] = []
    for one in work:
        if len(batch) == most or batch and sum(len(it) for _, it in [*batch, one]) > _BYTES:
            yield batch
            batch = []
        batch.append(one)
    if batch:
        yield batch
