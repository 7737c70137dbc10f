"""Work that is spread over the workers of a Dask cluster.

A batch of work is bytes, and so is its answer. All that a worker runs is sent with the batch, as texts: the files of this
package, and a short program that has a process of its own there. So workers need only `distributed` and the same version of
Python, several batches run side by side in one, and nothing stays in it. Where a worker is lost, the scheduler gives its
batches to another; where one lacks what the work needs, it is left out, and the others get its batches.
"""

from __future__ import annotations

import importlib
import importlib.resources
import io
import logging
import pickle
import sys
import time
import uuid
import zipfile
import zlib
from collections.abc import Callable, Iterator, Sequence
from types import TracebackType
from typing import Any, Final, NamedTuple

# So many batches for each thread of the workers are with the cluster at a time.
_AHEAD: Final = 2
# So often a batch is given out again whose process the system ended.
_AGAIN: Final = 3
# The status of a process whose worker lacks what the work needs.
_LACKS: Final = 3

# What a worker is asked to do: to run a process with a batch, and to say which worker it is.
_WORK: Final = (
    "(__import__('distributed').get_worker().address, "
    "__import__('subprocess').run([__import__('sys').executable, '-c', program], input=batch, stdout=-1, stderr=-1))"
)

# What that process does.
_PROCESS: Final = """
import importlib, pickle, platform, sys, tempfile, zlib
version, package, (module, function), batch = pickle.loads(zlib.decompress(sys.stdin.buffer.read()))
def lacks(why):
    sys.stderr.write("%s: %s" % (platform.node(), why))
    sys.exit(3)
if sys.version_info[:2] != version:
    lacks("Python %d.%d, and not %d.%d as here" % (*sys.version_info[:2], *version))
with tempfile.NamedTemporaryFile(suffix=".zip") as it:
    it.write(package)
    it.flush()
    sys.path.insert(0, it.name)
    try:
        answer = getattr(importlib.import_module(module), function)(batch)
    except OSError as error:
        lacks(error)
sys.stdout.buffer.write(zlib.compress(answer))
"""


class Lost(Exception):
    """The cluster can't do the work; it says why."""


class Unreachable(Lost):
    """There is no cluster at the address, or this Python lacks `distributed`."""


class _Sent(NamedTuple):
    """A batch that is with the cluster: its number, and the workers that it was sent to, where that isn't any of them."""

    at: int
    workers: list[str] | None


class Cluster:
    """A connection to the scheduler at an address. It is a context manager.

    `say` gets a line for each worker that is left out.
    """

    def __init__(self, address: str, say: Callable[[str], None] | None = None) -> None:
        self.address = address
        self._say = say
        # Why workers are left out, by their addresses.
        self._left_out: dict[str, str] = {}
        try:
            self._dask: Any = importlib.import_module("distributed")
            config: Any = importlib.import_module("dask.config")
            utilities: Any = importlib.import_module("dask.utils")
        except ImportError as error:
            raise Unreachable(f"--cluster needs the package distributed (Debian's python3-distributed): {error}") from None
        # what goes wrong is raised, and Dask would log it too, under names of all kinds
        logging.disable(logging.CRITICAL)
        # how long Dask waits for a connection is how long there may be no worker
        self._patience: float = utilities.parse_timedelta(config.get("distributed.comm.timeouts.connect"))
        try:
            self._client: Any = self._dask.Client(address, timeout=self._patience)
        except (OSError, ValueError, self._dask.TimeoutError) as error:
            raise Unreachable(f"--cluster {address}: no scheduler answers: {error}") from None

    def __enter__(self) -> Cluster:
        return self

    def __exit__(self, kind: type[BaseException] | None, error: BaseException | None, trace: TracebackType | None) -> None:
        self._client.close()

    def threads(self) -> int:
        """Returns how many threads the workers have. Waits for a worker where there is none, and raises `Lost` if none comes,
        or all that are there are left out."""
        return sum(self._workers().values())

    # The threads of each worker that isn't left out.
    def _workers(self) -> dict[str, int]:
        until = time.monotonic() + self._patience
        while True:
            try:
                there: dict[str, int] = dict(self._client.nthreads())
            except OSError:
                raise self._gone() from None
            found = {worker: threads for worker, threads in there.items() if worker not in self._left_out and threads}
            if found:
                return found
            if there:
                raise Lost(self._left_out.get(next(iter(there)), f"the workers of the cluster at {self.address} have no threads"))
            if time.monotonic() > until:
                raise Lost(f"the cluster at {self.address} has had no worker for {self._patience:.0f} seconds")
            time.sleep(0.2)

    def answers(self, function: tuple[str, str], batches: Sequence[bytes]) -> Iterator[bytes]:
        """Yields the answers of the function, a module of this package with its name, to the batches, in their order."""
        package = packed()
        waiting: dict[Any, _Sent] = {}
        found: dict[int, bytes] = {}
        again = [0] * len(batches)
        left = list(range(len(batches)))[::-1]
        for wanted in range(len(batches)):
            while wanted not in found:
                workers = self._workers()
                left += self._stranded(waiting, workers)
                most = max(1, _AHEAD * sum(workers.values()))
                to = list(workers) if self._left_out else None
                while left and len(waiting) < most:
                    at = left.pop()
                    waiting[self._sent((sys.version_info[:2], package, function, batches[at]), to)] = _Sent(at, to)
                for future in self._done(list(waiting)):
                    at = waiting.pop(future).at
                    worker, ran = self._result(future)
                    if ran.returncode == _LACKS:
                        self._leave_out(worker, ran.stderr.decode(errors="replace").strip())
                        left.append(at)
                    elif ran.returncode < 0 and again[at] < _AGAIN:
                        again[at] += 1
                        left.append(at)
                    elif ran.returncode:
                        raise Lost(ran.stderr.decode(errors="replace").strip() or f"a process ended with status {ran.returncode}")
                    else:
                        found[at] = zlib.decompress(ran.stdout)
            yield found.pop(wanted)

    def _sent(self, work: object, workers: list[str] | None) -> Any:
        names = {"program": _PROCESS, "batch": zlib.compress(pickle.dumps(work, protocol=4))}
        return self._client.submit(eval, _WORK, names, key=f"stratbench-{uuid.uuid4()}", workers=workers)

    # Takes back the batches whose workers have all gone, and returns their numbers: the scheduler would keep them for those.
    def _stranded(self, waiting: dict[Any, _Sent], workers: dict[str, int]) -> list[int]:
        stranded = [future for future, sent in waiting.items() if sent.workers is not None and not workers.keys() & set(sent.workers)]
        for future in stranded:
            future.cancel()
        return [waiting.pop(future).at for future in stranded]

    def _leave_out(self, worker: str, why: str) -> None:
        if worker not in self._left_out and self._say:
            self._say(f"the worker {worker} is left out: {why}")
        self._left_out[worker] = why

    # The futures that are done. Each second the caller gets to see whether workers are left.
    def _done(self, futures: list[Any]) -> list[Any]:
        try:
            return list(self._dask.wait(futures, timeout=1, return_when="FIRST_COMPLETED").done)
        except self._dask.TimeoutError:
            return []
        except self._dask.CancelledError:
            raise self._gone() from None

    def _result(self, future: Any) -> Any:
        try:
            return future.result()
        except Exception as error:
            # such as that worker after worker was lost with it
            raise Lost(f"the cluster at {self.address}: {type(error).__name__}: {error}") from None

    def _gone(self) -> Lost:
        return Lost(f"the scheduler at {self.address} was lost")


def packed() -> bytes:
    """Returns this package as a zip file that Python imports from."""
    out = io.BytesIO()
    with zipfile.ZipFile(out, "w", zipfile.ZIP_DEFLATED) as it:
        _pack(it, importlib.resources.files(__package__), __package__)
    return out.getvalue()


def _pack(out: zipfile.ZipFile, folder: Any, name: str) -> None:
    for it in folder.iterdir():
        if it.is_dir() and it.name != "__pycache__":
            _pack(out, it, f"{name}/{it.name}")
        elif it.name.endswith((".py", ".grammar", ".js", ".java")):
            out.writestr(f"{name}/{it.name}", it.read_bytes())
