"""The heaps of a fleet on the workers of a Dask cluster, of which a map and a reduction are asked."""
import time
from typing import Any, List, Sequence

from ..errors import TraceError
from ..progress import Progress
from .fleet import Part, merged
from .fleet_heap import Task, audited_heap, not_audited

_AT_A_TIME = 8  # parts that one step of the reduction makes one
_LOOK_EVERY = 0.2  # seconds
_WITHOUT_WORKERS = 60  # seconds that a cluster may have none
_TO_CONNECT = 30  # seconds


def on_dask(tasks: Sequence[Task], address: str, progress: Progress) -> Part:
    """What the heaps have. A heap that no worker could audit is one that could not be audited."""
    try:
        import distributed
    except ImportError:
        raise TraceError(
            "--dask needs the Python package distributed: pip install distributed, or Debian's python3-distributed"
        ) from None
    try:
        client = distributed.Client(address, timeout=_TO_CONNECT, set_as_default=False)
    except (OSError, ValueError, distributed.TimeoutError) as error:
        raise TraceError("there is no Dask scheduler at %s: %s" % (address, error)) from None
    with client:
        return _Cluster(client, address, progress).audited(tasks)


class _Cluster:
    """A cluster that a client is connected with."""

    def __init__(self, client: Any, address: str, progress: Progress) -> None:
        self._client = client
        self._address = address
        self._progress = progress

    def audited(self, tasks: Sequence[Task]) -> Part:
        futures = self._client.map(audited_heap, tasks, pure=False)
        self._wait_for(futures, "%d of %d heaps audited")
        failed = [not_audited(task, _why(future)) for task, future in zip(tasks, futures) if future.status == "error"]
        parts = [future for future in futures if future.status != "error"]
        while len(parts) > 1:
            pieces = [parts[at : at + _AT_A_TIME] for at in range(0, len(parts), _AT_A_TIME)]
            parts = self._client.map(merged, pieces, pure=False)
        self._wait_for(parts, "putting the heaps together")
        return merged(failed + [part.result() for part in parts])

    def _wait_for(self, futures: List[Any], step: str) -> None:
        """Waits until all are done, as long as there is a cluster."""
        seen = time.monotonic()
        while True:
            done = sum(future.done() for future in futures)
            # A future that is lost was on a worker that ended, and is made again. All are cancelled where the scheduler is lost.
            if any(future.cancelled() for future in futures):
                raise TraceError("the Dask scheduler at %s is gone" % self._address)
            if done == len(futures):
                return
            self._progress.at(step % (done, len(futures)) if "%" in step else step)
            if self._client.scheduler_info()["workers"]:
                seen = time.monotonic()
            elif time.monotonic() - seen > _WITHOUT_WORKERS:
                raise TraceError("the Dask cluster at %s has no worker" % self._address)
            time.sleep(_LOOK_EVERY)


def _why(future: Any) -> str:
    """Why a heap has no result."""
    error = future.exception()
    if type(error).__name__ == "KilledWorker":
        return "each Dask worker that audited it ended, perhaps since its memory ran out"
    return "%s: %s" % (type(error).__name__, error)
