"""How the districts of a run reach one another: as processes under MPI, as threads of one process, or not at all where there is one.

Each has its `rank`, from 0, and `size`, how many there are. `meet` comes once, before the first `swap`.
"""

import os
import sys
from collections.abc import Sequence
from queue import SimpleQueue
from typing import Any, NoReturn, Protocol

from ..faults import Fault

LAUNCHERS = ("OMPI_COMM_WORLD_SIZE", "PMI_SIZE", "PMIX_SIZE", "SLURM_STEP_NUM_TASKS")  # how many processes a launcher says that there are


class Ranks(Protocol):
    """What a district asks of the others."""

    rank: int
    size: int

    def meet(self, sources: Sequence[int], targets: Sequence[int]) -> None:
        """From which ranks this one hears in each round, and which ones it tells."""
        ...

    def swap(self, parcels: dict[int, Any]) -> dict[int, Any]:
        """Gives each target its parcel, and answers what each source has given."""
        ...

    def share(self, part: Any) -> list[Any]:
        """The parts of all, by rank."""
        ...

    def gather(self, part: Any) -> list[Any]:
        """At rank 0 the parts of all, by rank; elsewhere nothing."""
        ...

    def stop(self) -> NoReturn:
        """Ends the run at all ranks, with status 2."""
        ...


class Alone:
    """One rank."""

    rank, size = 0, 1

    def meet(self, sources: Sequence[int], targets: Sequence[int]) -> None:
        """There is none to meet."""

    def swap(self, parcels: dict[int, Any]) -> dict[int, Any]:
        """There is none to tell."""
        return {}

    def share(self, part: Any) -> list[Any]:
        """Its own part."""
        return [part]

    gather = share

    def stop(self) -> NoReturn:
        """Ends the process."""
        sys.exit(2)


class Threads:
    """One rank of several in threads of a process; `posts` are the queues of all, by source and target."""

    def __init__(self, rank: int, size: int, posts: dict[tuple[int, int], SimpleQueue]) -> None:
        self.rank, self.size, self._posts = rank, size, posts
        self._sources: Sequence[int] = ()

    @classmethod
    def of(cls, size: int) -> list["Threads"]:
        """So many ranks."""
        posts = {(source, target): SimpleQueue() for source in range(size) for target in range(size)}
        return [cls(rank, size, posts) for rank in range(size)]

    def meet(self, sources: Sequence[int], targets: Sequence[int]) -> None:
        """Keeps from whom it hears."""
        self._sources = sources

    def swap(self, parcels: dict[int, Any]) -> dict[int, Any]:
        """Puts each parcel into a queue, and waits for those of the sources."""
        for target, parcel in parcels.items():
            self._posts[self.rank, target].put(parcel)
        return {source: self._taken(source) for source in self._sources}

    def _taken(self, source: int) -> Any:
        parcel = self._posts[source, self.rank].get(timeout=60)
        if parcel is Fault:
            raise Fault(f"rank {source} has stopped")
        return parcel

    def share(self, part: Any) -> list[Any]:
        """By the queues of all to all."""
        for target in range(self.size):
            self._posts[self.rank, target].put(part)
        return [self._taken(rank) for rank in range(self.size)]

    def gather(self, part: Any) -> list[Any]:
        """By the queues to rank 0."""
        self._posts[self.rank, 0].put(part)
        return [self._taken(rank) for rank in range(self.size)] if self.rank == 0 else []

    def stop(self) -> NoReturn:
        """Tells all who may wait for this one."""
        for target in range(self.size):
            self._posts[self.rank, target].put(Fault)
        raise Fault(f"rank {self.rank} has stopped")


class Processes:
    """A process under MPI, by mpi4py."""

    def __init__(self, mpi: Any) -> None:
        self._all, self.rank, self.size = mpi.COMM_WORLD, mpi.COMM_WORLD.Get_rank(), mpi.COMM_WORLD.Get_size()

    def meet(self, sources: Sequence[int], targets: Sequence[int]) -> None:
        """Makes a graph of neighbours."""
        self._sources, self._targets = list(sources), list(targets)
        self._graph = self._all.Create_dist_graph_adjacent(self._sources, self._targets)

    def swap(self, parcels: dict[int, Any]) -> dict[int, Any]:
        """By MPI_Neighbor_alltoallv."""
        return dict(zip(self._sources, self._graph.neighbor_alltoall([parcels[target] for target in self._targets])))

    def share(self, part: Any) -> list[Any]:
        """By MPI_Allgather."""
        return self._all.allgather(part)

    def gather(self, part: Any) -> list[Any]:
        """By MPI_Gather."""
        return self._all.gather(part) or []

    def stop(self) -> NoReturn:
        """By MPI_Abort."""
        sys.stderr.flush()
        self._all.Abort(2)
        sys.exit(2)


def ranks_here() -> Ranks:
    """The rank of this process under MPI; alone where mpi4py is not installed."""
    try:
        from mpi4py import MPI
    except ImportError as fault:
        if any(os.environ.get(name, "1") != "1" for name in LAUNCHERS):
            raise Fault(f"mpi4py is not installed for {sys.executable}, by which these processes would meet: {fault}") from fault
        return Alone()
    return Processes(MPI)
