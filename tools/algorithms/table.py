"""The table of the algorithms: their names, options, limits, costs and sources. Nothing of it is proved."""
from dataclasses import dataclass
from typing import Callable, Tuple

from algorithms import collectives, counts
from algorithms.collectives import Wish
from algorithms.counts import Counts
from algorithms.plan import Plan

CLUSTERS = "Pješivac-Grbović, Angskun, Bosilca, Fagg, Gabriel and Dongarra, *Performance Analysis of MPI Collective Operations*, 2007"
MPICH = "Thakur, Rabenseifner and Gropp, *Optimization of Collective Communication Operations in MPICH*, 2005"
INTERCOM = "Barnett, Gupta, Payne, Shuler, van de Geijn and Watts, *Interprocessor Collective Communication Library (InterCom)*, 1994"
BRUCK = ("Bruck, Ho, Kipnis, Upfal and Weathersby, *Efficient Algorithms for All-to-All Communications in Multiport "
         "Message-Passing Systems*, 1997")


@dataclass(frozen=True)
class Algorithm:
    """An algorithm. In its formulas, P is the number of ranks, n the bytes of the vector, b the bytes of an item, K the
    number of segments, N the ranks per node."""

    name: str
    plan: Callable[[Wish], Plan]
    counts: Callable[[Wish], Counts]
    options: Tuple[str, ...]
    limit: str
    steps: str
    messages: str
    size: str
    source: str

    def make(self, wish: Wish) -> Plan:
        """The plan; refused if it exceeds the limits of a schedule."""
        self.counts(wish).check()
        return self.plan(wish)

    def kind(self) -> str:
        """The collective: KIND of `goal certify`."""
        return self.name.split("-", 1)[0]


ALGORITHMS = [
    Algorithm("bcast-chain", collectives.bcast_chain, counts.tree, ("root", "segments"), "any",
              "P - 2 + K", "(P - 1) K", "(P - 1) n",
              "Watts and van de Geijn, *A Pipelined Broadcast for Multidimensional Meshes*, 1995"),
    Algorithm("bcast-binary", collectives.bcast_binary, counts.tree, ("root", "segments"), "any",
              "2 (⌊log P⌋ + K - 1)", "(P - 1) K", "(P - 1) n", CLUSTERS),
    Algorithm("bcast-scatter-allgather", collectives.bcast_scatter_allgather, counts.scatter_allgather, ("root",), "any",
              "⌈log P⌉ + P - 1", "(P - 1) (P + 1)", "(P - 1) n, and n/2 log P", INTERCOM),
    Algorithm("allreduce-ring", collectives.allreduce_ring, counts.ring, ("segments", "sum_ps"), "any",
              "2 (P - 1)", "2 P (P - 1) K", "2 (P - 1) n",
              "Patarasuk and Yuan, *Bandwidth Optimal All-reduce Algorithms for Clusters of Workstations*, 2009"),
    Algorithm("allreduce-halving-doubling", collectives.allreduce_halving_doubling, counts.halving, ("sum_ps",), "any",
              "2 ⌊log P⌋, and 2", "2 p log p, and 2 (P - p)", "2 (P - 1) n",
              "Rabenseifner, *Optimization of Collective Reduction Operations*, 2004"),
    Algorithm("allreduce-halving-doubling-near", collectives.allreduce_halving_doubling_near, counts.halving, ("sum_ps",), "any",
              "2 ⌊log P⌋, and 2", "2 p log p, and 2 (P - p)", "2 (P - 1) n",
              "Rabenseifner, *Optimization of Collective Reduction Operations*, 2004"),
    Algorithm("allreduce-reduce-bcast", collectives.allreduce_reduce_bcast, counts.there_and_back, ("root", "segments", "sum_ps"), "any",
              "2 ⌈log P⌉", "2 (P - 1) K", "2 (P - 1) n", MPICH),
    Algorithm("allreduce-two-level", collectives.allreduce_two_level, counts.two_level, ("node", "sum_ps"), "any",
              "2 ⌈log N⌉ + 2 (M - 1)", "2 (P - M) + 2 M (M - 1)", "2 (P - 1) n",
              "Kielmann, Hofman, Bal, Plaat and Bhoedjang, *MagPIe: MPI's Collective Communication Operations for Clustered "
              "Wide Area Systems*, 1999"),
    Algorithm("allreduce-hierarchical", collectives.allreduce_hierarchical, counts.hierarchical, ("node", "sum_ps"), "any",
              "2 log N + 2 log M, or as a ring", "2 P log P, or as a ring", "2 (P - 1) n",
              "Bayatpour, Chakraborty, Subramoni, Lu and Panda, *Scalable Reduction Collectives with Data Partitioning-based "
              "Multi-Leader Design*, 2017"),
    Algorithm("allgather-doubling", collectives.allgather_doubling, counts.doubling, (), "a power of two",
              "log P", "P log P", "P (P - 1) b", MPICH),
    Algorithm("allgather-bruck", collectives.allgather_bruck, counts.doubling, (), "any",
              "⌈log P⌉", "P ⌈log P⌉", "P (P - 1) b", BRUCK),
    Algorithm("allgather-neighbour", collectives.allgather_neighbour, counts.neighbour, (), "even",
              "P/2", "P²/2", "P (P - 1) b",
              "Chen, Zhang, Zhang and Yuan, *Performance Evaluation of Allgather Algorithms on Terascale Linux Cluster with Fast "
              "Ethernet*, 2005"),
    Algorithm("alltoall-bruck", collectives.alltoall_bruck, counts.alltoall_bruck, (), "any",
              "⌈log P⌉", "P ⌈log P⌉", "P²/2 log P b", BRUCK),
    Algorithm("alltoall-pairwise", collectives.alltoall_pairwise, counts.pairwise, (), "any",
              "P - 1", "P (P - 1)", "P (P - 1) b", MPICH),
    Algorithm("barrier-tree", collectives.barrier_tree, counts.there_and_back, (), "any",
              "2 ⌈log P⌉", "2 (P - 1)", "2 (P - 1) b",
              "Hensgen, Finkel and Manber, *Two Algorithms for Barrier Synchronization*, 1988"),
    Algorithm("gather-tree", collectives.gather_tree, counts.to_or_from_root, ("root",), "any",
              "⌈log P⌉", "P - 1", "P/2 log P b", INTERCOM),
    Algorithm("scatter-tree", collectives.scatter_tree, counts.to_or_from_root, ("root",), "any",
              "⌈log P⌉", "P - 1", "P/2 log P b", INTERCOM),
]


def printed() -> str:
    """The table in the form of docs/COLLECTIVES.md."""
    lines = ["| algorithm | ranks | options | steps | messages | bytes in all | described in |", "|---|---|---|---|---|---|---|"]
    for one in ALGORITHMS:
        options = " ".join(f"`--{option.replace('_', '-')}`" for option in one.options)
        lines.append(f"| `{one.name}` | {one.limit} | {options} | {one.steps} | {one.messages} | {one.size} | {one.source} |")
    return "\n".join(lines)
