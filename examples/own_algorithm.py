"""An allreduce in two rounds: `tools/schedule examples/own_algorithm.py:direct RANKS BYTES`.

The vector has a piece for each rank. Each rank gets its piece from all others, adds it up, and
sends the sum to all."""
from algorithms.plan import Message, Plan, cut


def direct(ranks: int, size: int, sum_ps: int = 0) -> Plan:
    plan = Plan(ranks, cut(size, ranks), sum_ps)
    pairs = [(rank, (rank + ahead) % ranks)
             for ahead in range(1, ranks) for rank in range(ranks)]
    plan.combine([Message(rank, other, [other]) for rank, other in pairs])
    plan.exchange([Message(rank, other, [rank]) for rank, other in pairs])
    return plan
