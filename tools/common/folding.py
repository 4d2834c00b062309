"""Folds a schedule, so that the ranks of a node share its network cards. Nothing of it is proved.

A node becomes a rank. Each cpu that a rank of the node uses becomes a cpu of the new rank, and each card becomes a NIC.
A message inside the node becomes a message of the new rank to itself. It goes over a path, a NIC that is not a card;
each old rank has its own paths. Messages get new tags, so that each receive can take the same messages as before.
"""
import tempfile
from bisect import bisect_left
from dataclasses import dataclass
from typing import Dict, Iterable, Iterator, List, Optional, Sequence, Set, Tuple

from common import program
from common.canonical import Key, Op, Schedule, read_canonical
from common.command import Fault
from common.description import Cards, Cluster, lines_of
from common.parameters import Machine

ANY = "any"
STANDARD_INPUT = "/dev/stdin"
MOST_NUMBERS = 256
# The number of words of a line `op` with a partner, and of a line `stuck` that names another operation.
LENGTH_OF_MATCHED, LENGTH_OF_STUCK = 11, 7
# The source, the target and the tag of a message.
Channel = Tuple[int, int, int]
# The rank of a receive, and the source and the tag that it names.
Pattern = Tuple[int, str, str]


class Matching:
    """The channels to one rank. It finds from which channels each receive may take, and gives them new tags that
    preserve this: channels with the same leader get the same tag."""

    def __init__(self, node_of: Sequence[int]) -> None:
        self.node_of = node_of
        self.by_source: Dict[int, Set[Channel]] = {}
        self.leader: Dict[Channel, Channel] = {}
        self.members: Dict[Channel, List[Channel]] = {}
        self.tags: Dict[Channel, int] = {}

    def add(self, channel: Channel) -> None:
        """Adds a channel on which something is sent."""
        if channel not in self.leader:
            self.by_source.setdefault(channel[0], set()).add(channel)
            self.leader[channel] = channel
            self.members[channel] = [channel]

    def taken_by(self, receive: Op, rank: int) -> List[Channel]:
        """The channels whose messages a receive of this rank may take."""
        if receive.peer != ANY and receive.tag != ANY:
            channel = (int(receive.peer), rank, int(receive.tag))
            return [channel] if channel in self.leader else []
        sources = self.by_source if receive.peer == ANY else [int(receive.peer)]
        return [channel for source in sources for channel in self.by_source.get(source, ())
                if receive.tag == ANY or int(receive.tag) == channel[2]]

    def join(self, channels: List[Channel]) -> None:
        """Gives these channels the same tag, since one receive may take from any of them."""
        for channel in channels[1:]:
            one, other = self.leader[channels[0]], self.leader[channel]
            if one != other:
                for moved in self.members.pop(other):
                    self.leader[moved] = one
                    self.members[one].append(moved)

    def number(self, first: int) -> int:
        """Numbers the tags from `first` on, and returns the next free number."""
        for tag, leader in enumerate(self.members, first):
            self.tags[leader] = tag
        return first + len(self.members)

    def tag(self, channel: Channel) -> int:
        return self.tags[self.leader[channel]]

    def is_kept(self, receive: Op, channels: List[Channel]) -> bool:
        """Whether the folded receive takes from exactly these channels. It has the new tag, and names the node of its
        source or any."""
        same = self.members[self.leader[channels[0]]]
        if receive.peer != ANY:
            node = self.node_of[int(receive.peer)]
            same = [channel for channel in same if self.node_of[channel[0]] == node]
        return len(same) == len(channels)


class Numbers:
    """Numbers, from `first` on, for the devices that the ranks of a node use, in the order of the ranks."""

    def __init__(self, what: str, first: int = 0) -> None:
        self.what, self.first = what, first
        self.used: Set[Key] = set()
        self.of: Dict[Key, int] = {}

    def close(self, node: int) -> None:
        """Assigns the numbers, when all devices in use are known."""
        count = self.first + len(self.used)
        if count > MOST_NUMBERS:
            raise Fault(f"node {node} needs {count} {self.what}, and has at most {MOST_NUMBERS}: put fewer ranks on a node")
        self.of = {key: place for place, key in enumerate(sorted(self.used), self.first)}


@dataclass
class Node:
    """A node as a rank: its ranks in order, their operations in the new order, and its cpus and NICs."""

    ranks: List[int]
    ops: List[Key]
    cpus: Numbers
    nics: Numbers


def options(**numbers: int) -> str:
    """The options of an operation as text, without those that are 0."""
    return "".join(f" {name} {number}" for name, number in numbers.items() if number)


class Fold:
    """A folded schedule, whose ranks are nodes. The operations of a node are those of its ranks, rank after rank."""

    def __init__(self, schedule: Schedule, machine: Machine, cards: Cards) -> None:
        if schedule.ranks != len(machine.nodes):
            raise Fault(f"the machine has {len(machine.nodes)} ranks, and the schedule has {schedule.ranks}")
        self.schedule, self.machine, self.cards = schedule, machine, cards
        self.names = sorted(set(machine.nodes))
        numbers = {name: number for number, name in enumerate(self.names)}
        self.node_of = [numbers[name] for name in machine.nodes]
        self.nodes = [Node([], [], Numbers("cpus"), Numbers("cards and paths inside", cards.count)) for _ in self.names]
        self.matchings: Dict[int, Matching] = {}
        self.taken: Dict[Pattern, List[Channel]] = {}
        self.tags: Dict[Pattern, int] = {}
        self.new_key: Dict[Key, Key] = {}
        self._place_operations()
        self._match()
        self._number_tags()
        self._number_devices()

    def _place_operations(self) -> None:
        counts = [0] * len(self.node_of)
        for rank, _ in self.schedule.ops:
            counts[rank] += 1
        for rank, at in enumerate(self.node_of):
            node = self.nodes[at]
            node.ranks.append(rank)
            for number in range(counts[rank]):
                self.new_key[rank, number] = at, len(node.ops)
                node.ops.append((rank, number))

    def _match(self) -> None:
        """Finds which messages each receive may take, and joins their channels."""
        for (rank, _), op in self.schedule.ops.items():
            if op.kind == "send":
                self._matching(int(op.peer)).add((rank, int(op.peer), int(op.tag)))
        receives = {(key[0], op.peer, op.tag): (key, op) for key, op in self.schedule.ops.items() if op.kind == "recv"}
        for pattern, ((rank, _), op) in receives.items():
            self.taken[pattern] = self._matching(rank).taken_by(op, rank)
            self._matching(rank).join(self.taken[pattern])
        for pattern, ((rank, number), op) in receives.items():
            if self.taken[pattern] and not self._matching(rank).is_kept(op, self.taken[pattern]):
                raise Fault(f"operation {number} of rank {rank}, a receive from {op.peer} with tag {op.tag}, cannot be folded: another "
                            "receive there takes from any rank or with any tag, and its messages could not be told from those of "
                            "this one")

    def _matching(self, rank: int) -> Matching:
        if rank not in self.matchings:
            self.matchings[rank] = Matching(self.node_of)
        return self.matchings[rank]

    def _number_tags(self) -> None:
        """Numbers the tags. Channels to a node have different tags unless they are joined. A pattern to which nothing
        is sent has a tag of its own."""
        free = [0] * len(self.nodes)
        for rank, matching in self.matchings.items():
            free[self.node_of[rank]] = matching.number(free[self.node_of[rank]])
        for pattern, channels in self.taken.items():
            node = self.node_of[pattern[0]]
            if channels:
                self.tags[pattern] = self.matchings[pattern[0]].tag(channels[0])
            else:
                self.tags[pattern] = free[node]
                free[node] += 1

    def _number_devices(self) -> None:
        """Numbers the cpus and the NICs inside each node. Refuses an operation on a NIC that is not one of the
        cards."""
        for key, op in self.schedule.ops.items():
            node = self.nodes[self.node_of[key[0]]]
            node.cpus.used.add((key[0], op.cpu))
            if op.kind == "calc":
                continue
            if self.cards.count == 0 or self._is_inside(key, op):
                node.nics.used.add((key[0], op.nic))
            elif op.nic >= self.cards.count:
                raise Fault(f"operation {key[1]} of rank {key[0]} is on nic {op.nic}, and a node has {self.cards.count} cards, from 0")
        for name, node in zip(self.names, self.nodes):
            node.cpus.close(name)
            node.nics.close(name)

    def _is_inside(self, key: Key, op: Op) -> bool:
        """Whether the messages of a send or a receive stay inside its node. Raises a Fault if a receive may take both
        kinds."""
        here = self.node_of[key[0]]
        if op.peer != ANY:
            return self.node_of[int(op.peer)] == here
        inside = {self.node_of[source] == here for source, _, _ in self.taken[key[0], op.peer, op.tag]}
        if len(inside) > 1:
            raise Fault(f"operation {key[1]} of rank {key[0]}, a receive from any, cannot be folded: its message may come from its node "
                        "or over a card")
        return True in inside

    def _nic(self, key: Key, op: Op) -> int:
        rank = key[0]
        node = self.nodes[self.node_of[rank]]
        if self.cards.count == 0 or self._is_inside(key, op):
            return node.nics.of[rank, op.nic]
        own = self.cards.of(bisect_left(node.ranks, rank), len(node.ranks))
        return (own + op.nic) % self.cards.count

    def _action(self, key: Key, op: Op) -> str:
        """An operation as it is written in the folded schedule."""
        cpu = self.nodes[self.node_of[key[0]]].cpus.of[key[0], op.cpu]
        if op.kind == "calc":
            return f"calc {op.size}" + options(cpu=cpu)
        if op.kind == "send":
            target = int(op.peer)
            tag = self.matchings[target].tag((key[0], target, int(op.tag)))
            return f"send {op.size}b to {self.node_of[target]}" + options(tag=tag, cpu=cpu, nic=self._nic(key, op))
        source = ANY if op.peer == ANY else self.node_of[int(op.peer)]
        tag = self.tags[key[0], op.peer, op.tag]
        return f"recv {op.size}b from {source}" + options(tag=tag, cpu=cpu, nic=self._nic(key, op))

    def text(self) -> Iterator[str]:
        """The text of the folded schedule, in pieces. Operation I of rank R has the label rR_I."""
        yield f"num_ranks {len(self.nodes)}\n"
        for number, node in enumerate(self.nodes):
            if node.ops:
                yield "\n".join([f"rank {number} {{", *self._lines(node), "}\n"])

    def _lines(self, node: Node) -> Iterator[str]:
        for key in node.ops:
            yield f"r{key[0]}_{key[1]}: {self._action(key, self.schedule.ops[key])}"
        for rank, number in node.ops:
            for earlier, by_end in self.schedule.ops[rank, number].needs:
                yield f"r{rank}_{number} {'requires' if by_end else 'irequires'} r{rank}_{earlier}"

    def machine_text(self) -> str:
        """The text of MACHINE for the folded schedule."""
        return "".join(line + "\n" for line in lines_of(self.folded_machine()))

    def folded_machine(self) -> Machine:
        """The machine of the folded schedule: a rank for each node."""
        machine = self.machine
        return Machine(machine.classes, machine.inside, machine.default, self.names, machine.pairs)

    def unfolded(self, lines: Iterable[str]) -> List[str]:
        """The printed run of the folded schedule, translated to the ranks and numbers of the original schedule."""
        first, *others = lines
        words = first.split()
        found: Dict[str, List[Tuple[Key, str]]] = {"op": [], "stuck": []}
        for line in others:
            words_here = line.split()
            key = self._old_key(words_here[1:3])
            middle, last = words_here[3:], words_here[-2:]
            if len(words_here) in (LENGTH_OF_MATCHED, LENGTH_OF_STUCK) and last[0].isdigit():
                middle[-2:] = map(str, self._old_key(last))
            found[words_here[0]].append((key, " ".join([words_here[0], *map(str, key), *middle])))
        return [" ".join([words[0], str(self.schedule.ranks), *words[2:]]),
                *(line for kind in ("op", "stuck") for _, line in sorted(found[kind]))]

    def _old_key(self, words: Sequence[str]) -> Key:
        return self.nodes[int(words[0])].ops[int(words[1])]


def fold(goal: str, name: str, text: Optional[str], cluster: Cluster, cards: Cards) -> Fold:
    """Folds the schedule of the file `name`. If that is standard input, `text` is its contents."""
    shown = program.expect(program.call(goal, ["show", name], text), program.DONE).out
    return Fold(read_canonical(shown.splitlines(), with_notes=False), cluster.machine, cards)


def run_lines(goal: str, name: str, text: Optional[str], cluster: Cluster, cards: Optional[Cards] = None) -> List[str]:
    """The printed run of a schedule on a machine, with these cards or else with those of the description."""
    chosen = cards or cluster.cards or Cards()
    if not chosen.count:
        return _run(goal, name, text, cluster.text())
    return run_folded(goal, fold(goal, name, text, cluster, chosen))


def first_lines(goal: str, name: str, cluster: Cluster, cards: Optional[Cards] = None) -> List[str]:
    """As `run_lines`, but the lines of a folded schedule are not translated. The finish and the number of stuck
    operations in the first line are right."""
    chosen = cards or cluster.cards or Cards()
    if not chosen.count:
        return _run(goal, name, None, cluster.text())
    folded = fold(goal, name, None, cluster, chosen)
    return _run(goal, STANDARD_INPUT, "".join(folded.text()), folded.machine_text())


def run_folded(goal: str, folded: Fold) -> List[str]:
    """Runs a folded schedule. Returns the printed run in the ranks and numbers of the original schedule."""
    return folded.unfolded(_run(goal, STANDARD_INPUT, "".join(folded.text()), folded.machine_text()))


def _run(goal: str, name: str, text: Optional[str], machine: str) -> List[str]:
    with tempfile.NamedTemporaryFile("w", encoding="utf-8") as file:
        file.write(machine)
        file.flush()
        answer = program.call(goal, ["nodes", name, file.name], text)
    return program.expect(answer, program.DONE, program.STUCK).out.splitlines()
