"""Reads a machine: the text that `goal nodes` takes as MACHINE, or a description by classes, nodes, groups and network
cards. Nothing of it is proved."""
import re
from dataclasses import astuple, dataclass, field
from typing import Callable, Dict, Iterator, List, Optional, Sequence, Tuple

from common import command
from common.command import Fault
from common.limits import MOST_CLASSES, MOST_NODES, MOST_PAIRS, MOST_RANKS
from common.parameters import DEFAULTS, RATES, Machine, Parameters, machine_of, parameters_of, scale_for, scaled_defaults, scaled_options

MOST_CARDS = 256
PLACEMENTS = ("block", "cyclic")


@dataclass(frozen=True)
class Cards:
    """The network cards of a node: `count` cards that its ranks share in blocks or in turn; if `count` is 0, a card for
    each rank."""

    count: int = 0
    in_turn: bool = False

    def of(self, place: int, ranks: int) -> int:
        """The card of the rank at the position `place` of a node that has `ranks` ranks."""
        return place % self.count if self.in_turn else place * self.count // ranks

    def __str__(self) -> str:
        return f"{self.count or 'own'}{' in turn' if self.in_turn else ''}"


def cards_of(text: str) -> Cards:
    """The cards that a text such as `own`, `2` or `2 in turn` names."""
    words = text.split()
    if words == ["own"]:
        return Cards()
    if not words or words[1:] not in ([], ["in", "turn"]):
        raise Fault("write `cards own`, `cards COUNT` or `cards COUNT in turn`")
    count = number(words[0], MOST_CARDS, "cards")
    if not count:
        raise Fault("`cards 0`: a node has at least one card")
    return Cards(count, len(words) > 1)


@dataclass
class Cluster:
    """A machine, and the cards of its nodes if the description gives them."""

    machine: Machine
    cards: Optional[Cards] = None

    def text(self) -> str:
        """The text of MACHINE, which does not mention cards."""
        return "".join(line + "\n" for line in lines_of(self.machine))

    def has_neighbours(self) -> bool:
        """Whether some node has several ranks."""
        return len(set(self.machine.nodes)) < len(self.machine.nodes)

    def placed(self, placement: str) -> "Cluster":
        """The same machine with its ranks placed anew on nodes of the same sizes: either each node is filled before the
        next (`block`), or the ranks go in turn to the nodes that still have room (`cyclic`)."""
        sizes: Dict[int, int] = {}
        for node in self.machine.nodes:
            sizes[node] = sizes.get(node, 0) + 1
        seats = [(place if placement == "cyclic" else 0, node) for node in sorted(sizes) for place in range(sizes[node])]
        machine = self.machine
        nodes = [node for _, node in sorted(seats)]
        return Cluster(Machine(machine.classes, machine.inside, machine.default, nodes, machine.pairs), self.cards)

    def scaled(self, scale: int) -> "Cluster":
        """The same machine with all times `scale` times as long."""
        machine = self.machine
        classes = [scaled_class(one, scale) for one in machine.classes]
        return Cluster(Machine(classes, machine.inside, machine.default, machine.nodes, machine.pairs), self.cards)


def scaled_class(parameters: Parameters, scale: int) -> Parameters:
    """The parameters of a class with times `scale` times as long."""
    rates = {name: f"{getattr(parameters, name)}.{getattr(parameters, more):03}" for name, more in RATES.items()}
    values = {**{name: str(getattr(parameters, name)) for name in ("L", "o", "g", "S")}, **rates}
    options: Dict[str, int] = {}
    for name, value in values.items():
        options.update(value_of(name, value, scale))
    return parameters_of(options)


def value_of(name: str, value: str, scale: int) -> Dict[str, int]:
    """The options of goal that give a parameter this value, with times `scale` times as long."""
    try:
        return scaled_options(name, value, scale)
    except ValueError as why:
        raise Fault(str(why)) from None


def lines_of(machine: Machine) -> Iterator[str]:
    """The lines of the text of MACHINE."""
    yield f"classes {len(machine.classes)}"
    for parameters in machine.classes:
        yield "class " + " ".join(map(str, astuple(parameters)))
    yield f"inside {machine.inside} default {machine.default}"
    ranks, width = len(machine.nodes), machine.nodes.count(machine.nodes[0])
    yield f"ranks {ranks}"
    for first in range(0, ranks, width):
        yield " ".join(map(str, machine.nodes[first:first + width]))
    yield f"pairs {len(machine.pairs)}"
    for (one, other), name in machine.pairs.items():
        yield f"{one} {other} {name}"


@dataclass
class Division:
    """An assignment of things to places: of ranks to nodes, or of nodes to groups. There are at most `most` things."""

    thing: str
    place: str
    most: int
    places: List[List[int]] = field(default_factory=list)
    of: Dict[int, int] = field(default_factory=dict)

    def add(self, things: Sequence[int]) -> None:
        """Adds a place with these things."""
        for one in things:
            if one in self.of:
                raise Fault(f"{self.thing} {one} is in two {self.place}s")
            self.of[one] = len(self.places)
        self.places.append(list(things))

    def add_next(self, count: int, size: int, cyclic: bool = False) -> None:
        """Adds `count` places with `size` things each: successive things per place or, if cyclic, every count-th
        thing."""
        first = max(self.of, default=-1) + 1
        end = first + count * size
        if end > self.most:
            raise Fault(f"more than {self.most} {self.thing}s")
        for place in range(count):
            self.add(range(first + place, end, count) if cyclic else range(first + place * size, first + (place + 1) * size))

    def check(self, count: int) -> None:
        """Refuses the assignment unless each of the `count` things has a place, and no other thing has one."""
        for one in range(count):
            if one not in self.of:
                raise Fault(f"{self.thing} {one} is in no {self.place}")
        if len(self.of) > count:
            raise Fault(f"{self.thing} {max(self.of)} is in a {self.place}, and there are {count} {self.thing}s")


class Description:
    """The contents of the lines of a description that were read so far."""

    def __init__(self, scale: int = 1) -> None:
        self.scale = scale
        self.classes: Dict[str, Dict[str, int]] = {}
        self.nodes = Division("rank", "node", MOST_RANKS)
        self.groups = Division("node", "group", MOST_NODES)
        self.named: Dict[str, str] = {}
        self.pairs: Dict[Tuple[int, int], str] = {}
        self.cards: Optional[Cards] = None

    def take(self, words: List[str]) -> None:
        """Takes the words of one line."""
        takes: Dict[str, Callable[[List[str]], None]] = {
            "class": self.take_class, "nodes": self.take_nodes, "node": self.take_node, "groups": self.take_groups,
            "group": self.take_group, "inside": self.take_named, "between": self.take_named, "across": self.take_named,
            "pair": self.take_pair, "oneway": self.take_pair, "cards": self.take_cards}
        if words[0] not in takes:
            raise Fault(f"{words[0]!r} does not begin a line of a description: {', '.join(takes)} do")
        takes[words[0]](words)

    def take_class(self, words: List[str]) -> None:
        if len(words) < 2 or "=" in words[1]:
            raise Fault("write `class NAME L=.. o=.. ..`")
        if words[1] in self.classes:
            raise Fault(f"the class {words[1]} is given twice")
        given: Dict[str, int] = {}
        defaults = scaled_defaults(self.scale)
        for word in words[2:]:
            name, equals, value = word.partition("=")
            if name not in DEFAULTS or not equals:
                raise Fault(f"{word!r} is not a parameter: they are {' '.join(DEFAULTS)}, as L=300")
            options = value_of(name, value, self.scale)
            for option in options.keys() & given.keys():
                raise Fault(f"{option} is given twice")
            given.update(options)
        self.classes[words[1]] = {**defaults, **given}

    def take_nodes(self, words: List[str]) -> None:
        cyclic = words[4:] == ["cyclic"]
        count, size = count_and_size(words[:4] if cyclic else words)
        self.nodes.add_next(count, size, cyclic)

    def take_node(self, words: List[str]) -> None:
        self.nodes.add(numbers(words, MOST_RANKS))

    def take_groups(self, words: List[str]) -> None:
        self.groups.add_next(*count_and_size(words))

    def take_group(self, words: List[str]) -> None:
        self.groups.add(numbers(words, MOST_NODES))

    def take_cards(self, words: List[str]) -> None:
        if self.cards is not None:
            raise Fault("`cards` is given twice")
        self.cards = cards_of(" ".join(words[1:]))

    def take_named(self, words: List[str]) -> None:
        if len(words) != 2:
            raise Fault(f"write `{words[0]} NAME`, with the name of a class")
        if words[0] in self.named:
            raise Fault(f"`{words[0]}` is given twice")
        self.named[words[0]] = words[1]

    def take_pair(self, words: List[str]) -> None:
        if len(words) != 4:
            raise Fault(f"write `{words[0]} A B NAME`, with two nodes and the name of a class")
        one, other = (number(word, MOST_NODES - 1, "a node") for word in words[1:3])
        for pair in [(one, other), (other, one)][:2 if words[0] == "pair" else 1]:
            if pair in self.pairs:
                raise Fault(f"the pair {pair[0]} {pair[1]} is given twice")
            self.pairs[pair] = words[3]

    def check(self) -> None:
        """Refuses a description that is incomplete, says something twice, or names something that does not exist."""
        for what in ("inside", "between", *(["across"] if self.groups.places else [])):
            if what not in self.named:
                raise Fault(f"the line `{what} NAME` is missing")
        if "across" in self.named and not self.groups.places:
            raise Fault("`across` is the class between groups, and there are none: add `groups COUNT of SIZE`, or remove it")
        if not 1 <= len(self.classes) <= MOST_CLASSES:
            raise Fault(f"{len(self.classes)} classes: a machine has 1 to {MOST_CLASSES}")
        for name in (*self.named.values(), *self.pairs.values()):
            if name not in self.classes:
                raise Fault(f"there is no class {name}: add `class {name} L=.. o=.. ..`")
        if not self.nodes.places:
            raise Fault("there are no nodes: add `nodes COUNT of SIZE`")
        self.nodes.check(len(self.nodes.of))
        if self.groups.places:
            self.groups.check(len(self.nodes.places))
        for one, other in self.pairs:
            if one == other or max(one, other) >= len(self.nodes.places):
                raise Fault(f"the pair {one} {other} does not name two of {len(self.nodes.places)} nodes, from 0")

    def default_and_pairs(self) -> Tuple[str, Dict[Tuple[int, int], str]]:
        """The default class between nodes, and the class of each pair of nodes that has another one."""
        default = self.named["between"]
        pairs: Dict[Tuple[int, int], str] = {}
        if self.groups.places:
            count = len(self.nodes.places)
            near = sum(len(group) * (len(group) - 1) for group in self.groups.places)
            far = count * (count - 1) - near
            if min(near, far) > MOST_PAIRS:
                raise Fault(f"{min(near, far)} pairs of nodes have a class of their own by groups: a machine has {MOST_PAIRS} at most")
            if near < far:
                default = self.named["across"]
                pairs = {(one, other): self.named["between"] for group in self.groups.places for one in group for other in group
                         if one != other}
            else:
                pairs = {(one, other): self.named["across"] for one in range(count) for other in range(count)
                         if self.groups.of[one] != self.groups.of[other]}
        pairs.update(self.pairs)
        return default, {pair: name for pair, name in sorted(pairs.items()) if name != default}

    def cluster(self) -> Cluster:
        """The machine of the description, which `check` must have accepted."""
        default, pairs = self.default_and_pairs()
        if len(pairs) > MOST_PAIRS:
            raise Fault(f"{len(pairs)} pairs of nodes have a class of their own: a machine has {MOST_PAIRS} at most")
        class_numbers = {name: place for place, name in enumerate(self.classes)}
        machine = Machine(
            [parameters_of(values) for values in self.classes.values()], class_numbers[self.named["inside"]],
            class_numbers[default], [self.nodes.of[rank] for rank in range(len(self.nodes.of))],
            {pair: class_numbers[name] for pair, name in pairs.items()})
        return Cluster(machine, self.cards)


def number(word: str, most: int, what: str) -> int:
    """The number that a word is: a count, or an index, of the things `what`."""
    if not re.fullmatch("[0-9]{1,20}", word) or int(word) > most:
        raise Fault(f"{word!r} is not a number of {what} from 0 to {most}")
    return int(word)


def count_and_size(words: List[str]) -> Tuple[int, int]:
    """The two numbers in a line such as `nodes 8 of 16`."""
    if len(words) != 4 or words[2] != "of":
        raise Fault(f"write `{words[0]} COUNT of SIZE`")
    count, size = number(words[1], MOST_RANKS, words[0]), number(words[3], MOST_RANKS, "ranks" if words[0] == "nodes" else "nodes")
    if not count or not size:
        raise Fault(f"write `{words[0]} COUNT of SIZE`, both above 0")
    return count, size


def numbers(words: List[str], most: int) -> List[int]:
    """The numbers in a line such as `node 0 4 8-11`, with its ranges expanded."""
    found: List[int] = []
    for word in words[1:]:
        first, dash, last = word.partition("-")
        thing = "a rank" if words[0] == "node" else "a node"
        low = number(first, most - 1, thing)
        high = number(last, most - 1, thing) if dash else low
        if high < low:
            raise Fault(f"{word!r} is not a range: write LOW-HIGH")
        found.extend(range(low, high + 1))
    if not found:
        raise Fault(f"`{words[0]}` is empty: write its numbers, as `{words[0]} 0 4 8-11`")
    return found


def scale_of(text: str) -> int:
    """The least power of ten that makes all rates of a description whole numbers of picoseconds, if times are
    multiplied by it."""
    classes = (line.split("#", 1)[0].split() for line in text.split("\n"))
    rates = (word[2:] for words in classes if words[:1] == ["class"] for word in words[2:] if re.fullmatch(r"[GO]=\d{1,20}\.\d{1,6}", word))
    return scale_for(rates)


def read(name: str, text: str, scale: int = 1) -> Cluster:
    """The machine of a description, with times `scale` times as long."""
    description = Description(scale)
    for place, line in enumerate(text.split("\n"), 1):
        words = line.split("#", 1)[0].split()
        try:
            if words:
                description.take(words)
        except Fault as fault:
            raise Fault(f"{name}:{place}: {fault}") from None
    try:
        description.check()
    except Fault as fault:
        raise Fault(f"{name}: {fault}") from None
    return description.cluster()


def is_description(text: str) -> bool:
    """Whether a text is a description, which does not begin as a MACHINE does."""
    return text.split(None, 1)[:1] != ["classes"]


def cluster_of(name: str, text: str, scale: int = 1) -> Cluster:
    """The machine of a text, with times `scale` times as long. The text is a MACHINE of `goal nodes` or a
    description."""
    if is_description(text):
        return read(name, text, scale)
    try:
        cluster = Cluster(machine_of(text))
    except (ValueError, RuntimeError, StopIteration):
        raise Fault(f"{name} begins with `classes`, and is not a MACHINE of `goal nodes`: `goal nodes` says which word is wrong") from None
    return cluster if scale == 1 else cluster.scaled(scale)


def read_cluster(name: str, scale: int = 1) -> Cluster:
    """The machine of a file, with times `scale` times as long."""
    return cluster_of(name, command.read_file(name).decode("utf-8", "replace"), scale)
