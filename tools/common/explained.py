"""Explains a verdict of `goal certify`: shows the operations that it names as they are written, and how a slot got its
contents. Nothing of it is proved."""
from __future__ import annotations

import re
from typing import Callable, Dict, Iterator, List, Optional, Tuple

from common import program
from common.canonical import Key, Op, Schedule
from common.faults import Matching, left_over
from common.flow import Contribution, Flow, wanted_of
from common.limits import ROOTED
from common.places import Places
from common.printed_run import Run, read_run
from segmented import width_of

MOST_LINES, MOST_NAMED = 10, 8
WITH_SLOT = re.compile(r"(wrong|mixed) (\d+) slot (\d+)$")
OF_PAIR = re.compile(r"(double channel|lengths|race) (\d+) (\d+) and (\d+) (\d+)(?: slot (\d+))?$")
OF_ONE = re.compile(r"(wildcard|unpaired|stalls) (\d+) (\d+)$")
JUDGED_NOT = {
    "too large": "`certify` judges ranks of at most 2,048 operations, slots up to 65,535, and 2^24 slots moved in all",
    "weight": "more than 2^24 contributions would be held at once: fewer ranks or segments show the same",
}


class Explainer:
    """Explains the faults of a schedule. `shown` is its canonical text."""

    def __init__(self, goal: str, kind: str, root: int, schedule: Schedule, shown: str, places: Places) -> None:
        self.goal, self.kind, self.root = goal, kind, root
        self.schedule, self.shown, self.places = schedule, shown, places

    def lines(self, fault: str, segments: int) -> Iterator[str]:
        """The lines that explain a fault of a schedule with `segments` segments."""
        slot, pair, one = WITH_SLOT.match(fault), OF_PAIR.match(fault), OF_ONE.match(fault)
        if slot:
            yield from self._of_slot(slot[1], (int(slot[2]), int(slot[3])), segments)
        elif pair:
            yield from self._of_pair(pair[1], (int(pair[2]), int(pair[3])), (int(pair[4]), int(pair[5])), pair[6])
        elif one:
            yield from self._of_one(one[1], (int(one[2]), int(one[3])))
        else:
            yield from (text for start, text in JUDGED_NOT.items() if fault.startswith(start))

    def _written(self, key: Key) -> str:
        """Where an operation is in the text, and how it is written."""
        return self.places.told(*key) or "{} {}".format(*key)

    def _of_one(self, what: str, key: Key) -> Iterator[str]:
        yield self._written(key)
        if what == "wildcard":
            yield "a certificate is for each order of arrival: name the rank and the tag"
        elif what == "unpaired":
            near = [finding.others for finding in left_over(Matching(self.schedule)) if finding.keys[0] == key]
            yield from (f"{text}: {self._written(other)}" for others in near for text, other in others)
        else:
            yield from self._stalled(key)

    def _stalled(self, key: Key) -> Iterator[str]:
        """Runs the schedule with `--S 0`, so that messages wait for their receives, and follows what the operation
        waits for."""
        run = read_run(program.call(self.goal, ["sim", "/dev/stdin", "--S", "0"], self.shown).out.splitlines())
        yield "it never ends where all messages wait for their receives (`sim --S 0`):"
        yield from (f"  {line}" for line in waits_of(run, key, self._written))

    def _of_pair(self, what: str, one: Key, other: Key, slot: Optional[str]) -> Iterator[str]:
        for key in (one, other):
            op = self.schedule.ops[key]
            does = f", which {use_of(op, int(slot))}" if slot else f", of {len(op.moved())} slots" if what == "lengths" else ""
            yield self._written(key) + does
        if what == "double channel":
            yield "give one of them another tag"
        if what == "race":
            for first, then in ((one, other), (other, one)):
                yield f"with `{self._label(then)} requires {self._label(first)}`: {self._verdict_with(first, then)}"

    def _label(self, key: Key) -> str:
        return self.places.label(*key) or f"(operation {key[1]})"

    def _verdict_with(self, first: Key, then: Key) -> str:
        """The verdict of `goal certify` if `then` waits for the end of `first`."""
        block = re.compile(rf"(^rank {first[0]} \{{$.*?)(^\}}$)", re.MULTILINE | re.DOTALL)
        text = block.sub(rf"\1l{then[1] + 1} requires l{first[1] + 1}\n\2", self.shown, count=1)
        root = ["--root", str(self.root)] if self.kind in ROOTED else []
        answer = program.call(self.goal, ["certify", self.kind, "/dev/stdin", *root], text)
        return "that makes a cycle" if answer.status == program.REFUSED else answer.out.strip()

    def _of_slot(self, what: str, place: Tuple[int, int], segments: int) -> Iterator[str]:
        """What a slot holds at the end, and which items are missing, superfluous or from another segment."""
        block = place[1] // width_of(self.kind, self.schedule.ranks)
        flow = Flow(self.schedule, self.kind, self.root, list(range(segments)) if what == "mixed" else [block])
        number = flow.last.get(place)
        held, wanted = flow.holds(number), wanted_of(self.kind, self.schedule.ranks, self.root, place, block)
        missing = [item for item in wanted if item not in held]
        strange = [item for item in sorted(held) if item not in wanted]
        twice = [item for item in sorted(held) if held[item] > 1 and item in wanted and self.kind != "barrier"]
        yield f"at the end slot {place[1]} of rank {place[0]} holds {named(sorted(held)) if held else 'nothing'}"
        for text, items in (("missing", missing), ("not wanted", strange)):
            if items:
                yield f"{text}: {named(items)}"
        yield from (f"there {held[item]} times: {named([item])}" for item in twice[:MOST_NAMED])
        yield from self._ways(flow, place, next(iter([*twice, *strange]), None))
        if missing:
            kept = [it for it in flow.keepers(missing[0]) if it != missing[0]]
            ends = ", ".join(f"slot {slot} of rank {rank}" for rank, slot in kept[:MOST_NAMED])
            yield f"{named(missing[:1])} ends in {ends}{', ..' if len(kept) > MOST_NAMED else ''}" if kept else f"{named(missing[:1])} gets nowhere"

    def _ways(self, flow: Flow, place: Tuple[int, int], item: Optional[Contribution]) -> Iterator[str]:
        """The notes through which an item came into a slot, from the last one back along the messages. Without an item,
        the notes that wrote the slot last."""
        if place not in flow.last:
            yield "no note sets it"
            return
        yield "it was set last by" if item is None else f"{named([item])} got there by"
        for count, number in enumerate(flow.way(flow.last[place], item)):
            value = flow.values[number]
            if value.key is None:
                yield f"  the start: slot {value.place[1]} of rank {value.place[0]}"
            elif count == MOST_LINES:
                yield "  .."
                return
            else:
                both = item is not None and len(value.sources) > 1 and all(item in flow.holds(source) for source in value.sources)
                yield f"  {self._note(value.key, value.place[1])}" + (", where both slots hold it" if both else "")

    def _action(self, key: Key) -> str:
        """An operation as it is written, without its label and default options."""
        item = self.places.item(*key)
        return item.short.partition(": ")[2] or item.short if item else "{} {}".format(*key)

    def _note(self, key: Key, slot: int) -> str:
        """The note by which an operation sets a slot, with its place in the text."""
        for item in self.places.notes(*key):
            low, high = int(item.words[2]), int(item.words[4])
            if high == slot or (item.words[1] == b"moves" and low <= slot <= high):
                at = f"{self.places.at(item.byte)}: " if self.places.has_lines else ""
                return f"{at}{item} ({self._action(key)} of rank {key[0]})"
        return self._written(key)


def use_of(op: Op, slot: int) -> str:
    """What an operation does to a slot."""
    if op.kind == "calc":
        target = any(note[1] == slot for note in op.notes)
        return f"adds to slot {slot}" if target else f"adds what slot {slot} holds"
    return f"{'reads' if op.kind == 'send' else 'sets'} slot {slot}"


def named(items: List[Contribution]) -> str:
    """Contributions in words: at most MOST_NAMED of them, and the number of the others."""
    said = ", ".join(f"item {number} of rank {rank}" for rank, number in items[:MOST_NAMED])
    return said + (f" and {len(items) - MOST_NAMED} more" if len(items) > MOST_NAMED else "")


def waits_of(run: Run, key: Key, written: Callable[[Key], str]) -> Iterator[str]:
    """Lines that follow what a stuck operation waits for, to an operation without a message or around a cycle."""
    seen: Dict[Key, None] = {}
    while key in run.reasons and key not in seen:
        seen[key] = None
        words = run.reasons[key].split()
        if words[0] != "for":
            yield f"{written(key)} is alone: no message is left for it"
            return
        then = int(words[2]), int(words[3])
        yield f"{written(key)} {'waits for its partner' if words[1] == 'partner' else 'needs'} {then[0]} {then[1]}"
        key = then
    if key in seen:
        yield "the cycle begins again at {} {}".format(*key)
