"""When the gets and puts of a run take place at other capacities, if each begins as early as it can, or as late as it
may. What a process gets and puts, and in which order, depends on no capacity, so a trace tells it for all.

Here processes and channels are numbers, and a move is twice its channel for a get, and one more for a put.
"""
from __future__ import annotations

import bisect
import os
from typing import TYPE_CHECKING, Any, Dict, List, Mapping, Optional, Sequence, Set, Tuple, Union

from .trace import FAULTS

if TYPE_CHECKING:
    from .network import Layout

Path = Union[str, 'os.PathLike[str]']
ENDS = ('done', *FAULTS)
# A process and the number of one of its moves.
Place = Tuple[int, int]


class Moves:
    """The moves of each process of a run, from its trace.

    The goal is what has to take place: as many first puts on a sink as it says, or all moves if it says nothing.
    """

    def __init__(self, layout: Layout, path: Path, goal: Mapping[str, int]):
        self.layout = layout
        self.moves: List[List[int]] = [[] for _ in layout.instances]
        # The number of each move among those of its kind, and where those stand.
        self.numbers: List[List[int]] = [[] for _ in layout.instances]
        self.places: List[List[int]] = [[] for _ in range(2 * len(layout.channels))]
        self.ended: Set[int] = set()
        self.writers, self.readers = (ends_of(layout, it) for it in (layout.writers, layout.readers))
        self.goal = {layout.channels.index(name): count for name, count in goal.items() if count}
        with open(path, 'rb') as lines:
            for line in lines:
                kind = line[:4]
                if kind in (b'get ', b'put '):
                    _, process, channel, _ = line.split(b' ', 3)
                    self.add(int(process), 2 * int(channel) + (kind == b'put '))
                elif kind == b'end ':
                    self.ended.add(int(line.split(b' ')[1]))

    def add(self, process: int, move: int) -> None:
        """Adds a move."""
        self.numbers[process].append(len(self.places[move]))
        self.places[move].append(len(self.moves[process]))
        self.moves[process].append(move)

    def cause(self, place: Place) -> Optional[Place]:
        """The put of the item that a get gets; None of a put, and if the outside feeds the item."""
        process, number = place
        move, item = self.moves[process][number], self.numbers[process][number]
        writer = self.writers[move >> 1]
        return None if move & 1 or writer < 0 else (writer, self.places[move + 1][item])

    def last(self) -> List[Place]:
        """The moves with which the goal is there, if all before them take place."""
        if not self.goal:
            return [(process, len(it) - 1) for process, it in enumerate(self.moves) if it]
        return [(self.writers[sink], self.places[2 * sink + 1][count - 1]) for sink, count in self.goal.items()]

    def needed(self) -> List[int]:
        """How many of its first moves each process makes for the goal. One that makes none for it makes all it can."""
        counts = [0] * len(self.moves)
        left = self.last()
        while left:
            process, number = left.pop()
            for it in range(counts[process], number + 1):
                cause = self.cause((process, it))
                left += [cause] if cause else []
            counts[process] = max(counts[process], number + 1)
        clock = Clock(self, limits=[it or len(all_) for it, all_ in zip(counts, self.moves)])
        return [len(it) for it in clock.times]


def ends_of(layout: Layout, ends: Mapping[str, str]) -> List[int]:
    """The number of the process at each channel, -1 of the outside."""
    numbers = {name: number for number, name in enumerate(layout.instances)}
    return [numbers[ends[it]] if it in ends else -1 for it in layout.channels]


class Clock:
    """The ticks of moves that begin as early as they can: `times` has those of each process, and `waiting` the
    processes that are stuck by the move that they wait for. Without capacities there is room for all."""

    def __init__(self, moves: Moves, caps: Optional[Sequence[int]] = None, limits: Optional[Sequence[int]] = None):
        self.moves, self.caps = moves, caps
        self.limits = [len(it) for it in moves.moves] if limits is None else limits
        self.times: List[List[int]] = [[] for _ in moves.moves]
        self.of_move: List[List[int]] = [[] for _ in moves.places]
        self.waiting: Dict[int, int] = {}
        self.ready = list(range(len(moves.moves)))
        while self.ready:
            self.go(self.ready.pop())

    def go(self, process: int) -> None:
        """Lets a process make its moves, up to one that has to wait."""
        times, moves, limit = self.times[process], self.moves.moves[process], self.limits[process]
        now = times[-1] if times else 0
        while len(times) < limit:
            move = moves[len(times)]
            free = self.room(move) if move & 1 else self.item(move)
            if free is None:
                self.waiting[move] = process
                return
            now = max(now, free) + 1
            times.append(now)
            self.of_move[move].append(now)
            if move ^ 1 in self.waiting:
                self.ready.append(self.waiting.pop(move ^ 1))
        if self.has_ended(process):
            self.ready += [self.waiting.pop(2 * it + 1) for it, reader in enumerate(self.moves.readers)
                           if reader == process and 2 * it + 1 in self.waiting]

    def has_ended(self, process: int) -> bool:
        """Whether a process has made all its moves, and then ends."""
        return process in self.moves.ended and len(self.times[process]) == len(self.moves.moves[process])

    def item(self, move: int) -> Optional[int]:
        """When the item of the next get is there; None if that is not known."""
        if self.moves.writers[move >> 1] < 0:
            return 0
        puts, number = self.of_move[move + 1], len(self.of_move[move])
        return puts[number] if number < len(puts) else None

    def room(self, move: int) -> Optional[int]:
        """When there is room for the next put; None if that is not known. What is put on a sink is taken at once."""
        reader = self.moves.readers[move >> 1]
        if self.caps is None or reader < 0:
            return 0
        gets, number = self.of_move[move - 1], len(self.of_move[move]) - self.caps[move >> 1]
        if number < len(gets):
            return gets[number] if number >= 0 else 0
        return (self.times[reader] or [0])[-1] if self.has_ended(reader) else None

    def ticks(self) -> Optional[int]:
        """The tick at which the goal is there; None if it is never."""
        last = self.moves.last()
        if any(number >= len(self.times[process]) for process, number in last):
            return None
        return max((self.times[process][number] for process, number in last), default=0)

    def tight(self) -> List[int]:
        """Channels one of which at least has to have more room, so that the goal is there, or is there earlier."""
        stuck = [process for process, number in self.moves.last() if number >= len(self.times[process])]
        return self.full_before(stuck[0]) if stuck else self.full_in_chain()

    def full_before(self, process: int) -> List[int]:
        """The full channels among what a process that is stuck waits for, and so on."""
        found, seen = [], set()
        waits = {process: move for move, process in self.waiting.items()}
        while process in waits and process not in seen:
            seen.add(process)
            move = waits[process]
            found += [move >> 1] if move & 1 else []
            process = (self.moves.readers if move & 1 else self.moves.writers)[move >> 1]
        return found

    def full_in_chain(self) -> List[int]:
        """The channels whose room a longest chain of moves up to the goal waits for."""
        found: Dict[int, None] = {}
        process, number = max(self.moves.last(), key=lambda it: self.times[it[0]][it[1]])
        while self.times[process][number] > 1:
            before = self.times[process][number] - 1
            if number and self.times[process][number - 1] == before:
                number -= 1
                continue
            cause = self.moves.cause((process, number))
            if not cause:
                move = self.moves.moves[process][number]
                found[move >> 1] = None
                process = self.moves.readers[move >> 1]
                # After the end of its times there is only the room that an ended reader leaves.
                cause = process, bisect.bisect_left(self.times[process], before)
            process, number = cause
        return list(found)


def least_of(moves: Moves) -> List[int]:
    """Capacities with which the goal is there as early as without any, at latest times: no move comes before it has
    to, for a run whose processes go on steadily up to the tick of the goal."""
    limits = moves.needed()
    early = Clock(moves, limits=limits)
    length = early.ticks() or 0
    late = [[max(tick, -(-length * number // len(times))) for number, tick in enumerate(times, 1)]
            for times in early.times]
    order = sorted(((tick, process, number) for process, times in enumerate(early.times)
                    for number, tick in enumerate(times)), reverse=True)
    for _, process, number in order:
        latest = late[process][number] - 1
        if number:
            late[process][number - 1] = min(late[process][number - 1], latest)
        cause = moves.cause((process, number))
        if cause:
            late[cause[0]][cause[1]] = min(late[cause[0]][cause[1]], latest)
    return [room_for(moves, late, channel) for channel in range(len(moves.layout.channels))]


def room_for(moves: Moves, times: List[List[int]], channel: int) -> int:
    """The room with which the puts on a channel take place at these times."""
    writer, reader = moves.writers[channel], moves.readers[channel]
    if writer < 0 or reader < 0:
        return 1
    puts, gets = ([ticks[it] for it in moves.places[2 * channel + is_put] if it < len(ticks)]
                  for is_put, ticks in ((1, times[writer]), (0, times[reader])))
    if reader in moves.ended and len(times[reader]) == len(moves.moves[reader]):
        end = (times[reader] or [0])[-1]
        puts = [it for it in puts if it <= end]
    return max([1, *(number - bisect.bisect_left(gets, tick) for number, tick in enumerate(puts, 1))])


def steady(moves: Sequence[Tuple[str, int]], end: str) -> Optional[int]:
    """The period of a process: how many of its moves, with their ticks, come again and again in the last two thirds of
    them. None if there are not two such periods, or if the process now waits for another move."""
    steps = [(move, tick - before) for (move, tick), (_, before) in zip(moves, [('', 0), *moves])]
    period = period_of(steps[len(steps) // 3:])
    if not period:
        return None
    word, _, channel = end.partition(' ')
    next_move = f'put {channel[:-len(" full")]}' if channel.endswith(' full') else f'get {channel}'
    return None if word == 'waits' and next_move != steps[-period][0] else period


def period_of(steps: Sequence[Any]) -> int:
    """The least period of steps that has room twice; 0 if there is none."""
    # How much of the beginning ends at each place, as in the search of Knuth, Morris and Pratt.
    borders = [0] * len(steps)
    for place in range(1, len(steps)):
        border = borders[place - 1]
        while border and steps[border] != steps[place]:
            border = borders[border - 1]
        borders[place] = border + (steps[border] == steps[place])
    period = len(steps) - borders[-1] if steps else 0
    return period if 2 * period <= len(steps) else 0


def per_item(sink: str, layout: Layout, moves: Mapping[str, Sequence[Tuple[str, int]]],
             periods: Mapping[str, Optional[int]], ends: Mapping[str, str]) -> Optional[float]:
    """How many ticks an item of a sink takes, if its writer and all that this gets items from have a period."""
    writer = layout.writers[sink]
    ways, seen = [writer], {writer}
    for at in ways:
        new = {layout.writers[it] for it, reader in layout.readers.items() if reader == at and it in layout.writers}
        ways += sorted(new - seen)
        seen |= new
    period = periods[writer]
    begin = moves[writer][len(moves[writer]) // 3][1] if moves[writer] else 0
    over = {it for it in ways if ends[it] in ENDS and (not moves[it] or moves[it][-1][1] < begin)}
    if not period or any(not periods[it] for it in seen - over):
        return None
    puts = sum(move == f'put {sink}' for move, _ in moves[writer][-period:])
    return (moves[writer][-1][1] - moves[writer][-period - 1][1]) / puts if puts else None
