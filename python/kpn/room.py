"""Capacities: two pieces of advice after a run, and a search for the least ones."""
from __future__ import annotations

import heapq
import os
import pathlib
import sys
import tempfile
from typing import TYPE_CHECKING, Any, Callable, Dict, Iterator, List, Mapping, Optional, Sequence, Tuple, Union

from . import running
from .errors import KpnError
from .result import Result
from .timing import Clock, Moves, least_of

if TYPE_CHECKING:
    from .network import Network

# Goes back to the start of a line of a terminal, and clears the line.
CLEAR = '\r\x1b[K'
GOALS = ('shortest', 'deadlock-free', 'pareto')
# How many gets and puts the tries for exact capacities make at most, some seconds of work.
MOST_MOVES = 3_000_000
Tell = Optional[Callable[[str], None]]


class LeastCapacities(Dict[str, int]):
    """A capacity for each channel but the sources. `ticks` is the length of a run with them, or with `take=` the tick
    at which the last sink has its items, and `is_exact` says that no others with a smaller sum do."""

    def __init__(self, caps: Mapping[str, int], ticks: int, is_exact: bool):
        super().__init__(caps)
        self.ticks, self.is_exact = ticks, is_exact

    def __reduce__(self) -> Tuple[Any, ...]:
        return type(self), (dict(self), self.ticks, self.is_exact)


def least_capacities(net: Network, inputs: running.Inputs = None, *, goal: str = 'shortest', tell: Tell = None,
                     **options: Any) -> Union[LeastCapacities, List[LeastCapacities]]:
    """The least capacities for a run on these items, in all: `LeastCapacities`, for `net.tuned`.

    With the goal `shortest` the run is as short as it can be, in ticks, and with `deadlock-free` as long as it may be.
    Its outcome and the items of the sinks are as without these capacities, and no channel grows. `pareto` gives a list
    of all that are worth it: from `deadlock-free` to `shortest`, each is shorter than the one before, and larger. With
    `take=` a run is as long as the sinks have not had as many items, and what else goes on does not count.

    The search needs two runs or three with a trace: all tries compute when the same gets and puts take place. It is
    exact where that takes no more than some seconds. If not, no channel alone can be smaller, but others may have a
    smaller sum. `tell` is called with a line before each run and each try; without it the line stands on standard error
    while the search goes on, if that is a terminal.

    `inputs` and the options are those of `net.run`. Raises what that does, and KpnError for another goal, and for a run
    that has stopped or jammed.
    """
    if goal not in GOALS:
        raise KpnError(f'the goal is {goal!r}: it has to be one of {", ".join(GOALS)}')
    with tempfile.TemporaryDirectory(prefix='kpn-') as folder:
        search = Search(net, stored(net, inputs, folder), options, tell or shown)
        try:
            found = search.points() if goal == 'pareto' else [search.least(goal == 'shortest')]
            for it in found:
                search.confirm(it)
        finally:
            if not tell:
                shown('')
    return found if goal == 'pareto' else found[0]


def stored(net: Network, inputs: running.Inputs, folder: str) -> Dict[str, running.Items]:
    """The items of each source as a file, since they are read again and again."""
    given = running.by_name(net.layout(), inputs)
    return {name: pathlib.Path(folder, running.file_of(folder, name, items)) for name, items in given.items()}


def shown(line: str) -> None:
    """Writes a line over the one before on standard error, if that is a terminal."""
    if sys.stderr.isatty():
        columns = os.get_terminal_size(sys.stderr.fileno()).columns
        sys.stderr.write(CLEAR + line[:max(columns - 1, 0)])
        sys.stderr.flush()


class Search:
    """A search for the least capacities of a network on some items. Capacities are lists, by the numbers of channels;
    those of sources and sinks stay 1."""

    def __init__(self, net: Network, given: Dict[str, running.Items], options: Dict[str, Any],
                 tell: Callable[[str], None]):
        self.net, self.given, self.options, self.tell, self.told = net, given, options, tell, 0
        # How many gets and puts the tries have made.
        self.made = 0
        self.wanted = self.run(net, 'the run as it is', **options)
        if self.wanted.outcome in ('stopped', 'jammed'):
            raise KpnError(f'the run has {self.wanted.outcome}: give it a larger `max_commits`, or the network a '
                           'higher limit')
        longer, take = self.wanted, options.get('take') if self.wanted.outcome == 'enough' else None
        if take:
            # What makes room for the last items may come later than these.
            longer = self.run(net, 'a longer run', **{**options, 'take': min(2 * take, 10**9)})
        goal = dict.fromkeys(net.layout().sinks, take) if take else {}
        self.moves = moves = Moves(longer.layout, longer.trace().path, goal)
        self.channels = [it for it, writer in enumerate(moves.writers) if writer >= 0 and moves.readers[it] >= 0]
        self.roomy = [max(1, min(len(moves.places[2 * it + 1]), net.limit)) for it in range(len(moves.readers))]
        self.shortest = self.tried(self.roomy).ticks() or 0

    def run(self, net: Network, what: str, **options: Any) -> Result:
        """A run with a trace, after it was told."""
        self.say(what)
        return net.run(self.given, **{**options, 'trace': True})

    def say(self, what: str) -> None:
        """Tells what comes now."""
        self.told += 1
        self.tell(f'{self.told}: {what}')

    def tried(self, caps: Sequence[int]) -> Clock:
        """What comes of capacities."""
        self.say(f'{sum(caps[it] for it in self.channels)} in all between processes')
        clock = Clock(self.moves, caps)
        self.made += sum(map(len, clock.times))
        return clock

    def meets(self, caps: Sequence[int], most: Optional[int]) -> bool:
        """Whether the goal is there with these capacities, by this tick if there is one."""
        ticks = self.tried(caps).ticks()
        return ticks is not None and (most is None or ticks <= most)

    def smaller(self, caps: List[int], channel: int, most: Optional[int], low: int = 1) -> int:
        """The least capacity of one channel, with the others as they are."""
        high = caps[channel]
        while low < high:
            tried = (low + high) // 2
            caps = [*caps[:channel], tried, *caps[channel + 1:]]
            low, high = (low, tried) if self.meets(caps, most) else (tried + 1, high)
        return high

    def by_channel(self, most: Optional[int]) -> List[int]:
        """Capacities of which no one alone can be smaller, from the largest channel on."""
        advised = [min(cap, self.net.limit) for cap in least_of(self.moves)]
        caps = advised if self.meets(advised, most) else list(self.roomy)
        for channel in sorted(self.channels, key=lambda it: -caps[it]):
            caps[channel] = self.smaller(caps, channel, most)
        return caps

    def by_sum(self, most: Optional[int]) -> Iterator[Tuple[List[int], Clock]]:
        """Capacities from small sums to larger ones, of which one is the least that meets the goal; up to the most
        gets and puts of the tries. They begin with what each channel has to have even if the others are roomy."""
        first = [1] * len(self.roomy)
        for channel in self.channels:
            first[channel] = self.smaller(self.roomy, channel, most)
        left, seen = [(sum(first), first)], {tuple(first)}
        while left and self.made < MOST_MOVES:
            size, caps = heapq.heappop(left)
            clock = self.tried(caps)
            yield caps, clock
            for channel in clock.tight():
                more = [*caps[:channel], caps[channel] + 1, *caps[channel + 1:]]
                if more[channel] <= self.net.limit and tuple(more) not in seen:
                    seen.add(tuple(more))
                    heapq.heappush(left, (size + 1, more))

    def least(self, is_shortest: bool) -> LeastCapacities:
        """The least capacities for one goal."""
        most = self.shortest if is_shortest else None
        found = self.by_channel(most)
        for caps, clock in self.by_sum(most):
            ticks = clock.ticks()
            if sum(caps) >= sum(found):
                return self.named(found, True)
            if ticks is not None and (most is None or ticks <= most):
                return self.named(caps, True)
        return self.named(found, False)

    def points(self) -> List[LeastCapacities]:
        """The capacities that are worth it, each shorter than those before."""
        found: List[LeastCapacities] = []
        for caps, clock in self.by_sum(None):
            ticks = clock.ticks()
            if ticks is None or found and ticks >= found[-1].ticks:
                continue
            made = self.named(caps, True)
            found = [it for it in found if sum(it.values()) < sum(made.values())] + [made]
            if ticks <= self.shortest:
                return found
        for most in (self.shortest,) if found else (None, self.shortest):
            made = self.named(self.by_channel(most), False)
            if not found or made.ticks < found[-1].ticks:
                found.append(made)
        return found

    def named(self, caps: Sequence[int], is_exact: bool) -> LeastCapacities:
        """Capacities by the names of channels."""
        layout = self.net.layout()
        return LeastCapacities({name: cap for name, cap in zip(layout.channels, caps) if name not in layout.sources},
                               Clock(self.moves, caps).ticks() or 0, is_exact)

    def confirm(self, found: LeastCapacities) -> None:
        """Looks in a run whether capacities keep what they promise."""
        result = self.run(self.net.tuned(found), f'a run with {sum(found.values())} in all', **self.options)
        ticks = result.ticks
        if self.moves.goal:
            ticks = max(result.sink_ticks[name][self.options['take'] - 1] for name in self.net.layout().sinks)
        if ((result.outcome, dict(result), ticks) != (self.wanted.outcome, dict(self.wanted), found.ticks)
                or any(row['growths'] for row in result.stats.channels)):
            raise KpnError(f'a run does not keep what the search has found, {dict(found)} with {found.ticks} ticks')
