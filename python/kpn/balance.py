"""Balance equations: how often each process or actor has to go round so that each channel has what it had before."""
from __future__ import annotations

import collections
import fractions
import math
from typing import Dict, Generic, Hashable, Iterable, List, NamedTuple, Sequence, Tuple, TypeVar

Node = TypeVar('Node', bound=Hashable)


class Link(NamedTuple):
    """A channel: its name, its ends, and the items that each of them puts and gets in a round, at least 1."""

    name: str
    writer: Hashable
    reader: Hashable
    put: int
    got: int


class Unbalanced(Exception):
    """The equations have no solution, since these channels, a cycle whichever way they lead, contradict one another."""

    def __init__(self, cycle: List[Link]):
        super().__init__(', '.join(it.name for it in cycle))
        self.cycle = cycle


class Tree(Generic[Node]):
    """The rounds of connected nodes as fractions, with the link that led to each one."""

    def __init__(self, root: Node, around: Dict[Node, List[Tuple[Node, fractions.Fraction, Link]]]):
        self.rounds = {root: fractions.Fraction(1)}
        self.before: Dict[Node, Tuple[Node, Link]] = {}
        left = collections.deque([root])
        while left:
            node = left.popleft()
            for other, ratio, link in around[node]:
                rounds = self.rounds[node] * ratio
                if other not in self.rounds:
                    self.rounds[other], self.before[other] = rounds, (node, link)
                    left.append(other)
                elif self.rounds[other] != rounds:
                    raise Unbalanced(self.cycle(node, other, link))

    def cycle(self, node: Node, other: Node, link: Link) -> List[Link]:
        """The cycle that a link closes."""
        ways = [self.way(node), self.way(other)]
        while ways[0] and ways[1] and ways[0][-1] is ways[1][-1]:
            ways = [ways[0][:-1], ways[1][:-1]]
        return [*ways[0][::-1], link, *ways[1]]

    def way(self, node: Node) -> List[Link]:
        """The links from a node to the root."""
        found = []
        while node in self.before:
            node, link = self.before[node]
            found.append(link)
        return found


def rounds_of(nodes: Iterable[Node], links: Sequence[Link]) -> Dict[Node, int]:
    """The least numbers of rounds, 1 or more, after which each channel has as many items as before. Nodes that no
    channels connect have nothing to do with one another. Raises Unbalanced if there are none."""
    around: Dict[Node, List[Tuple[Node, fractions.Fraction, Link]]] = {node: [] for node in nodes}
    for link in links:
        writer: Node = link.writer  # type: ignore[assignment]
        reader: Node = link.reader  # type: ignore[assignment]
        around[writer].append((reader, fractions.Fraction(link.put, link.got), link))
        around[reader].append((writer, fractions.Fraction(link.got, link.put), link))
    found: Dict[Node, int] = {}
    for node in around:
        if node not in found:
            rounds = Tree(node, around).rounds
            scale = math.lcm(*(it.denominator for it in rounds.values()))
            counts = {other: int(it * scale) for other, it in rounds.items()}
            least = math.gcd(*counts.values())
            found.update({other: count // least for other, count in counts.items()})
    return found
