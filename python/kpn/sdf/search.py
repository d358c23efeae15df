"""The least sum of sizes with which something becomes good enough, by a search that passes over none."""
from __future__ import annotations

import heapq
import time
from typing import Any, Callable, Dict, Iterator, List, NamedTuple, Optional, Tuple

Sizes = Tuple[int, ...]


class Judgement(NamedTuple):
    """How good sizes are. Nothing better has larger sizes unless one of these is larger by so much at least."""

    value: Any
    steps: Dict[int, int]


class Found(NamedTuple):
    """Sizes, their value, and whether their sum is the least one; if not, smaller ones than `at_least` are excluded."""

    sizes: Sizes
    value: Any
    exact: bool
    at_least: int


Judge = Callable[[Sizes], Judgement]


def ascending(start: Sizes, judge: Judge) -> Iterator[Tuple[Sizes, Judgement]]:
    """All sizes that could be the least ones for a value, with the smaller sums first.

    What is better than some sizes, and nowhere smaller, has one of the steps at least. So from each sizes one step
    after the other leads to all least ones.
    """
    left, met = [(sum(start), start)], {start}
    while left:
        _, sizes = heapq.heappop(left)
        judged = judge(sizes)
        yield sizes, judged
        for place, step in judged.steps.items():
            larger = (*sizes[:place], sizes[place] + step, *sizes[place + 1:])
            if larger not in met:
                met.add(larger)
                heapq.heappush(left, (sum(larger), larger))


def search(start: Sizes, judge: Judge, wanted: Any, limit: float) -> Found:
    """The sizes with the least sum whose value is as wanted. After `limit` seconds it gives some that are enough.

    If no sizes are enough, it gives the last ones that it has found, and their value.
    """
    until = time.monotonic() + limit
    sizes, judged = start, Judgement(None, {})
    for sizes, judged in ascending(start, judge):
        if judged.value >= wanted:
            break
        if time.monotonic() > until:
            return enough(sizes, judge, wanted, limit)
    return Found(sizes, judged.value, True, sum(sizes))


def enough(start: Sizes, judge: Judge, wanted: Any, limit: float) -> Found:
    """Sizes that are enough, from these on: they double where they bind, and then each one shrinks by itself."""
    sizes, judged = list(start), judge(start)
    while judged.value < wanted and judged.steps:
        for place, step in judged.steps.items():
            sizes[place] += max(step, sizes[place])
        judged = judge(tuple(sizes))
    until = time.monotonic() + limit
    for place in sorted(range(len(sizes)), key=lambda it: -sizes[it]):
        low, high = start[place], sizes[place]
        while low < high and time.monotonic() < until:
            sizes[place] = (low + high) // 2
            tried = judge(tuple(sizes))
            low, high = (low, sizes[place]) if tried.value >= wanted else (sizes[place] + 1, high)
        sizes[place] = high
    return Found(tuple(sizes), judge(tuple(sizes)).value, False, sum(start))


def curve(start: Sizes, judge: Judge, most: Any, limit: float) -> Tuple[List[Found], bool]:
    """For each value above 0 the sizes with the least sum, up to the most; and whether that was reached in time."""
    until = time.monotonic() + limit
    points: List[Found] = []
    best: Optional[Any] = 0
    for sizes, judged in ascending(start, judge):
        is_late = time.monotonic() > until
        if points and judged.value > best and sum(points[-1].sizes) == sum(sizes):
            points.pop()
        if judged.value > best:
            best = judged.value
            points.append(Found(sizes, best, True, sum(sizes)))
        if best >= most or is_late:
            return points, best >= most
    return points, True


def least_number(low: int, is_enough: Callable[[int], bool]) -> int:
    """The least number from this one on that is enough, if all larger ones are too."""
    step = 1
    while not is_enough(low + step - 1):
        low, step = low + step, 2 * step
    high = low + step - 1
    while low < high:
        middle = (low + high) // 2
        low, high = (low, middle) if is_enough(middle) else (middle + 1, high)
    return high
