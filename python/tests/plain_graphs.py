"""Random dataflow graphs, and what they are worth by plain counting: time unit by time unit, and capacity by capacity.
Nothing here is made of what `kpn.sdf` computes."""
import itertools
import math
from fractions import Fraction

import support  # noqa: F401, it finds the package

from kpn import sdf


# ---- random graphs

def split(random, total, count):
    """A number as a sum of `count` numbers, some of them 0."""
    cuts = sorted(random.randint(0, total) for _ in range(count - 1))
    return [high - low for low, high in zip([0, *cuts], [*cuts, total])]


def random_graph(random, actors=4, channels=4, is_cyclic=True):
    """A consistent graph, live or not. Its actors are connected."""
    graph, names = sdf.Graph('random'), 'abcdefgh'[:random.randint(2, actors)]
    rounds = {it: random.choice((1, 1, 2, 3, 4)) for it in names}
    phases = {it: random.choice((1, 1, 1, 2, 3)) for it in names}
    for name in names:
        graph.actor(name, [random.choice((0, 1, 1, 2, 3, 5)) for _ in range(phases[name])])
    ends = [(names[random.randrange(k)], names[k]) for k in range(1, len(names))]
    ends += [tuple(random.choice(names) for _ in 'ab') for _ in range(random.randint(0, channels - len(ends)))]
    for writer, reader in ends:
        if random.random() < 0.3:
            writer, reader = reader, writer
        scale = random.choice((1, 1, 2)) if rounds[writer] * rounds[reader] < 6 else 1
        common = math.gcd(rounds[writer], rounds[reader])
        put, got = scale * rounds[reader] // common, scale * rounds[writer] // common
        is_back = writer >= reader
        tokens = random.choice((0, 0, 1, got, put + got, 2 * got)) if is_back else random.choice((0, 0, 0, 1, got))
        if is_cyclic or not is_back:
            graph.channel(writer, reader, split(random, put, phases[writer]), split(random, got, phases[reader]),
                          tokens)
    return graph


# ---- plain counting

def plain_repetition(graph):
    """The repetition vector: two ends of a channel grow to their least common multiple until nothing changes."""
    rounds, changed = dict.fromkeys(graph.actors, 1), True
    totals = {it.name: (sum(it.puts) * graph.phases(it.writer) // len(it.puts),
                        sum(it.gets) * graph.phases(it.reader) // len(it.gets)) for it in graph.channels.values()}
    while changed:
        changed = False
        for it in graph.channels.values():
            put, got = totals[it.name]
            both = math.lcm(put * rounds[it.writer], got * rounds[it.reader])
            if both > 10 ** 9 or it.writer == it.reader and put != got:
                return None
            new = both // put, both // got
            changed = changed or new != (rounds[it.writer], rounds[it.reader])
            rounds[it.writer], rounds[it.reader] = new
    return {name: count * graph.phases(name) for name, count in rounds.items()}


def steps_of(graph, by):
    """What each actor does in all of its phases: changes of tokens and of room, which have to stay 0 or more, and
    waits."""
    found = {}
    for name, actor in graph.actors.items():
        steps = found[name] = []
        for phase in range(graph.phases(name)):
            gets = [(it.name, it.gets[phase % len(it.gets)]) for it in graph.channels.values() if it.reader == name]
            puts = [(it.name, it.puts[phase % len(it.puts)]) for it in graph.channels.values() if it.writer == name]
            time = actor.times[phase % len(actor.times)]
            if by == 'firing':
                steps.append([(('tokens', c), -n) for c, n in gets] + [(('room', c), -n) for c, n in puts])
                steps.append(time)
                steps.append([(('tokens', c), n) for c, n in puts] + [(('room', c), n) for c, n in gets])
            else:
                for c, n in gets:
                    steps += [[(('tokens', c), -1), (('room', c), 1)]] * n
                steps.append(time)
                for c, n in puts:
                    steps += [[(('room', c), -1), (('tokens', c), 1)]] * n
            steps.append('fired')
    return found


class Machine:
    """Executes the steps of all actors, one unit of time after the other."""

    def __init__(self, graph, capacities, by):
        self.steps = steps_of(graph, by)
        self.held = {('tokens', it.name): it.tokens for it in graph.channels.values()}
        self.held.update({('room', name): most - graph.channels[name].tokens for name, most in capacities.items()})
        self.at, self.left, self.fired = dict.fromkeys(self.steps, 0), {}, dict.fromkeys(self.steps, 0)

    def may(self, step):
        """Whether tokens and room are there, counted together."""
        needs = {}
        for what, count in step:
            if what in self.held and count < 0:
                needs[what] = needs.get(what, 0) - count
        return all(self.held[what] >= count for what, count in needs.items())

    def go(self, most=None):
        """Does all that takes no time; with a most, all times are 0, and no actor fires more often."""
        moved = True
        while moved:
            moved = False
            for name, steps in self.steps.items():
                while most is None or self.fired[name] < most[name]:
                    step = steps[self.at[name]]
                    if isinstance(step, int):
                        if self.left.setdefault(name, step if most is None else 0):
                            break
                        del self.left[name]
                    elif step == 'fired':
                        self.fired[name] += 1
                    elif not self.may(step):
                        break
                    else:
                        for what, count in step:
                            if what in self.held:
                                self.held[what] += count
                    self.at[name] = (self.at[name] + 1) % len(steps)
                    moved = True

    def state(self):
        """All that it goes on with."""
        return tuple(self.held.values()), tuple(self.at.values()), tuple(sorted(self.left.items()))


def is_live(graph, capacities, by='firing', wanted=None):
    """Whether an iteration can be made."""
    wanted = wanted or plain_repetition(graph)
    machine = Machine(graph, capacities, by)
    machine.go(wanted)
    return machine.fired == wanted


def plain_throughput(graph, capacities, by='firing'):
    """The throughput with all capacities, and some actor that takes time. States are compared at each unit of time."""
    wanted, machine, met = plain_repetition(graph), Machine(graph, capacities, by), {}
    if not is_live(graph, capacities, by, wanted):
        return 0
    name = next(iter(wanted))
    for time in itertools.count():
        machine.go()
        before = met.setdefault(machine.state(), (time, machine.fired[name]))
        if before[1] < machine.fired[name]:
            return Fraction(machine.fired[name] - before[1], wanted[name] * (time - before[0]))
        machine.left = {it: count - 1 for it, count in machine.left.items()}


def with_sum(lows, highs, total):
    """All lists of numbers between these with a sum."""
    if not lows:
        return [[]] if total == 0 else []
    return [[first, *rest] for first in range(lows[0], min(highs[0], total - sum(lows[1:])) + 1)
            for rest in with_sum(lows[1:], highs[1:], total - first)]


def bounds(graph, by):
    """For each channel a capacity that is enough for anything, and the least one if all others are enough."""
    wanted = plain_repetition(graph)
    enough = {it.name: it.tokens + 2 * sum(it.puts[k % len(it.puts)] for k in range(wanted[it.writer]))
              for it in graph.channels.values()}
    lows = {}
    for name, channel in graph.channels.items():
        lows[name] = next(it for it in range(max(channel.tokens, 1), enough[name] + 1)
                          if is_live(graph, {**enough, name: it}, by, wanted))
    return lows, enough


def by_sums(graph, by):
    """All capacities that may be live, those with the least sums first."""
    lows, enough = bounds(graph, by)
    for total in itertools.count(sum(lows.values())):
        for sizes in with_sum(list(lows.values()), list(enough.values()), total):
            yield total, dict(zip(graph.channels, sizes))


def may_count(graph, by):
    """Whether there are few enough capacities to look at all of them."""
    lows, enough = bounds(graph, by)
    return math.prod(enough[name] - low + 1 for name, low in lows.items()) < 3_000


def plain_least(graph, by):
    """The least sum of capacities without a deadlock."""
    wanted = plain_repetition(graph)
    return next(total for total, sizes in by_sums(graph, by) if is_live(graph, sizes, by, wanted))


def plain_pareto(graph, by, most):
    """The points of the Pareto curve up to the most throughput."""
    points = {}
    for total, sizes in by_sums(graph, by):
        if points and max(points.values()) >= most and total not in points:
            return sorted(points.items())
        rate = plain_throughput(graph, sizes, by)
        if rate > max([0, *(it for other, it in points.items() if other < total)]):
            points[total] = max(rate, points.get(total, 0))


def plain_tokens(graph):
    """The least number of initial tokens that have to be added to make an iteration."""
    wanted = plain_repetition(graph)
    for total in itertools.count():
        for more in with_sum([0] * len(graph.channels), [total] * len(graph.channels), total):
            made = sdf.Graph()
            made.actors = graph.actors
            made.channels = {it.name: it._replace(tokens=it.tokens + add)
                             for it, add in zip(graph.channels.values(), more)}
            if is_live(made, {}, 'firing', wanted):
                return total


# ---- the comparison

def compare(test, graph, is_long=False):
    """Compares all that `kpn.sdf` says of a consistent graph with plain counting and with runs of `kpn`. It gives what
    was compared."""
    repetition = plain_repetition(graph)
    test.assertEqual(graph.repetition, repetition)
    ring = graph.deadlock()
    if ring:
        test.assertFalse(is_live(graph, {}))
        test.assertEqual(sum(ring.tokens.values()), plain_tokens(graph))
        test.assertEqual((graph.throughput().rate, graph.cycle_ratio().time), (0, math.inf))
        test.assertTrue(graph.check(graph.network().run(trace=True)).rings)
        return 'deadlock'
    test.assertTrue(is_live(graph, {}))
    compare_schedule(test, graph, repetition)
    is_timed = any(time for actor in graph.actors.values() for time in actor.times)
    for by in ('firing', 'item'):
        least = graph.least_capacities(by=by)
        test.assertEqual((least.total, least.exact), (plain_least(graph, by), True))
        test.assertIn('legal, exact', graph.confirm(least, by))
        if is_timed:
            compare_throughput(test, graph, by, least)
        if is_timed and is_long and may_count(graph, by):
            curve = graph.pareto(by)
            test.assertEqual([(it.total, it.throughput) for it in curve.points],
                             plain_pareto(graph, by, curve.most))
            for point in curve.points:
                test.assertEqual(graph.least_capacities(point.throughput, by).total, point.total)
    return 'live'


def compare_schedule(test, graph, repetition):
    """The schedule has the firings of an iteration, and each one has its tokens."""
    machine = Machine(graph, {}, 'firing')
    fired = dict.fromkeys(repetition, 0)
    for actor, count in graph.schedule():
        fired[actor] += count
        machine.go({**machine.fired, actor: fired[actor]})
        test.assertEqual(machine.fired[actor], fired[actor])
    test.assertEqual(fired, repetition)


def compare_throughput(test, graph, by, least):
    """The throughput with and without capacities, by states, by the cycle ratio, and by plain counting."""
    _, enough = bounds(graph, by)
    for capacities in ({}, least.capacities, {name: it + 1 for name, it in least.capacities.items()}):
        found = graph.throughput(capacities, by)
        plain = plain_throughput(graph, capacities or {name: 4 * it for name, it in enough.items()}, by)
        test.assertEqual(found.rate, plain)
        test.assertEqual(graph.cycle_ratio(capacities, by).time, 1 / found.rate)
