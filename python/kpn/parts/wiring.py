"""Parts that bring items to other places or in another number, and do not compute with them."""
from __future__ import annotations

from typing import TYPE_CHECKING, List, Optional, Sequence, Tuple, Union, cast

from ..errors import KpnError, whole
from ..process import MOST_PORTS, Process, Stream, forking

if TYPE_CHECKING:
    from ..network import Network

DROP = Process.from_text('''
process drop(in i; out o; par n) {
  while (n > 0) { read i x; n = (n - 1); }
  while 1 { read i x; write o x; }
}''')
CONSTANT = Process.from_text('process constant(out o; par value) { while 1 { write o value; } }')
REPEAT = Process.from_text('''
process repeat(out o; par value, times) {
  while (times > 0) { write o value; times = (times - 1); }
}''')
COUNT = Process.from_text('process count(out o; par n, step) { while 1 { write o n; n = (n + step); } }')
DELAY = Process.from_text('''
process delay(in i; out o; par n, initial) {
  while (n > 0) { write o initial; n = (n - 1); }
  while 1 { read i x; write o x; }
}''')
DOWNSAMPLE = Process.from_text('''
process downsample(in i; out o; par n, phase) {
  while 1 {
    k = 0;
    while (k < n) {
      read i x;
      if (k == phase) { write o x; } else { }
      k = (k + 1);
    }
  }
}''')
UPSAMPLE = Process.from_text('''
process upsample(in i; out o; par n, fill) {
  while 1 {
    read i x;
    write o x;
    k = 1;
    while (k < n) { write o fill; k = (k + 1); }
  }
}''')
HOLD = Process.from_text('''
process hold(in i; out o; par n) {
  while 1 {
    read i x;
    k = 0;
    while (k < n) { write o x; k = (k + 1); }
  }
}''')
CONTROL = Process.from_text('''
process control(in i, parameter; out o, value; par n) {
  while 1 {
    read parameter p;
    k = 0;
    while (k < n) { read i x; write o x; write value p; k = (k + 1); }
  }
}''')
SELECT = Process.from_text('''
process select(in control, yes, no; out o) {
  while 1 {
    read control c;
    if c { read yes x; } else { read no x; }
    write o x;
  }
}''')
SWITCH = Process.from_text('''
process switch(in control, i; out yes, no) {
  while 1 {
    read control c;
    read i x;
    if c { write yes x; } else { write no x; }
  }
}''')
ENCODE = Process.from_text('''
process encode(in i; out values, counts; par longest) {
  read i before;
  n = 1;
  while 1 {
    read i x;
    if ((x == before) && (n < longest)) {
      n = (n + 1);
    } else {
      write values before;
      write counts n;
      before = x;
      n = 1;
    }
  }
}''')
DECODE = Process.from_text('''
process decode(in values, counts; out o) {
  while 1 {
    read values x;
    read counts n;
    while (n > 0) { write o x; n = (n - 1); }
  }
}''')


def need(holds: bool, what: str) -> None:
    """Refuses a word of a call that a part cannot take."""
    if not holds:
        raise KpnError(what)


def largest_divisor(number: int) -> int:
    """The largest divisor of a number that is no more than the ports of a process."""
    return max(it for it in range(1, MOST_PORTS + 1) if number % it == 0)


def fork(stream: Stream, n: int = 2) -> Tuple[Stream, ...]:
    """Makes n streams of one, and gives a tuple of them; n is at least 1. Each has all items.

    Rates: one item on each out for one in. Faults: none.
    """
    n = whole('the number of streams of a fork', n, 1)
    if n <= MOST_PORTS:
        outs: Tuple[Stream, ...] = forking(n)(stream)
        return outs if n > 1 else (cast(Stream, outs),)
    sizes = [n // MOST_PORTS + (it < n % MOST_PORTS) for it in range(MOST_PORTS)]
    parts = ([out] if size == 1 else fork(out, size) for out, size in zip(fork(stream, MOST_PORTS), sizes))
    return tuple(it for part in parts for it in part)


def drop(stream: Stream, n: int = 1) -> Stream:
    """Leaves out the first n items; n is 0 or more.

    Rates: one out for one in, n items in before. Faults: none.
    """
    return cast(Stream, DROP(stream, whole('the number of items to drop', n)))


def constant(net: Network, value: int, times: Optional[int] = None) -> Stream:
    """Gives the value again and again, or a number of times, 0 or more.

    Rates: no items in. Faults: none. Without `times` it never ends: `take=` or a reader that waits ends the run.
    """
    made = CONSTANT(value, net=net) if times is None else REPEAT(value, whole('`times`', times), net=net)
    return cast(Stream, made)


def count(net: Network, start: int = 0, step: int = 1) -> Stream:
    """Gives start, start + step, start + 2 step and so on.

    Rates: no items in. Faults: overflow after the last number. It ends only so.
    """
    return cast(Stream, COUNT(start, step, net=net))


def delay(stream: Stream, n: int = 1, initial: int = 0, cap: Optional[int] = None) -> Stream:
    """Gives n items `initial`, 0 or more, and then the stream. Each loop needs one.

    Rates: one out for one in, n items out before. Faults: none. Its channel has room for n items if no `cap` is given.
    """
    n = whole('the delay', n)
    return cast(Stream, DELAY(stream, n, initial, cap=min(max(n, 1), stream.net.limit) if cap is None else cap))


def downsample(stream: Stream, n: int, phase: int = 0) -> Stream:
    """Keeps the item at place `phase` of each n items, 1 or more; it is from 0 to n - 1.

    Rates: one out for n in. Faults: none.
    """
    n = whole('the factor of a downsampling', n, 1)
    return cast(Stream, DOWNSAMPLE(stream, n, whole(f'the phase of {n} items', phase, 0, n - 1)))


def upsample(stream: Stream, n: int, fill: int = 0) -> Stream:
    """Puts n - 1 items `fill` after each item; n is 1 or more.

    Rates: n out for one in. Faults: none.
    """
    return cast(Stream, UPSAMPLE(stream, whole('the factor of an upsampling', n, 1), fill))


def hold(stream: Stream, n: int) -> Stream:
    """Gives each item n times, 0 or more.

    Rates: n out for one in. Faults: none.
    """
    return cast(Stream, HOLD(stream, whole('how often an item is held', n)))


def control(stream: Stream, parameter: Stream, n: int) -> Tuple[Stream, Stream]:
    """Gives each item, and beside it the parameter that holds for it: of each n items, 1 or more, one of `parameter`.

    So a gain or a frequency changes while a run goes on, at places that the network fixes.
    Rates: n on each out for n of the stream and one of `parameter`, which is read first. Faults: none.
    """
    return cast(Tuple[Stream, Stream], CONTROL(stream, parameter, whole('how long a parameter holds', n, 1)))


def deal(stream: Stream, n: int) -> Tuple[Stream, ...]:
    """Deals the items to a tuple of n streams by turns: stream k gets the items k, k + n, k + 2 n and so on.

    Rates: one item on each out for n in. Faults: none. n is 1 to 16, or a product of such numbers.
    """
    first = largest_divisor(whole('the number of streams of a deal', n, 1))
    need(first > 1 or n == 1, f'a deal to {n} streams: the number has to be a product of numbers up to {MOST_PORTS}')
    if n == 1:
        return (stream,)
    ports = [f'o{it}' for it in range(1, first + 1)]
    outs = Process.from_text(f'process deal{first}(in i; out {", ".join(ports)}) {{ while 1 {{ '
                             + ' '.join(f'read i x; write {port} x;' for port in ports) + ' } }')(stream)
    parts = [deal(out, n // first) for out in outs]
    return tuple(parts[it % first][it // first] for it in range(n))


def merge(*given: Union[Stream, Sequence[Stream]]) -> Stream:
    """Takes an item of each stream by turns, from the first one on: `merge(x, y)` or `merge([x, y])`.

    Rates: as many out as there are streams, for one item of each. Faults: none. It ends with the first stream that has
    no item at its turn. The number of streams is 1 to 16, or a product of such numbers.
    """
    streams: List[Stream] = []
    for it in given:
        streams += [it] if isinstance(it, Stream) else it
    first = largest_divisor(len(streams)) if streams else 0
    need(first > 1 or len(streams) == 1,
         f'a merge of {len(streams)} streams: the number has to be a product of numbers up to {MOST_PORTS}')
    if len(streams) == 1:
        return streams[0]
    ports = [f'i{it}' for it in range(1, first + 1)]
    process = Process.from_text(f'process merge{first}(in {", ".join(ports)}; out o) {{ while 1 {{ '
                                + ' '.join(f'read {port} x; write o x;' for port in ports) + ' } }')
    return cast(Stream, process(*(merge(streams[it::first]) for it in range(first))))


def zip_streams(*streams: Stream) -> Tuple[Stream, ...]:
    """Gives a tuple of the streams in step: an item of each goes on only once all have one. There are 2 to 16.

    So all are as long as the shortest.

    Rates: one item on each out for one on each in. Faults: none.
    """
    need(len(streams) > 1, 'a zip takes at least two streams')
    numbers = range(1, len(streams) + 1)
    text = (f'process zip{len(streams)}(in {", ".join(f"i{it}" for it in numbers)}; '
            f'out {", ".join(f"o{it}" for it in numbers)}) {{ while 1 {{ '
            + ' '.join(f'read i{it} x{it};' for it in numbers) + ' '.join(f' write o{it} x{it};' for it in numbers))
    outs: Tuple[Stream, ...] = Process.from_text(text + ' } }')(*streams)
    return outs


def select(control: Stream, if_true: Stream, if_false: Stream) -> Stream:
    """For each item of `control`, takes an item of `if_true` if it is not 0, and else of `if_false`.

    Rates: one out for one of `control` and one of the stream that it selects. Faults: none. Source: J. T. Buck,
    "Scheduling dynamic dataflow graphs with bounded memory using the token flow model", 1993.
    """
    return cast(Stream, SELECT(control, if_true, if_false))


def switch(control: Stream, stream: Stream) -> Tuple[Stream, Stream]:
    """Sends each item to the first of two streams if the item of `control` is not 0, and else to the second.

    Rates: one out, on one of the two, for one of `control` and one in. Faults: none. Source: that of `select`.
    """
    return cast(Tuple[Stream, Stream], SWITCH(control, stream))


def run_length_encode(stream: Stream, longest: int = 2**62) -> Tuple[Stream, Stream]:
    """Gives the values of the runs of equal items, and how long these are; `longest`, 1 or more, cuts longer runs.

    Rates: one item on each out for each run. Faults: none. A run comes out once an item follows that is not of it, so
    the last one never does. Source: A. H. Robinson and C. Cherry, "Results of a prototype television bandwidth
    compression scheme", 1967.
    """
    return cast(Tuple[Stream, Stream], ENCODE(stream, whole('the longest run', longest, 1)))


def run_length_decode(values: Stream, counts: Stream) -> Stream:
    """Gives each value as often as the count beside it says; a count below 1 gives nothing.

    Rates: for one item on each in, as many out as the count is. Faults: none. Source: that of `run_length_encode`.
    """
    return cast(Stream, DECODE(values, counts))
