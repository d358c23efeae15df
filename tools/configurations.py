#!/usr/bin/env python3
"""Writes what crates/check_books must write for the histories in its standard input, which stand after the calls of
books. For each history that is what every channel holds and every process does at the start and after each event, and
which processes the event woke. Another program than the proved one (histories.py) computes it, only from the history.
"""
import argparse
import pathlib

import histories

FOLDER = pathlib.Path(__file__).resolve().parent.parent / 'crates/check_books'
CAUSES = {'done': 'Done', 'overflow': 'Overflow', 'zero-divisor': 'ZeroDivisor', 'index': 'Index', 'shift': 'Shift'}


def some(value):
    """A value that may be missing, as Rust shows it."""
    return 'None' if value is None else f'Some({value})'


def truth(value):
    return 'true' if value else 'false'


def woken(audit, before, event):
    """The processes that were blocked before the event and are not after it. Those that an end wakes come in the order
    of its process's ports."""
    found = [p for p, wait in enumerate(before) if wait and not audit.blocked(p)]
    if event[0] == 'end':
        found.sort(key=lambda p: audit.network.ins(event[1]).index(before[p][1]))
    return found


def verdict(audit):
    if not audit.is_settled():
        return None
    now = audit.waits()
    found = [histories.smallest_full(audit.network, now, audit.capacities, p) for p in range(len(now))]
    if any(c is not None for c in found):
        return 'Jammed'
    return 'Clogged' if any(wait and wait[0] == 'full' for wait in now) else 'Ended'


def state_text(audit):
    lines = []
    for c, items in enumerate(audit.written):
        lines.append(f'  channel {c}: {items} read {audit.read_count[c]} cap {some(audit.capacities[c])}'
                     f' closed {truth(c in audit.closed)} left {truth(not audit.reader_lives(c))}')
    for p, wait in enumerate(audit.waits()):
        wait = f'{wait[0].capitalize()}({wait[1]})' if wait else 'Nobody'
        end = CAUSES[audit.last_of[p][2]] if audit.has_ended(p) else None
        lines.append(f'  process {p}: wait {wait} end {some(end)} owes {some(audit.owed_by_cycle(p))}')
    lines.append(f'  quiet {truth(audit.is_quiet())} verdict {some(verdict(audit))}')
    if audit.network.growing.policy == 'all':
        d = audit.owed_when_settled()
        owed = None if d is None else f'OwedGrowth {{ process: {audit.network.writers[d]}, channel: {d} }}'
        lines.append(f'  owes at the stop {some(owed)}')
    return ''.join(f'{line}\n' for line in lines)


def replayed(section):
    description, head, lines = section.partition('kpn-trace ')
    audit = histories.Audit(histories.Network(description))
    text = description + state_text(audit)
    trace = histories.read_trace((head + lines).encode())
    for line, event in zip(lines.splitlines()[trace.version:], trace.history):
        before = audit.waits()
        audit.accept(audit.told(event) if trace.version == 1 else event)
        text += f'{line}\n  wakes {woken(audit, before, event)}\n{state_text(audit)}'
    return text


def main():
    argparse.ArgumentParser(description=__doc__, formatter_class=argparse.RawDescriptionHelpFormatter).parse_args()
    sections = [f'{it}\n' for it in (FOLDER / 'stdin').read_text().split('\n.\n')[:-1] if '\nkpn-trace ' in it]
    first = sections[0].partition('kpn-trace ')[0]
    calls = (FOLDER / 'stdout').read_text().partition(first)[0]
    (FOLDER / 'stdout').write_text(calls + ''.join(map(replayed, sections)))


if __name__ == '__main__':
    main()
