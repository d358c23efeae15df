#!/usr/bin/env python3
"""Counts the functions of the product that only hand on: the body is one call on the function's own parameters.

A body counts if it is one call, with or without `?`, whose receiver and arguments are parameters or fields of one,
borrowed or not. Functions in impls of traits do not count, and neither do the calls that the library offers to its
users, which are named below. With -v it prints each function with its body. It depends on the layout of `rt fmt`.
"""
import argparse
import collections
import pathlib
import re

TOP = pathlib.Path(__file__).resolve().parent.parent
BESIDE = re.compile(r'(check_|bench_|test_|commit_)')
# What the library offers, crate by crate.
OFFERED = {
    'kpn_lang': 'ins outs pars vars block eval same',
    'kpn_net': 'programs program_at program_number instances channels program ins outs pars writer_of reader_of cap_of '
               'limit same rounds',
    'kpn_text': 'network process_name instance_name channel_name find_channel read_network print_network',
    'kpn_text_items': 'read_all read_items write_items',
    'kpn_step': 'start fits copy advance program from to steps stop give wrote alone',
    'kpn_chan': 'new reserve_one copy_journal room put get len is_full read_count cap at retire grow',
    'kpn_history': 'new reserve room push len at',
    'kpn_trace': 'event_line write_trace read_event read_trace',
    'kpn_cycle': 'new set get cycle_through scan_all',
    'kpn_book': 'new claim commit put_back feed close_source take leave_sink counts commits history into_history '
                'verdict snapshot',
    'kpn_book': 'run_here',
    'kpn_pool_desk': 'new between why commits halt feed close take leave fed taken snapshot',
    'kpn_pool': 'run work halt gather feed close take leave snapshot try_snapshot',
    'kpn_audit': 'audit',
    'kpn_cli': 'command',
}
HEAD = re.compile(r'( *)(?:pub(?:\([a-z]+\))? )?(?:const )?(?:unsafe )?fn (\w+)')
PLACE = r'(?:&mut |&|\*)*\w+(?:\.\w+)*'
CALL = re.compile(rf'(?:(\w+(?:\.\w+)*)\.)?(?:[A-Za-z_]\w*::)*[A-Za-z_]\w*(?:::<[^()]*>)?'
                  rf'\(((?:{PLACE}(?:, {PLACE})*)?)\)\??;?')


def functions(lines):
    """Each function with a body: its name, its parameters, its body, the number of its line, and whether it is in an
    impl of a trait."""
    of_trait, at = False, 0
    while at < len(lines):
        if re.match(r'impl\b', lines[at]):
            until = next(k for k in range(at, len(lines)) if lines[k].endswith('{') or lines[k].endswith('{}'))
            of_trait = ' for ' in ' '.join(lines[at:until + 1])
        elif lines[at] == '}':
            of_trait = False
        head = HEAD.match(lines[at])
        at += 1
        if not head:
            continue
        first = at - 1
        is_clause = re.compile(r'\s+(requires|ensures|ghost)\b')
        while not (lines[at - 1].endswith('{') and not is_clause.match(lines[at - 1])
                   or lines[at - 1].endswith('{}') or lines[at - 1].endswith(';')):
            at += 1
        if not lines[at - 1].endswith('{'):
            continue
        until = lines.index(head[1] + '}', at)
        said = ' '.join(lines[first:at])
        names = set(re.findall(r'(?:[(,]|mut )\s*(?:mut )?(\w+):', said)) | {'self'} & set(re.findall(r'\w+', said))
        yield head[2], names, lines[at:until], first + 1, of_trait
        at = until + 1


def hands_on(names, body):
    code = [line.split('//')[0].strip() for line in body]
    call = CALL.fullmatch(re.sub(r'\( | (?=[).])|,(?= \))', lambda it: it[0].strip(' ,'), ' '.join(filter(None, code))))
    if not call:
        return False
    used = [call[1] or 'self', *filter(None, call[2].split(', '))]
    return all(re.sub(r'^[&* ]*(mut )?', '', it).split('.')[0] in names | ({'self'} if not call[1] else set())
               for it in used)


def main():
    parser = argparse.ArgumentParser(description=__doc__, formatter_class=argparse.RawDescriptionHelpFormatter)
    parser.add_argument('-v', action='store_true', dest='shows_all')
    shows_all = parser.parse_args().shows_all
    found, all_of_them = collections.Counter(), 0
    for file in sorted(TOP.glob('crates/*/src/**/*.rt')):
        crate = file.relative_to(TOP / 'crates').parts[0]
        if BESIDE.match(crate):
            continue
        for name, names, body, line, of_trait in functions(file.read_text().split('\n')):
            all_of_them += 1
            if of_trait or name in OFFERED.get(crate, '').split() or not hands_on(names, body):
                continue
            found[crate] += 1
            if shows_all:
                print(f'{file.relative_to(TOP)}:{line}: {name}: {" ".join(it.strip() for it in body)}')
    print(f'{found.total()} of {all_of_them} functions only hand on: ' + ', '.join(f'{n} in {it}' for it, n in found.most_common()))


if __name__ == '__main__':
    main()
