"""The page that shows a run: what is in it, and, if Node is there, what its scripts make of it."""
import array
import base64
import contextlib
import hashlib
import io
import json
import pathlib
import random
import re
import shutil
import subprocess
import sys
import tempfile
import unittest
import unittest.mock
import zlib

from support import TOP, kpn
from random_networks import Maker

import histories
import random_cells
import ticks
from kpn import program, view
from kpn.__main__ import main
from kpn.language import tokens_of
from kpn.trace import FAULTS
from kpn.view import events, layout

NODE = shutil.which('node')
TYPES = {'b': 1, 'h': 2, 'i': 4, 'q': 8}
COUNTED = {'put': 'put', 'read': 'read', 'left': 'left', 'cap_last': 'cap'}
LABEL = re.compile(r'^  (p\d+|[pc]\d+ -> [pc]\d+) \[label="([^"]*)"', re.M)


def part_of(page, name):
    """A part of a page by its name."""
    return re.search(f'<script type="[^"]*" id="{name}">(.*?)</script>', page, re.S)[1]


def lines_of(page):
    """The lines of a trace, made of a page alone."""
    run = json.loads(part_of(page, 'run'))
    packed, items = (zlib.decompress(base64.b64decode(part_of(page, it))) for it in ('codes', 'items'))
    lists, place = [], 0
    for form in run['forms']:
        size = TYPES[form['type']] * form['count']
        numbers = array.array(form['type'], items[place:place + size])
        lists.append(list(numbers) if form['type'] == 'q' else [sum(numbers[:it + 1]) for it in range(len(numbers))])
        place += size + -size % 8
    grown, put, got = iter(run['grown']), [iter(it) for it in lists], [iter(it) for it in lists]
    for low, high in zip(packed[:len(packed) // 2], packed[len(packed) // 2:]):
        kind, *numbers, reason = run['table'][low + 256 * high]
        words = [kind, *(str(it) for it in numbers if it >= 0)]
        if kind in ('get', 'take', 'put', 'feed'):
            words.append(str(next((got if kind in ('get', 'take') else put)[numbers[1]])))
        words += [str(next(grown))] if kind == 'grow' else []
        yield ' '.join(words + [reason] * (kind == 'end'))


def random_text(seed):
    """A random network: one with loops and faults, or a row of simple processes."""
    source = random.Random(seed)
    if seed % 2:
        return str(Maker(source).network())
    caps = [source.randrange(1, 4) for _ in range(6)]
    return f'''
process make(out o; par n) {{ k = 0; while (k < n) {{ write o (k * {source.randrange(1, 10**15)}); k = (k + 1); }} }}
process deal(in i; out a, b) {{ while 1 {{ read i x; write a x; if (x % 3) {{ write b -x; }} else {{ }} }} }}
process join(in a, b; out o; par p) {{ while 1 {{ read a x; read b y; write o ((x + y) + p); }} }}
process again(in i; out o, back) {{ while 1 {{ read i x; write o x; write back x; }} }}
process first(in i; out o) {{ write o 1; while 1 {{ read i x; write o x; }} }}
network {{ limit {source.randrange(4, 9)}; policy {source.choice(("all", "cycles"))};
  channel x cap {caps[0]}; channel l_a cap {caps[1]}; channel b cap {caps[2]}; channel back cap {caps[3]};
  channel y cap {caps[4]}; sink z cap {caps[5]}; channel w cap 2; sink rest cap 1;
  make = make(; x; {source.randrange(30)}); s_deal = deal(x; l_a, b); s_join = join(l_a, b; y; -3);
  again = again(y; z, back); first = first(back; w); last = first(w; rest);
}}
'''


class Stored:
    """A description and a trace of it in a folder, and the page of both."""

    def __init__(self, folder, text, name, inputs=(), cut=None, commits=300, with_graphviz=False):
        self.file, self.trace = pathlib.Path(folder, f'{name}.kpn'), pathlib.Path(folder, f'{name}.trace')
        self.html = pathlib.Path(folder, f'{name}.html')
        self.file.write_text(text)
        self.made = program.call(['run', str(self.file), '--trace', str(self.trace), '--max-commits', str(commits),
                                  *inputs])
        lines = self.trace.read_bytes().splitlines(True)
        # Each beginning of a legal trace is legal.
        self.trace.write_bytes(b''.join(lines[:2] + lines[2:][:cut]))
        self.lines = [it.decode().rstrip('\n') for it in lines[2:][:cut]]
        self.page = view.page(self.file, self.trace, with_graphviz=with_graphviz)
        self.html.write_text(self.page)

    def timing(self):
        """The network and the timing of its trace, by the second implementation."""
        network = histories.Network(self.file.read_text())
        trace = histories.Trace(2, network.growing.policy, network.growing.growth,
                                [histories.read_event(it.encode(), 2) for it in self.lines])
        return network, ticks.Timing(network, trace)


def told_by_node(stored):
    """What the scripts of the pages compute."""
    script = pathlib.Path(__file__).with_name('view_in_node.js')
    done = subprocess.run([NODE, script, *(it.html for it in stored)], stdout=subprocess.PIPE, text=True, check=True)
    return [json.loads(line) for line in done.stdout.splitlines()]


class Pages(unittest.TestCase):
    @classmethod
    def setUpClass(cls):
        cls.folder = tempfile.TemporaryDirectory()
        cls.addClassCleanup(cls.folder.cleanup)
        cls.stored = [Stored(cls.folder.name, random_text(seed), f'random_{seed}',
                             cut=random.Random(seed).choice((None, None, seed * 3))) for seed in range(16)]
        for name in ('kahn', 'deadlock', 'jammed', 'clogged', 'two', 'fault', 'sieve'):
            text = (TOP / f'examples/{name}.kpn').read_text()
            cls.stored.append(Stored(cls.folder.name, text, name))
        for seed in range(8):
            text, lists = random_cells.network(random.Random(seed))
            file = pathlib.Path(cls.folder.name, f'items_{seed}')
            file.write_text(''.join(f'{it}\n' for it in lists['s'][:40]))
            cls.stored.append(Stored(cls.folder.name, text, f'cells_{seed}', ['--source', f's={file}']))

    def test_the_events_come_back(self):
        for it in self.stored:
            with self.subTest(it.file.name):
                self.assertEqual(list(lines_of(it.page)), it.lines)

    def test_the_tables_are_those_of_stats(self):
        for it in self.stored[::4]:
            stats = json.loads(part_of(it.page, 'run'))['stats']
            for name in ('channels', 'processes'):
                table = program.call(['stats', str(it.file), str(it.trace), '--tsv', name]).stdout
                rows = [[str(entry) for entry in row] for row in [stats[name]['columns'], *stats[name]['rows']]]
                self.assertEqual(rows, [row.split('\t') for row in table.splitlines()])
            said = program.call(['stats', str(it.file), str(it.trace)]).stdout
            self.assertTrue(said.startswith('\n'.join(stats['head']) + '\n'))

    @unittest.skipUnless(NODE, 'there is no Node')
    def test_what_the_scripts_compute(self):
        for it, told in zip(self.stored, told_by_node(self.stored)):
            with self.subTest(it.file.name):
                self.check_stats(it, told)
                self.check_draw(it, told)
                self.check_ticks(it, told)
                self.check_stands(it, told)
                if len(it.lines) < 300 and it.made.stdout:
                    outcome = it.made.stdout.splitlines()[-1]
                    self.assertIn(told['verdict'], ('cut short', outcome))

    def check_stats(self, it, told):
        stats = json.loads(part_of(it.page, 'run'))['stats']
        rows = [dict(zip(stats['channels']['columns'], row)) for row in stats['channels']['rows']]
        for row, channel in zip(rows, told['channels']):
            self.assertEqual({name: row[name] for name in COUNTED},
                             {name: '-' if channel[ours] is None else channel[ours] for name, ours in COUNTED.items()})
        rows = [dict(zip(stats['processes']['columns'], row)) for row in stats['processes']['rows']]
        names = json.loads(part_of(it.page, 'run'))['channels']
        for p, row in enumerate(rows):
            self.assertEqual(row['end'], end_of(told['processes'][p], names))
            self.assertEqual(told['processes'][p]['made'], row['gets'] + row['puts'])
        self.assertEqual(told['length'], int(stats['head'][0].split()[1]))

    def check_stands(self, it, told):
        """A process that waits stands at a read or a write on the channel on which it waits, and one that has ended at
        the end of its text, or where its fault is."""
        run = json.loads(part_of(it.page, 'run'))
        for p, (stands, state) in enumerate(zip(told['stands'], told['processes'])):
            self.assertNotIn('lost', (stands['why'], stands['half']))
            instance = run['instances'][p]
            process = run['processes'][instance['process']]
            line = process['lines'][stands['line']].split()
            if state['word'] in ('empty', 'full'):
                ports = dict(zip([*process['ins'], *process['outs']], [*instance['ins'], *instance['outs']]))
                self.assertEqual(line[0], {'empty': 'read', 'full': 'write'}[state['word']])
                self.assertEqual(ports[line[1]], state['channel'])
            elif state['word'] == 'done':
                self.assertEqual((stands['why'], stands['line']), ('end', len(process['lines']) - 1))
            elif state['word'] in FAULTS:
                self.assertEqual(stands['why'], state['word'])

    def check_draw(self, it, told):
        drawn = program.call(['draw', str(it.file), str(it.trace)]).stdout
        names = json.loads(part_of(it.page, 'run'))['channels']
        edges = []
        for thing, label in LABEL.findall(drawn):
            first, *second = label.split('\\n')
            if '->' in thing:
                edges.append((first.split(' ')[0], second[0].split(', grown')[0]))
            else:
                end = end_of(told['processes'][int(thing[1:])], names)
                self.assertEqual(''.join(second) or '-', end)
        ours = [(name['name'], f'{its["put"]} put, {its["left"]} unread') for name, its in zip(names, told['channels'])]
        self.assertEqual(edges, ours)

    def check_ticks(self, it, told):
        network, timing = it.timing()
        moves = [k for k, line in enumerate(it.lines) if line.split()[0] in ('get', 'put')]
        self.assertEqual([told['ticks'][k] for k in moves], timing.ticks)
        shares = timing.shares()
        rows = table_rows(it, 'processes')
        told_shares = [its['bounds'] for its in rows]
        self.assertEqual(told_shares, [shares[p] for p in range(len(network.instances))])
        self.assertEqual(told['shares'], told_shares)
        for p, slices in enumerate(told['slices']):
            ours = [[begin, end, word] for begin, end, word, _ in slices if word in ('get', 'put')]
            self.assertEqual(ours, [[timing.ticks[k] - 1, timing.ticks[k], timing.places[k].word]
                                    for k in timing.of_process[p]])
            # The slices of a process follow each other up to the end of the run.
            places = [0, *(end for _, end, _, _ in slices)]
            self.assertEqual([begin for begin, _, _, _ in slices], places[:-1])
            self.assertEqual(places[-1], told['span'])
            # A wait that the run ends with goes on after the last tick, also if there is none.
            if rows[p]['end'].startswith('waits '):
                self.assertEqual(slices[-1][2], 'full' if rows[p]['end'].endswith(' full') else 'empty')
                self.assertGreater(slices[-1][1], timing.length)


def table_rows(stored, name):
    """A table of `kpn stats` of a page, as rows by the names of its columns."""
    table = json.loads(part_of(stored.page, 'run'))['stats'][name]
    return [dict(zip(table['columns'], row)) for row in table['rows']]


def end_of(state, channels):
    """A state as the column `end` of `kpn stats` has it."""
    if state['word'] in ('done', *FAULTS):
        return state['word']
    waits = {'empty': '', 'full': ' full'}
    return f'waits {channels[state["channel"]]["name"]}{waits[state["word"]]}' if state['word'] in waits else '-'


HOSTILE = """process p(out o) { # </script><script>alert(1)</script> <!-- &amp; \xff\u2028
  write o 1; } # ]]> </SCRIPT >
network { sink z cap 1; p = p(; z); } # <script>
"""


class Inputs(unittest.TestCase):
    def test_nothing_breaks_out(self):
        with tempfile.TemporaryDirectory() as folder:
            it = Stored(folder, HOSTILE, 'hostile')
            title = '</title><script>alert(2)</script>&amp;\udcff'
            page = view.page(it.file, it.trace, title=title, with_graphviz=False)
        for page in (page, it.page):
            self.assertEqual(len(re.findall('<script', page, re.I)), 4)
            self.assertEqual(len(re.findall('</script', page, re.I)), 4)
            self.assertNotIn('alert(', page.replace(part_of(page, 'run'), '').replace('&lt;script&gt;alert(2)', ''))
            run = part_of(page, 'run')
            self.assertNotRegex(run, '[<>&]')
            self.assertIn('</script><script>alert(1)</script> <!-- &amp;', json.loads(run)['processes'][0]['text'])
            page.encode()

    def test_no_other_script_runs(self):
        with tempfile.TemporaryDirectory() as folder:
            page = Stored(folder, HOSTILE, 'hostile').page
        script, style = (re.search(f'<{tag}>(.*?)</{tag}>', page, re.S)[1] for tag in ('script', 'style'))
        for text, word in ((script, 'script-src'), (style, 'style-src')):
            found = base64.b64encode(hashlib.sha256(text.encode()).digest()).decode()
            self.assertIn(f"{word} 'sha256-{found}';", page)
        self.assertIn("default-src 'none'", page)
        self.assertNotRegex(page, r'(src|href)=|style="|https?://(?!www\.w3\.org/2000/svg)')

    def test_bytes_in_comments(self):
        with tempfile.TemporaryDirectory() as folder:
            it = Stored(folder, HOSTILE, 'bytes')
            it.file.write_bytes(b'# \xff\xfe\0\n' + it.file.read_bytes())
            self.assertEqual(list(lines_of(view.page(it.file, it.trace, with_graphviz=False))), it.lines)

    def test_lines_are_found_in_the_text(self):
        text = """process f(in i; out o) { # x = 1;
            x = 1; # a comment
            while x { read i x; if (x > 2) { write o -x; }
              else { x /**/ = (x
                + 1); } } }""".replace('/**/', '# } \n')
        found = view.process_of(kpn.Process.from_text(text))
        for line, (start, end) in zip(found['lines'], found['spans']):
            self.assertEqual([it.text for it in tokens_of(line)], [it.text for it in tokens_of(text[start:end])])

    def test_version_1(self):
        page = view.page(TOP / 'examples/two.kpn', TOP / 'examples/histories/two.trace', with_graphviz=False)
        self.assertIn('grow 0 0 2', list(lines_of(page)))

    def test_what_is_refused(self):
        with tempfile.TemporaryDirectory() as folder:
            it = Stored(folder, HOSTILE, 'two')
            for text, error in (('put 0 0 2\n', 'illegal at 0'), ('put 0 0 x\n', '30 BadEvent at 3')):
                it.trace.write_text(f'kpn-trace 2\npolicy cycles grow one\n{text}')
                with self.assertRaisesRegex(kpn.KpnError, error), contextlib.redirect_stdout(io.StringIO()):
                    view.page(it.file, it.trace)
                with contextlib.redirect_stderr(io.StringIO()) as told:
                    self.assertEqual(main(['view', str(it.file), str(it.trace)]), 1)
                self.assertIn(error, told.getvalue())

    def test_the_command(self):
        with tempfile.TemporaryDirectory() as folder:
            it = Stored(folder, random_text(2), 'random')
            words = [sys.executable, '-m', 'kpn', 'view', str(it.file), str(it.trace), '--steps', '100']
            done = subprocess.run(words, cwd=TOP / 'python', stdout=subprocess.PIPE, check=True)
        self.assertEqual(list(lines_of(done.stdout.decode())), it.lines)

    def test_a_result_gives_its_page(self):
        net = kpn.Network()
        net.sink('y', kpn.parts.gain(net.source('x'), 2))
        page = net.run([1, -2**62], trace=True).view()
        self.assertIn('take 1 -9223372036854775808', list(lines_of(page)))
        self.assertRaises(kpn.KpnError, net.run([1]).view)

    def test_items_of_each_size(self):
        for items, name in (([], 'b'), ([5, -100, 27], 'b'), ([200], 'h'), ([0, -128], 'h'), ([2**31 - 1, 0], 'i'),
                            ([2**31], 'q'), ([-2**63, 2**63 - 1], 'q'), ([2**53, 2**53 + 1], 'q')):
            form, data = events.encoded(array.array('q', items))
            self.assertEqual(form, {'type': name, 'count': len(items)})
            self.assertEqual(len(data), TYPES[name] * len(items))


class Layouts(unittest.TestCase):
    def test_groups(self):
        names = [('left_add', 'add'), ('left_add_2', 'add'), ('right_in_gain', 'gain_2'), ('right_gain_7', 'gain'),
                 ('right_in_x_gain', 'gain'), ('right_in_gain_2', 'gain_2'), ('alone_add', 'add'), ('gain_3', 'gain')]
        groups, found = layout.groups_of(names)
        self.assertEqual(groups, [('left', -1), ('right', -1), ('right_in', 1)])
        self.assertEqual(found, [0, 0, 2, 1, 2, 2, -1, -1])

    def shape(self, seed):
        """A random graph with groups."""
        source = random.Random(seed)
        count = source.randrange(1, 40)
        groups = [('a', -1), ('a_b', 0), ('c', -1)]
        sizes = [(source.randrange(60, 200), 38) for _ in range(count)]
        edges = [(source.randrange(count), source.randrange(count)) for _ in range(2 * count)]
        return layout.Shape(sizes, edges, ['name'] * len(edges), groups, [source.randrange(-1, 3) for _ in sizes])

    def test_boxes_stand_apart(self):
        for seed in range(20):
            shape = self.shape(seed)
            for found in [layout.in_layers(shape)] + [layout.lay_out(shape)] * (seed < 2):
                self.check(found, shape)

    def check(self, found, shape):
        for k, box in enumerate(found.nodes):
            self.assertTrue(0 <= box.x - box.width / 2 and box.x + box.width / 2 <= found.width + 1, found.by)
            self.assertTrue(0 <= box.y - box.height / 2 and box.y + box.height / 2 <= found.height + 1)
            for other in found.nodes[:k]:
                self.assertTrue(abs(box.x - other.x) + .1 >= (box.width + other.width) / 2
                                or abs(box.y - other.y) + .1 >= (box.height + other.height) / 2)
            if shape.group_of[k] >= 0:
                group = found.groups[shape.group_of[k]]
                self.assertTrue(abs(box.x - group.x) < group.width / 2 and abs(box.y - group.y) < group.height / 2)
        for points, (tail, head) in zip(found.edges, shape.edges):
            self.assertEqual(len(points) % 3, 1)
            for (x, y), box in zip((points[0], points[-1]), (found.nodes[tail], found.nodes[head])):
                self.assertTrue(abs(x - box.x) < box.width / 2 + 12 and abs(y - box.y) < box.height / 2 + 12)

    def test_a_long_row_is_folded(self):
        count = 250
        edges = [(k, k + 1) for k in range(count - 1)]
        shape = layout.Shape([(90, 38)] * count, edges, ['name'] * count, [], [-1] * count)
        found = layout.in_layers(shape)
        self.assertTrue(found.height < found.width < layout.WIDEST * found.height)
        self.check(found, shape)

    def test_without_graphviz(self):
        for error in (OSError(), subprocess.TimeoutExpired('dot', 1)):
            with unittest.mock.patch.object(subprocess, 'run', side_effect=error):
                self.assertEqual(layout.lay_out(self.shape(1)).by, 'layers')


if __name__ == '__main__':
    unittest.main()
