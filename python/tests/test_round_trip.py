"""Texts of random networks: by the builder, `kpn print`, the package's reader and the second implementation."""
import copy
import random
import unittest

import mutated_texts
import random_cells
from random_networks import Maker
from support import kpn, second_canonical

from kpn import parts
from kpn.program import answer


class RoundTrips(unittest.TestCase):
    def test_500_random_networks(self):
        for seed in range(500):
            with self.subTest(seed=seed):
                text = str(Maker(random.Random(seed)).network())
                self.assertEqual(answer('print', text), text)
                self.assertEqual(second_canonical(text), text)
                self.assertEqual(str(kpn.Network.from_text(text)), text)

    def test_300_mutated_texts(self):
        """The package reads a text as `kpn print` does, or refuses it with the same error."""
        refused = 0
        for seed in range(300):
            text = mutated_texts.mutant(random.Random(seed))
            with self.subTest(seed=seed):
                found, is_refused = mutated_texts.compare(text)
                self.assertEqual(found, '')
                refused += is_refused
        self.assertTrue(150 < refused < 250, refused)

    def test_texts_that_say_another_network(self):
        copy = 'process p(in i; out o) { while 1 { read i x; write o x; } } '
        network = 'network { source s; sink z cap 1; channel y cap 1; %s }'
        for entry, error in (('a = p(s; z, y);', '12 PortCount at 0'), ('a = p(s; );', '12 PortCount at 0'),
                             ('a = p(s, y; z);', '12 PortCount at 0'), ('a = p(; z);', '12 PortCount at 0'),
                             ('a = p(s; z; 1);', '12 PortCount at 0'), ('a = p(s; y); b = p(y; z, y);',
                                                                        '12 PortCount at 1')):
            with self.assertRaises(kpn.KpnError) as caught:
                kpn.Network.from_text(copy + network % entry)
            self.assertEqual(caught.exception.error, error)
            self.assertEqual(caught.exception.place.what, 'the network')
        for text, error in ((copy + copy + network % 'a = p(s; z);', '23 DoubleName at 68'),
                            ('network { }\n#' + 'x' * 1_048_576, '24 TooLong at 1048576'),
                            ('network { } # \udc80 \ud800\n.', '20 Token at 22')):
            with self.assertRaises(kpn.KpnError) as caught:
                kpn.Network.from_text(text)
            self.assertEqual(caught.exception.error, error)
        self.assertEqual(str(kpn.Network.from_text('network { } # \udc80 \ud800')), 'network {\n}\n')

    def test_language_2(self):
        """The text is the canonical one, and what is wrong in a process is found where it stands in its own text."""
        head = 'language 2; process p(in i; out o) { read i x; '
        tail = 'network { source s; sink z cap 1; a = p(s; z); }'
        text = head + 'if ((x & 1)) == 0 { write o (x) + 1 * 2; } else if x { } else { } x = - 0; } ' + tail
        self.assertIn('  if (x & 1) == 0 {\n    write o x + 1 * 2;\n  } else if x {\n  }\n  x = -0;\n}\n',
                      answer('print', text))
        self.assertEqual(str(kpn.Network.from_text(text)), answer('print', text))
        with self.assertRaises(kpn.KpnError) as caught:
            kpn.Process.from_text(head + 'write o x & 1 == 0; }')
        self.assertEqual(caught.exception.error, f'21 Grammar at {len(head) + 14}')
        wrong = head[len('language 2; '):] + 'if ((x)) {} else { if x {} else {} } write o ((x)) + (- (y)); }'
        self.assertEqual(self.column(f'language 2; {wrong}'), wrong.index('y') + 1)

    def column(self, text):
        """The column of what is wrong in a process, once a network has it."""
        net = kpn.Network()
        net.sink('z', kpn.Process.from_text(text)(net.source('s')))
        with self.assertRaises(kpn.KpnError) as caught:
            net.check()
        return caught.exception.place.column

    def test_arrays_and_tables(self):
        head = 'language 2; table t=1,-02, -0; process p(in i; out o) {table u = 5;array a[04];'
        text = head + 'read i x; a[(x)&3]=t[x]; write o a[u[0] - 4]; } ' \
            'network { source s; sink z cap 1; a = p(s; z); }'
        net = kpn.Network.from_text(text)
        self.assertEqual(str(copy.deepcopy(net)), str(net))
        printed = answer('print', text)
        self.assertIn('table t = 1, -2, 0;\nprocess p(in i; out o) {\n  array a[4];\n  table u = 5;\n', printed)
        self.assertEqual((str(net), second_canonical(text)), (printed, printed))
        self.assertEqual(net.run({'s': [1]}), {'z': [-2]})
        for old, error in (('[04]', '[00]'), ('a[(x)&3]', 'a[]'), ('table u = 5', 'table u = '), ('[x]', '[x'),
                           ('; process', '; array b[1]; process')):
            wrong = text.replace(old, error)
            self.assertRaisesRegex(kpn.KpnError, '21 Grammar', kpn.Network.from_text, wrong)

    def test_constants_and_shorter_forms(self):
        """They stand for other tokens, and what is wrong is found where it stands in the text of the process."""
        shared = 'const N = 2 << 1; const LOW = 1 - N; table t = N, LOW; '
        own = 'process p(in i; out o) { const K = N - 2; array a[N]; read i x; x *= 2 + 1; ' \
            'while k < K { x += t[k]; j = k; while j < K + -LOW - 1 { a[j] += x; j += 1; } k += 1; } ' \
            'const M = -K; x <<= K; ' \
            'write o x - M; }'
        text = f'language 2; {shared}{own} const ROOM = N; network {{ cap ROOM; grow double; source s; sink z; ' \
            'channel c cap 1; a = p(s; c); b = p(c; z); }'
        printed = answer('print', text)
        net = kpn.Network.from_text(text)
        self.assertEqual((str(net), second_canonical(text)), (printed, printed))
        self.assertIn('  sink z cap 4;\n  channel c cap 1;\n', printed)
        self.assertIn('  x = x << 2;\n  write o x - -2;\n', printed)
        self.assertEqual(dict(net.run({'s': [5]})), {'z': [798]})
        for old, new in (('const K', 'const N'), ('K = N', 'K = x'), ('2 + 1', '; '), ('k < K', 'k < '),
                         ('N - 2', '1 / 0'), ('K = N', 'K = ~9223372036854775807 + 0 * N'), ('x *= 2', 'x * = 2'),
                         ('const M', 'const K'), ('a[j] +=', 'a[j] + ='), ('a[j]', 'a[j'), ('cap ROOM', 'cap K'),
                         ('const R', 'R'), ('cap ROOM; grow', 'grow'), ('2 + 1', 'x ? 2 : 1'), ('2 + 1', '2) + (1'),
                         ('j += 1;', 'j += 1'), ('cap ROOM;', 'cap ROOM; cap 1;')):
            self.assertRaisesRegex(kpn.KpnError, r'2[012] \w+ at', kpn.Network.from_text, text.replace(old, new))
        head = f'language 2; {shared}'
        for old, new in (('2 + 1', '2 + u'), ('k < K', 'k < u'), ('j < K', 'u < K'), ('x - M', 'M - u')):
            wrong = own.replace(old, new)
            self.assertEqual(self.column(head + wrong), ('table t = N, LOW; ' + wrong).index('u', 60) + 1, new)

    def test_loops_and_reads_into_cells(self):
        """They stand for other tokens too, with variables of their own."""
        own = 'process p(in i; out o) { array a[3]; for k in 0..2 + 1 { read i a[2 - k]; } ' \
            'for k in a[0]..a[1] { for to in k..a[2] { write o to * k; } } }'
        text = f'language 2; {own} network {{ source s; sink z cap 1; p = p(s; z); }}'
        printed = answer('print', text)
        net = kpn.Network.from_text(text)
        self.assertEqual((str(net), second_canonical(text)), (printed, printed))
        self.assertIn('    read i item;\n    a[2 - k] = item;\n', printed)
        self.assertIn('    to__ = a[2];\n    while to < to__ {\n', printed)
        self.assertEqual(dict(net.run({'s': [5, 3, 1]})), {'z': [1, 2, 3, 4, 4, 6, 8]})
        for old, new in (('for k in 0', 'for 2 in 0'), ('in 0..', '= 0..'), ('..2 + 1', '..'), ('..2 + 1 {', '..2; {'),
                         ('in 0.', 'in .'), (' - k];', ' - k] = 1;'), (' - k];', ' - k][0];'), ('{ for', 'for')):
            self.assertRaisesRegex(kpn.KpnError, '21 Grammar at', kpn.Network.from_text, text.replace(old, new))
        self.assertEqual(self.column('language 2; ' + own.replace('k..', 'm..')), own.index('k..') + 1)

    def test_a_process_with_shared_tables(self):
        """Those that it names become its own, and two processes may have two tables of one name."""
        text = 'table t = 7,-1; table no = 0; process %s(in i; out o) { table v = -0; array a[1]; read i x; ' \
            'write o t[x] + v[(a[0])]%s; }'
        net = kpn.Network()
        one, two = (kpn.Process.from_text(f'language 2; {text.replace("7", seven) % (name, "")}')
                    for name, seven in (('p', '7'), ('q', '8')))
        net.sink('y', one(net.source('r')))
        net.sink('z', two(net.source('s')))
        self.assertEqual(dict(net.run({'r': [0], 's': [0]})), {'y': [7], 'z': [8]})
        self.assertEqual(answer('print', str(net)), str(net))
        self.assertIn('  array a[1];\n  table t = 7, -1;\n  table v = 0;\n', str(one))
        self.assertNotIn('no', str(one))
        self.assertEqual(self.column('language 2; ' + text % ('p', ' + (u)')), (text % ('p', ' + (u)')).index('(u') + 2)
        self.assertRaisesRegex(kpn.KpnError, '20 Token', kpn.Process.from_text, text % ('p', ''))

    def test_parts_of_both_languages(self):
        """In a text of language 2 a process of language 1 has no more parentheses than are needed."""
        net = kpn.Network()
        two = kpn.Process.from_text('language 2; process two(in i; out o) { while 1 { read i x; write o (x) << 1; } }')
        one = kpn.Process.from_text('process two(in i; out o) { read i table; write o (table * 3); }')
        net.sink('y', parts.compressor(parts.fir(two(net.source('x')), [1, 2]), 9, 2, 1, 1))
        self.assertEqual(answer('print', str(net)), str(net))
        self.assertEqual(second_canonical(str(net)), str(net))
        net.sink('z', one(net.source('w')))
        with self.assertRaisesRegex(kpn.KpnError, 'process `two_2`, line 1, column 35: .*21 Grammar'):
            net.check()

    def test_300_networks_with_cells(self):
        for seed in range(300):
            text, _ = random_cells.network(random.Random(seed))
            with self.subTest(seed=seed):
                printed = answer('print', text)
                self.assertEqual(second_canonical(text), printed)
                self.assertEqual(str(kpn.Network.from_text(text)), printed)

    def test_deep_texts(self):
        for depth in (31, 32, 5_000):
            for text in ('(' * depth + 'x' + ' + 1)' * depth, '-' * depth + 'x'):
                text = f'process p(in i) {{ read i x; x = {text}; }}'
                if depth < 32:
                    kpn.Process.from_text(text)
                else:
                    self.assertRaisesRegex(kpn.KpnError, '6 TooDeep', kpn.Process.from_text, text)
            text = 'process p() { ' + 'while 1 { ' * depth + '} ' * depth + '}'
            if depth < 32:
                kpn.Process.from_text(text)
            else:
                self.assertRaisesRegex(kpn.KpnError, '6 TooDeep', kpn.Process.from_text, text)


if __name__ == '__main__':
    unittest.main()
