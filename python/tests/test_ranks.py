"""Runs over ranks: the audit that joins the traces of parts, and how `net.run` starts ranks, without MPI."""
import contextlib
import io
import os
import pathlib
import tempfile
import unittest
from unittest import mock

from support import PROGRAM, kpn
import joins

from kpn import mpi, ranks

COPY = 'process copy(in i; out o) {\n  while 1 {\n    read i x;\n    write o x;\n  }\n}\n'
RING = COPY + 'network {\n  channel c cap 1;\n  channel d cap 1;\n  a = copy(d; c);\n  b = copy(c; d);\n}\n'
ROW = COPY + 'network {\n  source x;\n  channel c cap 1;\n  sink y cap 1;\n  a = copy(x; c);\n  b = copy(c; y);\n}\n'
# In place of `mpirun`: what comes after the number of ranks and the program is for `kpn run`.
STARTER = '#!/bin/sh\n[ "$1 $2" = "-n 3" ] || exit 9\nshift 3\nexec "{program}" run "$@"\n'

# The same of a run that is certified, by the program that the environment names.
CERTIFIER = """#!/bin/sh
shift 3
for word do
    shift
    [ "$word" = --certify ] && echo "kpn: certified: by $KPN_PROGRAM" >&2 || set -- "$@" "$word"
done
exec "{program}" run "$@"
"""
REFUSER = '#!/bin/sh\necho "kpn: not certified: no cut" >&2\nexit 9\n'


class Ranks(unittest.TestCase):
    def setUp(self):
        folder = tempfile.TemporaryDirectory()
        self.addCleanup(folder.cleanup)
        self.folder = pathlib.Path(folder.name)

    def audit(self, text, *traces):
        """The audit of a network whose instances `a` and `b` are at ranks 0 and 1."""
        (self.folder / 'net.kpn').write_text(text)
        (self.folder / 'cut').write_text('a=0\nb=1\n')
        (self.folder / 'ranks').write_text('2\n')
        for rank, events in enumerate(traces):
            lines = ['kpn-trace 2', 'policy cycles grow one', *events, '']
            (self.folder / f'rank-{rank}.trace').write_text('\n'.join(lines))
        net = joins.read_description(self.folder / 'net.kpn')
        for rank in range(2):
            part = joins.part_of(net, {'a': 0, 'b': 1}, rank, False)
            (self.folder / f'rank-{rank}.kpn').write_text(part.text())
        return self.audit_again()

    def audit_again(self):
        """The status and what the command writes."""
        with contextlib.redirect_stdout(io.StringIO()) as out, contextlib.redirect_stderr(out):
            status = mpi.main(['audit', str(self.folder / 'net.kpn'), str(self.folder)])
        return status, out.getvalue().splitlines()

    def test_parts_that_vouch_for_each_other_do_not_join(self):
        # Each trace is legal and exact by itself, and each part feeds the other an item that nobody has made.
        status, lines = self.audit(RING, ['feed 1 7', 'get 0 1 7', 'put 0 0 7', 'take 0 7', 'wait-empty 0 1'],
                                   ['feed 0 7', 'get 0 0 7', 'put 0 1 7', 'take 1 7', 'wait-empty 0 0'])
        self.assertEqual((status, lines[0]), (1, f'not joined at 0 in {self.folder}/rank-0.trace'))
        self.assertEqual(self.audit(RING, ['wait-empty 0 1'], ['wait-empty 0 0']),
                         (0, ['legal', 'exact yes', 'c cap 1:', 'd cap 1:']))

    def row(self, *fed):
        """The audit of a row in which the second part was fed these items of the one that was put."""
        first = ['feed 0 4', 'close 0', 'get 0 0 4', 'put 0 1 4', 'take 1 4', 'wait-empty 0 0']
        second = [line for it in fed for line in (f'feed 0 {it}', f'get 0 0 {it}', f'put 0 1 {it}', f'take 1 {it}')]
        status, lines = self.audit(ROW, first, [*second, 'wait-empty 0 0'])
        return status, lines if status == 0 else lines[0].rpartition(' in ')[0]

    def test_an_item_comes_once_and_as_it_was_put(self):
        self.assertEqual(self.row(4), (0, ['legal', 'exact yes', 'x: 4', 'c cap 1: 4', 'y cap 1: 4']))
        self.assertEqual(self.row(), (0, ['legal', 'exact no', 'x: 4', 'c cap 1: 4', 'y cap 1:']))
        self.assertEqual(self.row(4, 4), (1, 'not joined at 4'))
        self.assertEqual(self.row(5), (1, 'not joined at 0'))

    def test_the_parts_are_those_of_the_description(self):
        rests = ['wait-empty 0 0']
        status, lines = self.audit(ROW, rests, ['put 0 1 4', *rests])
        self.assertEqual((status, lines[0]), (1, f'illegal at 0 in {self.folder}/rank-1.trace'))
        # A part may have grown, but it has the program of the network.
        self.audit(ROW, rests, rests)
        part = self.folder / 'rank-0.kpn'
        part.write_text(part.read_text().replace('sink c cap 1', 'sink c cap 2'))
        self.assertEqual(self.audit_again(), (0, ['legal', 'exact yes', 'x:', 'c cap 2:', 'y cap 1:']))
        part.write_text(part.read_text().replace('write o x', 'write o 4'))
        status, lines = self.audit_again()
        self.assertEqual((status, lines[0]), (1, 'no cut'))

    def test_the_traces_are_those_of_one_run(self):
        rests = ['wait-empty 0 0']
        self.assertEqual(self.audit(ROW, rests, rests)[0], 0)
        for name in ('rank-2.trace', 'rank-2.kpn'):
            (self.folder / name).write_text('')
            status, lines = self.audit_again()
            self.assertEqual((status, len(lines)), (1, 1))
            self.assertIn(f'{name} is of another run: the run had 2 ranks', lines[0])
            (self.folder / name).unlink()
        self.assertEqual(self.audit_again()[0], 0)
        for told, why in (('3', 'rank-2.kpn is not there: the run had 3 ranks'), ('two', 'has no number of ranks'),
                          ('1', 'rank-1.kpn is of another run: the run had 1 ranks'), ('0', 'has no number of ranks')):
            (self.folder / 'ranks').write_text(f'{told}\n')
            status, lines = self.audit_again()
            self.assertEqual((status, len(lines)), (1, 1))
            self.assertIn(why, lines[0])
        (self.folder / 'ranks').unlink()
        self.assertEqual(self.audit_again()[0], 1)

    def start(self, script=STARTER, **options):
        """A run over three ranks by a program in the place of `mpirun`."""
        starter = self.folder / 'mpirun'
        starter.write_text(script.format(program=PROGRAM))
        starter.chmod(0o755)
        found = {'PATH': f'{self.folder}:{os.environ["PATH"]}', 'KPN_MPI': PROGRAM}
        with mock.patch.dict(os.environ, found):
            return kpn.Network.from_text(ROW).run([1, 2, 3], ranks=3, **options)

    def test_a_run_over_ranks_gives_a_result(self):
        result = self.start(take=2)
        self.assertEqual((result.outcome, result['y']), ('enough', [1, 2]))
        self.assertEqual(self.start().waits, [kpn.Wait('a', 'x', False), kpn.Wait('b', 'c', False)])

    def test_a_run_over_ranks_is_certified(self):
        self.assertIsNone(self.start(CERTIFIER).certified)
        self.assertEqual(self.start(CERTIFIER, certify=True).certified, f'by {os.path.abspath(PROGRAM)}')
        with self.assertRaisesRegex(kpn.KpnError, 'not certified: no cut'):
            self.start(REFUSER, certify=True)
        with self.assertRaisesRegex(kpn.KpnError, '`certify` is for a run over ranks'):
            kpn.Network.from_text(ROW).run([1], certify=True)

    def test_what_a_run_over_ranks_does_not_have_is_refused(self):
        for options in ({'workers': 2}, {'trace': True}):
            with self.assertRaisesRegex(kpn.KpnError, 'a run over ranks has no workers'):
                self.start(**options)
        with self.assertRaisesRegex(kpn.KpnError, '`ranks` is 0'):
            kpn.Network().run(ranks=0)
        with self.assertRaisesRegex(kpn.KpnError, 'a compiled network'):
            kpn.running.run(kpn.Network(), ranks=2, runner=('a', []))
        self.assertEqual(kpn.running.Options(trace='traces', ranks=2).words()[-2:],
                         ['--traces', os.path.abspath('traces')])
        with mock.patch.dict(os.environ, {'PATH': ''}), self.assertRaisesRegex(kpn.KpnError, '`mpirun`'):
            ranks.runner_of(2, 'net.kpn', PROGRAM)

    def test_a_wrong_variable_is_refused(self):
        for path in (str(self.folder), str(self.folder / 'nothing'), __file__):
            with mock.patch.dict(os.environ, {'KPN_MPI': path}), self.assertRaisesRegex(kpn.KpnError, 'KPN_MPI'):
                ranks.find_mpi_program()


if __name__ == '__main__':
    unittest.main()
