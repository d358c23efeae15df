"""What `tools/gate.py` counts for which crate, and the table that it writes."""
import pathlib
import sys
import tempfile
import unittest
import unittest.mock

TOP = pathlib.Path(__file__).resolve().parents[2]
sys.path.insert(0, str(TOP / 'tools'))

import gate  # noqa: E402
import prover  # noqa: E402


def prover_of(crate, *more):
    """The words of a prover for a crate."""
    return ['/kit/bin/rattle', 'check', '--crate-name', crate, 'src/lib.rt', *more]


# By number: the parent, the words, the folder, and the seconds.
PROCESSES = {
    2: (1, ['python3', 'rt', 'ci'], '/clone', 50.0),
    3: (2, prover_of('low'), '/clone/crates/low', 60.0),
    4: (3, prover_of('low'), '/clone/crates/low', 30.0),
    5: (2, prover_of('low'), '/tmp/rt-edit-2', 12.0),
    6: (2, prover_of('high', '--test'), '/clone/crates/high', 6.0),
    7: (2, ['sh', '/tmp/rt-run-2/bin/high'], '/tmp', 18.0),
    8: (2, ['/tmp/rt-run-2/bin/high_tests'], '/tmp', 24.0),
    9: (1, prover_of('low'), '/elsewhere/crates/low', 600.0),
}
ENDED = {**PROCESSES, 3: (2, prover_of('low'), '/clone/crates/low', 96.0)}
del ENDED[4], ENDED[8]


class Gate(unittest.TestCase):
    def spent(self):
        """What was spent after a look at the processes, and one after some have ended."""
        watch = gate.Watch(2)
        for processes in (PROCESSES, ENDED):
            with unittest.mock.patch('os.listdir', return_value=['self', *map(str, processes)]), \
                    unittest.mock.patch('gate.process_at', processes.get):
                watch.look()
        return watch.spent()

    def test_the_table(self):
        with tempfile.TemporaryDirectory() as folder:
            top = pathlib.Path(folder)
            for name, part, text in (('low', 'must-fail/x.edit', ''), ('low', 'src/lib.rt', ''), ('kept', 'src/a', ''),
                                     ('high', 'src/lib.rt', '#[test]\nfn a() {}\n#[test]\nfn b() {}')):
                file = top / 'crates' / name / part
                file.parent.mkdir(parents=True, exist_ok=True)
                file.write_text(text)
            (top / 'crates.txt').write_text('low:\nkept: low\nhigh: low\n')
            crates = list(prover.read_crates(top).values())
            self.assertEqual('\n'.join(gate.table(self.spent(), crates)), '''\
    low                        1.6   1 edits   0.2
    high                       0.3                   2 tests   0.5
    all                        1.9   1 edits   0.2   2 tests   0.5
Not measured: kept.''')

    def test_the_machine(self):
        with tempfile.TemporaryDirectory() as folder:
            file = pathlib.Path(folder, 'PROVING.md')
            for rows, wanted in (('    low    3.2\n    high    ~5\n    kept   7', 'low: 1.6 minutes here, 3.2 in the '
                                  'table, so minutes here times 2.00 are minutes of the table.'),
                                 ('    low  ~3', 'The machine is not compared: no crate was proved whose proof the '
                                  'table has without `~`.')):
                file.write_text(rows)
                with unittest.mock.patch('gate.TABLE', file):
                    self.assertEqual(gate.compared(self.spent()), wanted)


if __name__ == '__main__':
    unittest.main()
