"""The search over all schedules: worked networks, some random ones beside `kpn`, wrong rules of growth, and what two
schedules need for one end."""
import os
import pathlib
import sys
import unittest

TOP = pathlib.Path(__file__).resolve().parent.parent.parent
sys.path.append(str(TOP / 'tools'))

import schedules  # noqa: E402
from schedules import READY, Different, Model, Search  # noqa: E402

EXAMPLES = ('two', 'clogged', 'unclogged', 'jammed', 'deadlock', 'fault', 'worked/tie', 'worked/self_loop',
            'worked/ended_reader', 'worked/three_ahead_doubled', 'worked/small_full_channel')
STATES, RANDOM, BESIDE = 1_000, 4, 2
# Channel a grows for a stop, which is one only if sink z is empty or left.
STOP = '''process p(out z, a) { write z 1; write a 1; write a 2; }
process q(in b, a) { read b x; }
process e(out b) { }
network { policy all; channel a cap 1; channel b cap 1; sink z cap 1; p = p(; z, a); q = q(b, a;); e = e(; b); }'''
TWICE = '''process p(out z) { write z 1; write z 2; }
network { policy all; sink z cap 1; p = p(; z); }'''
SLOW = '''process p(out z) { k = 0; while (k < 20) { k = (k + 1); } write z k; }
network { sink z cap 1; p = p(; z); }'''


def model_of(name):
    return Model((TOP / f'examples/{name}.kpn').read_text(), {})


class OwnChannel(Model):
    """A wrong rule: not the smallest full channel of the cycle grows, but that of the process that has come last."""

    def owed(self, state, waiting):
        growth, wait = super().owed(state, waiting), self.waits(state)[waiting or 0]
        return (*growth[:2], wait[1], 2) if growth and waiting is not None and wait[0] == 'full' else growth


class AnyStop(Model):
    """A wrong rule: a stop is one whatever lies in the sinks."""

    def is_settled(self, state):
        return READY not in state.statuses


class Schedules(unittest.TestCase):
    def test_one_end(self):
        """A search finds no network with two ends, or in which the run in order lacks what another schedule has."""
        for name in EXAMPLES:
            found = Search(model_of(name), STATES, True)
            self.assertEqual((name, found.is_whole, bool(found.ends)), (name, True, True))
        for seed in range(1, RANDOM):
            self.assertLessEqual(Search(schedules.small_model(seed), STATES).part, 1)

    @unittest.skipUnless(os.path.exists(schedules.PROGRAM), 'there is no program')
    def test_beside_the_program(self):
        for model in (model_of('two'), model_of('unclogged'), *map(schedules.small_model, range(1, BESIDE))):
            schedules.try_beside(Search(model, STATES), 1)

    def test_wrong_rules(self):
        for wrong, text in ((OwnChannel, model_of('worked/tie').text), (AnyStop, TWICE)):
            with self.assertRaisesRegex(Different, 'two ends\n(kpn-trace 2\n(.*\n)*){2}'):
                Search(wrong(text, {}), STATES)
            Search(Model(text, {}), STATES)

    def test_diamonds(self):
        """A wrong rule is found where it first matters."""
        with self.assertRaisesRegex(Different, "'wait-full'.*'wait-full'.* are no diamond\nkpn-trace 2\n"):
            Search(OwnChannel(model_of('worked/tie').text, {}), STATES, True)

    def test_the_same_of_the_caller(self):
        """Ends differ if the caller has left a sink earlier, or not at all."""
        ends = {(counts[2], are_over[2]): state.capacities[0]
                for (counts, are_over), state in Search(Model(STOP, {}), STATES).ends.items()}
        self.assertEqual(ends, {(0, False): 1, (0, True): 2, (1, False): 2, (1, True): 2})

    def test_before_the_end(self):
        """Schedules in which the sink has had enough, or with as many events, may be at different places."""
        found = Search(Model(TWICE, {}), STATES)
        self.assertGreater(len({it.places for it in found.before if it.counts == (1,)}), 1)
        self.assertGreater(len({it for it in found.before if len(found.history(it)) == 2}), 1)

    def test_pauses_count(self):
        """One event may need more commits than twice the number of processes, if the pauses before it do not count."""
        found = Search(Model(SLOW, {}, 5), STATES)
        [state] = [it for it in found.before if len(it.places[0].talk) == 1 and READY in it.statuses
                   and not any(it.counts) and not any(it.are_over)]
        self.assertEqual((found.in_order.needed(state, 100), state.places[0].stop[0]), (13, 'end'))
        self.assertLessEqual(found.part, 1)


if __name__ == '__main__':
    unittest.main()
