"""Kahn process networks, built and run from Python.

A `Network` is built by calls of processes and of the ready parts in `kpn.parts`, and runs by the program `kpn` of
Combrieks. The package itself proves nothing. What `kpn` runs is proved there: the items that a sink gives are a prefix
of what the text of the network means.
"""
from . import parts
from .compiled import Compiled
from .errors import Deadlock, GrowthWarning, KpnError, Place
from .faults import Fault
from .fixed import Q, Range
from .live import Live
from .network import Network
from .process import Process, Stream
from .program import find_program
from .rates import Rate
from .room import LeastCapacities, least_capacities
from .result import Result, Stats, Wait
from .running import run
from .trace import Event, Trace, read_trace
from .wav import Wav

__all__ = ['Compiled', 'Deadlock', 'Event', 'Fault', 'GrowthWarning', 'KpnError', 'LeastCapacities', 'Live', 'Network',
           'Place', 'Process', 'Q', 'Range', 'Rate', 'Result', 'Stats', 'Stream', 'Trace', 'Wait', 'Wav',
           'find_program', 'least_capacities', 'parts', 'read_trace', 'run']
