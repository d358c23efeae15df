"""Dataflow graphs, synchronous and cyclo-static: repetition vectors, deadlocks, throughput, capacities, and runs.

All is computed in Python. `graph.network()` runs by the program `kpn`, which is proved; so `graph.confirm` and
`graph.check` tell of capacities and firings what a proved run has shown.
"""
from .graph import Actor, Channel, Graph, Inconsistent
from .order import Deadlock, Lack
from .pictures import Gantt
from .ratio import Cycle
from .runs import Audit
from .sizes import Pareto, Sizes
from .timed import Throughput

__all__ = ['Actor', 'Audit', 'Channel', 'Cycle', 'Deadlock', 'Gantt', 'Graph', 'Inconsistent', 'Lack', 'Pareto',
           'Sizes', 'Throughput']
