"""How `net.run(.., ranks=4)` starts the program `kpn-mpi` over a number of ranks of MPI."""
from __future__ import annotations

import os
import pathlib
import shutil
from typing import List, Tuple

from .errors import KpnError, whole

VARIABLE = 'KPN_MPI'
BUILT = pathlib.Path(__file__).resolve().parents[2] / 'out/mpi/kpn-mpi'
MOST_RANKS = 256
# In the environment: Open MPI takes more ranks than there are processors, and says nothing of a status like that of
# `clogged`. MPICH does so anyway.
SETTINGS = {'OMPI_MCA_rmaps_base_oversubscribe': '1', 'OMPI_MCA_orte_execute_quiet': '1'}


def find_mpi_program() -> str:
    """The path of the program `kpn-mpi`: that of the variable KPN_MPI, of the repository, or of the PATH. Raises KpnError
    if there is none, or if the variable names no program."""
    named = os.environ.get(VARIABLE)
    if named and (not os.access(named, os.X_OK) or os.path.isdir(named)):
        raise KpnError(f'{named} is no program: that of {VARIABLE} has to be the program `kpn-mpi`')
    for path in (named, str(BUILT), shutil.which('kpn-mpi')):
        if path and os.access(path, os.X_OK):
            return os.path.abspath(path)
    raise KpnError('there is no program `kpn-mpi`: build it by `make -C mpi` in the repository of Combrieks, or name '
                   f'it by {VARIABLE}')


def runner_of(ranks: int, text: str, program: str) -> Tuple[str, List[str]]:
    """What runs a text over this many ranks, with the path of `kpn`: a program and its first words."""
    count = whole('`ranks`', ranks, 1, MOST_RANKS)
    env = shutil.which('env')
    if not env or not shutil.which('mpirun'):
        raise KpnError('there is no program `mpirun`: install Open MPI or MPICH')
    return env, [f'KPN_PROGRAM={program}', 'mpirun', '-n', str(count), find_mpi_program(), text]
