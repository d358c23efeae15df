"""The calls of a session with a prefix of their own, so that a program may have several compiled networks."""
from __future__ import annotations

import pathlib
import re
from typing import Dict, Iterable, Sequence

# The functions that the C of a network and the runtime share, beside those that call one another; and data.
CALLED, DATA = re.compile(r'\b(kpn_\w+)\('), ('kpn_plan', 'kpn_fixed')
DECLARED = re.compile(r'^((?:uint32_t|const char \*) ?)kpn_(\w+)(\([^;]*\));', re.M)
# What an object never has, and what one with static memory has not.
ELSEWHERE, TRACES = ('check', 'explain', 'run'), ('trace', 'keep_trace')


def renames(prefix: str, sources: Iterable[pathlib.Path]) -> str:
    """Names of functions and data as macros for the prefixed ones."""
    names = {name: None for source in sources for name in CALLED.findall(source.read_text())}
    for source in sorted(next(iter(sources)).parent.glob('*.h')):
        names.update(dict.fromkeys(CALLED.findall(source.read_text())))
    return ''.join(f'#define {name} {prefix}_{name[4:]}\n' for name in sorted({*names, *DATA}))


def header(prefix: str, is_fixed: bool, folders: Sequence[pathlib.Path]) -> str:
    """The header with the prefixed calls."""
    declared: Dict[str, str] = {}
    for name in ('kpn.h', 'kpn_native.h'):
        [text] = [(folder / name).read_text() for folder in folders if (folder / name).exists()][:1]
        for result, call, words in DECLARED.findall(text):
            if call not in (*ELSEWHERE, *(TRACES if is_fixed else ())):
                declared[call] = f'{result}{prefix}_{call}{words};'
    guard = f'{prefix.upper()}_H'
    calls = '\n'.join(f'  static constexpr auto {call} = {prefix}_{call};' for call in declared)
    return f"""/* {prefix}.h: the calls of the network that `kpn compile --prefix {prefix}` has made. kpn.h and
   kpn_native.h say what each does. */
#ifndef {guard}
#define {guard}

#include "kpn_native.h"

#ifdef __cplusplus
extern "C" {{
#endif

{chr(10).join(declared.values())}

#ifdef __cplusplus
}}

/* For kpn.hpp: `kpn::basic_session<{prefix}_calls>`. */
struct {prefix}_calls {{
{calls}
}};
#endif

#endif
"""
