#!/usr/bin/env python3
"""The instructions of a step of examples/c/loop.c on a Cortex-M4, and the code, memory and stack of its network.

usage: bench/native/cortex.py [--schedule SCHEDULE] [--flags FLAGS]

QEMU counts them for a board without a system. You need gcc-arm-none-eabi, libnewlib-arm-none-eabi and qemu-system-arm.
FLAGS are those of the compiler beside those for the processor, by default `-O2`. KPN_PROGRAM names the program `kpn`.
The network is loaded as it is linked, so its memory begins with zeros. It is no part of the gate.
"""
import os
import pathlib
import re
import subprocess
import sys
import tempfile

HERE = pathlib.Path(__file__).resolve().parent
TOP = HERE.parents[1]
sys.dont_write_bytecode = True
sys.path.append(str(HERE.parent))

import measure  # noqa: E402

CC, TARGET = 'arm-none-eabi-gcc', '-mcpu=cortex-m4 -mthumb -mfloat-abi=hard -mfpu=fpv4-sp-d16'
QEMU = ['qemu-system-arm', '-M', 'mps2-an386', '-icount', 'shift=0', '-nographic', '-monitor', 'none', '-serial', 'none',
        '-semihosting-config', 'enable=on,target=native', '-kernel']


def text_of_loop():
    """The description in the example."""
    text = re.search(r'cascade\[\] =\n(.*?);\n\n', (TOP / 'examples/c/loop.c').read_text(), re.S)[1]
    return ''.join(re.findall(r'"(.*)"', text)).replace('\\n', '\n')


def main():
    asked = measure.asked(__doc__, {}, {'schedule': 'fuse', 'flags': '-O2'})
    flags = f'-std=c11 {TARGET} {asked.flags}'
    environment = {**os.environ, 'CC': CC, 'CFLAGS': flags, 'PYTHONPATH': str(TOP / 'python')}
    with tempfile.TemporaryDirectory(prefix='kpn-') as folder:
        pathlib.Path(folder, 'loop.kpn').write_text(text_of_loop())
        made = subprocess.run([sys.executable, '-m', 'kpn.native', 'loop.kpn', '--fixed', '8', '--sizes', '--schedule',
                               asked.schedule, '-o', 'loop.a'], cwd=folder, env=environment, capture_output=True,
                              text=True)
        sys.stdout.write(made.stdout + made.stderr)
        subprocess.run([CC, *flags.split(), f'-I{TOP / "include"}', HERE / 'cortex.c', 'loop.a', '-T', HERE / 'cortex.ld',
                        '-nostartfiles', '--specs=nano.specs', '-Wl,--gc-sections', '-o', 'loop.elf'], cwd=folder,
                       check=True)
        done = subprocess.run([*QEMU, 'loop.elf'], cwd=folder, capture_output=True, text=True, timeout=600)
        print(f'instructions of a step: {" ".join((done.stdout + done.stderr).split())}')
    return done.returncode


if __name__ == '__main__':
    sys.exit(main())
