#!/usr/bin/env python3
"""Makes a release from the proved build: an archive, a Debian package, and a wheel with the program inside.

usage: tools/release.py OUT [--program KPN] [--library FOLDER]

It proves and builds what lacks first. The text file beside them has their checksums, the commit, the kit and the logic,
and how to verify them. The tree has to be as committed. Of the same tree the same files come. With --program it packs
another build, and the version of all it makes ends with `+unproved`. Such a release has the library of --library, if
that is given. It needs `dpkg-deb` and `objdump`.
"""
from __future__ import annotations

import argparse
import gzip
import hashlib
import io
import os
import pathlib
import re
import shutil
import subprocess
import sys
import tarfile
import tempfile
from email.utils import formatdate

import clib
import install
import pages
import prover

TOP = pathlib.Path(__file__).resolve().parent.parent
sys.path.append(str(TOP / 'python'))

import wheel_builder  # noqa: E402

# What the program may take from the system so that the tag `manylinux` is right.
SYSTEM = {'libc.so.6', 'libm.so.6', 'libgcc_s.so.1', 'ld-linux-x86-64.so.2'}
ORIGIN = '''kpn {version} of Combrieks, {how}

commit   {commit}
kit      {kit}
logic    {logic}
glibc    {glibc} or later, on x86-64

{sums}

How to verify it
----------------

The sums above are of the files in bin/ and lib/. In a clone of Combrieks, with the Rattle kit of the version above:

    git checkout {commit}
    rt version                        # the kit and the logic
    rt ci                             # proves everything from nothing, tries the wrong bodies, and runs all tests
    tools/release.py OUT              # builds the program and the library, and tells their sums

docs/GUARANTEES.md says what is proved, and README.md what is trusted.

The licence
-----------

{unlicensed}The licences of what the program has from the kit are in share/doc/kpn/licences.
'''
PACKED = '''
How to install it
-----------------

Anywhere; then call {name}/bin/kpn, or put that folder on the PATH:

    tar xzf {archive}

As root, on Debian and Ubuntu:

    apt-get install ./{package}

The Python package, and the command kpn:

    pip install {wheel}

The files
---------

{sums}

In their folder, `sha256sum --check --ignore-missing {name}.txt` compares them.
'''
CONTROL = '''Package: kpn
Version: {version}
Architecture: amd64
Maintainer: {maintainer}
Installed-Size: {size}
Depends: libc6 (>= {glibc})
Section: math
Priority: optional
Description: Kahn process networks, run by proved code
 kpn runs networks of sequential processes, joined by channels that carry
 whole numbers. What flows through them depends only on the network and its
 input. With it come a library for C, examples and manual pages.
'''
CHANGELOG = '''kpn ({version}) unstable; urgency=low

  * Made from the commit {commit}.

 -- {maintainer}  {date}
'''
COPYRIGHT = install.UNLICENSED + '''
The package also has parts of crates of the Rattle kit. The file licences/README beside this one names these crates, and
licences/ has the texts of their licences.
Where such a text is the Apache License 2.0, it is also in /usr/share/common-licenses/Apache-2.0. These are the
notices in them:

{notices}
'''
# The program and the objects are those that the prover's compiler has made, and stay as they are.
OVERRIDES = '''kpn: unstripped-binary-or-object
kpn: unstripped-static-library
'''


class Origin:
    """What a release was made from."""

    def __init__(self, program: pathlib.Path, library: pathlib.Path | None, is_proved: bool) -> None:
        self.program, self.library, self.is_proved = program, library, is_proved
        self.version = pages.version_of(program) + ('' if is_proved else '+unproved')
        self.commit = git('rev-parse', 'HEAD')
        self.maintainer = git('log', '-1', '--format=%cn <%ce>')
        self.time = int(git('log', '-1', '--format=%ct'))
        self.kit, _, self.logic = (prover.find_kit() / 'KIT-ID').read_text().split()[:3]
        self.glibc = least_glibc([program, *([library / clib.SHARED] if library else [])])

    def text(self, tree: install.Tree) -> str:
        parts = {path: data for path, data in tree.files.items() if path.startswith(('bin/', 'lib/'))}
        how = 'whose program is proved' if self.is_proved else 'of which nothing is proved: it is made to be tried'
        return ORIGIN.format(**vars(self), how=how, sums=sums_of(parts), unlicensed=install.UNLICENSED)


def git(*words: str) -> str:
    return subprocess.run(['git', '-C', TOP, *words], check=True, capture_output=True, text=True).stdout.strip()


def sums_of(files: dict[str, bytes]) -> str:
    return '\n'.join(f'{hashlib.sha256(data).hexdigest()}  {path}' for path, data in sorted(files.items()))


def least_glibc(files: list[pathlib.Path]) -> str:
    """The earliest version of glibc that has all that programs and shared objects take from it."""
    versions: list[str] = []
    for file in files:
        told = subprocess.run(['objdump', '-p', file], check=True, capture_output=True, text=True).stdout
        others = set(re.findall(r'NEEDED +(\S+)', told)) - SYSTEM
        if others:
            sys.exit(f'{file} needs {", ".join(sorted(others))}: it is no release for other systems')
        versions += re.findall(r'GLIBC_(\d+\.\d+)', told)
    return max(versions, key=lambda it: [int(part) for part in it.split('.')])


def add_files(archive: tarfile.TarFile, tree: install.Tree, top: str, time: int) -> None:
    """All of a tree, with its folders, as of root and of one time."""
    folders = {str(it) for path in [*tree.files, *tree.links] for it in pathlib.PurePath(top, path).parents} - {'.'}
    for path in sorted([*folders, *(f'{top}/{it}' for it in [*tree.files, *tree.links])]):
        entry, inner = tarfile.TarInfo(path), path.removeprefix(f'{top}/')
        entry.mtime, data = time, tree.files.get(inner, b'')
        if path in folders:
            entry.type, entry.mode = tarfile.DIRTYPE, 0o755
        elif inner in tree.links:
            entry.type, entry.linkname, entry.mode = tarfile.SYMTYPE, tree.links[inner], 0o777
        else:
            entry.size, entry.mode = len(data), tree.mode(inner)
        archive.addfile(entry, io.BytesIO(data))


def make_archive(out: pathlib.Path, tree: install.Tree, name: str, time: int) -> pathlib.Path:
    made = out / f'{name}.tar.gz'
    with open(made, 'wb') as file, gzip.GzipFile('', 'wb', 9, file, time) as packed:
        with tarfile.open(fileobj=packed, mode='w', format=tarfile.PAX_FORMAT) as archive:
            add_files(archive, tree, name, time)
    return made


def notices_in(tree: install.Tree) -> str:
    texts = [(path.split('/')[-2], data.decode()) for path, data in tree.files.items() if '/licences/' in path]
    pattern = re.compile(r'^Copyright (?:\(c\)|©).*', re.M)
    return '\n'.join(f'{crate}: {it}' for crate, text in texts for it in pattern.findall(text))


def packed(text: str) -> bytes:
    return gzip.compress(text.encode(), 9, mtime=0)


def in_debian(tree: install.Tree, origin: Origin) -> install.Tree:
    """The tree as Debian wants it: with packed pages, a changelog, and what lintian asks for."""
    own = install.Tree()
    for path, data in tree.files.items():
        path = path.replace('share/zsh/site-functions', 'share/zsh/vendor-completions')
        is_page = path.startswith(pages.PAGES)
        own.files[f'{path}.gz' if is_page else path] = packed(data.decode()) if is_page else data
    own.links = dict(tree.links)
    told = {**vars(origin), 'date': formatdate(origin.time)}
    own.files[f'{install.DOCUMENTS}/changelog.gz'] = packed(CHANGELOG.format(**told))
    own.files[f'{install.DOCUMENTS}/copyright'] = COPYRIGHT.format(notices=notices_in(tree)).encode()
    own.files['share/lintian/overrides/kpn'] = OVERRIDES.encode()
    return own


def make_package(out: pathlib.Path, tree: install.Tree, origin: Origin) -> pathlib.Path:
    made, own = out / f'kpn_{origin.version}_amd64.deb', in_debian(tree, origin)
    size = sum(map(len, own.files.values())) // 1024 + 1
    control = {'control': CONTROL.format(**vars(origin), size=size)}
    if own.links:
        control.update(shlibs=f'libkpn 0 kpn (>= {origin.version})\n', triggers='activate-noawait ldconfig\n')
    sums = '\n'.join(f'{hashlib.md5(data).hexdigest()}  usr/{path}' for path, data in sorted(own.files.items()))
    with tempfile.TemporaryDirectory(prefix='kpn-package-') as name:
        room = pathlib.Path(name, 'kpn')
        own.write(room / 'usr')
        (room / 'DEBIAN').mkdir()
        for part, text in {**control, 'md5sums': f'{sums}\n'}.items():
            (room / 'DEBIAN' / part).write_text(text)
            (room / 'DEBIAN' / part).chmod(0o644)
        for path in [room, *room.rglob('*')]:
            if path.is_dir():
                path.chmod(0o755)
        words = ['dpkg-deb', '--root-owner-group', '-Zxz', '--build', room, made]
        subprocess.run(words, check=True, stdout=subprocess.DEVNULL,
                       env={**os.environ, 'SOURCE_DATE_EPOCH': str(origin.time)})
    return made


def make_wheel(out: pathlib.Path, tree: install.Tree, origin: Origin) -> pathlib.Path:
    version = pages.version_of(origin.program)
    if wheel_builder.VERSION != version:
        sys.exit(f'python/wheel_builder.py has the version {wheel_builder.VERSION}, and the program {version}: '
                 'put that of the program there')
    prefix = f'{install.DOCUMENTS}/licences/'
    more = {f'licenses/{path.removeprefix(prefix)}': data for path, data in tree.files.items()
            if path.startswith(prefix)}
    platform = f'manylinux_{origin.glibc.replace(".", "_")}_x86_64'
    return out / wheel_builder.build_with_program(out, tree.files['lib/kpn/kpn'], more, platform, origin.version)


def find_parts(asked: argparse.Namespace) -> Origin:
    """The program, and the folder of the library if there is one."""
    if asked.program:
        return Origin(asked.program.resolve(), asked.library, False)
    changed = git('status', '--porcelain')
    if changed:
        sys.exit(f'commit these files or put them aside first, so that the release is of a commit:\n{changed}')
    if subprocess.run([sys.executable, TOP / 'tools/build.py'], stdin=subprocess.DEVNULL).returncode:
        sys.exit('there is no release of what is not proved')
    library = TOP / 'out/c'
    if not clib.build(library):
        sys.exit('there is no release of what is not proved')
    return Origin(pages.PROVED, library, True)


def make_all(out: pathlib.Path, origin: Origin) -> list[pathlib.Path]:
    """Makes the files of a release in a folder."""
    name = f'kpn-{origin.version}-x86_64-linux'
    tree = install.tree_of(origin.program, origin.library, formatdate(origin.time)[5:16])
    text = origin.text(tree)
    tree.files[f'{install.DOCUMENTS}/RELEASE'] = text.encode()
    archive = make_archive(out, tree, name, origin.time)
    package, wheel = make_package(out, tree, origin), make_wheel(out, tree, origin)
    sums = sums_of({it.name: it.read_bytes() for it in (archive, package, wheel)})
    text += PACKED.format(archive=archive.name, package=package.name, wheel=wheel.name, name=name, sums=sums)
    (out / f'{name}.txt').write_text(text)
    return [archive, package, wheel, out / f'{name}.txt']


def main() -> None:
    parser = argparse.ArgumentParser(description=__doc__, formatter_class=argparse.RawDescriptionHelpFormatter)
    parser.add_argument('out', type=pathlib.Path)
    parser.add_argument('--program', type=pathlib.Path)
    parser.add_argument('--library', type=pathlib.Path)
    asked = parser.parse_args()
    for tool in ('dpkg-deb', 'objdump'):
        if not shutil.which(tool):
            sys.exit(f'there is no {tool}: install the packages dpkg and binutils')
    origin = find_parts(asked)
    asked.out.mkdir(parents=True, exist_ok=True)
    # All of it is there in the end, or nothing.
    with tempfile.TemporaryDirectory(prefix='.kpn-', dir=asked.out) as name:
        for file in make_all(pathlib.Path(name), origin):
            made = file.replace(asked.out / file.name)
            print(f'{made}: {made.stat().st_size:,} bytes')


if __name__ == '__main__':
    prover.end_with(main)
