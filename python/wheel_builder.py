"""Builds the wheel of the package by the standard library alone, so that `pip install ./python` needs no network.
tools/release.py builds one here that has the program inside.
"""
import base64
import hashlib
import pathlib
import zipfile

HERE = pathlib.Path(__file__).resolve().parent
# The version is that of the program.
NAME, VERSION = 'kpn', '0.1.0'
METADATA = '''Metadata-Version: 2.1
Name: kpn
Version: {version}
Summary: Kahn process networks, built in Python and run by the program kpn of Combrieks
License: not chosen yet
Requires-Python: >=3.9
Description-Content-Type: text/markdown

'''
SUFFIXES = ('.py', '.c', '.h', '.js', '.css', '.html')
ANY = 'py3-none-any'
WHEEL = 'Wheel-Version: 1.0\nGenerator: wheel_builder\nRoot-Is-Purelib: {pure}\nTag: {tag}\n'
# The program in a wheel, and the command that calls it.
INSIDE = f'{NAME}/bin/kpn'
COMMAND = '[console_scripts]\nkpn = kpn.program:main\n'


def write(folder, files, more=(), tag=ANY, version=VERSION):
    """Writes a wheel of these files and of more ones for its information into a folder, and gives its name."""
    info, wheel = f'{NAME}-{version}.dist-info', WHEEL.format(pure='true' if tag == ANY else 'false', tag=tag)
    metadata = METADATA.format(version=version).encode() + (HERE / 'README.md').read_bytes()
    own = {'METADATA': metadata, 'WHEEL': wheel.encode(), **dict(more)}
    files = {**files, **{f'{info}/{path}': data for path, data in own.items()}}
    record = ''
    for name, data in files.items():
        digest = base64.urlsafe_b64encode(hashlib.sha256(data).digest()).rstrip(b'=').decode()
        record += f'{name},sha256={digest},{len(data)}\n'
    files[f'{info}/RECORD'] = f'{record}{info}/RECORD,,\n'.encode()
    name = f'{NAME}-{version}-{tag}.whl'
    with zipfile.ZipFile(pathlib.Path(folder, name), 'w', zipfile.ZIP_DEFLATED) as wheel:
        for path, data in files.items():
            entry = zipfile.ZipInfo(path)
            entry.external_attr = (0o100755 if path == INSIDE else 0o100644) << 16
            wheel.writestr(entry, data, zipfile.ZIP_DEFLATED)
    return name


def package():
    """The files of the package by their paths."""
    files = [it for it in sorted((HERE / NAME).rglob('*')) if it.suffix in SUFFIXES or it.name == 'py.typed']
    found = {it.relative_to(HERE).as_posix(): it.read_bytes() for it in files}
    for header in ('kpn.h', 'kpn_native.h'):
        found[f'{NAME}/native/runtime/{header}'] = (HERE.parent / 'include' / header).read_bytes()
    return found


def build_wheel(wheel_directory, config_settings=None, metadata_directory=None):
    """Builds a wheel with the files of the package."""
    return write(wheel_directory, package())


def build_with_program(wheel_directory, program, licences, platform, version):
    """Builds a wheel with the package, the program and a command that calls it, for systems of one platform."""
    more = {**licences, 'entry_points.txt': COMMAND.encode()}
    return write(wheel_directory, {**package(), INSIDE: program}, more, f'py3-none-{platform}', version)


def build_editable(wheel_directory, config_settings=None, metadata_directory=None):
    """Builds a wheel that leads to this folder, for `pip install -e ./python`."""
    return write(wheel_directory, {f'{NAME}.pth': f'{HERE}\n'.encode()})
