#!/usr/bin/env python3
"""Writes the manual pages of `kpn`, and its completions for bash, zsh and fish, from what `kpn --help` says.

usage: tools/pages.py FOLDER [--program KPN]

The folder gets share/man/man1/kpn.1, a page `kpn-COMMAND.1` for each command, and the completions where the shells look
for them below a prefix. tools/install.py and tools/release.py take them from here. tools/tests/test_pages.py compares
them with the help.
"""
from __future__ import annotations

import argparse
import dataclasses
import pathlib
import re
import subprocess
import sys

import prover

TOP = pathlib.Path(__file__).resolve().parent.parent
PROVED = TOP / 'crates/kpn/out/kpn'
PAGES = 'share/man/man1'
# A line of help: a head such as `--source <NAME=FILE>` or `<FILE>`, two spaces or more, and its text.
ENTRY = re.compile(r' {2,}(\S.*?) {2,}(\S.*)')
OPTION = re.compile(r'(?:(-\w), )?(--[\w-]+)(?: <(.+)>)?')
# The words that a text offers, as in `Writes one table: channels or processes`. A word may have a number after it.
CHOICES = re.compile(r': ((?:[a-z]\w*(?::[A-Z])?, )*[a-z]\w* or [a-z]\w*)(?:;|$)')


@dataclasses.dataclass
class Entry:
    """An option, an argument or a command, and what its line says of it."""
    head: str
    text: str

    @property
    def flags(self) -> list[str]:
        """An option with each of its names."""
        return [it for it in OPTION.fullmatch(self.head).groups()[:2] if it]

    @property
    def value(self) -> str | None:
        """What stands after an option, or for an argument."""
        found = OPTION.fullmatch(self.head)
        return found[3] if found else self.head.strip('<>[].')

    @property
    def choices(self) -> list[str]:
        found = CHOICES.search(self.text)
        return [it for it in re.split(', | or ', found[1]) if ':' not in it] if found else []

    @property
    def is_file(self) -> bool:
        return bool(self.value) and self.value.split('=')[-1] in ('FILE', 'TRACE', 'OUT', 'IN')

    @property
    def may_repeat(self) -> bool:
        return 'may be repeated' in self.text


@dataclasses.dataclass
class Help:
    """What `kpn COMMAND --help` says; the program itself has no name, and commands."""
    name: str
    about: str
    usage: str
    entries: dict[str, list[Entry]]
    more: str

    @classmethod
    def parse(cls, name: str, text: str) -> Help:
        about, usage, *parts = text.rstrip('\n').split('\n\n')
        entries = {}
        while parts and re.match(r'(Commands|Arguments|Options):\n', parts[0]):
            title, *lines = parts.pop(0).split('\n')
            entries[title[:-1]] = [Entry(*ENTRY.fullmatch(line).groups()) for line in lines]
        return cls(name, about, usage.removeprefix('Usage: '), entries, '\n\n'.join(parts))

    def part(self, title: str) -> list[Entry]:
        return self.entries.get(title, [])

    def text(self) -> str:
        """The help that it was read from."""
        parts = [self.about, f'Usage: {self.usage}']
        for title, entries in self.entries.items():
            heads = [it.head if title != 'Options' or it.head[1] != '-' else f'    {it.head}' for it in entries]
            width = max(map(len, heads))
            lines = [f'  {head:{width}}  {it.text}' for head, it in zip(heads, entries)]
            parts.append('\n'.join([f'{title}:', *lines]))
        return '\n\n'.join([*parts, *([self.more] if self.more else [])]) + '\n'


def said(program: pathlib.Path, *words: str) -> str:
    return subprocess.run([program, *words], check=True, capture_output=True, text=True).stdout


def read_help(program: pathlib.Path) -> list[Help]:
    """The help of the program, and then that of each command."""
    top = Help.parse('', said(program, '--help'))
    return [top, *(Help.parse(it.head, said(program, 'help', it.head)) for it in top.part('Commands'))]


# ---- manual pages

def roff(text: str) -> str:
    """A text that a page shows as it is."""
    text = text.replace('\\', '\\e').replace('-', '\\-').replace("'", '\\(aq').replace('`', '\\(ga')
    return re.sub(r'^(?=[.\'])', r'\\&', text, flags=re.M)


def paragraphs(text: str) -> list[str]:
    """Each paragraph filled, but an indented one as it stands."""
    lines = []
    for part in text.split('\n\n'):
        lines += ['.nf', roff(part), '.fi'] if part.startswith(' ') else ['.PP', roff(part)]
    return lines


def section(title: str, lines: list[str]) -> list[str]:
    return [f'.SH {title}', *lines] if lines else []


def page(given: Help, others: list[str], version: str, date: str) -> str:
    """A manual page; the others are the commands that have one too."""
    name = f'kpn-{given.name}' if given.name else 'kpn'
    more, _, statuses = given.more.partition('Statuses: ')
    about = given.about[0].lower() + given.about[1:]
    lines = [f'.TH {name.upper()} 1 "{date}" "kpn {version}" "Combrieks"', '.SH NAME', f'{name} \\- {roff(about)}',
             '.SH SYNOPSIS', f'.B {roff(given.usage)}']
    lines += section('DESCRIPTION', paragraphs(more.strip()) if more.strip() else ['.PP', roff(given.about) + '.'])
    for title, entries in given.entries.items():
        lines += section(title.upper(), [it for entry in entries
                                         for it in ('.TP', f'.B {roff(entry.head)}', roff(entry.text))])
    lines += section('EXIT STATUS', ['.PP', roff(statuses)] if statuses else [])
    names = ['kpn', *(f'kpn-{it}' for it in others)]
    return '\n'.join([*lines, '.SH SEE ALSO', ',\n'.join(f'.BR {roff(it)} (1)' for it in names if it != name)]) + '\n'


# ---- completions. After `kpn` comes a command, then its options and files

def in_quotes(text: str) -> str:
    """A text as a word of a shell."""
    return "'" + text.replace("'", "'\\''") + "'"


BASH = '''# Completions of kpn for bash, made from its help.
_kpn() {{
    local word=${{COMP_WORDS[COMP_CWORD]}} before=${{COMP_WORDS[COMP_CWORD - 1]}} words=
    if [ "$COMP_CWORD" -eq 1 ]; then
        words={commands}
    else
        case "${{COMP_WORDS[1]}} $before" in
{values}
        *)
            case "${{COMP_WORDS[1]}} $word" in
{options}
            esac
        esac
    fi
    mapfile -t COMPREPLY < <(compgen -W "$words" -- "$word")
}}
# Where it offers no word, names of files are offered.
complete -o default -F _kpn kpn
'''


def for_bash(top: Help, commands: list[Help]) -> str:
    names = ' '.join(it.head for it in top.part('Commands'))
    values, options = [], []
    for it in commands:
        values += [f"        '{it.name} {flag}') words={in_quotes(' '.join(option.choices))} ;;"
                   for option in it.part('Options') if option.choices for flag in option.flags]
        flags = ' '.join(flag for option in it.part('Options') for flag in option.flags)
        options.append(f"            '{it.name} -'*) words={in_quotes(flags)} ;;")
        offered = ' '.join(word for argument in it.part('Arguments') for word in argument.choices)
        if it.name == 'help' or offered:
            options.append(f"            '{it.name} '*) words={in_quotes(offered or names)} ;;")
    flags = ' '.join(flag for option in top.part('Options') for flag in option.flags)
    return BASH.format(commands=in_quotes(f'{names} {flags}'), values='\n'.join(values), options='\n'.join(options))


ZSH = '''#compdef kpn
# Completions of kpn for zsh, made from its help.
_kpn_named() {{
    compset -P '*=' && _files
}}
_kpn() {{
    local command=$words[2]
    local -a commands=(
{commands}
    )
    if (( CURRENT == 2 )); then
        _describe command commands
        _arguments {options}
        return
    fi
    shift words
    (( CURRENT-- ))
    case $command in
{cases}
    esac
}}
_kpn "$@"
'''


def zsh_values(entry: Entry) -> str:
    """What zsh offers for a value."""
    if entry.choices:
        return f'({" ".join(entry.choices)})'
    return ('_kpn_named' if '=' in entry.value else '_files') if entry.is_file else ' '


def zsh_option(option: Entry) -> list[str]:
    text = re.sub(r'([\[\]:])', r'\\\1', option.text)
    behind = f':{option.value}:{zsh_values(option)}' if option.value else ''
    return [in_quotes(f'{"*" if option.may_repeat else ""}{flag}[{text}]{behind}') for flag in option.flags]


def for_zsh(top: Help, commands: list[Help]) -> str:
    rows = [in_quotes(f'{it.head}:{it.text}') for it in top.part('Commands')]
    cases = []
    for it in commands:
        words = [word for option in it.part('Options') for word in zsh_option(option)]
        words += [in_quotes(f'{"::" if argument.head[0] == "[" else ":"}{argument.value}:{zsh_values(argument)}')
                  for argument in it.part('Arguments')]
        cases.append(f'    {it.name}) _arguments {" ".join(words)} ;;' if it.name != 'help'
                     else '    help) _describe command commands ;;')
    options = ' '.join(word for option in top.part('Options') for word in zsh_option(option))
    return ZSH.format(commands='\n'.join(f'        {it}' for it in rows), cases='\n'.join(cases), options=options)


def for_fish(top: Help, commands: list[Help]) -> str:
    first, lines = '-n __fish_use_subcommand', ['# Completions of kpn for fish, made from its help.']
    lines += [f'complete -c kpn {first} -f -a {it.head} -d {in_quotes(it.text)}' for it in top.part('Commands')]
    lines += [f'complete -c kpn {first} -f {fish_option(it)}' for it in top.part('Options')]
    for it in commands:
        seen = f"-n '__fish_seen_subcommand_from {it.name}'"
        lines += [f'complete -c kpn {seen} {fish_option(option)}' for option in it.part('Options')]
        offered = [word for argument in it.part('Arguments') for word in argument.choices]
        if it.name == 'help':
            offered = [command.name for command in commands]
        lines += [f'complete -c kpn {seen} -f -a {in_quotes(" ".join(offered))}'] if offered else []
    return '\n'.join(lines) + '\n'


def fish_option(option: Entry) -> str:
    words = ''.join(f'-s {flag[1]} ' if len(flag) == 2 else f'-l {flag[2:]} ' for flag in option.flags)
    if option.value:
        words += '-r ' if option.is_file else '-x '
        words += f'-a {in_quotes(" ".join(option.choices))} ' if option.choices else ''
    return f'{words}-d {in_quotes(option.text)}'


def files(program: pathlib.Path, version: str, date: str) -> dict[str, str]:
    """The pages and completions by their paths below a prefix."""
    top, *commands = read_help(program)
    others = [it.name for it in commands if it.name != 'help']
    found = {f'{PAGES}/{"kpn-" if it.name else "kpn"}{it.name}.1': page(it, others, version, date)
             for it in [top, *commands] if it.name != 'help'}
    return {**found, 'share/bash-completion/completions/kpn': for_bash(top, commands),
            'share/zsh/site-functions/_kpn': for_zsh(top, commands),
            'share/fish/vendor_completions.d/kpn.fish': for_fish(top, commands)}


def version_of(program: pathlib.Path) -> str:
    told = said(program, '--version')
    if not re.fullmatch(r'kpn \d+(\.\d+)*\n', told):
        sys.exit(f'{program} is not the program kpn')
    return told.split()[1]


def main() -> None:
    parser = argparse.ArgumentParser(description=__doc__, formatter_class=argparse.RawDescriptionHelpFormatter)
    parser.add_argument('folder', type=pathlib.Path)
    parser.add_argument('--program', default=PROVED, type=pathlib.Path)
    asked = parser.parse_args()
    for path, text in files(asked.program, version_of(asked.program), '').items():
        file = asked.folder / path
        file.parent.mkdir(parents=True, exist_ok=True)
        file.write_text(text)


if __name__ == '__main__':
    prover.end_with(main)
