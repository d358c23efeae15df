"""A Pygments lexer for the networks of `kpn`: pygmentize -x -l editors/kpn_lexer.py:KpnLexer FILE"""
import re

from pygments.lexer import RegexLexer, bygroups, words
from pygments.token import Comment, Error, Keyword, Name, Number, Operator, Punctuation, Whitespace

DECLARATIONS = ('process', 'network', 'channel', 'source', 'sink')
SETTINGS = ('in', 'out', 'par', 'limit', 'cap', 'policy', 'grow')
STATEMENTS = ('read', 'write', 'if', 'else', 'while')


class KpnLexer(RegexLexer):
    name = 'Kahn process network'
    aliases = ['kpn']
    filenames = ['*.kpn']
    flags = re.ASCII
    tokens = {
        'root': [
            (r'[ \t\r\n]+', Whitespace),
            (r'#[^\n]*', Comment.Single),
            (r'(process)([ \t]+)([A-Za-z_]\w{0,31})\b', bygroups(Keyword.Declaration, Whitespace, Name.Function)),
            (words(DECLARATIONS, suffix=r'\b'), Keyword.Declaration),
            (r'language(?=[ \t]+0*2[ \t]*;)', Keyword.Declaration),
            (r'array(?=[ \t]+[A-Za-z_]\w*[ \t]*\[)|(?:table|const)(?=[ \t]+[A-Za-z_]\w*[ \t]*=)', Keyword.Declaration),
            (r'(policy|grow)([ \t]+)(cycles|all|one|double)\b', bygroups(Keyword, Whitespace, Keyword.Constant)),
            (words(SETTINGS, suffix=r'\b'), Keyword),
            (r'for(?=[ \t]+[A-Za-z_]\w*[ \t]+in\b)', Keyword.Reserved),
            (words(STATEMENTS, suffix=r'\b'), Keyword.Reserved),
            (r'(?:min|max)(?=[ \t]*\()', Name.Function),
            (r'[A-Za-z_]\w{32,}', Error),
            (r'[A-Za-z_]\w*', Name),
            (r'\d{20,}', Error),
            (r"0x[0-9A-Fa-f_]+|0b[01_]+|\d+(?:_\d+)*|'(?:[ -&(-\[\]-~]|\\[n\\'0])'", Number.Integer),
            (r'\.\.|<=|>=|==|!=|&&|\|\||<<|>>|[-+*/%<>!=~&|^?:]', Operator),
            (r'[(){}\[\];,]', Punctuation),
            (r'.', Error),
        ],
    }
