# Splits Rattle code into tokens, without what only proofs use: contracts, all that is `ghost`, `prove!`, attributes of proofs and comments.
# Called: imported by tests/reach/plant.py; it does nothing when run.
# Reads: nothing; it gets a text. It stops at anything that it does not know, with the file and the line number.
import re
from dataclasses import dataclass

TOKEN = re.compile(r'''(?P<gap>\s+|//[^\n]*)
    |(?P<string>b?"(?:\\.|[^"\\])*"|b?'(?:\\.|[^'\\])')
    |(?P<lifetime>'[A-Za-z_]\w*)
    |(?P<number>\d\w*)
    |(?P<name>[A-Za-z_]\w*)
    |(?P<mark>=>|->|::|\.\.=|\.\.|==|!=|<=|>=|<<|>>|[-+*/%]=|&&|\|\||[-+*/%&|^!<>=(){}\[\],;:.\#?@])''', re.X | re.A)
CONTRACT = re.compile(r'(?:requires|ensures)\*?\s*(?:\w+\s*)?\{')
GHOST_USE = re.compile(r'ghost\s+use\s[^;]*;')
GHOST_MEMBER = re.compile(r'ghost\s+\w+\s*[:=]\s*\{')
GHOST_VALUE = re.compile(r'\s*=\s*\{')
GHOST_LAST = re.compile(r'\s*[;,]')
PROVED = re.compile(r'prove(?:_eq|_ne)?!\s*\(')
PROVING = re.compile(r'#!?\[\s*(?:tactic|cycle)\b')
PAIRS = {'(': ')', '[': ']', '{': '}'}


class Unknown(Exception):
    """A form of the language that this check does not handle."""

    def __init__(self, path, line, what):
        super().__init__(f'{path}:{line}: {what}')


@dataclass
class Token:
    kind: str
    text: str
    line: int
    gap: str  # the white space before it


def closing_end(path, text, at, opening='{'):
    """The index after the bracket that closes the one before this index."""
    depth = 1
    for mark in re.finditer(f'[{re.escape(opening + PAIRS[opening])}]', text[at:]):
        depth += 1 if mark[0] == opening else -1
        if depth == 0:
            return at + mark.end()
    raise Unknown(path, text.count('\n', 0, at) + 1, f'a `{opening}` that nothing closes')


def ghost_end(path, text, at, name):
    """The index after a contract, a `ghost use`, or a ghost field or member, that begins here."""
    if name == 'ghost' and (member := GHOST_MEMBER.match(text, at)):
        end = closing_end(path, text, member.end())
        if value := GHOST_VALUE.match(text, end):
            end = closing_end(path, text, value.end())
        last = GHOST_LAST.match(text, end)
        return last.end() if last else end
    pattern = GHOST_USE if name == 'ghost' else CONTRACT
    found = pattern.match(text, at)
    if not found:
        raise Unknown(path, text.count('\n', 0, at) + 1, f'`{name}` in a form that is not known')
    return found.end() if name == 'ghost' else closing_end(path, text, found.end())


def tokens_of(path, text):
    """The tokens of a file; line breaks are kept, so that line numbers do not change."""
    tokens, at, line, gap = [], 0, 1, ''
    while at < len(text):
        found = TOKEN.match(text, at)
        if not found:
            raise Unknown(path, line, f'a sign that is not known: {text[at]!r}')
        kind, piece, end = found.lastgroup, found[0], found.end()
        if kind == 'name' and piece in ('ghost', 'requires', 'ensures'):
            kind, end = 'gap', ghost_end(path, text, at, piece)
            if tokens and tokens[-1].text == 'pub':
                gap = tokens.pop().gap + gap
        elif proved := PROVED.match(text, at):
            kind, end = 'gap', closing_end(path, text, proved.end(), '(')
            end += text[end:end + 1] == ';'
        elif proving := PROVING.match(text, at):
            kind, end = 'gap', closing_end(path, text, proving[0].index('[') + at + 1, '[')
        lines = text.count('\n', at, end)
        if kind == 'gap':
            gap += piece if piece.isspace() else '\n' * lines
        else:
            tokens.append(Token(kind, piece, line, gap))
            gap = ''
        at, line = end, line + lines
    return tokens


def partners_of(path, tokens):
    """For each opening bracket the index of the one that closes it."""
    partners, open_ones = {}, []
    for at, token in enumerate(tokens):
        if token.kind == 'mark' and token.text in PAIRS:
            open_ones.append(at)
        elif token.kind == 'mark' and token.text in PAIRS.values():
            if not open_ones or PAIRS[tokens[open_ones[-1]].text] != token.text:
                raise Unknown(path, token.line, f'a `{token.text}` that closes nothing')
            partners[open_ones.pop()] = at
    if open_ones:
        raise Unknown(path, tokens[open_ones[-1]].line, 'a bracket that nothing closes')
    return partners


def text_of(tokens):
    """A text on one line, without `: `, which separates the parts of an exception."""
    joined = ''.join((' ' if token.gap else '') + token.text for token in tokens)
    return joined.strip().replace(': ', ':')
