# One file as tokens: where an expression, a header or a body begins and ends, and the text with what is inserted around the tokens.
# Called: imported by tests/reach/plant.py; it does nothing when run.
# Reads: nothing; it gets a file's text. It stops at a form that it does not know, with the file and the line number.
from rattle import PAIRS, Unknown, partners_of, text_of, tokens_of

# Operators with a branch of their own, an operand that may not be evaluated.
BRANCHING = {'&&', '||'}
COMPARING = {'==', '!=', '<', '>', '<=', '>='}
# Keywords that an expression may follow.
LEADING = {'return', 'match', 'in', 'if', 'while', 'else', 'break', 'move'}
WORDS = LEADING | {'as', 'let', 'mut'}
# What an expression begins behind, besides the bar that ends the parameters of a closure.
BEGINNING = {'(', '{', '[', ';', ',', '=', '=>', ':'} | LEADING


class Layout:
    """A file's tokens, and what is inserted: text in place of a token, text behind it, and a pair of texts around some of them."""

    def __init__(self, path, text):
        self.path = path
        self.tokens = tokens_of(f'crates/{path}', text)
        self.partners = partners_of(f'crates/{path}', self.tokens)
        self.openings = {end: begin for begin, end in self.partners.items()}
        self.bars = set()  # the bars that end the parameters of a closure
        self.instead, self.behind, self.around = {}, {}, []

    def stop(self, at, what):
        raise Unknown(f'crates/{self.path}', self.tokens[min(at, len(self.tokens) - 1)].line, what)

    def is_mark(self, at, *texts):
        return 0 <= at < len(self.tokens) and self.tokens[at].kind != 'string' and self.tokens[at].text in texts

    def arguments_of(self, at):
        """The index of the bracket with the arguments of a method that is called by the name here; 0 if none is."""
        if not self.is_mark(at - 1, '.'):
            return 0
        at += 1
        if self.is_mark(at, '::'):  # type arguments
            while not self.is_mark(at, '(', ';'):
                at += 1
        return at if self.is_mark(at, '(') else 0

    def text(self, begin, end):
        return text_of(self.tokens[begin:end])

    # ---- places in the text

    def past(self, at):
        """The index after a token, or after the whole bracket that it opens."""
        return self.partners.get(at, at) + 1

    def find(self, at, end, *texts):
        """The index of the first of these marks that is not inside a bracket, or the end."""
        while at < end and not self.is_mark(at, *texts):
            at = self.past(at)
        return min(at, end)

    def next_open(self, at, wanted='{'):
        """The index of the next such bracket that is not inside another."""
        while not self.is_mark(at, wanted):
            if at >= len(self.tokens) or self.is_mark(at, ';', '}'):
                self.stop(at, f'a `{wanted}` is missing')
            at = self.past(at)
        return at

    def body_of(self, at):
        """The index of the `{` of the body of an `if` or a `while`; the pattern of a `let` may have braces."""
        return self.next_open(self.find(at, len(self.tokens), '=') if self.is_mark(at + 1, 'let') else at + 1)

    def chain_end(self, at):
        """The index after an `if` with every `else` that belongs to it."""
        end = self.past(self.body_of(at))
        while self.is_mark(end, 'else'):
            end = self.past(self.body_of(end + 1) if self.is_mark(end + 1, 'if') else end + 1)
        return end

    def is_operand_next(self, at):
        """Whether an operand, not an operator, stands at this index."""
        return at - 1 in self.bars or self.is_mark(at - 1, '<', '->', '&', *BEGINNING, *BRANCHING)

    def begin_of(self, at):
        """The index where the expression begins that has the operator at this index."""
        while at > 0 and at - 1 not in self.bars and not self.is_mark(at - 1, *BEGINNING):
            if self.is_mark(at - 1, '}') and not self.is_mark(at, '.', '?', '==', '!=', *BRANCHING):
                break
            at = self.openings.get(at - 1, at - 1)
        return at

    def end_of(self, at):
        """The index where the expression ends."""
        return self.find(at, len(self.tokens), ')', '}', ']', ';', ',')

    def receiver_of(self, at):
        """The index where the operand of the `?` or `.` at this index begins: a name, a literal or a bracket, with its calls and fields."""
        begin = at
        while begin > 0 and self.is_joined(begin - 1, begin, at):
            begin = self.openings.get(begin - 1, begin - 1)
        return begin if begin < at else self.stop(at, 'an operand that is missing')

    def is_joined(self, last, begin, at):
        """Whether a token belongs to the operand that begins behind it and ends before `at`."""
        if self.is_mark(last, '!'):
            return self.is_mark(begin, *PAIRS) and self.tokens[last - 1].kind == 'name' and not self.is_mark(last - 1, *WORDS)
        if self.is_mark(last, '.', '::', '?') or (begin < at and not self.is_mark(begin, '.', '::', '?', '!', *PAIRS)):
            return self.is_mark(last, '.', '::', '?')
        if self.is_mark(last, '}', '>') and self.tokens[begin].gap == '':
            self.stop(at, 'an operand that ends with a block or with type arguments')
        return self.is_mark(last, ')', ']') or (self.tokens[last].kind in ('name', 'number', 'string') and not self.is_mark(last, *WORDS))

    # ---- what is inserted

    def replace(self, at, text):
        self.instead[at] = text

    def drop(self, begin, end):
        for at in range(begin, end):
            self.instead[at] = ''

    def add_behind(self, at, text):
        self.behind[at] = self.behind.get(at, '') + text

    def surround(self, begin, end, opener, closer):
        """Around the tokens from `begin` to before `end`; of two pairs around the same tokens the first is the outer one."""
        self.around.append((begin, end, opener, closer))

    def rendered(self):
        """The text with all that is inserted."""
        openers, closers = {}, {}
        for order, (begin, end, opener, closer) in enumerate(self.around):
            openers.setdefault(begin, []).append((-end, order, opener))
            closers.setdefault(end, []).append((-begin, -order, closer))
        pieces = []
        for at, token in enumerate(self.tokens):
            closed, opened = (''.join(piece for *_, piece in sorted(found.get(at, []))) for found in (closers, openers))
            pieces += [closed, token.gap, opened, self.instead.get(at, token.text), self.behind.get(at, '')]
        return ''.join(pieces) + '\n'
