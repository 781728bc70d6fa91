# Inserts a counter at every place that the tests must reach, and translates the text to Rust. These are the places:
# - each function, and the body of each closure;
# - each of the two outcomes of a condition, of each operand of an `&&` or `||` anywhere, of a guard, of what `then` and `then_some` stand
#   on, of a closure or function that decides for a method (DECIDING: `filter`, `all` ..), and of a comparison that becomes a number;
# - each arm of a `match`; of a pattern with `|` each alternative, also inside of brackets, and of a range each of its ends; the same for
#   the pattern of `matches!`, and that it does not fit;
# - of `if let`, `while let` and `let .. else`, that the pattern fits, and that it does not;
# - of each `for`, and of each method that asks an iterator for what it has (DRAINING: `fold`, `all`, `count` ..), a turn, and the end;
# - of each `?`, and of each method of an Option or Result with a way for None or Err (CHOOSING: `unwrap_or`, `map`, `and_then` ..), that
#   there is a value, and that there is none;
# - of each `min`, `max`, `saturating_sub` and `unsigned_abs`, which of two values it gives.
# The error of a `?` in a function that returns an io::Result has no counter: it is a failed read or write. No place either: what other
# methods of the library do inside, an operator that only compares, an index, and a `break`.
# Called: imported by tests/reach/workspace.py; it does nothing when run.
# Reads: nothing; it gets a file's text. It stops at a form that it does not know, with the file and the line number.
from dataclasses import dataclass

from layout import BRANCHING, COMPARING, Layout

# Every keyword of Rust that begins a form; only those known here may occur.
RUST = set('''as async await break const continue crate dyn else enum extern fn for if impl in let loop macro_rules match mod move mut pub
    ref return self static struct super trait type union unsafe use where while yield'''.split())
KNOWN = set('''as break const continue crate dyn else enum extern fn for if impl in let loop match mod move mut pub ref return self struct
    super trait type use where while'''.split())
# Macros that take the handle of the program, as `println!(rt; "..")`; the stand-in of std has them, too.
PRINTING = {'print', 'println', 'eprint', 'eprintln'}
# Methods with a closure, or a function, whose outcome decides what they do.
DECIDING = set('''all any filter find is_none_or is_some_and position rposition skip_while take_while'''.split())
# Methods of an iterator that ask it for what it has, to the end or to an element that decides.
DRAINING = set('''all any collect count find find_map fold for_each last max_by_key min_by_key partition position product reduce rposition
    sum unzip'''.split())
# Methods of an Option or Result with a way of its own for None or Err.
CHOOSING = set('''and and_then filter is_none_or is_some_and map map_err map_or map_or_else ok_or ok_or_else or or_else unwrap_or
    unwrap_or_default unwrap_or_else'''.split())
# Methods that an iterator has as well as an Option, and others that give an iterator.
SHARED = set('cloned copied filter flat_map flatten inspect map take zip'.split())
ITERATING = set('chars chunks chunks_exact enumerate into_iter iter iter_mut rev skip skip_while step_by take_while windows'.split())
# Methods that give one of two values; the stand-in has those with counters.
PICKING = {'min': ('the operand before it', 'the other'), 'max': ('the operand before it', 'the other'),
           'saturating_sub': ('a difference', 'zero in place of one'), 'unsigned_abs': ('the number', 'its negation')}
# Methods with ways of their own that have no counters here yet.
UNKNOWN = set('''clamp contains ends_with max_by min_by retain saturating_add saturating_mul saturating_pow sort_by starts_with try_fold
    try_for_each'''.split())
NUMBERS = {'u8', 'u16', 'u32', 'u64', 'u128', 'usize', 'i8', 'i16', 'i32', 'i64', 'i128', 'isize'}


@dataclass(frozen=True)
class Place:
    path: str  # from crates/ on
    line: int
    function: str
    text: str

    def name(self):
        return f'{self.path}: {self.function}: {self.text}'

    def __str__(self):
        return f'crates/{self.path}:{self.line}: {self.function}: {self.text}'


def is_kept(at, first, after, left, right):
    """Whether a token stays where of the tokens from `first` to before `after` only those from `left` to before `right` do."""
    return at < first or left <= at < right or after <= at


class Planter(Layout):
    """One file with its counters."""

    def __init__(self, path, text, first, is_exported):
        super().__init__(path, text)
        self.first, self.is_exported = first, is_exported
        self.places, self.names = [], {}
        self.bodies = []  # (name, index of `{`, index of `}`, whether an error may be that of a read or write) of each function
        self.closures = []  # (begin, end) of each closure
        self.before_else = set()  # where an `else` may follow
        self.known = set()  # operators, `if` of a guard, `let` of an `if let` and `for` of an impl that need no more counters

    # ---- places

    def function_at(self, at):
        inside = [body for body in self.bodies if body[1] <= at < body[2]]
        return inside[-1] if inside else self.stop(at, 'a branch outside any function')

    def new_place(self, at, text):
        """The number of a new place; a text that occurs again in the function gets a count."""
        function = self.function_at(at)[0]
        times = self.names[function, text] = self.names.get((function, text), 0) + 1
        self.places.append(Place(self.path, self.tokens[at].line, function, text if times == 1 else f'{text} #{times}'))
        return self.first + len(self.places) - 1

    def new_places(self, at, text, *ways):
        return tuple(self.new_place(at, f'{text}, {way}') for way in ways)

    def hit(self, at, text):
        return f' reach::hit({self.new_place(at, text)});'

    # ---- functions

    def plant_function(self, at):
        name = self.tokens[at + 1].text
        body = self.find(at, len(self.tokens), '{', ';')
        if self.is_mark(at + 1, '(') or not self.is_mark(body, '{'):  # a type, or a function of a trait without a body
            return
        returned = self.text(self.past(self.find(at, body, '(')), body)
        self.bodies.append((name, body, self.partners[body], 'io::Result' in returned or 'io::Error' in returned))
        self.add_behind(body, self.hit(body, 'start'))
        if name == 'main' and self.partners[at + 2] > at + 3:
            self.make_handle(at + 3, self.partners[at + 2], body)
        if self.is_mark(at - 2, 'extern') and self.tokens[at - 1].text == '"C"':
            if self.is_exported:
                self.lend_slices(at, body)
            else:
                self.drop(at - 2, at)

    def make_handle(self, begin, end, body):
        """The parameter of main, the handle of the program, becomes a variable."""
        words = [token.text for token in self.tokens[begin:end]]
        if words[1:] != [':', 'HostRuntime']:
            self.stop(begin, 'a parameter of main that is not known')
        self.drop(begin, end)
        self.add_behind(body, f' let {words[0]} = reach::rt::host();')

    def lend_slices(self, at, body):
        """A slice parameter of an exported function becomes a pointer and a length, as in C."""
        begin = self.next_open(at, '(')
        end = self.partners[begin]
        if any(self.is_mark(i, '&') for i in range(end, body)):
            self.stop(at, 'an exported function that gives back a slice or a reference')
        while begin < end:
            comma = self.find(begin + 1, end, ',')
            self.lend_slice(begin + 1, comma, body)
            begin = comma

    def lend_slice(self, name, end, body):
        words = [token.text for token in self.tokens[name + 1:end]]
        if '[' not in words:
            return
        mut = words[2:3] == ['mut']
        if words[:2] != [':', '&'] or words[2 + mut] != '[' or words[4 + mut:] != [']']:
            self.stop(name, 'an exported function with a parameter in a form that is not known')
        text, element = self.tokens[name].text, words[3 + mut]
        self.replace(name, f'{text}_at: *{"mut" if mut else "const"} {element}, {text}_many: usize')
        self.drop(name + 1, end)
        self.add_behind(body, f' let {text} = reach::lent{"_mut" if mut else ""}({text}_at, {text}_many);')

    def plant_closure(self, at):
        """A counter in the body, and for one that decides for both of its outcomes."""
        bar = at if self.is_mark(at, '||') else self.find(at + 1, len(self.tokens), '|')
        self.known.update((at, bar))
        self.bars.add(bar)
        begin = bar + 1
        if self.is_mark(begin, '->'):
            begin = self.next_open(begin)
        end = self.past(begin) if self.is_mark(begin, '{') else self.end_of(begin)
        self.closures.append((begin, end))
        self.surround(begin, end, f' {{{self.hit(at, f"closure {self.text(at, end)}")}', ' }')
        if self.is_mark(at - 1, '(') and self.is_mark(at - 2, *DECIDING) and self.is_mark(at - 3, '.'):
            self.plant_parts(begin, end, f'{self.tokens[at - 2].text} {self.text(at, begin)} ')

    # ---- conditions

    def plant_outcomes(self, begin, end, text):
        """A counter for each of the two outcomes of a condition."""
        yes, no = self.new_places(begin, text, 'true', 'false')
        self.surround(begin, end, ' reach::either(', f', {yes}, {no})')

    def plant_parts(self, begin, end, word=''):
        """Counters for each part of a condition between `&&` and `||`."""
        while begin <= end:
            here = self.find(begin, end, *BRANCHING)
            while here < end and self.is_operand_next(here):  # a reference to a reference, or a closure without parameters
                here = self.find(here + 1, end, *BRANCHING)
            self.plant_outcomes(begin, here, f'{word}{self.text(begin, here)}')
            self.known.add(here)
            begin = here + 1

    def plant_condition(self, at):
        """if and while: counters for each part of the condition."""
        if at in self.known:
            return
        if self.is_mark(at + 1, 'let'):
            self.plant_pattern(at)
            return
        body = self.body_of(at)
        self.plant_parts(at + 1, body, f'{self.tokens[at].text} ')
        if self.is_mark(at, 'if'):
            self.before_else.add(self.partners[body])

    def plant_operator(self, at):
        """Counters for each operand of an `&&` or `||` that is no condition of an `if`; either may be no operator."""
        if self.is_operand_next(at):
            if self.is_mark(at, '||'):
                self.plant_closure(at)
            return
        begin = self.begin_of(at)
        self.plant_parts(begin, self.next_open(begin) if self.is_mark(begin - 1, 'match', 'in') else self.end_of(begin))

    def plant_number(self, begin, end):
        """The outcomes of a comparison that becomes a number; one with `&&` or `||` has counters for its operands."""
        if self.find(begin, end, *BRANCHING) == end and (self.is_mark(begin, '!') or self.find(begin, end, *COMPARING) < end):
            self.plant_outcomes(begin, end, f'number of {self.text(begin, end)}')

    # ---- patterns

    def plant_pattern(self, at):
        """if let and while let: a counter where the pattern fits, and one where it does not."""
        self.known.add(at + 1)
        body = self.body_of(at)
        if self.find(at + 2, body, *BRANCHING) < body:
            self.stop(at, 'a `let` with `&&` or `||`')
        text = f'{self.tokens[at].text} {self.text(at + 1, body)}'
        self.add_behind(body, self.ways(at + 2, self.find(at + 2, body, '='), f'{text}, fits'))
        end = self.partners[body]
        if self.is_mark(at, 'while'):
            self.replace(at, 'loop { if')
            self.add_behind(end, f' else {{{self.hit(at, f"{text}, else")} break; }} }}')
        elif not self.is_mark(end + 1, 'else'):
            self.add_behind(end, f' else {{{self.hit(at, f"{text}, else")} }}')
        else:
            self.before_else.add(end)
            other = self.hit(at, f'{text}, else')
            if self.is_mark(end + 2, 'if'):
                self.surround(end + 2, self.chain_end(end + 2), f' {{{other}', ' }')
            else:
                self.add_behind(end + 2, other)

    def plant_let(self, at):
        """let .. else: a counter where the pattern fits, and one where it does not."""
        if at in self.known:
            return
        end = self.find(at, len(self.tokens), ';', 'else')
        while self.is_mark(end, 'else') and self.is_mark(end - 1, '}'):  # that of an `if`
            end = self.find(end + 1, len(self.tokens), ';', 'else')
        if not self.is_mark(end, 'else'):
            return
        text = f'let {self.text(at + 1, end)}'
        body = self.next_open(end)
        self.add_behind(self.partners[body] + 1, self.ways(at + 1, self.find(at, end, '='), f'{text}, fits'))
        self.add_behind(body, self.hit(at, f'{text}, else'))
        self.before_else.add(end - 1)

    def plant_match(self, at):
        body = self.next_open(at + 1)
        over = self.text(at + 1, body)
        arm, end = body + 1, self.partners[body]
        while arm < end:
            arm = self.plant_arm(arm, end, over)

    def plant_arm(self, begin, end, over):
        """One arm; returns the index where the next begins."""
        arrow = self.find(begin, end, '=>')
        guard = self.find(begin, arrow, 'if')
        if arrow == end:
            self.stop(begin, 'an arm in a form that is not known')
        name = f'match {over}, {self.text(begin, arrow)}'
        counters = self.ways(begin, guard, name, guard == arrow)
        if guard < arrow:
            self.known.add(guard)
            self.plant_guard(guard + 1, arrow, name)
        if self.is_mark(arrow + 1, '{'):
            self.add_behind(arrow + 1, counters)
            after = self.past(arrow + 1)
            return after + self.is_mark(after, ',')
        after = self.find(arrow + 1, end, ',')
        if self.find(arrow + 1, after, '=>') < after:
            self.stop(begin, 'an arm that no comma ends')
        self.surround(arrow + 1, after, f' {{{counters}', ' }')
        return after + 1

    def plant_guard(self, begin, end, name):
        if self.find(begin, end, *BRANCHING) < end:
            self.plant_parts(begin, end, f'{name}, if ')
        else:
            self.plant_outcomes(begin, end, name)

    def plant_matches(self, at):
        """matches!: a counter for each alternative, and one where none fits; a `match` in Rust."""
        begin, end = at + 3, self.partners[at + 2]
        comma = self.find(begin, end, ',')
        last = end - self.is_mark(end - 1, ',')
        guard = self.find(comma, last, 'if')
        name = f'matches {self.text(begin, comma)}'
        self.replace(at, '(match')
        self.replace(at + 1, '')
        self.replace(comma, ') {')
        self.drop(last, end)
        counters = self.ways(comma + 1, guard, f'{name}, {self.text(comma + 1, last)}')
        if guard < last:
            self.known.add(guard)
            self.plant_guard(guard + 1, last, f'{name}, {self.text(comma + 1, last)}')
        self.replace(end, f' => {{{counters} true }} _ => {{{self.hit(at, f"{name}, none")} false }} }})')

    def ways(self, begin, end, name, is_alone=True):
        """The counters where a pattern fits: one, or one for each alternative and for each end of a range; none if a guard has them."""
        alternatives = [*self.alternatives(begin, end)]
        found = [*alternatives, *self.range_ends(begin, end)]
        if not found:
            return self.hit(begin, name) if is_alone else ''
        self.surround(begin, end, ' ref reach_value @ (', ')')
        counters = []
        for one in found:
            around = [other for other in alternatives if other[2] <= one[0] and one[1] <= other[3]]
            fits = ' '.join(self.tokens[i].text for i in range(begin, end) if all(is_kept(i, *other) for other in (one, *around)))
            counters.append(f' if matches!(reach_value, {fits}) {{{self.hit(begin, f"{name}, {self.text(*one[2:])}")} }}')
        return ''.join(counters)

    def alternatives(self, begin, end):
        """(begin of all, end of all, begin of one, end of it) for each alternative of a pattern, also inside of its brackets."""
        first, here, bars = begin, begin, []
        while here <= end:
            if here == end or self.is_mark(here, ',', ':', '@'):
                cuts = [first - 1, *bars, here] if bars else []
                yield from ((first, here, left + 1, right) for left, right in zip(cuts, cuts[1:]))
                first, bars = here + 1, []
            elif self.is_mark(here, '|'):
                bars.append(here)
            if here in self.partners and here < end:
                yield from self.alternatives(here + 1, self.partners[here])
            here = self.past(here)

    def range_ends(self, begin, end):
        """The same for each end of each range."""
        for at in range(begin, end):
            if not self.is_mark(at, '..', '..='):
                continue
            left, right = (self.is_end(i) for i in (at - 1, at + 1))
            if self.is_mark(at, '..') and right or self.is_mark(at - 2, '-') or self.is_mark(at + 1, '-'):
                self.stop(at, 'a range in a form that is not known')
            first, after = at - left, at + 1 + right
            if left:
                yield first, after, first, at
            if right:
                yield first, after, at + 1, after

    def is_end(self, at):
        """Whether a token ends a range: a literal or a constant."""
        token = self.tokens[at]
        return token.kind in ('number', 'string') or (token.kind == 'name' and token.text not in KNOWN)

    # ---- loops, methods and `?`

    def plant_for(self, at):
        """A counter for a turn of a loop, and one for its end."""
        if at in self.known:
            return
        body = self.next_open(at + 1)
        begin = self.find(at + 1, body, 'in') + 1
        if begin > body or self.is_mark(at + 1, '<') or [*self.alternatives(at + 1, begin - 1)]:
            self.stop(at, 'a `for` in a form that is not known')
        self.plant_turns(begin, body, f'for {self.text(at + 1, body)}', 'body', 'end')

    def skip_header(self, at):
        """The `for` between `impl` and its `{` is no loop."""
        if at == 0 or self.is_mark(at - 1, '}', '{', ';', ']'):
            self.known.update(i for i in range(at, self.next_open(at)) if self.is_mark(i, 'for'))

    def plant_method(self, at, opening):
        """Counters for a method that has ways of its own; its arguments begin at the opening bracket."""
        name, dot, end = self.tokens[at].text, at - 1, self.partners[opening]
        if name in UNKNOWN:
            self.stop(at, f'`.{name}(` has ways of its own, and no counters are planted for it here')
        if name not in {'then', 'then_some', *DRAINING, *CHOOSING, *PICKING, *DECIDING}:
            return
        begin = self.receiver_of(dot)
        text = self.text(begin, at + 1)
        if name in ('then', 'then_some'):
            self.plant_outcomes(begin, dot, f'{name} of {self.text(begin, dot)}')
        elif name in DRAINING or (name in ('min', 'max') and end == opening + 1):
            self.plant_turns(begin, dot, text, 'a turn', 'the end')
        elif name in CHOOSING and not (name in SHARED and self.is_iterator(begin, dot)):
            value, none = self.new_places(at, text, 'a value', 'none')
            self.surround(begin, dot, ' reach::tried(', f', {value}, {none})')
        elif name in PICKING:
            one, other = self.new_places(at, self.text(begin, end + 1), *PICKING[name])
            self.replace(at, f'reach_{name}')
            self.add_behind(opening, f'{one}, {other}, ')
        if name in DECIDING and not self.is_closure(opening + 1):
            yes, no = self.new_places(at, f'{name} {self.text(opening + 1, end)}', 'true', 'false')
            self.surround(opening + 1, end, ' |reach_one| reach::either((', f')(reach_one), {yes}, {no})')

    def plant_turns(self, begin, end, text, *ways):
        """Counters for a turn of an iterator and for its end."""
        turn, last = self.new_places(begin, text, *ways)
        self.surround(begin, end, ' reach::each(', f', {turn}, {last})')

    def is_iterator(self, begin, end):
        """Whether an operand is an iterator: a range, or what its last method gives. The build shows where this is wrong."""
        at = end
        while at > begin:
            at = self.openings.get(at - 1, at - 1)
            if self.arguments_of(at) and not self.is_mark(at, *SHARED):
                return self.is_mark(at, *ITERATING)
        return self.is_mark(begin, '(') and self.find(begin + 1, self.partners[begin], '..', '..=') < self.partners[begin]

    def is_closure(self, at):
        return self.is_mark(at, '|', '||') or (self.is_mark(at, 'move') and self.is_mark(at + 1, '|', '||'))

    def plant_passing(self, at):
        """`?`: a counter where it goes on, and one where it goes back, unless that is a failed read or write."""
        begin = self.receiver_of(at)
        text = f'{self.text(begin, at)}?'
        in_closure = any(first <= at < end for first, end in self.closures)
        if self.function_at(at)[3] and not in_closure:
            self.surround(begin, at, ' reach::passed(', f', {self.new_place(at, f"{text}, on")})')
        else:
            on, back = self.new_places(at, text, 'on', 'back')
            self.surround(begin, at, ' reach::tried(', f', {on}, {back})')

    # ---- words

    def drop_export(self, at):
        """#[unsafe(no_mangle)] is for a static library; elsewhere a function with it is a function as any."""
        if not self.is_exported:
            self.drop(at - 2, self.partners[at - 1] + 1)

    def drop_drop(self, at):
        """Rattle's derive of Drop says that a value may be let go, which Rust allows of any."""
        for i in range(at + 2, self.partners[at + 1]):
            self.replace(i, '' if self.is_mark(i, 'Drop', ',') else f'{self.tokens[i].text},')

    def check_name(self, at):
        text = self.tokens[at].text
        if text in RUST - KNOWN and not (text == 'unsafe' and self.is_mark(at - 1, '[')):  # #[unsafe(no_mangle)]
            self.stop(at, f'`{text}` is not known here')
        if text == 'else' and at - 1 not in self.before_else:
            self.stop(at, 'an `else` of no `if`')
        if self.is_mark(at + 1, '!') and self.is_mark(at + 2, '(', '[', '{') and text not in RUST:
            if text == 'matches':
                self.plant_matches(at)
            elif text in PRINTING and self.is_mark(at + 4, ';'):
                self.replace(at, f'reach::{text}')
            else:
                self.stop(at, f'a macro: {text}!')
        elif opening := self.arguments_of(at):
            self.plant_method(at, opening)
        elif text == 'from' and self.is_mark(at - 2, *NUMBERS) and self.is_mark(at + 1, '('):
            self.plant_number(at + 2, self.partners[at + 1])
        elif text == 'as' and self.is_mark(at - 1, ')') and self.is_operand_next(self.openings[at - 1]):
            self.plant_number(self.openings[at - 1] + 1, at - 1)

    def check_mark(self, at):
        if self.is_mark(at, '|') and at not in self.known and self.is_operand_next(at):
            self.plant_closure(at)
        elif self.is_mark(at, *BRANCHING) and at not in self.known:
            self.plant_operator(at)
        elif self.is_mark(at, '?'):
            self.plant_passing(at)

    def plant(self):
        """Inserts all counters; returns the text as Rust."""
        forms = {'fn': self.plant_function, 'if': self.plant_condition, 'while': self.plant_condition, 'match': self.plant_match,
                 'let': self.plant_let, 'for': self.plant_for, 'impl': self.skip_header, 'derive': self.drop_drop,
                 'unsafe': self.drop_export}
        for at, token in enumerate(self.tokens):
            if token.kind == 'mark':
                self.check_mark(at)
            if token.kind == 'name':
                self.check_name(at)
                forms.get(token.text, lambda _: None)(at)
                if token.text == 'std':  # the kit's: the stand-in has what is used of it
                    self.replace(at, 'reach')
        return 'use reach::prelude::*;' + self.rendered()
