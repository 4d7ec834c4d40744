"""What is wrong with the text of a value, at which byte, and what stands there: by the tables that `mojo check` prints.

docs/wire.md has how values are spelled. The text is read kind by kind, and a byte with which no text goes on is told with the field that
is read there, as `cookie.name`, its kind, and what such a value is.
"""
import re
import sys

from message_reader import WIDTHS

MAX_BRACKETS = 512
# a bracket in a bracket is some calls in one another
sys.setrecursionlimit(max(sys.getrecursionlimit(), 16 * MAX_BRACKETS))
MOST_INDEX = 2 ** 32 - 1
# How many numbers of an enum are named.
SOME = 8
WORD = re.compile(rb'[A-Za-z_][A-Za-z0-9_.]*')


class BadValue(Exception):
    """The byte with which no text goes on, and why."""

    def __init__(self, at, why):
        super().__init__(why)
        self.at, self.why = at, why


def range_of(name):
    """The least and the greatest number of an integer's kind."""
    bits = 8 * WIDTHS[name]
    return (0, 2 ** bits - 1) if name.startswith('uint') else (-2 ** (bits - 1), 2 ** (bits - 1) - 1)


def begins(digits, numbers):
    """Whether one of these numbers, a list or the least and the greatest of a range, begins with these digits."""
    if isinstance(numbers, list):
        return any(str(number).startswith(digits) for number in numbers)
    if digits == '-':
        return numbers[0] < 0
    return re.fullmatch(r'0|-?[1-9][0-9]*', digits) is not None and numbers[0] <= int(digits) <= numbers[1]


def ends(digits, numbers):
    """Whether these digits are one of these numbers."""
    return digits not in ('', '-') and (int(digits) in numbers if isinstance(numbers, list) else True)


def named_numbers(members):
    """Numbers with the names of the members that have them."""
    shown = [f'{number} for {name}' for number, name in list(members.items())[:SOME]]
    return ', '.join(shown) + (' and so on' if len(members) > SOME else '')


class Walk:
    """A walk over the text of a value. where: the field that is read; misfits: the places of indexes that aren't the next ones, and of
    tags that are never written."""

    def __init__(self, tables, text):
        self.tables, self.text, self.at, self.open = tables, text, 0, 0
        self.next, self.misfits, self.where = {'%': 0, '^': 0}, [], ''

    def here(self, count=1):
        return self.text[self.at:self.at + count]

    def stop(self, why, at=None):
        if at is None and self.at >= len(self.text):
            why = f'the value ends too early; {why}'
        elif at is None and self.here() in (b' ', b'\t', b'\n', b'\r'):
            why = f'a value has no blanks; {why}'
        raise BadValue(self.at if at is None else at, why)

    def sign(self, letter, why):
        """One letter that has to stand here."""
        if self.here() != letter.encode():
            self.stop(f'here stands `{letter}`, {why}')
        self.at += 1

    def opened(self, letter, told):
        if self.here() != letter.encode():
            self.stop(f'{told}: `{letter}` begins it')
        if self.open == MAX_BRACKETS:
            self.stop(f'no more than {MAX_BRACKETS} brackets are open at once')
        self.open, self.at = self.open + 1, self.at + 1

    def closed(self, letter, why):
        self.sign(letter, why)
        self.open -= 1

    def struct(self, name):
        """The values of a struct's fields, or of a method's parameters, in brackets."""
        fields, outside = list(self.tables.structs[name].values()), self.where
        few = f'`{outside}`, a struct {name}, has' if outside else 'the parameters have'
        names = ', '.join(one.name for one in fields[:SOME]) + ' and so on' * (len(fields) > SOME)
        count = f'{few} {len(fields)} value{"s" * (len(fields) != 1)}{f": {names}" * bool(fields)}'
        self.opened('(', f'here stand values in brackets, and {count}')
        for place, one in enumerate(fields):
            if place:
                self.sign(',', f'behind `{fields[place - 1].name}`; {count}')
            self.where = f'{outside}.{one.name}' if outside else one.name
            self.slot(one.kind, one.flag is not None)
        self.where = outside
        self.closed(')', f'and {count}')

    def slot(self, kind, has_flag=False):
        """A value of a kind, null too where that may stand."""
        shown = f'`{self.where}` is of the kind {kind.shown()}'
        if self.here() == b'n' and (kind.is_nullable or has_flag):
            return self.word('null', shown)
        if self.here(4) == b'null':
            self.stop(f'{shown}, which has no `?`, so that it is never null')
        if kind.name == 'bool':
            return self.word('false' if self.here() == b'f' else 'true', f'{shown}: `true` or `false`')
        if kind.name in WIDTHS:
            least, most = range_of(kind.name)
            return self.number((least, most), f'{shown}: a decimal number from {least:,} to {most:,}, without `+` and leading zeros')
        if kind.name in self.tables.enums:
            return self.enum(kind, shown)
        if kind.name == 'string':
            return self.string(shown)
        if kind.name == 'handle' or kind.name.startswith('pending_'):
            return self.index(kind, shown)
        return self.many(kind, shown)

    def word(self, word, why):
        for letter in word:
            if self.here() != letter.encode():
                self.stop(why)
            self.at += 1

    def number(self, numbers, why):
        """The longest front of digits with which a number goes on."""
        begin = self.at
        while self.at < len(self.text) and begins(self.text[begin:self.at + 1].decode('latin-1'), numbers):
            self.at += 1
        digits = self.text[begin:self.at].decode()
        if not ends(digits, numbers) or re.match(rb'[0-9xX.]', self.here()):
            self.stop(why)
        return int(digits)

    def enum(self, kind, shown):
        members = self.tables.enums[kind.name]
        numbers = (-2 ** 31, 2 ** 31 - 1) if kind.name in self.tables.extensible else list(members)
        word = WORD.match(self.text, self.at)
        own = word and {name: number for number, name in members.items()}.get(word[0].decode().split('.')[-1])
        if own is not None:
            self.stop(f'{shown}, an enum, which is written by its number: {own} for {word[0].decode()}')
        return self.number(numbers, f'{shown}, an enum, which is written by its number: {named_numbers(members)}')

    def string(self, shown):
        """A string: escapes, and UTF-8."""
        if self.here() != b'"':
            self.stop(f'{shown}, which begins with `"`')
        end = re.compile(rb'"(?:[^"\\\x00-\x1f]|\\(?:["\\]|x[01][0-9a-f]))*').match(self.text, self.at).end()
        try:
            self.text[self.at:end].decode()
        except UnicodeDecodeError as error:
            self.stop('from here on this string is no UTF-8', self.at + (error.start if 'start byte' in error.reason else error.end))
        self.at = end
        if self.here() == b'\\':
            escape = re.compile(rb'\\(?:x[01]?)?').match(self.text, self.at)
            self.at = escape.end()
            self.stop('in a string a backslash stands before `"`, `\\`, or `x` with two digits, of 0 to 9 and a to f, for a byte below 32')
        if self.here() and self.here() < b' ':
            self.stop(f'in a string a byte below 32 is written `\\x` with two digits: `\\x{self.here()[0]:02x}`', self.at)
        self.sign('"', f'which ends the string `{self.where}`')

    def index(self, kind, shown):
        """A handle or an endpoint, by its index; a remote has a version."""
        sign, is_remote = '^' if 'associated' in kind.name else '%', kind.name.endswith('remote')
        of = 'endpoints' if sign == '^' else 'handles'
        form = f'{shown}: `{sign}` with its index among the {of}' + (', `@` and the version, as ' f'`{sign}0@1`' if is_remote else '')
        if self.here() != sign.encode():
            self.stop(form)
        begin, self.at = self.at, self.at + 1
        if self.number((0, MOST_INDEX), form) != self.next[sign]:
            self.misfits.append((begin, f'the indexes of {of} count from 0, and the next one is {self.next[sign]}'))
        self.next[sign] += 1
        if is_remote:
            if self.here() != b'@':
                self.stop(form)
            self.at += 1
            self.number((0, MOST_INDEX), form)
        elif self.here() == b'@':
            self.stop(f'a version stands behind the index of a remote alone; {shown}')

    def many(self, kind, shown):
        """What has other values in it."""
        outside = self.where
        if kind.name == 'array':
            self.opened('[', shown)
            self.listed(']', kind.length, lambda number: (f'{outside}[{number}]', lambda: self.slot(kind.parts[0])))
        elif kind.name == 'map':
            self.opened('{', shown)
            self.listed('}', None, lambda number: (outside, lambda: self.pair(kind, f'{outside}, pair {number}')))
        elif kind.name in self.tables.unions:
            self.union(kind, shown)
        else:
            self.struct(kind.name)
        self.where = outside

    def listed(self, end, length, one):
        """Values with commas between them, and the bracket behind them."""
        outside, number = self.where, 0
        many = f'as `{outside}` has {length} elements' if length is not None else f'which ends `{outside}`'
        while number != length and not (number == 0 and length is None and self.here() == end.encode()):
            if number and (length is None and self.here() == end.encode()):
                break
            if number:
                self.sign(',', f'or `{end}`, {many}' if length is None else many)
            self.where, read = one(number)
            read()
            self.where, number = outside, number + 1
        self.closed(end, many)

    def pair(self, kind, where):
        self.where = f'{where}, key'
        self.slot(kind.parts[0])
        self.sign(':', 'between a key and its value')
        self.where = f'{where}, value'
        self.slot(kind.parts[1])

    def union(self, kind, shown):
        """A tag, and what it holds."""
        outside, begin, fields = self.where, self.at + 1, self.tables.unions[kind.name]
        is_open = kind.name in self.tables.extensible
        self.opened('<', f'{shown}, a union')
        tags = named_numbers({tag: one.name for tag, one in fields.items()})
        tag = self.number((0, MOST_INDEX) if is_open else list(fields), f'{shown}, a union: here stands a tag, {tags}')
        if tag in fields:
            self.sign(':', f'between the tag and what `{outside}` holds')
            self.where = f'{outside}.{fields[tag].name}'
            self.slot(fields[tag].kind)
            self.where = outside
        else:
            self.misfits.append((begin, f'the union {kind.name} has no field of the tag {tag}: such a one is read, and never written'))
        self.closed('>', f'which ends `{outside}`' + ('' if tag in fields else ', as its tag is none of the union'))


def text_of(data):
    """The text in a file, which may end in one line feed."""
    return data[:-1] if data.endswith(b'\n') else data


def fault(tables, struct, text):
    """The first byte with which no text of a struct goes on, and why; None where the text is a value."""
    walk = Walk(tables, text)
    try:
        walk.struct(struct)
        if walk.at < len(text):
            behind = text[walk.at:walk.at + 1]
            return walk.at, 'the value ends before this byte, and ' + ('has no carriage return behind it' if behind == b'\r' else
                                                                       'one line feed at most stands behind it')
    except BadValue as found:
        return found.at, found.why
    return None


def misfit(tables, struct, text):
    """The first index that isn't the next one, or tag that is never written, with its place; None where there is none."""
    walk = Walk(tables, text)
    try:
        walk.struct(struct)
    except BadValue:
        return None
    return walk.misfits[0] if walk.misfits else None


def path_of(tables, struct, steps):
    """The name of what a path of ordinals, numbers and tags leads to from a struct's fields."""
    name, kind = '', None
    steps = [int(step) for step in steps.split('.')] if steps else []
    while steps:
        step = steps.pop(0)
        fields = tables.structs.get(struct if kind is None else kind.name)
        if fields:
            name, kind = f'{name}.{fields[step].name}', fields[step].kind
        elif kind.name == 'array':
            name, kind = f'{name}[{step}]', kind.parts[0]
        elif kind.name == 'map':
            number = steps.pop(0) if steps else 0
            name, kind = f'{name}, pair {number}, {"value" if step else "key"}', kind.parts[step]
        else:
            one = tables.unions[kind.name].get(step)
            name, kind = (f'{name}.{one.name}', one.kind) if one else (name, kind)
    return name.lstrip('.')
