"""What each byte of a message says, by the tables that `mojo check` prints (docs/language.md) and the layout of docs/wire.md."""
import re
from dataclasses import dataclass, field

WIDTHS = {'bool': 0, 'int8': 1, 'uint8': 1, 'int16': 2, 'uint16': 2, 'int32': 4, 'uint32': 4, 'int64': 8, 'uint64': 8}
NONE = 0xffffffff
ANY = '\0'
# the interface id of controls, and what they are by their kind: a name, and what their numbers are of
CONTROL_ID = 0xffffffff
CONTROLS = {1: ('closed', 'endpoint'), 2: ('query', 'endpoint'), 3: ('version', 'endpoint', 'version'), 4: ('require', 'endpoint', 'version'),
            5: ('flush', 'number')}
# how many numbers of a message are read at most: pointers that meet again could lead to any number of them
MOST_NUMBERS = 5_000_000


class BadMessage(Exception):
    """What can't be drawn further, with its place."""

    def __init__(self, at, why):
        super().__init__(why)
        self.at, self.why = at, why


@dataclass
class Kind:
    """A kind as it is printed: its name without `?` and what stands in its brackets."""
    name: str
    parts: list
    is_nullable: bool = False
    length: int = None

    def shown(self):
        inner = ', '.join([part.shown() for part in self.parts] + [str(self.length)] * (self.length is not None))
        return f'{self.name}{f"<{inner}>" if inner else ""}{"?" * self.is_nullable}'


@dataclass
class Field:
    ordinal: int
    name: str
    kind: Kind
    offset: int = 0
    bit: int = 0
    version: int = 0
    flag: tuple = None


@dataclass
class Span:
    """Some bytes, or a bit of one. level: how deep its object stands."""
    at: int
    size: int
    name: str
    kind: str = ''
    value: str = ''
    since: int = 0
    bit: int = None
    target: int = None


@dataclass
class Item:
    """An object of the message: its bytes, what it is, and what it would have in a newer version."""
    at: int
    size: int
    title: str
    spans: list = field(default_factory=list)
    absent: list = field(default_factory=list)


def parse_kind(text):
    """A kind as `check` prints it."""
    is_nullable = text.endswith('?')
    text = text[:-1] if is_nullable else text
    if '<' not in text:
        return Kind(text, [], is_nullable)
    name, inner = text.split('<', 1)
    parts, depth, begin = [], 0, 0
    inner = inner[:-1]
    for at, letter in enumerate(inner + ','):
        depth += (letter == '<') - (letter == '>')
        if letter == ',' and depth == 0:
            parts.append(inner[begin:at].strip())
            begin = at + 1
    length = int(parts.pop()) if parts[1:] and parts[-1].isdigit() else None
    return Kind(name, [parse_kind(part) for part in parts] if name in ('array', 'map') else [Kind(part, []) for part in parts], is_nullable, length)


class Tables:
    """The tables of `check`."""

    def __init__(self, text):
        self.structs, self.versions, self.unions, self.enums, self.interfaces, self.extensible = {}, {}, {}, {}, {}, set()
        last = None
        for line in text.splitlines():
            word, *rest = line.split()
            if line.startswith('  '):
                self.add(last, word, rest)
                continue
            last = (word, rest[0])
            {'struct': self.structs, 'union': self.unions, 'enum': self.enums, 'interface': self.interfaces}.get(word, {})[rest[0]] = {}
            if word == 'struct':
                self.versions[rest[0]] = []
            if rest[1:] == ['extensible']:
                self.extensible.add(rest[0])

    def add(self, last, word, rest):
        """A line of the table at hand."""
        sort, name = last
        if word == 'field' and sort == 'struct':
            # a kind may have blanks, so what is behind it is counted from the end
            flag = tuple(map(int, rest[-2:])) if rest[-3] == 'flag' else None
            rest = rest[:-3] if flag else rest
            one = Field(int(rest[0]), rest[1], parse_kind(' '.join(rest[2:-3])), *map(int, rest[-3:]), flag)
            self.structs[name][one.ordinal] = one
        elif word == 'field':
            self.unions[name][int(rest[0])] = Field(int(rest[0]), rest[1], parse_kind(' '.join(rest[2:])))
        elif word == 'version':
            self.versions[name].append(tuple(map(int, rest)))
        elif word == 'value':
            self.enums[name].setdefault(int(rest[1]), rest[0])
        elif word == 'method':
            self.interfaces[name][int(rest[0])] = rest[1]


def parameters_of(method, is_response):
    """The name of the struct of a method's parameters, or of its response's."""
    return f'{method}.{"response" if is_response else "request"}'


class Reader:
    """Walks over a message in its own order: its objects with their spans, and the text of its value."""

    def __init__(self, tables, data):
        self.tables, self.data, self.items = tables, data, []
        self.ids, self.value, self.method, self.left = (), None, None, MOST_NUMBERS

    def read(self, interface, is_response):
        """Reads the whole message; without an interface a control."""
        payload = self.header()
        if interface is None:
            return self.control(payload)
        method = self.tables.interfaces.get(interface, {}).get(self.number(12, 4))
        if method is None:
            raise BadMessage(12, f'{interface} has no method of this ordinal')
        name = parameters_of(f'{interface}.{method}', is_response)
        if name not in self.tables.structs:
            raise BadMessage(12, f'{interface}.{method} has no response')
        self.method = f'{interface}.{method}'
        self.items[0].spans[3].value += f', {method}'
        self.value = self.struct(payload, name, method)

    def control(self, at):
        """A message by which the two ends of a pipe speak of their endpoints: a struct with its kind and one number, or two."""
        size, kind = self.number(at, 4), self.number(at + 8, 4)
        if kind not in CONTROLS:
            raise BadMessage(at + 8, 'no control has this kind')
        name, *numbers = CONTROLS[kind]
        item = Item(at, size, f'control: {name}, {size} bytes')
        self.items.append(item)
        self.heads(item, at, 'version')
        item.spans.append(Span(at + 8, 4, 'kind', 'uint32', f'{kind}, {name}'))
        item.spans += [Span(at + 12 + 4 * n, 4, word, 'uint32', str(self.number(at + 12 + 4 * n, 4))) for n, word in enumerate(numbers)]
        self.method, self.value = 'control', ' '.join([name, *(span.value for span in item.spans[3:])])

    def number(self, at, size, is_signed=False):
        if at < 0 or at + size > len(self.data):
            raise BadMessage(at, 'the message ends before')
        self.left -= 1
        if not self.left:
            raise BadMessage(at, 'its pointers lead to more than can be shown')
        return int.from_bytes(self.data[at:at + size], 'little', signed=is_signed)

    def header(self):
        """The header, and where the payload begins."""
        size, version = self.number(0, 4), self.number(4, 4)
        item = Item(0, min(size, len(self.data)), f'header of version {version}')
        self.items.append(item)
        words = [(0, 4, 'num_bytes'), (4, 4, 'version'), (8, 4, 'interface_id'), (12, 4, 'name'), (16, 4, 'flags'), (20, 4, 'trace_nonce')]
        words += [(24, 8, 'request_id')] if version >= 1 else []
        for at, width, name in words:
            item.spans.append(Span(at, width, name, f'uint{8 * width}', str(self.number(at, width))))
        flags = self.number(16, 4)
        said = [word for bit, word in ((1, 'response expected'), (2, 'response'), (4, 'synchronous')) if flags & bit]
        item.spans[4].value += f', {", ".join(said)}' if said else ''
        self.request = self.number(24, 8) if version >= 1 else 0
        if version < 2:
            return size
        payload, ids = self.leading(item, 32, 'payload'), self.pointer(item, 40, 'ids')
        if ids is not None:
            count = self.number(ids + 4, 4)
            listed = Item(ids, self.number(ids, 4), f'ids: array of {count}')
            self.heads(listed, ids, 'num_elements')
            self.ids = [self.number(ids + 8 + 4 * n, 4) for n in range(count)]
            listed.spans += [Span(ids + 8 + 4 * n, 4, f'[{n}]', 'id of an endpoint', str(self.ids[n])) for n in range(count)]
            self.items.append(listed)
        if version >= 3:
            item.spans.append(Span(48, 8, 'moment', 'int64', str(self.number(48, 8, True))))
        return payload

    def heads(self, item, at, second):
        """The two numbers before each object."""
        item.spans += [Span(at, 4, 'num_bytes', 'uint32', str(self.number(at, 4))), Span(at + 4, 4, second, 'uint32', str(self.number(at + 4, 4)))]

    def pointer(self, item, at, name, kind='', since=0):
        """A pointer: where it leads, or None."""
        distance = self.number(at, 8)
        target = at + distance if distance else None
        item.spans.append(Span(at, 8, name, kind, f'→ {target}' if distance else 'null', since, target=target))
        return target

    def leading(self, item, at, name, kind=''):
        """A pointer that has to lead somewhere."""
        target = self.pointer(item, at, name, kind)
        if target is None:
            raise BadMessage(at, 'this pointer is null')
        return target

    def struct(self, at, name, path):
        """A struct, and the text of its value. A field beyond its version reads as what no message says: ANY."""
        size, version = self.number(at, 4), self.number(at + 4, 4)
        item = Item(at, size, f'{path}: {name}, {size} bytes, version {version}')
        self.items.append(item)
        self.heads(item, at, 'version')
        rows = [row for row in self.tables.versions[name] if row[0] <= version]
        texts = []
        for one in self.tables.structs[name].values():
            if not rows or one.ordinal >= rows[-1][1]:
                item.absent.append(one)
                texts.append(ANY)
            else:
                texts.append(self.flagged(item, at + 8, one) or self.held(item, at + 8 + one.offset, one.kind, one.name, one.bit, one.version))
        return f'({",".join(texts)})'

    def flagged(self, item, at, one):
        """The flag of a field that has one; 'null' where it is 0."""
        if one.flag is None:
            return None
        offset, bit = one.flag
        is_there = self.number(at + offset, 1) >> bit & 1
        item.spans.append(Span(at + offset, 1, f'{one.name}, flag', 'bool', 'value' if is_there else 'null', one.version, bit))
        return None if is_there else 'null'

    def held(self, item, at, kind, name, bit=0, since=0):
        """A field or an element at its place, and the text of its value."""
        shown = kind.shown()
        if kind.name in WIDTHS or kind.name in self.tables.enums:
            return self.plain(item, at, kind, name, bit, since)
        if kind.name in ('handle', 'pending_receiver', 'pending_associated_receiver', 'pending_remote', 'pending_associated_remote'):
            return self.index(item, at, kind, name, since)
        if kind.name in self.tables.unions:
            return self.union(item, at, kind, name, since)
        target = self.pointer(item, at, name, shown, since)
        return 'null' if target is None else self.object(target, kind, name)

    def plain(self, item, at, kind, name, bit, since):
        """A number, a bool or an enum."""
        if kind.name == 'bool':
            value = 'true' if self.number(at, 1) >> bit & 1 else 'false'
            item.spans.append(Span(at, 1, name, 'bool', value, since, bit))
            return value
        width = WIDTHS.get(kind.name, 4)
        number = self.number(at, width, not kind.name.startswith('uint'))
        known = self.tables.enums.get(kind.name, {}).get(number)
        item.spans.append(Span(at, width, name, kind.shown(), f'{number}, {known}' if known else str(number), since))
        return str(number)

    def index(self, item, at, kind, name, since):
        """A handle or an endpoint, by its index; a remote has a version."""
        index, is_remote = self.number(at, 4), kind.name.endswith('remote')
        sign = '^' if 'associated' in kind.name else '%'
        value = 'null' if index == NONE else f'{sign}{index}'
        told = f', id {self.ids[index]}' if sign == '^' and index < len(self.ids) else ''
        item.spans.append(Span(at, 4, name, kind.shown(), value + told, since))
        if not is_remote:
            return value
        version = self.number(at + 4, 4)
        item.spans.append(Span(at + 4, 4, f'{name}, version', 'uint32', str(version), since))
        return value if index == NONE else f'{value}@{version}'

    def union(self, item, at, kind, name, since):
        """An inline union."""
        size, tag = self.number(at, 4), self.number(at + 4, 4)
        item.spans.append(Span(at, 4, f'{name}, size', kind.shown(), str(size) if size else 'null', since))
        if not size:
            self.number(at + 8, 8)
            return 'null'
        one = self.tables.unions[kind.name].get(tag)
        item.spans.append(Span(at + 4, 4, f'{name}, tag', 'uint32', f'{tag}, {one.name if one else "unknown"}', since))
        if one is None:
            return f'<{tag}>'
        path = f'{name}.{one.name}'
        if one.kind.name in self.tables.unions:
            target = self.pointer(item, at + 8, path, one.kind.shown(), since)
            return f'<{tag}:{self.object(target, one.kind, path) if target is not None else "null"}>'
        return f'<{tag}:{self.held(item, at + 8, one.kind, path, 0, since)}>'

    def object(self, at, kind, path):
        """What a pointer leads to."""
        if kind.name in self.tables.structs:
            return self.struct(at, kind.name, path)
        if kind.name in self.tables.unions:
            item = Item(at, 16, f'{path}: {kind.name}')
            self.items.append(item)
            return self.union(item, at, Kind(kind.name, []), path, 0)
        if kind.name == 'map':
            return self.map(at, kind, path)
        size, count = self.number(at, 4), self.number(at + 4, 4)
        item = Item(at, size, f'{path}: {kind.shown()}, {size} bytes, {count} element{"s" * (count != 1)}')
        self.items.append(item)
        self.heads(item, at, 'num_elements')
        if kind.name == 'string':
            return self.string(item, at, count)
        return f'[{",".join(self.elements(item, at, kind.parts[0], count, path))}]'

    def string(self, item, at, count):
        """The bytes of a string, and its text."""
        self.number(at, 8 + count)
        text = self.data[at + 8:at + 8 + count].decode('utf-8', 'replace')
        escaped = text.replace('\\', '\\\\').replace('"', '\\"')
        written = '"' + re.sub(r'[\x00-\x1f]', lambda found: f'\\x{ord(found[0]):02x}', escaped) + '"'
        item.spans.append(Span(at + 8, count, '', 'UTF-8', written))
        return written

    def elements(self, item, at, kind, count, path):
        """The elements of an array, without gaps."""
        if kind.name == 'bool':
            return [self.held(item, at + 8 + n // 8, kind, f'[{n}]', n % 8) for n in range(count)]
        width = WIDTHS.get(kind.name) or (16 if kind.name in self.tables.unions else 4 if kind.name in self.tables.enums or kind.name in (
            'handle', 'pending_receiver', 'pending_associated_receiver') else 8)
        return [self.held(item, at + 8 + width * n, kind, f'{path}[{n}]') for n in range(count)]

    def map(self, at, kind, path):
        """A map: a struct with its keys and its values."""
        item = Item(at, 24, f'{path}: {kind.shown()}')
        self.items.append(item)
        self.heads(item, at, 'version')
        texts = []
        for place, name, part in ((at + 8, 'keys', kind.parts[0]), (at + 16, 'values', kind.parts[1])):
            target = self.leading(item, place, name, f'array<{part.shown()}>')
            count = self.number(target + 4, 4)
            listed = Item(target, self.number(target, 4), f'{path}, {name}: {count} element{"s" * (count != 1)}')
            self.items.append(listed)
            self.heads(listed, target, 'num_elements')
            texts.append(self.elements(listed, target, part, count, f'{path}, {name}'))
        return '{' + ','.join(f'{key}:{value}' for key, value in zip(*texts)) + '}'


def is_control(data):
    """Whether the header of a message has the interface id of controls."""
    return int.from_bytes(data[8:12], 'little') == CONTROL_ID


def read(tables, data, interface, is_response):
    """A reader with all that could be read, of a control where no interface is given, and the fault that ended it or None."""
    reader = Reader(tables, data)
    try:
        reader.read(interface, is_response)
    except BadMessage as fault:
        return reader, fault
    except RecursionError:
        return reader, BadMessage(0, 'its objects stand too deep')
    return reader, None
