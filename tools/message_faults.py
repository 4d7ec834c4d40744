"""What is wrong at a place of a message, and which word of its header or which field stands there (docs/wire.md has the layout)."""
import re

import message_reader
import value_faults

# The faults of messages.
FAULTS = {
    'MISALIGNED_OBJECT': 'an object would begin here, at no multiple of 8',
    'ILLEGAL_MEMORY_RANGE': 'what begins here does not lie behind the objects before it, or goes past the end',
    'UNEXPECTED_STRUCT_HEADER': 'the number of bytes of this struct or header is not right for its version',
    'UNEXPECTED_ARRAY_HEADER': 'this array has too few bytes for its elements, or another fixed length',
    'ILLEGAL_HANDLE': 'this index of a handle is not above the last one, or there are fewer handles: see `--handles`',
    'UNEXPECTED_INVALID_HANDLE': 'here a handle is lacking, whose kind has no `?`',
    'ILLEGAL_POINTER': 'this pointer leads further than 4,294,967,295 bytes',
    'UNEXPECTED_NULL_POINTER': 'this pointer is null, and its kind has no `?`',
    'ILLEGAL_INTERFACE_ID': 'this id, or index of an id, is 0 or none, not above the last one, or not among the ids of the header',
    'UNEXPECTED_INVALID_INTERFACE_ID': 'here an associated endpoint is lacking, whose kind has no `?`',
    'MESSAGE_HEADER_INVALID_FLAGS': 'the flags are not those of {side} of this method',
    'MESSAGE_HEADER_MISSING_REQUEST_ID': 'the flags say request with response, or response, and a header of version 0 has no request id',
    'MESSAGE_HEADER_UNKNOWN_METHOD': 'the interface has no method of this ordinal, or none that has a response where one is expected',
    'MAX_RECURSION_DEPTH': 'this pointer would lead to an object behind 200 others',
    'DIFFERENT_SIZED_ARRAYS_IN_MAP': 'this map has not as many values as keys',
    'UNEXPECTED_NULL_UNION': 'this union is null, and its kind has no `?`',
    'UNKNOWN_UNION_TAG': 'the union has no field of this tag, and is not `[Extensible]`',
    'UNKNOWN_ENUM_VALUE': 'the enum has no member of this number, and is not `[Extensible]`',
    'BAD_UTF8': 'from here on this string is no UTF-8',
}

# The numbers of a message's header, by their places.
HEADER = ((0, 4, 'num_bytes'), (4, 8, 'version'), (8, 12, 'interface_id'), (12, 16, 'name'), (16, 20, 'flags'), (20, 24, 'trace_nonce'),
          (24, 32, 'request_id'), (32, 40, 'the pointer to the payload'), (40, 48, 'the pointer to the ids'), (48, 56, 'moment'))
LEAST_HEADER = 24
NAME_AT, FLAGS_AT = 12, 16
IS_RESPONSE = 2

# The two numbers before each object.
HEADS = ('num_bytes', 'version', 'num_elements')

GROUP = 8


def number(data, at, size=4):
    """A number of the message; 0 where it ends before."""
    return int.from_bytes(data[at:at + size], 'little')


def bytes_round(data, at):
    """The groups of bytes round one, and a mark under it."""
    first = max(0, at // GROUP - 1)
    groups = [data[GROUP * group:GROUP * (group + 1)].hex() for group in range(first, first + 4)]
    shift = sum(len(group) + 1 for group in groups[:at // GROUP - first]) + 2 * (at % GROUP)
    return f'  {" ".join(group for group in groups if group)}\n  {" " * shift}^^\n'


def odd_digits(data):
    """The first byte of a file that is in no pair of hexadecimal digits, and why; no words where nothing is known of it."""
    at = len(re.match(rb'(?:[0-9a-fA-F]{2})*', data)[0])
    rest = data[at:]
    if re.match(rb'[0-9a-fA-F]\n?\Z', rest):
        return at, f'there are {at + 1} digits, an odd number: this one stands alone'
    if rest[:2] in (b'0x', b'0X'):
        return at, 'nothing stands before the digits, no `0x` either'
    if rest[:1] == b'\r':
        return at, 'one line feed at most stands behind the digits, and no carriage return'
    if rest[:1] in (b' ', b'\t', b'\n'):
        return at, 'all digits stand in one line without blanks, and one line feed at most behind them; `tr -d " \\n"` takes blanks and line ends away'
    return at, None


def spans_of(reader):
    """What was read of a message: each span with the object in which it lies."""
    return [(item, span) for item in reader.items for span in item.spans]


def title_of(item):
    """The path and the kind of an object."""
    return re.sub(r'[,:] \d+ (bytes|elements?).*', '', item.title)


def name_of(item, span):
    """A field, with the object in which it lies."""
    name = f'`{span.name}`' if span.name else 'the text'
    kind = '' if span.name in HEADS or not span.name else f' of the kind {span.kind}'
    return f'{name}{kind} in {title_of(item)}'


def pointer_to(reader, at):
    """The pointer that leads to a byte, with the object in which it lies, or None."""
    return next(((item, span) for item, span in spans_of(reader) if span.target == at), None)


def field_at(reader, at):
    """What stands at a byte: the object that begins there, or the last field that was read there; None where nothing was read."""
    leading = pointer_to(reader, at)
    if leading:
        return f'where {name_of(*leading)} leads'
    here = [(item, span) for item, span in spans_of(reader) if span.at <= at < span.at + max(span.size, 1)]
    return name_of(*here[-1]) if here else None


def header_word(data, at):
    """The word of the header at a byte, or None."""
    return next((f'{name} of the header' for begin, end, name in HEADER if begin <= at < end and at < max(number(data, 0), LEAST_HEADER)), None)


def methods_of(tables, interface):
    """The methods of an interface with their ordinals."""
    return ', '.join(f'{ordinal} for {name}' for ordinal, name in tables.interfaces.get(interface, {}).items()) or 'none'


def of_header(kind, data, response, tables, interface):
    """What else is known of a fault in the header, or nothing."""
    if kind == 'MESSAGE_HEADER_INVALID_FLAGS' and len(data) >= LEAST_HEADER and bool(number(data, FLAGS_AT) & IS_RESPONSE) != response:
        return f'they are those of {"a request: leave `--response` out" if response else "a response: give `--response`"}'
    if kind == 'MESSAGE_HEADER_UNKNOWN_METHOD' and tables:
        return f'it is {number(data, NAME_AT)}, and {interface} has {methods_of(tables, interface)}'
    if kind == 'UNEXPECTED_STRUCT_HEADER':
        return f'it says {number(data, 0)} bytes and version {number(data, 4)}, and the versions 0, 1, 2 and 3 have 24, 32, 48 and 56'
    return None


def of_object(kind, data, at, reader):
    """What else is known of a fault at an object or a field, or nothing."""
    item = next((item for item in reader.items if item.at == at), None)
    tables = reader.tables
    if kind == 'UNEXPECTED_STRUCT_HEADER' and item:
        name = title_of(item).rpartition(': ')[2]
        rows = ', '.join(f'{size} in version {version}' for version, _, size in tables.versions.get(name, ())) or '24 in version 0'
        return f'it says {number(data, at)} bytes and version {number(data, at + 4)}; {name} has {rows}'
    if kind == 'UNEXPECTED_ARRAY_HEADER':
        return f'it says {number(data, at)} bytes and {number(data, at + 4)} elements'
    span = next((span for _, span in spans_of(reader) if span.at == at), None)
    if kind == 'UNKNOWN_ENUM_VALUE' and span:
        return f'it is {span.value}, and {span.kind} has {value_faults.named_numbers(tables.enums[span.kind.rstrip("?")])}'
    before = next((span for _, span in spans_of(reader) if span.at == at - 4), None)
    if kind == 'UNKNOWN_UNION_TAG' and before:
        fields = tables.unions[before.kind.rstrip('?')]
        return f'it is {number(data, at)}, and {before.kind} has {value_faults.named_numbers({tag: one.name for tag, one in fields.items()})}'
    return None


def sentence(kind, data, at, response, tables, interface, reader):
    """What the fault means in this message. tables, reader: None where they aren't known."""
    told = FAULTS[kind].replace('{side}', 'a response' if response else 'a request')
    in_header = at < LEAST_HEADER
    more = of_header(kind, data, response, tables, interface) if in_header else of_object(kind, data, at, reader) if reader else None
    return f'{told}; {more}' if more else told


def explained(name, kind, at, data, response, interface, tables):
    """The place of a fault in the message's file, the bytes there, what stands there, and a sentence; tables: None where they aren't known."""
    reader = message_reader.read(tables, data, interface, response)[0] if tables else None
    leading = pointer_to(reader, at) if reader and at >= len(data) else None
    shown = leading[1].at if leading else min(at, len(data))
    if leading:
        there = f', {name_of(*leading)}, which leads to byte {at}'
    else:
        word = header_word(data, at) or (field_at(reader, at) if reader else None) or ('where the payload begins' if at == number(data, 0) else None)
        there = f', {word}' if word else ''
    told = sentence(kind, data, at, response, tables, interface, reader)
    told = told.replace('begin here', 'begin there').replace('begins here', 'begins there') if leading else told
    return f'{name}:1:{2 * shown + 1}: byte {shown} of {len(data)}{there}\n{bytes_round(data, shown)}{kind}: {told}\n'
