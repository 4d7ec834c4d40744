"""Inputs that are made to be dear, of any size: the words of a call, and the files that it names."""
import functools
import struct
from dataclasses import dataclass
from typing import Callable

# The most bytes of a file, and the most members of a list, that the program takes (docs/limits.md).
MAX_FILE_BYTES, MOST_MEMBERS = 1_048_576, 4_096
# How many bytes a file has that imports others again and again.
IMPORT_BYTES = 262_144
# How many fields an old struct lacks.
LACKED_FIELDS = 100
# The most bytes that a data pipe holds, and how many of them are moved at once.
MAX_DATA_BYTES, PIECE_BYTES = 65_536, 16


@dataclass
class Made:
    """The words of a call, the bytes of its files by their names, and what it is to be refused by, if it is."""
    words: list
    files: dict
    refusal: str = ''


@dataclass
class Input:
    """What is made of numbers, as it is told, and its greatest numbers."""
    told: str
    make: Callable
    greatest: tuple

    def title(self):
        return self.told.format(*(f'{number:,}' for number in self.greatest))

    def made(self, part):
        """The input of a part of its size."""
        return self.make(*(number // part for number in self.greatest))


def call(words, texts, others=(), refusal=''):
    """A call over Mojom files, whose names stand behind its other words."""
    files = {name: text.encode() for name, text in [*texts.items(), *others]}
    return Made([*words, *texts], files, refusal)


def checked(texts):
    return call(['check'], texts)


def compiled(texts):
    """A run of a script without lines: the files are judged whole, and nothing of them is printed."""
    return call(['run', '--script', 's.script'], texts, [('s.script', 'seqs 1\n')])


def compared(old, new):
    """A comparison of two files of which the newer one reads what the older one writes."""
    return call(['compat'], {'old.mojom': old, 'new.mojom': new})


def ran(lines):
    """A run of a script of one sequence, over a file without definitions."""
    return call(['run', '--script', 's.script'], {'a.mojom': 'module a;\n'}, [('s.script', '\n'.join(['seqs 1', *lines, '']))])


def decoded(text, message):
    return call(['decode', '--interface', 'I', '--handles', '0', '--message', 'm.hex'], {'a.mojom': text}, [('m.hex', f'{message.hex()}\n')])


def encoded(text, element, count, refusal=''):
    """An encoding of one element again and again."""
    value = ','.join([element] * count)
    return call(['encode', '--method', 'I.m', '--value', 'v.value'], {'a.mojom': text}, [('v.value', f'([{value}])\n')], refusal)


def block(head, lines):
    """A definition with a line for each of its members."""
    return '\n'.join([f'{head} {{', *lines, '};', ''])


def taking(kind):
    """An interface whose method takes an array of a kind."""
    return f'interface I {{ m(array<{kind}> a); }};\n'


def dotted(parts):
    """A module's name of so many parts."""
    return '.'.join('a' * parts)


def grouped(count):
    """The numbers below a count, in ranges that find room in a list of members with another member."""
    most = MOST_MEMBERS - 1
    return [range(start, min(start + most, count)) for start in range(0, count, most)]


def enum_of_names(name, members):
    return block(f'enum {name}', (f'A{number},' for number in range(members)))


def long_module(length, members):
    """An enum in a module of a long name."""
    return checked({'a.mojom': f'module {"a" * length};\n' + enum_of_names('E', members)})


def long_module_of_enums(length, enums):
    """Enums of as many members as there may be in a module of a long name."""
    return checked({'a.mojom': f'module {"a" * length};\n' + ''.join(enum_of_names(f'E{number}', MOST_MEMBERS) for number in range(enums))})


def long_interface(length, uses):
    """Attributes that use a constant of an interface of a long name, within it."""
    parameters = ',\n'.join(f'[MinVersion=N] int8 p{number}' for number in range(uses))
    return checked({'a.mojom': block(f'interface {"a" * length}', ['const uint32 N = 0;', f'm({parameters});'])})


def deep_module(parts, uses, others=()):
    """Uses, within enums of a module of many parts, of a name that is found outside of all of them. With the other members of each enum."""
    enums = (block(f'enum E{number:02}', [*others, *(f'A{use}=N,' for use in some)]) for number, some in enumerate(grouped(uses)))
    return compiled({'a.mojom': f'module {dotted(parts)};\nimport "b.mojom";\n' + ''.join(enums), 'b.mojom': 'const int32 N = 0;\n'})


def all_depths(files, uses):
    """Uses of a name in a module that is deeper than those of many files, of which each has the name at a depth of its own and isn't seen."""
    structs = ''.join(block(f'struct S{number}', (f'x f{use};' for use in some)) for number, some in enumerate(grouped(uses)))
    texts = {f'd{depth}': f'module {dotted(depth)};\nstruct x {{}};\n' for depth in range(1, files + 1)}
    return compiled({'a.mojom': f'module {dotted(files + 2)};\nimport "x.mojom";\n{structs}', 'x.mojom': 'struct x {};\n', **texts})


def importing(files, length=0):
    """Files each of which imports all before it: once, or again and again up to a number of bytes."""
    texts = {}
    for number in range(files):
        imports = ''.join(f'import "f{other}";\n' for other in range(number))
        times = max(1, length // len(imports)) if imports else 0
        texts[f'f{number}'] = imports * times + f'struct S{number} {{}};\n'
    return checked(texts)


def structs(judged, parts, count):
    """Structs in a module of many parts."""
    return judged({'a.mojom': f'module {dotted(parts)};\n' + ''.join(f'struct S{number} {{}};\n' for number in range(count))})


def long_kind(length, fields):
    """Fields of a kind of a long name."""
    return checked({'a.mojom': f'module {"a" * length};\nenum E {{ A }};\n' + block('struct S', (f'E f{number};' for number in range(fields)))})


def message(objects):
    """A message of a method of one pointer, and what stands behind its parameters."""
    return struct.pack('<6I', 24, 0, 0, 0, 0, 0) + struct.pack('<2IQ', 16, 0, 8) + objects


def array(count, elements):
    return struct.pack('<2I', 8 + len(elements), count) + elements


def union_of(tags, attributes=''):
    """A union with these tags, in this order."""
    return block(f'{attributes}union U', (f'bool f{tag}@{tag};' for tag in tags)) + taking('U')


def unknown_tags(step, tags, count):
    """Unions of tags that theirs lacks but may hold; its own rise or fall."""
    elements = b''.join(struct.pack('<2IQ', 16, tags + number, 0) for number in range(count))
    return decoded(union_of(range(tags)[::step], '[Extensible] '), message(array(count, elements)))


def last_tags(tags, count):
    """Unions of the last tag of theirs, whose tags fall."""
    return decoded(union_of(range(tags)[::-1]), message(array(count, struct.pack('<2IQ', 16, 0, 1) * count)))


def rising(members):
    """Numbers of members that rise, none of which is 0."""
    return [2 * number + 1 for number in range(members)]


def mixed(members):
    """Numbers of members none of which is 0: each second one rises, and those between them, behind all of these, fall."""
    return [2 * number + 1 if number % 2 == 0 else 4 * members - 2 * number + 1 for number in range(members)]


def enum_of(numbers):
    """An enum whose members have these numbers."""
    return block('enum E', (f'A{place}={number},' for place, number in enumerate(numbers)))


def last_members(members, count):
    """The last member of an enum, whose numbers don't rise."""
    numbers = mixed(members)
    return decoded(enum_of(numbers) + taking('E'), message(array(count, struct.pack('<I', numbers[-1]) * count)))


def lacked_enums(fields, members):
    """A struct of version 0, which lacks all its fields; each is of an enum that has no 0, and whose numbers don't rise."""
    text = enum_of(mixed(members)) + block('struct S', (f'[MinVersion=1] E f{number};' for number in range(fields)))
    return decoded(text + 'interface I { m(S s); };\n', message(struct.pack('<2I', 8, 0)))


def bools(length):
    """An array of bools of so many bytes."""
    return decoded(taking('bool'), message(array(8 * length, b'\x5a' * length)))


def old_structs(count):
    """Structs of version 0, which lack all their fields."""
    text = block('struct S', (f'[MinVersion=1] uint8 f{number};' for number in range(LACKED_FIELDS))) + taking('S')
    return decoded(text, message(array(count, struct.pack('<Q', 8 * count) * count) + struct.pack('<2I', 8, 0) * count))


def member_texts(numbers_of, count, members):
    """The text of the last member of an enum, again and again."""
    numbers = numbers_of(members)
    return encoded(enum_of(numbers) + taking('E'), str(numbers[-1]), count)


def tag_texts(step, count, tags):
    """The text of a union that has the last of its tags, again and again; they rise or fall."""
    order = range(tags)[::step]
    return encoded(union_of(order), f'<{order[-1]}:true>', count)


def unknown_tag_texts(count, tags):
    """The text of a union that lacks the tag, again and again, which is read and then not sent; its own tags fall."""
    return encoded(union_of(range(tags)[::-1], '[Extensible] '), f'<{tags}>', count, 'error: Misfit 0.0')


def stable_structs(structs):
    """Stable structs of as many fields as there may be, twice the same."""
    text = ''.join(block(f'[Stable] struct S{number}', (f'int8 f{field};' for field in range(MOST_MEMBERS))) for number in range(structs))
    return compared(text, text)


def stable_unions(unions):
    """Stable unions of as many tags as there may be, which rise in the older file and fall in the newer one."""
    def text(step):
        tags = range(MOST_MEMBERS)[::step]
        return ''.join(block(f'[Stable] union U{number}', (f'int8 f{tag}@{tag};' for tag in tags)) for number in range(unions))
    return compared(text(1), text(-1))


def stable_enums(enums):
    """Stable enums of as many members as there may be, whose numbers don't rise, and stand the other way round in the newer file."""
    def text(step):
        members = [f'A{place}={number},' for place, number in enumerate(mixed(MOST_MEMBERS))][::step]
        return ''.join(block(f'[Stable] enum E{number}', members) for number in range(enums))
    return compared(text(1), text(-1))


def chained(structs):
    """A stable struct that has a second one, which has a third, and so on, twice the same: each pair follows from the one before."""
    links = (block(f'struct S{number}', [f'S{number + 1}? f;']) for number in range(structs - 1))
    text = f'[Stable] {"".join(links)}struct S{structs - 1} {{}};\n'
    return compared(text, text)


def circle(structs, fields):
    """Structs in a circle, each with fields of so many that follow it; the first is stable."""
    return '[Stable] ' + ''.join(
        block(f'struct S{number}', (f'S{(number + field + 1) % structs}? f{field};' for field in range(fields))) for number in range(structs))


def opposite(structs, fields):
    """Circles of which the newer one lacks a struct, so that each struct comes to stand opposite each."""
    return compared(circle(structs, fields), circle(structs - 1, fields))


def small_moves(count):
    """A byte that is put in, and got out, again and again."""
    return ran([f'0: data {MAX_DATA_BYTES} x y', *['0: put x 5a', '0: get y 1'] * count])


def by_pieces(pieces):
    """A data pipe that is filled piece by piece, and drained so."""
    put, get = f'0: put-all x {"5a" * PIECE_BYTES}', f'0: get-all y {PIECE_BYTES}'
    return ran([f'0: data {MAX_DATA_BYTES} x y', *[put] * pieces, *[get] * pieces])


def views(length, count):
    """A data pipe all of whose bytes are shown again and again, and of which none is got."""
    return ran([f'0: data {MAX_DATA_BYTES} x y', f'0: put-all x {"5a" * length}', *['0: begin-get y', '0: end-get y 0'] * count])


INPUTS = (
    Input('a module name of {} bytes and an enum of {} members', long_module, (250_000, 4_096)),
    Input('a module name of {} bytes and {} enums of 4,096 members', long_module_of_enums, (500_000, 12)),
    Input('an interface\'s name of {} bytes and {} attributes that use a constant in it', long_interface, (400_000, 4_000)),
    Input('a module name of {} parts and {} uses of a name outside of it', deep_module, (130_000, 60_000)),
    Input('the same of {} parts and {} uses, each as long as a name beside it', functools.partial(deep_module, others=['M,']), (130_000, 60_000)),
    Input('{} files whose modules have all depths, and {} uses in a deeper one', all_depths, (1_000, 16_000)),
    Input('{} files of 256 KiB that import all before them, again and again', functools.partial(importing, length=IMPORT_BYTES), (64,)),
    Input('{} files that import all before them', importing, (1_000,)),
    Input('a module name of {} parts and two structs', functools.partial(structs, compiled, count=2), (500_000,)),
    Input('a module name of {} parts and {} structs', functools.partial(structs, compiled), (60_000, 1_000)),
    Input('the same of {} parts and {} structs, with its tables', functools.partial(structs, checked), (60_000, 1_000)),
    Input('a module name of {} bytes and {} fields of an enum in it, with its tables', long_kind, (20_000, 2_000)),
    Input('an extensible union of {} tags that rise, and {} times a tag that it lacks', functools.partial(unknown_tags, 1), (4_000, 32_000)),
    Input('an extensible union of {} tags that fall, and {} times a tag that it lacks', functools.partial(unknown_tags, -1), (4_000, 32_000)),
    Input('a union of {} tags that fall, and {} times its last', last_tags, (4_000, 32_000)),
    Input('an enum of {} members whose numbers don\'t rise, and {} times its last', last_members, (4_096, 100_000)),
    Input('a struct that lacks {} fields of an enum of {} members, without a default', lacked_enums, (4_096, 4_096)),
    Input('{} bytes of bools', bools, (200_000,)),
    Input('{} structs of version 0 that lack 100 fields each', old_structs, (24_000,)),
    Input('{} times the last of {} members, whose numbers rise', functools.partial(member_texts, rising), (100_000, 4_096)),
    Input('{} times the last of {} members, whose numbers don\'t rise', functools.partial(member_texts, mixed), (100_000, 4_096)),
    Input('{} times a union of the last of {} tags, which rise', functools.partial(tag_texts, 1), (64_000, 4_096)),
    Input('{} times a union of the last of {} tags, which fall', functools.partial(tag_texts, -1), (64_000, 4_096)),
    Input('{} times a union of a tag that {} falling tags lack, not sent', unknown_tag_texts, (100_000, 4_096)),
    Input('two files of {} stable structs of 4,096 fields', stable_structs, (20,)),
    Input('two files of {} stable unions of 4,096 tags, which rise in one and fall in the other', stable_unions, (15,)),
    Input('two files of {} stable enums of 4,096 members, whose numbers don\'t rise', stable_enums, (20,)),
    Input('two files of {} structs each of which has the next, the first of them stable', chained, (30_000,)),
    Input('a circle of {} structs beside one of one less: as many pairs as the product', functools.partial(opposite, fields=1), (1_000,)),
    Input('a circle of {} structs with 50 fields each beside one of one less: as many pairs', functools.partial(opposite, fields=50), (500,)),
    Input('{} times a byte that is put into a data pipe and got out', small_moves, (32_000,)),
    Input('a data pipe that is filled with {} pieces of 16 bytes, and drained by as many', by_pieces, (4_096,)),
    Input('{} bytes in a data pipe that are shown {} times', views, (65_536, 500)),
)
