"""Files, messages and scripts whose commands are timed, of any size."""
import struct

SIZES = (65_536, 262_144, 1_048_576)

# in which each sort of token stands
UNIT = ('[Stable] struct S_1 { array<map<uint8, string?>, 0x10>? name@12 = +42; }; // note\n'
        'const string T = "a\\n b"; /* x */ interface I { m@1([A=1] uint32 n) => (handle<platform> h); };\n')

# what a long message is made of, in bytes: as many as a payload has at most, and of one in which each value is sought among all members
MESSAGE = 67_108_864
SEARCHED = MESSAGE // 4
# how many members, fields or versions the definitions of these have
MANY = 4096
# How many methods an interface has where there are many.
METHODS = 4000


# ## Files

def repeated(size):
    """The unit, again and again, up to so many bytes."""
    return UNIT * (size // len(UNIT))


def defined(size, line, end):
    """The text of a file of about so many bytes, of definitions by their numbers."""
    text, number = ['module m;\n'], 0
    length = len(text[0])
    while length + 100 <= size:
        text.append(line(number))
        length += len(text[-1])
        number += 1
    return ''.join(text) + end(number), number


SHAPES = {
    # each with an array, and with a map of itself
    'structs': (lambda k: f'struct S{k} {{ int32 a@0; array<string> b@1; map<uint32, S{k}> c@2; }};\n', lambda k: ''),
    # each with the value of the next
    'chain': (lambda k: f'const int32 N{k} = N{k + 1};\n', lambda k: f'const int32 N{k} = 7;\n'),
    'enums': (lambda k: f'enum E{k} {{ A = E{k + 1}.A }};\n', lambda k: f'enum E{k} {{ A = 7 }};\n'),
}


def method(k):
    """A method, with the head of its interface before it and the end of that behind it, where it is the first and the last one."""
    head = f'[Stable] interface I{k // METHODS} {{\n' if k % METHODS == 0 else ''
    end = '};\n' if k % METHODS == METHODS - 1 else ''
    return f'{head}m{k}(uint32 a, string? b) => (array<uint8> c);\n{end}'


# Stable definitions, each file twice.
STABLE_SHAPES = {
    'structs': (lambda k: f'[Stable] struct S{k} {{ int32 a@0; array<string> b@1; map<uint32, S{k}> c@2; }};\n', lambda k: ''),
    # each has the next, and follows from the one before
    'chain of structs': (lambda k: f'{"" if k else "[Stable] "}struct S{k} {{ S{k + 1}? a@0; }};\n', lambda k: f'struct S{k} {{}};\n'),
    # each with the value of the next
    'enums': (lambda k: f'[Stable] enum E{k} {{ A = E{k + 1}.A }};\n', lambda k: f'[Stable] enum E{k} {{ A = 7 }};\n'),
    'methods': (method, lambda k: '};\n' if k % METHODS else ''),
}


def before(k):
    """A struct, an enum and an interface."""
    return (f'[Stable] struct S{k} {{ int32 a@0; array<E{k}, 4> b@1; map<uint32, S{k}> c@2; }};\n[Stable] enum E{k} {{ A, B }};\n'
            f'[Stable] interface I{k} {{ m(S{k} s) => (E{k} e); }};\n')


def after(k):
    """The same with all that may come later."""
    return (f'[Stable] struct S{k} {{ int32 a@0; array<E{k}>? b@1; map<uint32, S{k}?>? c@2; [MinVersion=1] string? d@3; }};\n'
            f'[Stable] enum E{k} {{ A, B, C }};\n[Stable] interface I{k} {{ m(S{k} s, [MinVersion=1] bool t) => (E{k} e); [MinVersion=1] n(); }};\n')


def pairs(size):
    """Two files of about so many bytes each, by what they have."""
    for shape, (line, end) in STABLE_SHAPES.items():
        text, count = defined(size, line, end)
        yield f'{count} {shape}', text, text
    new, count = defined(size, after, lambda k: '')
    yield f'{count} structs, enums and interfaces that grew', 'module m;\n' + ''.join(map(before, range(count))), new


# ## Messages

HEADER = (24, 0, 0, 0, 0, 0)
# The same with a moment, and so of version 3.
TIMED_HEADER = (56, 3, 0, 0, 0, 0, 0, 0, 24, 0, 0, 0, 7, 0)


def words(*numbers):
    return struct.pack(f'<{len(numbers)}I', *numbers)


def item_numbers(k, nullable):
    """The numbers of an item: where one may be null, it has a flag, and in each fourth item it is null."""
    kind, flag = k % 7, k % 2
    if not nullable:
        return k, 0, kind, flag
    return (flag * 2, kind, 0, 0) if k % 4 == 0 else (flag * 2 + 1, kind, k, 0)


def batch(count, nullable, header=HEADER):
    """A message of so many items: a number, a kind, a flag, a name and four tags each."""
    parts = [words(*header, 16, 0, 8, 0, count * 8 + 8, count)]
    parts += [words(count * 8 + k * 88, 0) for k in range(count)]
    for k in range(count):
        name = f'item number {k + 1_000_000}'.encode()
        parts.append(words(40, 0, *item_numbers(k, nullable), 16, 0, 40, 0, 27, 19) + name + bytes(5) + words(24, 4, k, k, k, k))
    return b''.join(parts)


def held(count, nullable):
    """What the items of a batch hold: how many of their numbers, flags and tags are above 0, and how many bytes their names have."""
    ids = sum(k > 0 and not (nullable and k % 4 == 0) for k in range(count))
    return ids + sum((k % 7 > 0) + k % 2 + 19 + 4 * (k > 0) for k in range(count))


def batch_file(nullable):
    mark = '?' if nullable else ''
    return (f'struct Item {{ uint64{mark} id; uint32 kind; bool flag; string name; array<uint32> tags; }};\n'
            'interface Sink { Push(array<Item> items); };\n')


def pointers(count, size):
    """So many pointers to objects of a size behind them, one for each."""
    return words(count * 8 + 8, count) + b''.join(struct.pack('<Q', (count - k) * 8 + k * size) for k in range(count))


def wide():
    """Empty lists, one behind the other, the last of which has a wrong header."""
    count = MESSAGE // 16
    return pointers(count, 8) + words(8, 0) * (count - 1) + words(7, 0)


def deep():
    """Chains of structs, as deep as may be; the last goes on without an end."""
    count = MESSAGE // (198 * 16 + 8)
    link = words(16, 0, 8, 0)
    chain = link * 197 + words(16, 0, 0, 0)
    return pointers(count, 198 * 16) + chain * (count - 1) + link * 198 + words(16, 0, 0, 0)


def overlapping():
    """Pointers that all lead to one list."""
    count = MESSAGE // 8
    return words(count * 8 + 8, count) + b''.join(struct.pack('<Q', (count - k) * 8) for k in range(count)) + words(8, 0)


def self_pointing():
    """A struct whose pointer leads into itself."""
    return words(16, 0, 1, 0) * (MESSAGE // 16)


def old_versions():
    """Structs of the oldest of many versions, the last of which is too short."""
    count = MESSAGE // 24
    return pointers(count, 16) + words(16, 0, 0, 0) * (count - 1) + words(8, 0, 0, 0)


def tags():
    """Unions of the tag that comes last among the fields, the last of a tag that none has."""
    count = SEARCHED // 16
    return words(count * 16 + 8, count) + words(16, 1, 0, 0) * (count - 1) + words(16, 0, 0, 0)


def unknown_tags():
    """Unions of tags that none of the fields has, the last of which is null."""
    count = SEARCHED // 16
    parts = [words(16, MANY + k, 0, 0) for k in range(count - 1)]
    return words(count * 16 + 8, count) + b''.join(parts) + words(0, MANY + count - 1, 0, 0)


def even(k):
    return 2 * k


def mixed(k):
    """The double for each even number, and for each odd one that many behind all of them, the later the less."""
    return even(k) if k % 2 == 0 else 4 * MANY - even(k)


def members(number):
    """A member of an enum, again and again, and at last a number that none has."""
    count = SEARCHED // 4
    return words(count * 4 + 8, count) + words(number) * (count - 1) + words(1)


def many(line):
    return ''.join(line(k) for k in range(MANY))


def dear_messages():
    """Long messages, each with its definitions."""
    lists = 'interface I { m(array<array<uint8>> a); };\n'
    chains = 'struct N { N? n; }; interface I { m(array<N> a); };\n'
    structs = 'struct S {\n' + many(lambda k: f'[MinVersion={k}] uint8 f{k};\n') + '}; interface I { m(array<S> a); };\n'
    falling = 'union U {\n' + many(lambda k: f'uint8 f{k}@{MANY - k};\n') + '}; interface I { m(array<U> a); };\n'
    rising = '[Extensible] union U {\n' + many(lambda k: f'uint8 f{k}@{k};\n') + '}; interface I { m(array<U> a); };\n'
    gaps = 'enum E {\n' + many(lambda k: f'M{k} = {even(k)},\n') + '}; interface I { m(array<E> a); };\n'
    unordered = 'enum E {\n' + many(lambda k: f'M{k} = {mixed(k)},\n') + '}; interface I { m(array<E> a); };\n'
    yield 'wide', lists, wide()
    yield 'deep', chains, deep()
    yield 'overlapping', lists, overlapping()
    yield 'self-pointing', 'struct N { N? n; }; interface I { m(N a); };\n', self_pointing()
    yield 'old versions', structs, old_versions()
    yield 'tags out of order', falling, tags()
    yield 'members with gaps', gaps, members(even(MANY - 1))
    yield 'unknown tags', rising, unknown_tags()
    yield 'members out of order', unordered, members(mixed(MANY - 1))


def batches():
    """The batches of items by their names, each with how many items it has, and whether their ids may be null."""
    for nullable in (False, True):
        for count in (10, 1000, 100_000):
            yield f'{count} items{" with ids that may be null" if nullable else ""}', count, nullable, batch(count, nullable)
    for count in (10, 1000, 100_000):
        yield f'{count} items behind a moment', count, False, batch(count, False, TIMED_HEADER)


def messages():
    """All messages by their names, each with its definitions."""
    for name, _, nullable, message in batches():
        yield name, batch_file(nullable), message
    for name, file, objects in dear_messages():
        yield name, file, words(*HEADER, 16, 0, 8, 0) + objects


# ## Scripts

SCRIPTS_FILE = 'module t; interface P { Ping(uint32 n); Give(handle h); Link(pending_associated_receiver<P> r); };'
THREADS_FILE = 'module t; interface P { Ping(uint32 n); Back(pending_associated_remote<P> r); };'
# The id of the first endpoint that a remote's end associates.
ASSOCIATED = 2_147_483_649


def binds(pipe):
    return [f'0: bind x{pipe} remote t.P', f'0: bind y{pipe} receiver t.P']


def call(pipe, number):
    return f'0: call x{pipe}#0 t.P.Ping ({number})'


def calls(most):
    """Calls and takes on one pipe, in turn."""
    lines = ['join 0 0 x0 y0', *binds(0)]
    for number in range((most - 4) // 2):
        lines += [call(0, number), '0: take y0']
    return lines


def pipes(most):
    """Pipes, of which half are joined, with one call and one take each."""
    count = (most - 1) // 5
    lines = [f'join 0 0 x{pipe} y{pipe}' for pipe in range(count // 2)]
    for pipe in range(count):
        lines += [f'0: pipe x{pipe} y{pipe}'] if pipe >= count // 2 else []
        lines += [*binds(pipe), call(pipe, pipe), f'0: take y{pipe}']
    return lines


def called(most, count):
    """So many pipes, and calls on them in turn; none is taken before the lines are done."""
    lines = [line for pipe in range(count) for line in (f'0: pipe x{pipe} y{pipe}', *binds(pipe))]
    return lines + [call(number % count, number) for number in range(most - 1 - 3 * count)]


def chain(first, count):
    """Ends that lie in one another: at each lies a message with the next, and at the last one with a token."""
    lines, last = [], first + count - 1
    for pipe in range(first, first + count):
        lines += [f'0: pipe x{pipe} y{pipe}', f'0: bind x{pipe} remote t.P']
    lines += [f'0: mint platform t{first}', f'0: call x{last}#0 t.P.Give (%0) t{first}']
    return lines + [f'0: call x{pipe}#0 t.P.Give (%0) y{pipe + 1}' for pipe in range(last - 1, first - 1, -1)]


def moves(most):
    """Short chains; one end is taken out of each, and all is closed."""
    lines = []
    for first in range(0, (most - 1) // 29 * 8, 8):
        lines += [*chain(first, 8), f'0: bind y{first} receiver t.P', f'0: take y{first} u{first}', f'0: close u{first}', f'0: close y{first}#0']
    return lines


def nested(most):
    """Long chains, each closed at once."""
    lines = []
    for first in range(0, (most - 1) // 12_002 * 4000, 4000):
        lines += [*chain(first, 4000), f'0: close y{first}']
    return lines


def endpoints(most):
    """Many associated endpoints of one pipe, each attached, and then calls on them and takes, in turn."""
    lines = ['join 0 0 x0 y0', *binds(0)]
    for k in range(1000):
        lines += [f'0: associate x0 remote t.P p{k}', f'0: call x0#0 t.P.Link (^0) p{k}', f'0: take y0 q{k}', f'0: attach q{k} 0']
    for number in range((most - 4004) // 2):
        lines += [f'0: call x0#{ASSOCIATED + number % 1000} t.P.Ping ({number})', '0: take y0']
    return lines


def controls(most):
    """Queries that are answered, and flushes, in turn on one pipe."""
    lines = ['join 0 0 x0 y0', *binds(0)]
    for _ in range((most - 4) // 5):
        lines += ['0: query x0#0', '0: take y0', '0: take x0', '0: flush x0', '0: take y0']
    return lines


def paused(most):
    """Many ends with a call each, which wait for flushes of one other, each for its own; one end is ready at a time."""
    count = (most - 4) // 6
    lines = [line for pipe in range(count) for line in (f'0: pipe x{pipe} y{pipe}', *binds(pipe), call(pipe, pipe))]
    lines += ['0: pipe x y', '0: bind x remote t.P', '0: bind y receiver t.P']
    for pipe in range(count):
        lines += [f'0: pause y{pipe} y {pipe + 1}', '0: flush x']
    return lines


def raw(most):
    """Raw messages on a few pipes; the first take at each end finds no header, and closes the end with all that lies there."""
    lines = [line for pipe in range(16) for line in (f'0: pipe x{pipe} y{pipe}', f'0: bind y{pipe} receiver t.P')]
    return lines + [f'0: raw x{number % 16} -' for number in range(most - 33)]


def own_pipes(seqs, most):
    """A pipe for each sequence, and calls and takes on it in turn."""
    lines = []
    for seq in range(seqs):
        lines += [f'{seq}: pipe x y', f'{seq}: bind x remote t.P', f'{seq}: bind y receiver t.P']
        for number in range(most // seqs // 2):
            lines += [f'{seq}: call x#0 t.P.Ping ({number})', f'{seq}: take y']
    return lines


def shared_pipe(seqs, most):
    """Calls on one pipe, each sequence's but the last one's from an endpoint of its own, which the last one takes; one alone calls and takes.
    Before its calls each makes tokens, so that the last one has attached all endpoints meanwhile."""
    last = seqs - 1
    callers = range(max(last, 1))
    lines = [f'join {last} {last} x y', f'{last}: bind x remote t.P', f'{last}: bind y receiver t.P']
    for seq in callers:
        lines += [f'{last}: associate x receiver t.P p{seq}', f'{last}: call x#0 t.P.Back (^0@0) p{seq}', f'{last}: take y q{seq}',
                  f'{last}: attach q{seq} {seq}']
        lines += [f'{seq}: mint platform t{number}' for number in range(8 * seqs)]
        lines += [f'{seq}: call y#{ASSOCIATED + seq} t.P.Ping ({number})' for number in range(most // 2 // len(callers))]
    return lines + [f'{last}: take x'] * (most // 2)


def script_text(seqs, lines):
    return f'seqs {seqs}\n' + ''.join(f'{line}\n' for line in lines)


def threaded_scripts():
    """Scripts of several sequences by their names, each with the number of its sequences."""
    for seqs in (1, 2, 4, 8, 16):
        yield f'own pipes {seqs}', seqs, own_pipes(seqs, 40_000)
        yield f'one pipe {seqs}', seqs, shared_pipe(seqs, 8000)


def scripts():
    """All scripts by their names."""
    for name, lines_of in (('calls', calls), ('pipes', pipes), ('controls', controls), ('moves', moves)):
        for most in (1000, 10_000, 40_000):
            yield f'{name} {most}', lines_of(most)
    yield 'many pipes', called(38_000, 10_000)
    yield 'nested ends', nested(36_010)
    yield 'unread messages', called(34_000, 16)
    for most in (10_000, 40_000):
        yield f'associated endpoints {most}', endpoints(most)
    for most in (6004, 24_004):
        yield f'paused ends {most}', paused(most)
    yield 'raw messages', raw(65_536)
