"""What is wrong with a refused line of a script, and at which of its words (docs/scripts.md has the forms of lines)."""
import difflib
import re

import message_reader
import value_faults

MOST_SEQUENCES = 16
# So many interfaces are named where none is like the one that is sought.
FEW = 6

# A command's words: what stands at each place; a star says that any number of such words may follow.
FORMS = {
    'pipe': ('new', 'new'),
    'mint': ('sort', 'new'),
    'bind': ('name', 'side', 'interface'),
    'associate': ('name', 'side', 'interface', 'new'),
    'attach': ('name', 'sequence'),
    'call': ('target', 'method', 'value', 'name*'),
    'take': ('name', 'new*'),
    'answer': ('name', 'method', 'value', 'name*'),
    'call-at': ('moment', 'target', 'method', 'value', 'name*'),
    'answer-at': ('moment', 'name', 'method', 'value', 'name*'),
    'query': ('target',),
    'require': ('target', 'version'),
    'flush': ('name',),
    'pause': ('name', 'name', 'flush'),
    'raw': ('name', 'bytes', 'name*'),
    'data': ('size', 'new', 'new'),
    'put': ('name', 'bytes'),
    'put-all': ('name', 'bytes'),
    'get': ('name', 'count'),
    'get-all': ('name', 'count'),
    'begin-put': ('name',),
    'end-put': ('name', 'bytes'),
    'begin-get': ('name',),
    'end-get': ('name', 'count'),
    'close': ('name or target',),
}
# The commands that give a response.
ANSWERS = ('auto', 'answer', 'answer-at')
SETUP = {'join': ('sequence', 'sequence', 'new', 'new'), 'auto': ('sequence', 'method', 'value')}

NAME = r'[a-z][a-z0-9_]{0,31}'
NUMBER = r'0|[1-9][0-9]*'
PART = r'[A-Za-z_][A-Za-z0-9_]*'
SORTS = {
    'new': (NAME, 'a name is a small letter and then small letters, digits and `_`, at most 32 in all'),
    'name': (NAME, 'here stands a name alone, a small letter and then small letters, digits and `_`, at most 32 in all'),
    'target': (rf'{NAME}#({NUMBER})', 'here stands an endpoint, as `x#0`: the name of its end, `#`, and its id without leading zeros, below 4294967296'),
    'name or target': (rf'{NAME}(#({NUMBER}))?', 'here stands a name, or an endpoint as `x#0`, whose id has no leading zeros and is below 4294967296'),
    'sequence': (NUMBER, 'here stands the number of a sequence, counted from 0, without leading zeros'),
    'moment': ('0|-?[1-9][0-9]*', 'here stands a moment, a number of 64 bits, with `-` where it is below 0, without leading zeros'),
    'version': (NUMBER, 'here stands a version, a number without leading zeros, below 4294967296'),
    'flush': (NUMBER, 'here stands the number of a flush, without leading zeros, below 4294967296'),
    'size': (NUMBER, 'here stands how many bytes the data pipe holds at most, a number without leading zeros, below 4294967296'),
    'count': (NUMBER, 'here stands how many bytes, a number without leading zeros, below 4294967296'),
    'side': ('remote|receiver', 'here stands `remote` or `receiver`'),
    'sort': ('shared_buffer|platform', 'here stands `shared_buffer` or `platform`'),
    'bytes': ('-|([0-9a-f]{2})+', 'bytes are pairs of hexadecimal digits in lower case, and `-` where there are none'),
    'interface': (rf'{PART}(\.{PART})*', 'here stands the full name of an interface, as `t.P`'),
    'method': (rf'{PART}(\.{PART})+', 'here stands the full name of a method, as `t.P.Ping`'),
    'value': (r'[\s\S]+', ''),
}

# The numbers that a word of a sort may be, where not all are.
RANGES = {'moment': range(-2 ** 63, 2 ** 63), **{sort: range(2 ** 32) for sort in ('version', 'flush', 'size', 'count')}}

# What is lacking where a line ends too early.
LACKING = {'new': 'a name', 'name': 'a name', 'target': 'an endpoint, as `x#0`', 'name or target': 'a name, or an endpoint as `x#0`',
           'value': 'a value, as `(7)`, or `()` for no parameters', 'bytes': 'bytes in hexadecimal, or `-` for none',
           'method': 'the full name of a method', 'interface': 'the full name of an interface', 'side': '`remote` or `receiver`',
           'sort': '`shared_buffer` or `platform`', 'sequence': 'the number of a sequence',
           'moment': 'a moment, as `-5`', 'version': 'a version, as `2`', 'flush': 'the number of a flush, as `1`',
           'size': 'how many bytes it holds at most, as `4096`', 'count': 'how many bytes, as `16`'}


def words_of(line):
    """The words of a line, each with its place: blanks part them, but for those in a string."""
    words, begin, in_string, is_escaped = [], 0, False, False
    for at, letter in enumerate(line):
        if letter == ' ' and not in_string:
            words.append((begin, line[begin:at]))
            begin = at + 1
        elif in_string and is_escaped:
            is_escaped = False
        elif in_string and letter == '\\':
            is_escaped = True
        elif letter == '"':
            in_string = not in_string
    return words + [(begin, line[begin:])]


def parts(line):
    """The number of a line's sequence, '' for a line of the setup, its command with its place, and its words."""
    words = words_of(line)
    found = re.fullmatch(r'([0-9]+):', words[0][1])
    sequence, behind = (found[1], words[1:]) if found else ('', words)
    return sequence, behind[0] if behind else (len(line), ''), behind[1:]


def sorts(command, count, forms):
    """What stands at each of so many places behind a command; fewer where it has no form with so many."""
    form = forms[command]
    if form[-1].endswith('*'):
        form = form[:-1] + (form[-1][:-1],) * max(0, count - len(form) + 1)
    return form


def numbered(seqs):
    return 'there is one sequence, 0' if seqs == 1 else f'there are {seqs} sequences, 0 to {seqs - 1}'


def is_cut(value):
    """Whether a value ends within its brackets, as one does that has a blank in it."""
    code = re.sub(r'"(?:\\.|[^"\\])*"', '', value)
    return sum(code.count(bracket) for bracket in '([{<') > sum(code.count(bracket) for bracket in ')]}>')


CUT = 'a blank outside of a string ends a value, and this one is not whole: it has no blanks'


def odd_word(words, form, seqs):
    """The place of the first word that isn't what stands there, and why; None where all are."""
    for (at, word), sort in zip(words, form):
        pattern, why = SORTS[sort]
        if sort == 'value' and is_cut(word):
            return at + len(word), CUT
        found = re.fullmatch(pattern, word)
        if not found:
            return at, why
        if sort == 'sequence' and int(word) >= seqs:
            return at, numbered(seqs)
        if sort in RANGES and int(word) not in RANGES[sort]:
            return at, why
        if 'target' in sort and '#' in word and int(word.split('#')[1]) >= 2 ** 32:
            return at, why
    return None


# What a line has that no script has: each with what is wrong there.
LETTERS = (('\r$', 'the line ends in a carriage return: lines end in a line feed alone'), ('\ufffd', 'a script is UTF-8'),
           ('^\ufeff', 'the file begins with a byte order mark, which has to go'), ('\t', 'words are parted by one blank, and not by a tab'),
           ('[\xa0\u2000-\u200b\u3000]', 'words are parted by the blank of ASCII, and this one is another'))
COMMENT = 'there are no comments in scripts'


def bad_line(lines, number, tables):
    """The place, and why the line has no form that may stand there."""
    line = lines[number - 1] if number <= len(lines) else ''
    for letters, why in LETTERS:
        found = re.search(letters, line)
        if found:
            return found.start(), why
    if number == 1:
        return 0, f'the first line is `seqs K` with a K from 1 to {MOST_SEQUENCES}, and nothing else'
    if not line:
        return 0, 'each line says something: there are no empty lines'
    if line.startswith(('#', '//')):
        return 0, COMMENT
    blank = next((at for at, word in words_of(line) if not word), None)
    if blank is not None:
        return max(0, blank - 1) if blank == len(line) else blank, 'words have one blank between them, and none stands before the first or behind the last'
    return odd_form(lines, number, line)


def odd_command(line, command, at, sequence):
    """Why a line's command is none, where that is known."""
    if not command:
        return len(line), 'behind the number of the sequence and `:` a command is lacking'
    if command.endswith(':'):
        return at, 'behind the number of the sequence and `:` stands a command' if sequence else 'a sequence is a number, as in `0:`'
    if command in FORMS and not sequence:
        return 0, f'`{command}` stands behind the number of its sequence, as `0: {command}`'
    if command in SETUP and sequence:
        return 0, f'`{command}` is a line of the setup, without a sequence and `:` before it'
    if not sequence and re.match('[0-9]+:', command):
        return command.index(':') + 1, 'behind the number of the sequence and `:` stands a blank'
    if not sequence and re.fullmatch('[0-9]+', command):
        return len(command), f'behind the number of the sequence stands `:`, as `{command}:`'
    if command in (FORMS if sequence else SETUP):
        return None
    near = difflib.get_close_matches(command.lower(), [*SETUP, *FORMS], 1, 0.6)
    return at, 'no command has this name' + (f'; `{near[0]}` may be meant' if near else ': ' + ', '.join([*SETUP, *FORMS]))


def odd_form(lines, number, line):
    """The place, and why a line of words has none of the forms."""
    sequence, (at, command), words = parts(line)
    seqs = int(re.sub(r'\D', '', lines[0]) or 1)
    forms = FORMS if sequence else SETUP
    if sequence and (not re.fullmatch(NUMBER, sequence) or int(sequence) >= seqs):
        return 0, f'a line begins with the number of its sequence and `:`; {numbered(seqs)}'
    odd = odd_command(line, command, at, sequence)
    if odd:
        return odd
    form = sorts(command, len(words), forms)
    comment = next((at for at, word in words if word.startswith(('#', '//'))), None)
    if comment is not None:
        return comment, COMMENT
    odd = odd_word(words, form, seqs)
    if odd:
        return odd
    if len(words) > len(form):
        return words[len(form)][0], f'behind `{command}` {"stands one word" if len(form) == 1 else f"stand {len(form)} words"}, and no more'
    if len(words) < len(form):
        return len(line), f'behind `{command}` a word is lacking: {LACKING[form[len(words)]]}'
    if command in SETUP:
        return 0, 'the lines of the setup, `join` and `auto`, stand before those of the sequences'
    return 0, 'the line has none of the forms'


def names(line):
    """The sequence of a line, the names that it uses and those that it sets, each with its place."""
    sequence, (_, command), words = parts(line)
    forms = FORMS if sequence else SETUP
    used, new = [], []
    for (at, word), sort in zip(words, sorts(command, len(words), forms) if command in forms else ()):
        if sort == 'new':
            new.append((at, word))
        elif sort in ('name', 'target', 'name or target'):
            used.append((at, word.split('#')[0]))
    return sequence, used, new


def setters(lines, sequence):
    """The names that joins and a sequence's own lines set, each with the number of the first line that does."""
    found = {}
    for number, line in enumerate(lines, 1):
        own, _, new = names(line)
        for _, name in new if own in ('', sequence) else ():
            found.setdefault(name, number)
    return found


def nearest(name, tables, is_response=False):
    """Which full names may be meant in place of one that the files lack, or that has no response."""
    methods = [f'{interface}.{method}' for interface, own in tables.interfaces.items() for method in own.values()]
    if name in methods:
        return '; this method has no response' if is_response else ''
    known = [*tables.interfaces, *methods]
    found = [one for one in known if one.endswith(f'.{name}')] or difflib.get_close_matches(name, known, 1, 0.6)
    few = ', '.join(tables.interfaces) if len(tables.interfaces) <= FEW else None
    return f'; `{found[0]}` may be meant' if found else f'; they have the interfaces {few}' if few else ''


def unknown_name(lines, number, tables):
    line = lines[number - 1]
    sequence, used, _ = names(line)
    set_by = setters(lines, sequence)
    for at, name in used:
        if set_by.get(name, number) >= number:
            others = [own for own in sorted({names(line)[0] for line in lines[1:]} - {'', sequence}) if name in setters(lines, own)]
            later = f'; line {set_by[name]} does' if set_by.get(name, number) > number else f'; sequence {others[0]} has one of its own' if others else ''
            return at, f'no join, and no line of sequence {sequence} before this one, sets `{name}`{later}'
    _, (_, command), words = parts(line)
    form = sorts(command, len(words), FORMS if sequence else SETUP)
    (at, word), sort = next((word, sort) for word, sort in zip(words, form) if sort in ('interface', 'method'))
    is_answer = command in ANSWERS
    more = ' whose request has a response' if is_answer else ''
    near = nearest(word, tables(), is_answer) if tables() else ''
    return at, f'the files have no {sort} of this full name{more}; the full name begins with the module, as `t.P` or `t.P.Ping`{near}'


def double_name(lines, number, tables):
    line = lines[number - 1]
    sequence, _, new = names(line)
    set_by = setters(lines[:number - 1], sequence)
    for at, name in new:
        if name in set_by:
            return at, f'`{name}` is set already, by line {set_by[name]}: a name is set once'
        set_by[name] = number
    _, _, words = parts(line)
    return words[1][0] if len(words) > 1 else 0, 'this sequence has an `auto` line for this method already'


def odd_value(method, value, is_response, tables):
    """The place in a value, in characters, and what is wrong there, by the tables; None where they aren't known."""
    struct = message_reader.parameters_of(method, is_response)
    if not tables or struct not in tables.structs:
        return None
    found = value_faults.fault(tables, struct, value.encode()) or value_faults.misfit(tables, struct, value.encode())
    return found and (len(value.encode()[:found[0]].decode('utf-8', 'replace')), found[1])


def bad_value(lines, number, tables):
    sequence, (_, command), words = parts(lines[number - 1])
    form = sorts(command, len(words), FORMS if sequence else SETUP)
    at, value = next((word for word, sort in zip(words, form) if sort == 'value'), (0, ''))
    method = next((word for (_, word), sort in zip(words, form) if sort == 'method'), '')
    if is_cut(value):
        return at + len(value), CUT
    odd = odd_value(method, value, command in ANSWERS, tables())
    if odd:
        return at + odd[0], odd[1]
    index = re.search('[%^]', re.sub(r'"(?:\\.|[^"\\])*"', lambda found: '.' * len(found[0]), value))
    if command == 'auto' and index:
        return at + index.start(), 'the value of an `auto` line carries no handles and endpoints'
    of = 'parameters of the method\'s response' if command in ANSWERS else 'parameters of the method'
    return at, f'this is no value of the {of}, or more of it is to be sent than goes into one message'


def too_many_lines(lines, number, tables):
    return 0, 'a script has at most 65,536 lines'


REFUSALS = {'BadLine': bad_line, 'DoubleName': double_name, 'UnknownName': unknown_name, 'BadValue': bad_value, 'TooManyLines': too_many_lines}


def fault(data, number, why, tables):
    """The line of a script that is refused, the place in it in characters, and what is wrong there. `tables` gives the tables or None."""
    lines = data.decode('utf-8', 'replace').split('\n')
    at, told = REFUSALS[why](lines, number, tables)
    return lines[number - 1] if number <= len(lines) else '', at, told
