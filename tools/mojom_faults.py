"""What is wrong at a byte of a Mojom file, and what may stand there (docs/grammar.md, docs/language.md)."""
import difflib
import re

# The words of refusals: {0} is the first field behind the refusal's name, {1} the second, and so on.
REFUSALS = {
    'BadUtf8': 'from here on the bytes are no UTF-8: save the file as UTF-8',
    'BadChar': 'no token begins with this character; in a string a backslash stands only before `"`, `\\`, `n` and `t`',
    'OpenComment': 'this comment is not closed by `*/`; in `/*/` it is still open',
    'OpenString': 'this string is not closed on its line',
    'LeadingZero': 'a decimal number has no 0 before another digit: there are no octal numbers, and hexadecimal ones begin with `0x`',
    'NumberTooLong': 'this number is above 18,446,744,073,709,551,615',
    'Unexpected': 'no file goes on with this token here; what is wrong may stand right before it, as a `;` that is lacking',
    'TooNested': 'this type stands inside 32 others: give a part of it a struct of its own',
    'NoFile': 'no file of the name `{0}` was given: name it in the call, by this very word',
    'CircularImport': 'these files import one another in a circle: {*}; move what they need of one another to a further file',
    'DuplicateName': '`{0}` is the name of a definition or of a member before it already, or of a basic kind',
    'UnknownName': 'nothing that is seen here has the name `{0}`: import the file itself that defines it, or write more of its full name, as `E.A`',
    'WrongSort': 'what has the name `{0}` can\'t stand here: a kind is a struct, a union or an enum, `pending_remote<I>` one of an interface I',
    'CircularConst': 'the value of `{0}` needs itself',
    'WrongLiteral': 'the value at `{0}` is of another sort than its kind, which may have none; a default of an enum is the name of one of its enumerators',
    'OutOfRange': '{1} is outside of `{0}`',
    'TooManyFields': '`{0}` has more than 4,096 members',
    'EmptyEnum': 'the enum `{0}` has no enumerator',
    'DoubleDefault': 'an enumerator before `{0}` has `Default` already',
    'FloatField': 'the type of `{0}` has `float` or `double`: send an integer of an agreed unit',
    'BadMapKey': 'the key of a map is a bool, an integer, an enum or a string: send an array of structs in place of `{0}`',
    'NullableKey': 'the key of a map has no `?`, as that of `{0}` does',
    'BadNullable': 'a bool, an integer or an enum has a `?` only as a field of a struct or a parameter, not as in the type of `{0}`: put a struct round it',
    'ZeroLengthArray': 'an array in the type of `{0}` has the length 0',
    'OrdinalDouble': 'a member before `{0}` has the ordinal {1} already',
    'OrdinalGap': 'no member of `{0}` has the ordinal {1}, and a greater one is there',
    'VersionFalls': 'by its ordinal `{0}` comes behind a member of version {1}, and has version {2}: new fields go to the end',
    'LateNotNullable': '`{0}` came after version 0, so that older messages lack it: give its type a `?`',
}

# What a character that begins no token may have been meant as.
CHARACTERS = {'\ufeff': 'the file begins with a byte order mark, which has to go', '#': 'comments begin with `//`', '\'': 'strings stand in `"`',
              '&': 'an interface goes as `pending_remote<I>` or `pending_receiver<I>`', ':': 'a definition has no bases, and names have dots',
              '\xa0': 'this blank is none of ASCII'}
# What a word before `<` may have been meant as.
BRACKETS = {'remote': 'pending_remote', 'receiver': 'pending_receiver', 'associated_remote': 'pending_associated_remote', 'vector': 'array',
            'list': 'array', 'optional': 'a `?` behind the type', 'associated_receiver': 'pending_associated_receiver',
            'associated': 'pending_associated_remote'}

BASIC = ['bool', 'int8', 'int16', 'int32', 'int64', 'uint8', 'uint16', 'uint32', 'uint64', 'string', 'float', 'double']
SORTS = ('message_pipe', 'data_pipe_consumer', 'data_pipe_producer', 'shared_buffer', 'platform')
KEYWORDS = ('module', 'import', 'struct', 'union', 'enum', 'interface', 'const', 'true', 'false', 'array', 'map', 'handle', 'pending_remote',
            'pending_receiver', 'pending_associated_remote', 'pending_associated_receiver')

# The rules of the grammar: `|` parts what may stand in place of one another, behind a star is any number and behind a `?` at most one. What
# has no rule here is a word or a sign of the file, a `Null` its `?`, and Id, Number, String and Sort are what docs/grammar.md says.
RULES = '''
    File: Module? Import* Def*
    Module: Attrs? module Name ;
    Import: Attrs? import String ;
    Def: Attrs? Defined
    Defined: Struct | Union | Enum | Interface | Const
    Struct: struct Id { InStruct* } ;
    InStruct: Attrs? StructMember
    StructMember: Const | Enum | Field
    Field: Type Id Ord? Given? ;
    Given: = Val
    Union: union Id { UnionField* } ;
    UnionField: Attrs? Type Id Ord? ;
    Enum: enum Id { Enumerators? } ;
    Enumerators: Enumerator NextEnumerator* ,?
    NextEnumerator: , Enumerator
    Enumerator: Attrs? Id Given?
    Interface: interface Id { InInterface* } ;
    InInterface: Attrs? InterfaceMember
    InterfaceMember: Const | Enum | Method
    Method: Id Ord? Params Response? ;
    Response: => Params
    Params: ( Parameters? )
    Parameters: Parameter NextParameter*
    NextParameter: , Parameter
    Parameter: Attrs? Type Id Ord?
    Const: const Type Id = Val ;
    Attrs: [ AttrList? ]
    AttrList: Attr NextAttr* ,?
    NextAttr: , Attr
    Attr: Id Given?
    Type: Base Null?
    Base: Name | array < Type Length? > | map < Type , Type > | handle OfSort? | Pending < Name >
    Length: , Number
    OfSort: < Sort >
    Pending: pending_remote | pending_receiver | pending_associated_remote | pending_associated_receiver
    Val: String | true | false | Sign? Number | Name
    Sign: + | -
    Name: Id NextName*
    NextName: . Id
    Ord: @ Number
'''
GRAMMAR = {line.split(':')[0].strip(): [form.split() for form in line.split(':', 1)[1].split(' | ')] for line in RULES.strip().splitlines()}
PARTS = re.compile(r'(?P<blank>[ \t\r\n]+|//[^\n]*|/\*.*?\*/)|(?P<Id>[A-Za-z_][A-Za-z0-9_]*)|(?P<Number>0[xX][0-9A-Fa-f]+|[0-9]+)|'
                   r'(?P<String>"(?:[^"\\\n]|\\.)*")|(?P<sign>=>|[;,.()\[\]{}<>=?@+-])', re.S)
# More tokens are not looked at: that would take some seconds.
MOST_TOKENS = 100000
# How what may stand at a place is told, where all of these may.
GROUPS = (('a definition', {'struct', 'union', 'enum', 'interface', 'const'}),
          ('a type', {'Id', 'array', 'map', 'handle', 'pending_remote', 'pending_receiver', 'pending_associated_remote', 'pending_associated_receiver'}),
          ('a value', {'String', 'true', 'false', '+', '-', 'Number', 'Id'}),
          ('one of the four `pending_` keywords', {'pending_remote', 'pending_receiver', 'pending_associated_remote', 'pending_associated_receiver'}))
NAMED = {'Id': 'an identifier', 'Number': 'a number', 'String': 'a string in `"`', 'Sort': f'a sort of handles ({", ".join(SORTS)})', 'Null': '`?`',
         'end': 'the end of the file'}


def tokens_of(text):
    """The tokens before the first place where there is none: class, text and place."""
    tokens, at = [], 0
    while found := PARTS.match(text, at):
        sort, word = found.lastgroup, found.group()
        if sort != 'blank':
            tokens.append((sort if sort in ('Number', 'String') or sort == 'Id' and word not in KEYWORDS else word, word, at))
        at = found.end()
    return tokens


def takes(symbol, token):
    """Whether a token is what stands at this place."""
    if symbol == 'Sort':
        return token[0] == 'Id' and token[1] in SORTS
    return symbol == {'?': 'Null'}.get(token[0], token[0])


def opened(states):
    """The states in which a token stands next, or nothing: what stands there, and what stands behind it."""
    found, seen, waiting = {}, set(), list(states)
    while waiting:
        state = waiting.pop()
        if state in seen:
            continue
        seen.add(state)
        symbol, behind = state or ('end', None)
        if len(symbol) > 1 and symbol[-1] in '*?':
            once = symbol[:-1]
            waiting += [behind, (once, state if symbol[-1] == '*' else behind)]
        elif symbol in GRAMMAR:
            for form in GRAMMAR[symbol]:
                state = behind
                for part in reversed(form):
                    state = (part, state)
                waiting.append(state)
        else:
            found.setdefault(symbol, []).append(behind)
    return found


def expected(tokens):
    """How many tokens are the beginning of a file, and what may stand behind those."""
    states = [('File', None)]
    for count, token in enumerate(tokens):
        next_ones = opened(states)
        states = [behind for symbol, behinds in next_ones.items() if takes(symbol, token) for behind in behinds]
        if not states:
            return count, set(next_ones)
    return len(tokens), set(opened(states))


def told(symbols):
    """What may stand at a place, in words."""
    words, left = [], set(symbols)
    for name, group in GROUPS:
        if group <= left:
            words, left = words + [name], left - group
    words += sorted(NAMED.get(symbol, f'`{symbol}`') for symbol in left)
    return ' or '.join([', '.join(words[:-1])] * (len(words) > 1) + words[-1:])


def unexpected(text, at):
    """What may stand at a token where no file goes on; `at` is its place, or the text's length."""
    tokens = tokens_of(text)
    if len(tokens) > MOST_TOKENS:
        return None
    count, symbols = expected(tokens)
    if (tokens[count][2] if count < len(tokens) else len(text)) != at:
        return None
    before = tokens[count - 1] if count else ('', '', 0)
    sentence = f'here stands {told(symbols)}'
    if count == len(tokens):
        return f'the file ends here, where it can\'t yet: {sentence}'
    if tokens[count][1] == '.' and before[0] == 'Number':
        return 'there are no numbers with a point'
    if tokens[count][1] == '<' and before[1] in BRACKETS:
        meant = BRACKETS[before[1]]
        return f'`{before[1]}` has nothing in brackets; {meant if " " in meant else f"`{meant}`"} may be meant'
    near = difflib.get_close_matches(tokens[count][1], [symbol for symbol in symbols if symbol in KEYWORDS], 1, 0.75)
    if near:
        return f'{sentence}; `{near[0]}` may be meant'
    if count and '\n' in text[before[2]:at] and symbols & {';', ','}:
        line = text.count('\n', 0, before[2]) + 1
        sentence += f'; it may be lacking behind `{before[1]}` in line {line}'
    return sentence


def nearest(name, text):
    """The nearest of the basic kinds and of the names that the file itself defines."""
    own = re.findall(r'\b(?:struct|union|enum|interface)\s+(\w+)', text) + re.findall(r'\bconst\s+[^;=]*?(\w+)\s*=', text)
    found = difflib.get_close_matches(name.lower(), [word.lower() for word in BASIC + own], 1, 0.75)
    return next((word for word in BASIC + own if found and word.lower() == found[0] and word != name), None)


def filled(words, fields):
    """A sentence with the fields of a refusal in it."""
    words = words.replace('{*}', ', '.join(fields))
    return re.sub(r'\{(\d)\}', lambda found: fields[int(found[1])] if int(found[1]) < len(fields) else '?', words)


def sentence(why, fields, name, data, at):
    """What is wrong at a byte of a Mojom file of this name."""
    text = data.decode('utf-8', 'replace')
    place = len(data[:at].decode('utf-8', 'replace'))
    if why == 'Unexpected':
        return unexpected(text, place) or REFUSALS[why]
    if why == 'BadChar' and text[place:place + 1] in CHARACTERS:
        return f'no token begins with this character: {CHARACTERS[text[place]]}'
    if why == 'CircularImport' and len(fields) == 1:
        return 'the file imports itself'
    if why == 'DuplicateName' and fields == [name]:
        return 'this file is given twice'
    if why == 'DuplicateName' and fields[0] in BASIC:
        return f'`{fields[0]}` is a basic kind, so no definition has this name'
    near = nearest(fields[0], text) if why == 'UnknownName' else None
    return filled(REFUSALS[why], fields) + (f'; `{near}` may be meant' if near else '')
