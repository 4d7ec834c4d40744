"""Where definitions and their members stand in a Mojom file, by the full names and the numbers that the tables of `check` have."""
import mojom_faults
import message_reader

SORTS = ('struct', 'union', 'enum', 'interface')
OPENS, CLOSES = '([{<', ')]}>'
# What stands before a name that is a value, and no member.
BEFORE_VALUES = ('=', '.', '+', '-')
# What stands behind the name of a member, and before that of an enumerator.
BEHIND_FIELD, BEHIND_METHOD, BEFORE_ENUMERATOR, BEHIND_PARAMETER = ('@', '=', ';'), ('@', '('), ('{', ',', ']'), ('@', ',', ')')


def module_of(tokens):
    """What full names begin with: the module and a dot, or nothing."""
    begin = next((number for number, token in enumerate(tokens) if token[0] == 'module'), None)
    if begin is None:
        return ''
    end = next(number for number in range(begin, len(tokens)) if tokens[number][0] == ';')
    return ''.join(token[1] for token in tokens[begin + 1:end]) + '.'


def definitions(tokens):
    """The definitions by their full names: the numbers of the tokens of the name and of the brackets round the body."""
    found, around, begun = {}, [(module_of(tokens), None, None)], None
    for number, (sort, _, _) in enumerate(tokens):
        if sort in SORTS:
            begun = (f'{around[-1][0]}{tokens[number + 1][1]}.', number + 1)
        elif sort == '{':
            around.append((*begun, number))
        elif sort == '}':
            full, name, opened = around.pop()
            found[full[:-1]] = (name, opened, number)
    return found


def inside(tokens, opened, closed):
    """The numbers of the tokens between two brackets, but for those in further ones."""
    depth = 0
    for number in range(opened + 1, closed):
        sort = tokens[number][0]
        depth -= sort in CLOSES
        if depth == 0:
            yield number
        depth += sort in OPENS


def group_behind(tokens, number):
    """The numbers of the next round brackets behind a token."""
    opened = next(at for at in range(number, len(tokens)) if tokens[at][0] == '(')
    closed = next(at for at in range(opened, len(tokens)) if tokens[at][0] == ')')
    return opened, closed


def named(tokens, numbers, name, behind=None, before=None):
    """The number of the token that has this name, with one of these behind it or before it; None where there is none."""
    for number in numbers:
        sort, word, _ = tokens[number]
        last, following = tokens[number - 1][0], tokens[number + 1][0]
        if sort == 'Id' and word == name and last not in BEFORE_VALUES and (not behind or following in behind) and (not before or last in before):
            return number
    return None


def parameter(tokens, found, full, name):
    """The number of a parameter's token, or else of its method's: the struct's full name ends in the method's and `request` or `response`."""
    interface, method, side = full.rsplit('.', 2)
    if interface not in found:
        return None
    at = named(tokens, inside(tokens, *found[interface][1:]), method, BEHIND_METHOD)
    if at is None:
        return found[interface][0]
    opened, closed = group_behind(tokens, at)
    if side == 'response':
        if tokens[closed + 1][0] != '=>':
            return at
        opened, closed = group_behind(tokens, closed)
    one = named(tokens, inside(tokens, opened, closed), name, BEHIND_PARAMETER) if name else None
    return at if one is None else one


def member_name(tables, full, number):
    """The name of the member of this ordinal, tag or number; None where there is none, or where no tables are known."""
    if tables is None or number is None:
        return None
    for table in (tables.structs, tables.unions, tables.enums, tables.interfaces):
        if full in table:
            one = table[full].get(number)
            return one.name if isinstance(one, message_reader.Field) else one
    return None


def token_of(tokens, tables, full, number):
    """The number of the token of a member's name, or else of its definition's; None where the file has none of this full name."""
    found, name = definitions(tokens), member_name(tables, full, number)
    if full not in found:
        return parameter(tokens, found, full, name) if full.count('.') > 1 else None
    at, opened, closed = found[full]
    numbers = list(inside(tokens, opened, closed))
    sort = tokens[at - 1][0]
    if sort == 'enum':
        one = named(tokens, numbers, name, None, BEFORE_ENUMERATOR)
    else:
        one = named(tokens, numbers, name, BEHIND_METHOD if sort == 'interface' else BEHIND_FIELD)
    return at if one is None else one


def place_of(data, tables, full, number):
    """The byte where a member of a definition stands, or else the definition; None where the file has none."""
    text = data.decode('utf-8', 'replace')
    tokens = mojom_faults.tokens_of(text)
    at = token_of(tokens, tables, full, number)
    return None if at is None else len(text[:tokens[at][2]].encode())
