"""What documents say of the tree, beside the tree: the map of crates and definitions, sizes, limits, how much is tried, paths and links."""
import glob
import os
import re
import subprocess
import sys

import gate_facts
import unproved
from case_files import cases_of

TOP = os.path.dirname(os.path.dirname(os.path.abspath(__file__)))
# How far a size may be from the one on the page, as a part of it, and by itself.
PART, FEW = 0.06, 10
# The numbers of what programs of the gate tried: where they stand, and the pages that have them.
TRIED = (('crates/conformance/stdout', r'^(\d+) passed', ('README.md', 'docs/promise.md')),
         ('crates/checks/stdout', r'^(\d+) cases', ('README.md', 'docs/promise.md')),
         ('crates/checks/stdout', r'and (\d+) made sets', ('README.md', 'docs/promise.md')),
         ('crates/checks/stdout', r'^(\d+) passed', ('README.md',)),
         ('crates/checks/stdout', r'^(\d+) compared, 0 differences', ('README.md', 'docs/promise.md')),
         ('crates/checks/stdout', r'^(\d+) scripts, 0 differences$', ('README.md', 'docs/promise.md')),
         ('crates/checks/stdout', r'^(\d+) texts of histories, 0 differences$', ('README.md', 'docs/promise.md')),
         ('crates/checks/stdout', r', (\d+) steps, differ 0$', ('README.md', 'docs/promise.md')))

# How pages write small numbers.
WORDS = ('none', 'one', 'two', 'three', 'four', 'five', 'six', 'seven', 'eight', 'nine', 'ten', 'eleven', 'twelve', 'thirteen', 'fourteen', 'fifteen',
         'sixteen', 'seventeen', 'eighteen', 'nineteen', 'twenty')
# What the program of checks prints a line for, and how the README tells how many there are.
COUNTED = ((r'^.*: \d+ texts, \d+ scripts, \d+ events, 0 differ$', 'all that {} walks give of up to five lines'),
           (r'^.*: \d+ lists, \d+ steps, 0 differ$', 'all that {} walks of two sequences give'))
# The literal programs, as the page of promises has their sizes.
LITERAL = (('bind_reference', 'script_reference', 'past_reference', 'data_reference'), ('wire_reference',), ('names_reference',), ('kinds_reference',),
           ('compat_reference',), ('layout_reference',))
# What it prints of the messages that were worked by hand.
MESSAGES = r'^.*: \d+ compared, \d+ stand, \d+ refused, 0 differ$'

# A link to a file or a heading of the repository.
LINK = re.compile(r'\[[^\]]*\]\((?!https?:)([^)\s#]*)(?:#([^)\s]*))?\)')

# A file or a folder of the repository, without those that only a build makes, and a must-fail edit by its name.
PATH = re.compile(r'`((?:crates|docs|examples|tools)/(?!X/|\w+/out|\*/out)[\w./*-]+|must-fail/\w+\.edit)`')

# A name where code or definitions give it to something.
DEFINED = re.compile(r'^ *(?:pub(?:\(\w+\))? |ghost |const |unfoldable |abbrev |mutual |data |record |fn |struct |enum |trait |mod |type |impl(?:<.*>)? |'
                     r'requires |ensures )*(\w+)(?=[ ,:;({<]|$)', re.M)

# A name with the file where a page says that it stands.
PLACED = re.compile(r'`(\w+)` (?:in|of) `(crates/[^`*]+\.(?:antt|rt|cases))`')


def text_of(name):
    with open(os.path.join(TOP, name), encoding='utf-8') as opened:
        return opened.read()


def crates():
    """The crates, each with those that it stands on."""
    lines = [line.split(':') for line in text_of('crates.txt').splitlines() if ':' in line and not line.startswith('#')]
    return {name: below.split() for name, below in lines}


def longest_chain(below, crate):
    """How many crates stand on one another below this one, itself included."""
    return 1 + max((longest_chain(below, other) for other in below[crate] if other in below), default=0) if crate in below else 0


def files_of_specs(crate):
    """The files of definitions of a crate, without steps and what only names them."""
    names = glob.glob(os.path.join(TOP, 'crates', crate, 'specs', '*.antt'))
    return {os.path.basename(name)[:-len('.antt')] for name in names} - {'Lib', 'steps', 'declared'}


def first_line(crate, name):
    """What a file of definitions says of itself."""
    return text_of(f'crates/{crate}/specs/{name}.antt').split('\n', 1)[0].lstrip('- ')


def mapped(text, below):
    """The files that the map of definitions names of each crate: a file stands behind its crate in a row's second cell."""
    found = {crate: set() for crate in below}
    for row in re.findall(r'^\| .* \| (.*) \|$', text[text.index('## Where each definition lives'):], re.M):
        crate = None
        for word in re.finditer(r'`(?:specs/)?(\w+)`|\b([a-z_]+)\b', row):
            if word[1] and crate:
                found[crate].add(word[1])
            elif word[2] in below:
                crate = word[2]
    return found


def of_map(text):
    """The crates and files of definitions that the map lacks, or has and that are not there."""
    below = crates()
    yield from (f'no row for the crate {crate}' for crate in below if not re.search(rf'^\| {crate} \|', text, re.M))
    for crate, named in mapped(text, below).items():
        there = files_of_specs(crate)
        yield from (f'{crate} specs/{name} is not in the map ({first_line(crate, name)})' for name in sorted(there - named))
        yield from (f'{crate} has no specs/{name}' for name in sorted(named - there))
    length = longest_chain(below, 'mojo_tool')
    if f'the longest chain to mojo_tool is of {length} crates' not in ' '.join(text.split()):
        yield f'the longest chain to mojo_tool is of {length} crates'
    behind = text[text.index('## Beside the program'):]
    yield from (f'no row for tools/{name}' for name in sorted(os.listdir(os.path.join(TOP, 'tools'))) if name != '__pycache__'
                and not re.search(rf'`(?:tools/)?{re.escape(name)}`', behind))


def is_near(said, counted):
    return abs(said - counted) <= max(FEW, PART * counted)


def of_sizes(text):
    """The rows of the page of promises whose sizes are not those that `tools/statement` counts."""
    ran = subprocess.run([sys.executable, os.path.join(TOP, 'tools', 'statement'), '--counts', 'mojo_main'], stdout=subprocess.PIPE, text=True, check=True)
    counted = {row[0].lower(): [int(number) for number in row[1:]] for row in re.findall(r'^(\S.*?) +(\d+) +(\d+) +(\d+)$', ran.stdout, re.M)}
    rows = re.findall(r'^\| ([a-z ]+) \| ([\d,]+) \| ([\d,]+) \| ([\d,]+) \|', text, re.M)
    said = {row[0]: [int(number.replace(',', '')) for number in row[1:]] for row in rows}
    for layer, numbers in counted.items():
        if layer not in said or not all(map(is_near, said[layer], numbers)):
            yield f'{layer} has {numbers} files, definitions and lines, and not {said.get(layer)}'


def lines_in(crates, pattern):
    """How many lines the files of some crates have."""
    names = (name for crate in crates for name in glob.glob(os.path.join(TOP, 'crates', crate, pattern), recursive=True))
    return sum(text_of(name).count('\n') for name in names)


def of_lines(text):
    """How many lines of code and of proofs the program has, how long the literal programs are, and how many edits there are, where a page
    says otherwise."""
    below = unproved.crates_below('mojo')
    counted = [lines_in(below, 'src/**/*.rt'), lines_in(below, 'proofs/**/*.antt')]
    found = re.search(r'beside ([\d,]+) lines of code and ([\d,]+) lines of proofs', text)
    counted += [lines_in(crates, 'src/**/*.rt') for crates in LITERAL]
    literal = re.search(r'\(([\d,]+), ([\d,]+), ([\d,]+), ([\d,]+), ([\d,]+)\s+and ([\d,]+) lines\)', text)
    said = [int(number.replace(',', '')) for one in (found, literal) if one for number in one.groups()]
    if len(said) < len(counted) or not all(map(is_near, said, counted)):
        yield f'the program has {counted[0]} lines of code and {counted[1]} of proofs, the literal programs have {counted[2:]}, and not {said}'
    edits = round(len(edit_files()), -1)
    if f'some {edits} edits of a line or two' not in text:
        yield f'there are some {edits} edits of a line or two'


def of_promise(text):
    """What is wrong of the sizes on the page of promises."""
    yield from of_sizes(text)
    yield from of_lines(text)


def tried_cases():
    """What the README says of the cases: how many need no fetch or write that fails, where their answers come from, and the worked examples."""
    cases = [case for name in glob.glob(os.path.join(TOP, 'crates', 'conformance', 'data', '*.cases')) for case in cases_of(name)]
    failing = sum(bool(case['fails']) for case in cases)
    independent, by_hand = re.search(r'^\| all \|[^|]*\| ([\d,]+) \| ([\d,]+) \|$', text_of('docs/conformance.md'), re.M).groups()
    worked = [case['out'].decode() for case in cases_of(os.path.join(TOP, 'crates', 'conformance', 'data', 'examples.cases'))]
    events = sum(int(re.search(r'^done (\d+)$', history, re.M)[1]) for history in worked)
    return [f'{len(cases) - failing:,} of the {len(cases):,} cases', f'the other {WORDS[failing]} cases', f'the answers of {independent} come from',
            f'those of {by_hand} by hand', f'{len(worked)} are worked examples on up to three sequences, {events} events']


def of_tried(text):
    """How much is tried, where the README says otherwise: cases, histories, walks, messages and wrong bodies."""
    histories = re.search(r'^(\d+) printed histories', text_of('crates/conformance/stdout'), re.M)
    tried = text_of('crates/checks/stdout')
    said = [*tried_cases(), f'The {histories[1]} histories', f'{len(edit_files())} edits of a line or two',
            f'Messages: {len(re.findall(MESSAGES, tried, re.M))} that were worked by hand',
            f'sets of files, of which {len(re.findall(r"^answer ", text_of("crates/checks/data/names.txt"), re.M))} have']
    said += [form.format(WORDS[len(re.findall(pattern, tried, re.M))]) for pattern, form in COUNTED]
    plain = ' '.join(text.split())
    yield from (f'it is: {one}' for one in said if one not in plain)


def of_cases(text):
    """The rows of the page of cases whose counts are not those of their files."""
    found = re.findall(r'^\| `?([\w.]+)`? \|[^|]*\| ([\d,]*) ?\| ([\d,]*) ?\|$', text, re.M)
    rows = {row[0]: [int(number.replace(',', '') or 0) for number in row[1:]] for row in found}
    for name in sorted(glob.glob(os.path.join(TOP, 'crates', 'conformance', 'data', '*.cases'))):
        name = os.path.relpath(name, TOP)
        count = len(re.findall(r'^case ', text_of(name), re.M))
        if sum(rows.get(os.path.basename(name), [])) != count:
            yield f'{os.path.basename(name)} has {count} cases, and not {rows.get(os.path.basename(name))}'
    for at, column in enumerate(zip(*(numbers for name, numbers in rows.items() if name != 'all'))):
        if rows['all'][at] != sum(column):
            yield f'all of a column are {sum(column)}, and not {rows["all"][at]}'


def of_limits(text):
    """The limits that the page of limits lacks."""
    for name in re.findall(r'^pub const (\w+)', text_of('crates/mj_base/src/limits.rt'), re.M):
        if f'`{name}`' not in text:
            yield f'{name} is not on the page'


def of_numbers(page, text):
    """The numbers of what is tried that a page lacks."""
    for source, pattern, pages in TRIED:
        found = re.search(pattern, text_of(source), re.M)
        if page in pages and not found:
            yield f'{source} has no {pattern}'
        elif page in pages and f'{int(found[1]):,}' not in text:
            yield f'{int(found[1]):,} of {source} is not on the page'


def of_places(page, text):
    """The names that do not stand where a page says."""
    for name, file in PLACED.findall(text):
        if not os.path.exists(os.path.join(TOP, file)) or not re.search(rf'\b{name}\b', text_of(file)):
            yield f'{name} does not stand in {file}'


def edit_files():
    return glob.glob(os.path.join(TOP, 'crates', '*', 'must-fail', '*.edit'))


def of_edits(text):
    """How many must-fail edits there are, in how many crates, where a page says otherwise; and what the gate may take."""
    edits = edit_files()
    said = f'{len(edits)}, in {len({edit.split(os.sep)[-3] for edit in edits})} of the {len(crates())} crates'
    if said not in text:
        yield f'there are edits: {said}'
    yield from gate_facts.of_budget(text)


def names_of(crate):
    """What a crate defines: calls, types and their clauses, variants and fields, definitions, and files of definitions."""
    names = [name for sort in ('src/**/*.rt', 'specs/**/*.antt') for name in glob.glob(os.path.join(TOP, 'crates', crate, sort), recursive=True)]
    return {word for name in names for word in DEFINED.findall(text_of(name))} | files_of_specs(crate)


def named_in(cell, crates, below):
    """The names that a cell has in backticks, each with the crates that should have it: a crate that is named before it, or those of the row.
    Behind `clauses of` stand calls of other crates."""
    for word in re.finditer(r'`([^`]+)`|\b([a-z_]+)\b', cell.partition('clauses of')[0]):
        if word[2] in below:
            crates = [word[2]]
        yield from ((name, crates) for name in re.findall(r'\w+', word[1] or ''))


def of_names(text, below):
    """The calls and definitions that the rows of promises name and that their crates don't have."""
    names, crates = {crate: names_of(crate) for crate in below}, []
    for row in re.findall(r'^\|(.*)\|$', text, re.M):
        first, *cells = [cell.strip() for cell in row.split('|')]
        crates = [name for name in first.split(', ') if name in below] or crates
        for cell in cells[1:] if len(cells) == 3 and crates else ():
            yield from (f'{" and ".join(named)} has no {name}' for name, named in named_in(cell, crates, below)
                        if not any(name in names[crate] for crate in named))


def of_promises(text):
    """The crates of the program that have no row on the page of what is promised: one with their promises, and one of one line; and what
    these rows name that isn't there."""
    yield from of_names(text, crates())
    parts = text.split('## In one line each')
    for part, lacks in zip(parts, ('promises', 'line')):
        named = {name for row in re.findall(r'^\| ([a-z_0-9, ]+) \|', part, re.M) for name in row.split(', ')}
        yield from (f'no {lacks} of the crate {crate}' for crate in sorted(unproved.crates_below('mojo') - named - {'mojo'}))


# What a page says of the tree by itself.
OWN = {'docs/architecture.md': of_map, 'docs/promise.md': of_promise, 'docs/limits.md': of_limits, 'docs/performance.md': of_edits,
       'docs/conformance.md': of_cases, 'docs/theorems.md': of_promises, 'README.md': of_tried, 'CONTRIBUTING.md': gate_facts.of_rules,
       'docs/DECISIONS.md': gate_facts.of_great}


def prose(text):
    """A page without its fenced blocks."""
    return re.sub(r'^```.*?^```$', '', text, flags=re.M | re.S)


def headings(name):
    """The names by which links lead to the headings of a page."""
    titles = re.findall(r'^#+ (.*)$', prose(text_of(name)), re.M)
    return {re.sub(r'[^\w\- ]', '', title.lower()).replace(' ', '-') for title in titles}


def of_links(page, text):
    """The links of a page that lead nowhere."""
    for name, heading in LINK.findall(prose(text)):
        there = os.path.normpath(os.path.join(os.path.dirname(page), name)) if name else page
        if not os.path.exists(os.path.join(TOP, there)) or heading and heading not in headings(there):
            yield f'a link leads to {name}{"#" * bool(heading)}{heading}'


def of_paths(text):
    """The files that a page names and that are not there."""
    for name in PATH.findall(prose(text)):
        there = os.path.join('crates', '*', name) if name.startswith('must-fail') else name
        if not glob.glob(os.path.join(TOP, there)):
            yield f'{name} is not there'


def has_facts(page, text):
    """Whether something that a page says is compared with the tree."""
    plain = prose(text)
    return page in OWN or any(page in pages for _, _, pages in TRIED) or any(form.search(plain) for form in (PLACED, LINK, PATH))


def complaints(page, text):
    """What a page says that the tree does not."""
    own = OWN[page](text) if page in OWN else ()
    return [*own, *of_numbers(page, text), *of_places(page, text), *of_paths(text), *of_links(page, text)]
