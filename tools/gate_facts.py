"""What pages say of the gate, beside the tree: the budget, must-fail edits, and crates that are larger than they are to be."""
import collections
import glob
import os
import re
import runpy

TOP = os.path.dirname(os.path.dirname(os.path.abspath(__file__)))
# How large a crate is to be, and how many edits one has that has any.
MOST_LINES, MOST_FUNCTIONS = 1_500, 100
LEAST_EDITS, MOST_EDITS = 4, 10

FUNCTION = re.compile(r'^ *(?:pub(?:\(\w+\))? )?(?:const )?fn (\w+)', re.M)


def text_of(name):
    with open(name, encoding='utf-8') as opened:
        return opened.read()


def sources(crate):
    """The texts of a crate's code."""
    return [text_of(name) for name in glob.glob(os.path.join(TOP, 'crates', crate, 'src', '**', '*.rt'), recursive=True)]


def crates():
    return sorted(os.listdir(os.path.join(TOP, 'crates')))


def edits_by_crate():
    """The must-fail edits of each crate that has any."""
    found = collections.defaultdict(list)
    for name in sorted(glob.glob(os.path.join(TOP, 'crates', '*', 'must-fail', '*.edit'))):
        found[name.split(os.sep)[-3]].append(name)
    return found


def edited(crate, edit):
    """The file that an edit changes, and the function where its first line stands; none outside of all."""
    text = text_of(edit)
    file = re.search(r'^file: (\S+)', text, re.M)[1]
    code = text_of(os.path.join(TOP, 'crates', crate, file))
    before = code[:code.index(re.search(r'^old: (.*)', text, re.M)[1])]
    names = FUNCTION.findall(before)
    return file, names[-1] if names else None


def attributes_of(crate, file, function):
    """What stands directly above a function."""
    code = text_of(os.path.join(TOP, 'crates', crate, file))
    begins = next(found.start() for found in FUNCTION.finditer(code) if found[1] == function)
    return code[:begins].rpartition('\n\n')[2]


def of_budget(text):
    """The rows of the budget by which tools/ci_times doesn't go."""
    budget = runpy.run_path(os.path.join(TOP, 'tools', 'ci_times'))
    rows = (f'| the proof of a crate | {budget["PROOF_MINUTES"]} minutes |', f'| a must-fail edit | {budget["EDIT_SECONDS"]} seconds |',
            f'| the whole gate, from nothing | {budget["WHOLE_MINUTES"]} minutes |')
    yield from (f'tools/ci_times goes by {row}' for row in rows if row not in text)
    yield from (f'tools/ci_times counts {part}' for part in budget['GREAT_PARTS'] if part not in text)


def of_rules(text):
    """What edits aren't as the page says: how many a crate has, where they stand, and the functions that have several."""
    text = text[text.index('## Must-fail edits'):]
    for crate, edits in edits_by_crate().items():
        if not LEAST_EDITS <= len(edits) <= MOST_EDITS:
            yield f'{crate} has {len(edits)} edits'
        places = [edited(crate, edit) for edit in edits]
        yield from (f'an edit of {crate} stands in {file}' for file, _ in places if not file.startswith('src/'))
        for (file, function), count in collections.Counter(places).items():
            if count > 1 and f'`{function}`' not in text:
                yield f'{crate} has {count} edits at {function}, which the page doesn\'t name'
            if function and '#[cycle' in attributes_of(crate, file, function) and f'`{function}`' not in text:
                yield f'{crate} has an edit at {function}, which stands in a cycle of calls, and the page doesn\'t name it'


def of_great(text):
    """The crates that are larger than a crate is to be, and that the page doesn't name among these."""
    text = text[text.index('- **A layer is a crate**'):text.index('- **A chain of crates')]
    for crate in crates():
        lines = sum(code.count('\n') for code in sources(crate))
        functions = sum(len(FUNCTION.findall(code)) for code in sources(crate))
        if lines > MOST_LINES and not re.search(rf'\b{crate}\b', text):
            yield f'{crate} has {lines:,} lines of code'
        if functions > MOST_FUNCTIONS and f'{crate} ({functions} functions)' not in text:
            yield f'{crate} has {functions} functions'
