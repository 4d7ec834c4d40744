"""The examples of docs/language.md, docs/wire.md and docs/scripts.md, which stand in `text` blocks in a short form of their own.

An example is some lines and, under them, what the program says. In language.md the lines are Mojom, of the file `a.mojom` or of those
that `-- NAME` names, and `check` is asked; a block without an error has the listing behind a blank line. In wire.md they are a Mojom file,
and then a message in hexadecimal, with options of `decode` before it, or a value; an example without a Mojom file has that of the one
before. In scripts.md they are a script over examples/printer.mojom. Other blocks have no examples.
"""
import os
import re
from dataclasses import dataclass

BLOCK = re.compile(r'^```text\n(.*?)^```$', re.M | re.S)
SAID = re.compile(r'error: |\w+\.\w+ \d+ \(')
DIGITS = re.compile(r'([0-9a-f ]+?)( x (\d+))?')


@dataclass
class Example:
    """The words of a call, its files, and what it prints and says."""
    words: list
    files: dict
    out: str
    err: str


def parts(block):
    """The lines of each example of a block, and the line under them."""
    lines = []
    for line in block.splitlines():
        if SAID.match(line):
            yield lines, line
            lines = []
        else:
            lines.append(line)


def named_files(lines):
    """The names and the texts of Mojom files."""
    named = []
    for line in lines:
        if line.startswith('-- '):
            named.append([line[3:], ''])
        else:
            if not named:
                named.append(['a.mojom', ''])
            named[-1][1] += written_out(line) + '\n'
    return named


def written_out(line):
    """A line without its short forms: `\\xe9` is a byte, and `int8 a0; .. int8 a9;` ten fields."""
    counted = re.sub(r'(\w+ \w)0; \.\. \1(\d+);', lambda found: ' '.join(f'{found[1]}{n};' for n in range(int(found[2]) + 1)), line)
    return counted.replace('\\xe9', '\udce9')


def of_language(block):
    """Sets of files with their refusal or their listing."""
    if '\nerror: ' not in block:
        files, _, listing = block.partition('\n\n')
        if files.startswith('-- ') and listing:
            named = named_files(files.splitlines())
            yield Example(['check', *(name for name, _ in named)], dict(named), listing, '')
        return
    for lines, said in parts(block):
        named = named_files(lines)
        yield Example(['check', *(name for name, _ in named)], dict(named), '', said + '\n')


def digits(lines):
    """A message, of which a line may stand many times."""
    found = [DIGITS.fullmatch(line) for line in lines]
    return ''.join(one[1].replace(' ', '') * int(one[3] or 1) for one in found)


def of_wire(block):
    """Messages with their value or their fault, and values with their fault."""
    mojom = ''
    for lines, said in parts(block):
        value = [line for line in lines if line.startswith('(')]
        options = [line for line in lines if line.startswith('--')]
        message = [line for line in lines if DIGITS.fullmatch(line)]
        mojom = '\n'.join(line for line in lines if line not in value + options + message) or mojom
        if value:
            words, files = ['encode', '--method', 'I.m', '--value', 'v', 't.mojom'], {'t.mojom': mojom, 'v': value[0]}
        else:
            given = options[0].split() if options else []
            given += [] if '--handles' in given else ['--handles', '0']
            words, files = ['decode', '--interface', 'I', *given, '--message', 'm', 't.mojom'], {'t.mojom': mojom, 'm': digits(message)}
        is_refused = said.startswith('error: ')
        yield Example(words, files, '' if is_refused else said + '\n', said + '\n' if is_refused else '')


def of_scripts(block, printer):
    """Scripts that are refused."""
    if '\nerror: script' in block:
        for lines, said in parts(block):
            yield Example(['run', '--script', 's', 't.mojom'], {'t.mojom': printer, 's': '\n'.join(lines) + '\n'}, '', said + '\n')


def examples(name, text, printer):
    """The examples of a document."""
    blocks = BLOCK.findall(text)
    if name == 'docs/language.md':
        return [one for block in blocks for one in of_language(block)]
    if name == 'docs/wire.md':
        return [one for block in blocks for one in of_wire(block)]
    if name == 'docs/scripts.md':
        return [one for block in blocks for one in of_scripts(block, printer)]
    return []


def of_documents(top):
    """The examples of all documents: the page, the number of the example on it, and the example."""
    with open(os.path.join(top, 'examples', 'printer.mojom'), encoding='utf-8') as opened:
        printer = opened.read()
    for page in ('docs/language.md', 'docs/wire.md', 'docs/scripts.md'):
        with open(os.path.join(top, page), encoding='utf-8') as opened:
            text = opened.read()
        for number, one in enumerate(examples(page, text, printer), 1):
            yield page, f'example {number}', one
