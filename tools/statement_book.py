"""The whole statement of a call as a book: each file once, by layer, with counts."""
import collections
import os

# The layers, from what is seen of the program down. Crates without a line of their own are sorted by their part of crates.txt.
LAYERS = ('The program', 'The outside', 'Words', 'Language', 'Wire', 'Machine', 'Scripts', 'Texts')
OF_CRATES = {'mojo_tool': 'The program', 'mojo': 'The program', 'command_line': 'Words', 'script_words': 'Scripts', 'script_forms': 'Scripts',
             'call_script': 'Scripts', 'script_names': 'Scripts', 'script_run': 'Scripts', 'threaded_run': 'Scripts', 'printed_runs': 'Scripts',
             'callback_laws': 'Scripts', 'mojom_print': 'Texts', 'schema_text': 'Texts', 'history_text': 'Texts', 'line_parts': 'Texts',
             'history_reader': 'Texts', 'printed_schemas': 'Texts', 'printed_histories': 'Texts'}
OF_PARTS = {'base': 'The outside', 'language': 'Language', 'layout': 'Language', 'names': 'Language', 'schemas': 'Language', 'wire': 'Wire',
            'newer schemas': 'Language', 'texts': 'Texts', 'machine': 'Machine', 'program': 'The program'}

# A definition as it is printed, and where it stands among those of its file.
Entry = collections.namedtuple('Entry', 'file text place')


def layers_of(top):
    """The layer of each crate."""
    layers, part = {}, None
    with open(os.path.join(top, 'crates.txt'), encoding='utf-8') as opened:
        for line in opened:
            if line.startswith('#'):
                part = line[1:].strip()
            elif ':' in line:
                crate = line.split(':')[0].strip()
                layers[crate] = OF_CRATES.get(crate) or OF_PARTS.get(part, 'Texts')
    return layers


def sorted_in(top, entries):
    """The entries by layer and then by file: files in the order in which they are first met, definitions in that of their file."""
    layers, chapters = layers_of(top), {layer: {} for layer in LAYERS}
    for entry in entries:
        chapters[layers[entry.file.split('/')[1]]].setdefault(entry.file, []).append(entry)
    for files in chapters.values():
        for own in files.values():
            own.sort(key=lambda entry: entry.place)
    return chapters


def counted(files):
    """How many files, definitions and lines a chapter has."""
    return len(files), sum(map(len, files.values())), sum(entry.text.strip().count('\n') + 1 for own in files.values() for entry in own)


def table(chapters):
    """The counts of the layers, as lines."""
    counts = [(layer, *counted(files)) for layer, files in chapters.items()]
    counts.append(('in all', *(sum(column) for column in list(zip(*counts))[1:])))
    return ['layer          files  definitions  lines'] + [f'{layer:13} {files:6} {some:12} {lines:6}' for layer, files, some, lines in counts]


def tell(top, head, entries, is_short):
    """Prints the book: the call, the counts and then each layer, file by file; where it is short, the files' names alone."""
    chapters = sorted_in(top, entries)
    print('\n'.join(([] if is_short else [head, '']) + table(chapters)))
    for layer, files in chapters.items():
        if files and not is_short:
            print(f'\n\n# {layer}')
        for file, own in files.items() if not is_short else ():
            print('\n'.join([f'\n== {file}'] + [f'\n{entry.text.strip()}' for entry in own]))
