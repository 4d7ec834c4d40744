"""Conformance cases in which some bytes of a file are changed by chance, so that what is said of refusals is tried where nobody foresaw them."""
import os
import random
import subprocess
import tempfile

import tables
import unproved
from case_files import cases_of, mojom_files, option

PIECES = [piece.encode('latin-1') for piece in (*' ,()0x#"\\[]{}<>?;:@%^-=.7\n\r\t\xff\xc3', 'null', 'true', 'ff')]
DIGITS = b'0123456789abcdef'
# The option that names the file that is changed; where there is none, it is the first Mojom file.
CHANGED = {'run': '--script', 'encode': '--value', 'decode': '--message', 'audit': '--history'}
# Greater files are left out, as most changes of theirs are alike.
MOST_BYTES = 5000


def changed(data, is_message, chance):
    """A file with one to three changes: bytes that come in, go, or stand in place of others; of a message, digits mostly."""
    data = bytearray(data)
    for _ in range(chance.choice((1, 1, 1, 2, 3))):
        at, piece, kind = chance.randrange(len(data) + 1), chance.choice(PIECES), chance.random()
        if is_message and kind < 0.9:
            data[at:at + 1] = bytes([chance.choice(DIGITS)])
        elif kind < 0.4:
            data[at:at] = piece
        elif kind < 0.7:
            del data[at:at + chance.choice((1, 1, 2, 5))]
        else:
            data[at:at + 1] = piece
    return bytes(data)


def refused(case):
    """What the program says of a case, where it refuses something; else None."""
    program = unproved.words_to_run([]) if unproved.is_made() else [tables.MOJO]
    with tempfile.TemporaryDirectory() as folder:
        for name, text in case['files'].items():
            with open(os.path.join(folder, name), 'wb') as opened:
                opened.write(text)
        ran = subprocess.run([*program, *case['words'][1:]], cwd=folder, env=unproved.surroundings(), stdin=subprocess.DEVNULL, stdout=subprocess.DEVNULL,
                             stderr=subprocess.PIPE, check=False)
    said = [line for line in ran.stderr.decode('utf-8', 'surrogateescape').splitlines(keepends=True) if line.startswith('error: ')]
    return said[0] if ran.returncode == 1 and said else None


def refusals(paths, count, seed):
    """So many changed cases, of which those that are refused are given: the case, and what the program says."""
    chance = random.Random(seed)
    cases = [case for path in paths for case in cases_of(path) if case['words'][1:2] and case['files'] and case['status'] in (0, 1) and not case['fails']
             and sum(map(len, case['files'].values())) < MOST_BYTES]
    for _ in range(count):
        case = chance.choice(cases)
        word = CHANGED.get(case['words'][1])
        name = option(case['words'], word) if word else mojom_files(case['words'][2:])[0]
        if name in case['files']:
            case = {**case, 'files': {**case['files'], name: changed(case['files'][name], word == '--message', chance)}}
            said = refused(case)
            if said:
                yield case, said
