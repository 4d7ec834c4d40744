"""The tables of Mojom files, as `./mojo check` prints them: of files by their names, and of texts, each set of which is checked once."""
import functools
import os
import subprocess
import tempfile

import message_reader

TOP = os.path.dirname(os.path.dirname(os.path.abspath(__file__)))
MOJO = os.path.join(TOP, 'mojo')


def checked(names, folder=None):
    """The tables of Mojom files, or None with what the program says of them."""
    ran = subprocess.run([MOJO, 'check', *names], cwd=folder, stdin=subprocess.DEVNULL, stdout=subprocess.PIPE, stderr=subprocess.PIPE, check=False)
    return (message_reader.Tables(ran.stdout.decode()) if ran.returncode == 0 else None), ran.stderr.decode('utf-8', 'replace')


@functools.cache
def of_texts(files):
    """The tables of texts, each with its name in a folder of their own; None where they have none."""
    with tempfile.TemporaryDirectory() as folder:
        for name, text in files:
            with open(os.path.join(folder, name), 'wb') as opened:
                opened.write(text)
        return checked([name for name, _ in files], folder)[0]


def of_case(case):
    """The tables of a conformance case's Mojom files, in the order of its words."""
    names = [word for word in case['words'] if word.endswith('.mojom') and word in case['files']]
    return of_texts(tuple((name, case['files'][name]) for name in names))
