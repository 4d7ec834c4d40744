"""The conformance cases, as tools/replay reads them."""
import importlib.machinery
import importlib.util
import os
import sys

sys.dont_write_bytecode = True
FOLDER = os.path.dirname(os.path.abspath(__file__))
# The options of the program that have no value.
FLAGS = ('--response', '--threads')


def tool(name):
    """A tool of this folder as a module."""
    loader = importlib.machinery.SourceFileLoader(name, os.path.join(FOLDER, name))
    module = importlib.util.module_from_spec(importlib.util.spec_from_loader(name, loader))
    loader.exec_module(module)
    return module


def cases_of(path):
    """The cases of a file."""
    return tool('replay').cases_of(path)


def option(words, name, otherwise=None):
    """The value of an option among words, as `--order 7` or `--order=7`."""
    for at, word in enumerate(words):
        if word == name and at + 1 < len(words):
            return words[at + 1]
        if word.startswith(f'{name}='):
            return word[len(name) + 1:]
    return otherwise


def mojom_files(words):
    """The Mojom files among the words behind a command: what is no option and no option's value."""
    names, is_value, is_behind = [], False, False
    for word in words:
        if is_value or is_behind or not word.startswith('--'):
            names += [word] * (not is_value)
            is_value = False
        elif word == '--':
            is_behind = True
        else:
            is_value = '=' not in word and word not in FLAGS
    return names
