"""Calls of a built program over files in a folder: what each takes of processor time and of memory."""
import ctypes
import os
import subprocess
import sys
from dataclasses import dataclass

# The processor time that a call may take.
SECONDS = 300
# The number by which Linux is asked that what a child leaves behind becomes a child of this process.
PR_SET_CHILD_SUBREAPER = 36
# A shell begins the program and goes, then the program is let go on: in the account of a child of this process would be the memory of this process.
BEGIN = ('ulimit -t "$0"; text=$1; shift; exec 3<&0; '
         '{ read -r go <&3; exec "$@" 3<&- </dev/null >"$text" 2>said; } & echo $!')


@dataclass
class Taken:
    """What a call took: seconds of processor time, and megabytes of memory."""
    seconds: float
    megabytes: float


def adopt():
    """Asks that what a child leaves behind becomes a child of this process, which each call needs."""
    if ctypes.CDLL(None).prctl(PR_SET_CHILD_SUBREAPER, 1, 0, 0, 0):
        sys.exit('this system does not leave processes to the one that asks for them')


def written(made, folder):
    """The folder, with the files of an input in it."""
    os.makedirs(folder, exist_ok=True)
    for name, data in made.files.items():
        with open(os.path.join(folder, name), 'wb') as file:
            file.write(data)
    return folder


def bytes_of(made):
    """How many bytes the files of an input have."""
    return sum(map(len, made.files.values()))


def called(program, made, folder, text=os.devnull):
    """What a call takes, whose text goes to a file of the folder, or away; None, and a line of what came, where it ends otherwise than is wanted."""
    words = ['sh', '-c', BEGIN, str(SECONDS), text, program, *made.words]
    with subprocess.Popen(words, cwd=folder, stdin=subprocess.PIPE, stdout=subprocess.PIPE) as shell:
        number = int(shell.stdout.readline())
        shell.wait()
        shell.stdin.write(b'\n')
    _, ended, used = os.wait4(number, 0)
    status = os.waitstatus_to_exitcode(ended)
    with open(os.path.join(folder, 'said'), encoding='utf-8', errors='replace') as opened:
        said = opened.readline(200).strip()
    if (status, said) != (1 if made.refusal else 0, made.refusal):
        print(f'status {status}: {said}', file=sys.stderr)
        return None
    return Taken(used.ru_utime + used.ru_stime, used.ru_maxrss * 1024 / 1e6)
