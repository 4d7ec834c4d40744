"""What the prover's processes of a run of `rt` use of the processors, told apart by what each works on."""
import collections
import os
import subprocess
import threading

TICKS = os.sysconf('SC_CLK_TCK')

# What a process works on. kind: proof, tests, seed (the check that a crate's edits begin with) or edit, which has its name.
Work = collections.namedtuple('Work', 'crate kind edit')
# A process as it was last seen. above: the number of its parent; own and reaped: its seconds, and those of its ended children.
Prover = collections.namedtuple('Prover', 'above work own reaped')


def edits_of(top, crate):
    """The names of a crate's must-fail edits, in the order in which `rt` numbers them."""
    folder = os.path.join(top, 'crates', crate, 'must-fail')
    return sorted(name for name in os.listdir(folder) if name.endswith('.edit')) if os.path.isdir(folder) else []


def work_of(top, words, folder):
    """What a prover with these words works on in this folder."""
    crate = words[words.index('--crate-name') + 1]
    if '--test' in words:
        return Work(crate, 'tests', '')
    kept = os.path.basename(words[words.index('--incremental') + 1]) if '--incremental' in words else ''
    if kept == 'seed':
        return Work(crate, 'seed', '')
    if folder.endswith(f'/crates/{crate}'):
        return Work(crate, 'proof', '')
    edits = edits_of(top, crate)
    is_known = kept.isdigit() and int(kept) < len(edits)
    return Work(crate, 'edit', edits[int(kept)].removesuffix('.edit') if is_known else 'one tried from nothing')


def provers(top, session):
    """The prover's processes of a session, each by its number."""
    for number in filter(str.isdigit, os.listdir('/proc')):
        try:
            with open(f'/proc/{number}/cmdline', 'rb') as opened:
                words = opened.read().decode().split('\0')
            if not words[0].endswith('/rattle') or '--crate-name' not in words:
                continue
            with open(f'/proc/{number}/stat', encoding='utf-8') as opened:
                fields = opened.read().rpartition(')')[2].split()
            folder = os.readlink(f'/proc/{number}/cwd')
        except (OSError, UnicodeDecodeError):
            continue
        if int(fields[3]) == session:
            user, system, user_below, system_below = (int(field) / TICKS for field in fields[11:15])
            yield number, Prover(fields[1], work_of(top, words, folder), user + system, user_below + system_below)


def watch(top, session, seen, is_over):
    """Looks at the processes every half second, until it is over."""
    while not is_over.wait(0.5):
        seen.update(provers(top, session))


def spent(seen):
    """The seconds of each work. What a process reaped of its children is seen late: then what was seen of these counts."""
    below = collections.Counter()
    for prover in seen.values():
        if prover.above in seen:
            below[prover.above] += prover.own + prover.reaped
    seconds = collections.Counter()
    for number, prover in seen.items():
        if prover.above not in seen:
            seconds[prover.work] += prover.own + max(prover.reaped, below[number])
    return seconds


def run(top, words):
    """Runs `rt` with these words at the top: its exit status, and the seconds of each work."""
    seen, is_over = {}, threading.Event()
    with subprocess.Popen(['rt', *words], cwd=top, start_new_session=True) as ran:
        watcher = threading.Thread(target=watch, args=(top, ran.pid, seen, is_over))
        watcher.start()
        status = ran.wait()
    is_over.set()
    watcher.join()
    return status, spent(seen)
