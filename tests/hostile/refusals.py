"""Refuses to the built program what it asks the system for, one call after another, and looks at what it then answers.

Run by tests/refusals [WORD..]. A word is a kind (memory, threads, pieces, files, limits, names,
scattered, budgets) or a command (prove, check, ..); without words all are tried. Each row below is a
command on a small program that was worked by hand, with the status that it ends with.
"""
import errno
import os
import random
import re
import resource
import shlex
import shutil
import signal
import subprocess
import sys
import tempfile
from collections import namedtuple

from program import EXAMPLES, WHY, built_program, built_shim, content, has_trim, put, run

SECONDS = 10
SHOWN = 3
DECIDED = 3
BEFORE = b'what stood here before\n'
# The new file that is written beside the one after --out.
BESIDE = 'out.0.part'
SEEDS = 300
FOREIGN = {b'\xff': rb'\xff', b'prog\xc3.mpi': rb'prog\xc3.mpi', b'\xed\xa0\x80\'': rb"\xed\xa0\x80\'"}

Row = namedtuple('Row', 'status words')
Outcome = namedtuple('Outcome', 'status printed told out others')

ANSWERS = {
    'open': [errno.EIO, errno.ENOSPC, errno.EACCES, errno.EMFILE, errno.ENOMEM, errno.EINTR],
    'read': [errno.EIO, errno.ENOSPC, errno.EAGAIN, errno.ENOMEM, errno.EINTR, 'short'],
    'write': [errno.EIO, errno.ENOSPC, errno.EAGAIN, errno.EPIPE, errno.ENOMEM, errno.EINTR, 'short', 'nothing'],
    'sync': [errno.EIO, errno.ENOSPC, errno.EDQUOT],
    'close': [errno.EIO, errno.ENOSPC, errno.EINTR],
}
HARMLESS = (errno.EINTR, 'short')

TEXTS = {
    'buffered.mpi': 'ranks 1\npolicy any\nrank 0\nbsend 0 1\n',
    'buffered.evidence': 'evidence 1\nrefutation 2 3\nline -2 : 1 2\ntree\nsplit 2\nleaf 4\nleaf 3\n',
    'unneeded.evidence': 'evidence 1\nrefutation 2 3\nline : 1 3 2\nline -2 : 1 2\ntree\nsplit 2\nleaf 5\nleaf 3\n',
    'idle.evidence': 'evidence 1\nrefutation 2 3\nline : 1 1 3 2\ntree\nleaf 4\n',
    'nothing.evidence': 'evidence 1\nrefutation 2 3\nline : 4\ntree\nleaf 4\n',
    'early.evidence': 'evidence 1\nschedule\nissue 0\nissue 0\n',
    'message.mpi': 'ranks 2\npolicy any\nrank 0\nsend 1 1\nrank 1\nrecv 0 1\n',
    'gather.mpi': 'ranks 3\npolicy any\nrank 0\nrecv * 1\nrecv * 1\nrank 1\nsend 0 1\nrank 2\nsend 0 1\n',
    'exchange.mpi': 'ranks 2\npolicy any\nrank 0\nsend 1 1\nrecv 1 1\nrank 1\nsend 0 1\nrecv 0 1\n',
    'order.mpi': 'ranks 3\npolicy none\nrank 0\nsend 1 1\nsend 2 1\nrank 1\nsend 2 1\nrecv 0 1\nrank 2\nrecv * 1\nrecv 0 1\n',
    'barrier.mpi': 'ranks 1\npolicy any\nrank 0\nbarrier\n',
    'wide.mpi': 'ranks 2\npolicy any\nrank 0\nsend 1 40000\nrecv 1 1\nrank 1\nrecv 0 40000\nrecv 0 1\n',
    'wide-ends.mpi': 'ranks 2\npolicy any\nrank 0\nsend 1 40000\nrank 1\nrecv 0 40000\n',
}


def map_of(text, places):
    """The map of a text, which names it by its length and checksum (FNV-1a of 64 bits)."""
    total = 0xcbf29ce484222325
    for byte in text.encode():
        total = (total ^ byte) * 0x100000001b3 % 2 ** 64
    return f'map 1\nof {len(text)} bytes, sum {total:016x}\n{places}end\n'


TEXTS['exchange.map'] = map_of(TEXTS['exchange.mpi'], 'line 4: rank 0, MPI_Send, 8 bytes, a.c:1 in f < a.c:2 in main\n')
TEXTS['broken.map'] = map_of(TEXTS['exchange.mpi'], 'line 99: rank 0, MPI_Send, a.c:1\n')


def hub(takers, senders, hubs=1):
    """A program in which ranks send to the first ones, which do as the takers say."""
    first = [calls for calls in takers for _ in range(hubs // len(takers))]
    others = [[f'send {rank} 1' for rank in range(hubs)]] * senders
    lists = [f'rank {rank}\n' + ''.join(call + '\n' for call in calls) for rank, calls in enumerate(first + others)]
    return f'ranks {len(lists)}\npolicy any\n' + ''.join(lists)


ANY = ['recv * 1']
BUDGETED = {
    'star.mpi': (0, hub([ANY * 5], 5)),
    'named.mpi': (1, hub([ANY + ['recv 3 1'] + ANY * 3], 5)),
    'probed.mpi': (0, hub([['probe * 1', *ANY] * 5], 5)),
    'unseen.mpi': (1, hub([ANY + ['probe 3 1'] + ANY * 4], 5)),
    'stars.mpi': (0, hub([ANY * 5], 5, 2)),
    'unequal.mpi': (1, hub([ANY + ['recv 4 1'] + ANY * 3, ANY * 5], 5, 2)),
}
COPIED = ['buffering-lets-it-hang.mpi', 'buffering-lets-it-hang.evidence']
HANGS = ['buffering-lets-it-hang.mpi', 'buffering-lets-it-hang.evidence']
REFUTED = ['buffered.mpi', 'buffered.evidence']


def rows(trims):
    """Each command with its statuses: one run of each that it can end with, and some options."""
    out = ['--out', 'out']
    for workers in ('1', '4'):
        more = ['--workers', workers, *out]
        yield Row(0, ['prove', 'message.mpi', *more])
        yield Row(1, ['prove', 'buffering-lets-it-hang.mpi', *more])
        yield Row(2, ['prove', 'buffered.mpi', '--budget', '0', *more])
        yield Row(3, ['prove', 'barrier.mpi', *more])
    yield Row(0, ['prove', 'gather.mpi', '--depth', '2', '--json', *out])
    yield Row(0, ['prove', 'buffered.mpi', '--progress', *out])
    yield Row(5, ['prove', 'missing.mpi', *out])
    for pieces in ('1', '4'):
        yield Row(0, ['check', *REFUTED, '--pieces', pieces])
    yield Row(1, ['check', *HANGS, '--json'])
    yield Row(3, ['check', 'buffered.mpi', 'idle.evidence'])
    yield Row(3, ['check', 'buffering-lets-it-hang.mpi', 'early.evidence'])
    yield Row(5, ['check', 'buffered.mpi', 'missing.evidence'])
    for more in ([], ['--lines']):
        yield Row(1, ['replay', *HANGS, *more])
    yield Row(3, ['replay', *REFUTED])
    for more in ([], ['--dimacs']):
        yield Row(0, ['encode', 'message.mpi', *more])
        yield Row(3, ['encode', 'barrier.mpi', *more])
    for more in ([], ['--dot']):
        yield Row(0, ['explain', *REFUTED, *more])
        yield Row(1, ['explain', *HANGS, *more])
        yield Row(3, ['explain', 'buffered.mpi', 'idle.evidence', *more])
        yield Row(0, ['explain', 'gather.mpi', *more])
        yield Row(1, ['explain', 'buffering-lets-it-hang.mpi', *more])
    for more in (['--json'], ['--chart'], ['--svg']):
        yield Row(0, ['explain', *REFUTED, *more])
        yield Row(1, ['explain', *HANGS, *more])
    yield Row(3, ['explain', 'buffered.mpi', 'idle.evidence', '--json'])
    for more in ([], ['--json'], ['--svg']):
        yield Row(1, ['explain', 'exchange.mpi', '--map', 'exchange.map', *more])
        yield Row(3, ['explain', 'exchange.mpi', '--map', 'broken.map', *more])
        yield Row(1, ['explain', 'wide.mpi', *more])
    yield Row(5, ['explain', 'exchange.mpi', '--map', 'missing.map'])
    yield Row(3, ['explain', 'barrier.mpi'])
    yield Row(0, ['export', *REFUTED, *out])
    yield Row(1, ['export', *HANGS, *out])
    yield Row(3, ['export', 'buffered.mpi', 'idle.evidence', *out])
    if trims:
        yield Row(0, ['trim', 'unneeded.evidence', *out])
        yield Row(3, ['trim', 'nothing.evidence', *out])
        yield Row(3, ['trim', 'early.evidence', '--json', *out])
    for more in ([], out):
        yield Row(1, ['shrink', 'buffering-lets-it-hang.mpi', *more])
        yield Row(2, ['shrink', 'buffered.mpi', *more])
        yield Row(3, ['shrink', 'barrier.mpi', *more])
        yield Row(1, ['shrink', 'wide.mpi', *more])
        yield Row(2, ['shrink', 'wide-ends.mpi', *more])
    for more in (out, ['--json', *out]):
        yield Row(0, ['decide', 'gather.mpi', *more])
        yield Row(1, ['decide', 'exchange.mpi', *more])
        yield Row(2, ['decide', 'buffering-lets-it-hang.mpi', *more])
        yield Row(3, ['decide', 'barrier.mpi', *more])
    yield Row(1, ['decide', 'exchange.mpi'])
    yield Row(1, ['decide', 'wide.mpi', '--progress', *out])
    yield Row(5, ['decide', 'missing.mpi', *out])
    for more in ([], ['--json']):
        yield Row(1, ['decide', 'buffering-lets-it-hang.mpi', 'exchange.mpi', 'barrier.mpi', *more])
    yield Row(5, ['decide', 'gather.mpi', 'missing.mpi'])
    yield Row(0, ['--help'])
    yield Row(6, ['prove'])


class Hangs(Exception):
    """A command took too long several times, so the rest of its runs are left out."""


class Trial:
    """A folder with the worked texts, the shim, and the runs that were made there."""

    def __init__(self, program):
        self.program = program
        self.folder = tempfile.mkdtemp(prefix='refusals-', dir='/dev/shm' if os.path.isdir('/dev/shm') else None)
        self.room = os.path.join(self.folder, 'texts')
        self.refused = os.path.join(self.folder, 'refused')
        self.shim = built_shim(self.folder)
        self.fill()
        self.plain, self.judged, self.shown = {}, {}, {}
        self.runs, self.wrong = {}, {}

    def fill(self):
        """The room with the worked texts alone."""
        shutil.rmtree(self.room, ignore_errors=True)
        os.mkdir(self.room)
        for name, text in TEXTS.items():
            put(self.room, name, text)
        for name, (_, text) in BUDGETED.items():
            put(self.room, name, text)
        for name in COPIED:
            shutil.copy(os.path.join(EXAMPLES, name), self.room)
        self.looks = self.others()

    def others(self):
        """The looks of all files but the one after --out."""
        looks = {each.name: (each.stat().st_size, each.stat().st_mtime_ns) for each in os.scandir(self.room)}
        looks.pop('out', None)
        return looks

    def outcome(self, words, settings, **more):
        """A run with the file after --out in place, and what came of it."""
        put(self.room, 'out', BEFORE)
        if os.path.exists(self.refused):
            os.remove(self.refused)
        shim = {'LD_PRELOAD': self.shim, 'REFUSED': self.refused, **settings} if settings else {}
        status, printed, told = run(self.program, words, self.room, SECONDS, env={**os.environ, **shim}, **more)
        return Outcome(status, printed, told, content(self.room, 'out'), self.others())

    def plain_outcome(self, row):
        """What the row's command comes to where nothing is refused."""
        key = tuple(row.words)
        if key not in self.plain:
            self.plain[key] = self.outcome(row.words, None)
            if self.plain[key].status != row.status:
                sys.exit(f'{shlex.join(row.words)} ends with {self.plain[key].status}, not {row.status}, with nothing refused')
        return self.plain[key]

    def first_refusal(self):
        """The kind and the path of what was refused first in the last run, or None."""
        told = content(self.folder, 'refused')
        return told.decode().rstrip('\n').split(' ', 1) if told else None

    def is_evidence(self, source, evidence, status):
        """Whether check judges the evidence as prove did."""
        key = (source, evidence, status)
        if key not in self.judged:
            put(self.folder, 'judged', evidence)
            words = ['check', source, os.path.join(self.folder, 'judged')]
            self.judged[key] = run(self.program, words, self.room, SECONDS)[0] == status
        return self.judged[key]

    def has_whole_file(self, row, got):
        """The file after --out is what the row's command makes of it."""
        wanted = self.plain_outcome(row).out
        if got.out == wanted or row.words[0] != 'prove' or BEFORE in (wanted, got.out):
            return got.out == wanted
        return self.is_evidence(row.words[1], got.out, row.status)

    def is_own_answer(self, row, got):
        """The answer is the one without a refusal."""
        plain = self.plain_outcome(row)
        same = got.status == plain.status and told_of(row, got) == told_of(row, plain)
        return same and (got.told == plain.told or '--progress' in row.words) and self.has_whole_file(row, got)

    def lacks_in_rows(self, row, got):
        """Of several programs each is told as without a refusal, or that memory lacked for it, and the status is the gravest."""
        own, rows = rows_of(self.plain_outcome(row)), rows_of(got)
        if len(own) < 2 or len(rows) != len(own) or got.told != b'':
            return False
        for mine, told in zip(own, rows):
            head = MEMORY_ROW.fullmatch(told)
            if told != mine and not (head and mine.startswith(head[1])):
                return False
        told = got.printed.replace(b'no deadlock', b'')
        return got.status == next((status for words, status in GRAVEST if words in told), 0)

    def note(self, kind, words, got, settings, is_right):
        """Counts a run, and tells a wrong one with how to repeat it: the settings of the shim, or in words."""
        self.runs[kind] = self.runs.get(kind, 0) + 1
        is_changed = got.others != self.looks
        if is_right and not is_changed:
            return
        if is_changed:
            self.fill()
        self.wrong[kind] = self.wrong.get(kind, 0) + 1
        self.shown[kind, tuple(words)] = self.shown.get((kind, tuple(words)), 0) + 1
        if self.shown[kind, tuple(words)] <= SHOWN:
            changed = 'another file was changed; ' if is_changed else ''
            print(f'wrong: {kind}: ended with {got.status}, {got.printed[:80]}, {got.told[:80]}; {changed}again by')
            again = f'{self.program} {shlex.join(words)}'
            if isinstance(settings, str):
                again += f'  # {settings}'
            else:
                again = ' '.join(['env', f'LD_PRELOAD={self.shim}', *(f'{name}={settings[name]}' for name in settings), again])
            print(f'  cd {self.room} && {again}', flush=True)
        if got.status == 'hang' and self.shown[kind, tuple(words)] >= SHOWN:
            raise Hangs


# A row of `decide` for a program for which memory lacked, and words of answers with their status, the gravest first.
MEMORY_ROW = re.compile(rb'(program [^:]*: |{"program":"[^"]*","answer":")unknown memory("[^\n]*)?\n')
GRAVEST = ((b'deadlock', 1), (b'unknown memory', 4), (b'unknown', 2), (b'refused', 3))


def rows_of(got):
    """The rows of an answer on several programs."""
    return re.split(rb'(?m)^(?=program |{"program":)', got.printed)[1:]


def is_searched(row):
    """Whether the command searches for an answer."""
    return row.words[0] in ('prove', 'decide') or (row.words[0] == 'explain' and not any('.evidence' in word for word in row.words))


def told_of(row, got):
    """What was printed; of an evidence that several workers found its kind alone, since they find another one each time."""
    if row.words[0] == 'explain' and is_searched(row) and got.status == 0:
        return got.printed.split(b'\n')[0]
    return got.printed


def is_want_of_memory(row, got):
    """Status 4 with the line of the command, or with one on standard error, and no file was touched."""
    if got.status != 4 or got.out != BEFORE:
        return False
    text = b'unknown memory' if is_searched(row) else b'refused memory'
    line = b'{"answer":"%s","status":4}\n' % text if '--json' in row.words else text + b'\n'
    if got.printed == line:
        return got.told == b'' or '--progress' in row.words
    return (got.printed, got.told) == (b'', b'memory\n')


def try_memory(trial, row):
    """Each allocation refused, alone and with all later ones, until none is refused any more."""
    for how in ('alone', 'on'):
        place = 0
        while place == 0 or trial.first_refusal():
            place += 1
            settings = {'REFUSE': f'memory:{place}:{how}:0'}
            got = trial.outcome(row.words, settings)
            own = trial.is_own_answer(row, got)
            lacks = is_want_of_memory(row, got) or trial.lacks_in_rows(row, got)
            trial.note('memory', row.words, got, settings, own or (trial.first_refusal() and lacks))


def try_threads(trial, row):
    """Each start of a thread refused, and all: the answer stays."""
    for how in ('alone', 'on'):
        place = 0
        while place == 0 or (how == 'alone' and trial.first_refusal()):
            place += 1
            settings = {'REFUSE': f'threads:{place}:{how}:0'}
            got = trial.outcome(row.words, settings)
            trial.note('threads', row.words, got, settings, trial.is_own_answer(row, got))


def threads_started(trial, words):
    """How many threads a run starts: the first start that can't be refused is one too many."""
    place = 1
    while True:
        trial.outcome(words, {'REFUSE': f'threads:{place}:alone:0'})
        if not trial.first_refusal():
            return place - 1
        place += 1


def try_pieces(trial, _):
    """The more pieces a check is asked for, the more threads it starts: no answer depends on them, so only this shows it."""
    counts = [threads_started(trial, ['check', *REFUTED, '--pieces', pieces]) for pieces in ('1', '4', '16', '64')]
    got = trial.plain_outcome(Row(0, ['check', *REFUTED, '--pieces', '64']))
    trial.note('pieces', ['check', '--pieces', '1', '4', '16', '64'], got, f'threads: {counts}', counts == sorted(set(counts)))


def fault_told(row, got):
    """What was told on standard error behind the progress, where that was asked for, and without why a file failed."""
    lines = [line for line in got.told.splitlines(True) if line not in WHY]
    return b''.join(line for line in lines if '--progress' not in row.words or not line.startswith(b'progress'))


def is_told_fault(trial, row, got, call, path, how, answer):
    """What may come of a fault of a file, or of an output. Where all writes fail, standard error does too."""
    plain = trial.plain_outcome(row)
    is_beside = path == BESIDE
    path = 'out' if is_beside else path
    if path == 'standard output':
        return (got.status, fault_told(row, got)) == (5, b'') and plain.printed.startswith(got.printed) and trial.has_whole_file(row, got)
    if path == 'standard error' and how == 'on' and (got.status, plain.status) in ((5, 0), (5, 1)):
        return (got.printed, fault_told(row, got)) == (b'', b'')
    if path == 'standard error':
        return (got.status, got.printed) == (plain.status, plain.printed) and trial.has_whole_file(row, got)
    if answer == errno.ENOMEM and is_want_of_memory(row, got):
        return True
    may_be_cut = path == 'out' and call != 'open' and not is_beside
    is_told = fault_told(row, got) == b'file %s\n' % path.encode() or (call == 'write' and how == 'on' and fault_told(row, got) == b'')
    return (got.status, got.printed) == (5, b'') and is_told and (may_be_cut or got.out == BEFORE)


def judge_file_run(trial, row, got, settings, how, answer):
    """A fault of a close loses nothing: a file that was written was brought to the disk before, and a fault of that is told.
    Where no file can be opened beside, the file is written in its place."""
    refusal = trial.first_refusal()
    own = trial.is_own_answer(row, got)
    if refusal is None or answer in HARMLESS:
        right = own
    elif own and (refusal[0] == 'close' or refusal == ['open', BESIDE]):
        right = True
    else:
        right = is_told_fault(trial, row, got, *refusal, how, answer)
    trial.note('files', row.words, got, settings, right)


def try_files(trial, row):
    """Each open, read, write, sync and close with each answer, alone and with all later ones."""
    for call, answers in ANSWERS.items():
        place = 0
        while place == 0 or trial.first_refusal():
            place += 1
            for answer in answers:
                for how in ('alone', 'on') if answer != errno.EINTR and call != 'close' else ('alone',):
                    settings = {'REFUSE': f'{call}:{place}:{how}:{answer}'}
                    judge_file_run(trial, row, trial.outcome(row.words, settings), settings, how, answer)


def try_scattered(trial, _):
    """Some of all allocations and starts of threads refused, threads resting by chance, under all kinds of options."""
    for seed in range(SEEDS):
        chance = random.Random(seed)
        source = chance.choice(['message.mpi', 'gather.mpi', 'order.mpi'])
        words = ['prove', source, '--out', 'out', '--workers', chance.choice(['1', '2', '3', '4', '8', '16', '64']),
                 '--depth', chance.choice(['0', '1', '2', '4', '8', '15']),
                 '--budget', chance.choice(['0', '1', '2', '10', '100', '1000000'])]
        settings = {'REFUSE_SOME': f'{seed}:{chance.choice([0, 1, 1, 2, 5, 20, 100])}', 'SHAKE': chance.choice(['0', '2', '20'])}
        got = trial.outcome(words, settings)
        solved = (got.status, got.printed) == (0, b'no deadlock\n') and trial.is_evidence(source, got.out, 0)
        spent = (got.status, got.printed, got.out) == (2, b'unknown budget\n', BEFORE)
        lacking = trial.first_refusal() and is_want_of_memory(Row(0, words), got)
        trial.note('scattered', words, got, settings, solved or spent or lacking)


def try_budgets(trial, _):
    """Each budget from 0 on, until several together are enough: the answer is that it is used up, or the right one with its evidence."""
    for source, (status, _text) in BUDGETED.items():
        line = b'no deadlock\n' if status == 0 else b'deadlock\n'
        for workers in ('1', '4'):
            decided, budget = 0, 0
            while decided < DECIDED:
                words = ['prove', source, '--out', 'out', '--workers', workers, '--budget', str(budget)]
                got = trial.outcome(words, None)
                spent = (got.status, got.printed, got.out) == (2, b'unknown budget\n', BEFORE)
                solved = (got.status, got.printed) == (status, line) and trial.is_evidence(source, got.out, status)
                trial.note('budgets', words, got, {}, spent or solved)
                decided = decided + 1 if got.status == status else 0
                budget += 1


def limited(kind, most):
    """What sets a limit of the system before the program starts."""
    def set_limit():
        signal.signal(signal.SIGXFSZ, signal.SIG_IGN)
        resource.setrlimit(kind, (most, most))
    return set_limit


def is_right_under_limit(trial, row, got, kind):
    """Its own answer; or want of memory, or a fault of a file, where the limit is one of these."""
    if trial.is_own_answer(row, got):
        return True
    if kind in (resource.RLIMIT_AS, resource.RLIMIT_STACK):
        return is_want_of_memory(row, got) or trial.lacks_in_rows(row, got) or (got.status == 127 and b'shared' in got.told)
    faults = [b'file %s\n' % word.encode() for word in row.words]
    return (got.status, got.printed) == (5, b'') and fault_told(row, got) in faults


def try_limits(trial, row):
    """Small limits of the system, and standard outputs that fail."""
    plain = trial.plain_outcome(row)
    sizes = {
        'RLIMIT_AS': [million << 20 for million in (6, 8, 10, 12, 14, 16, 20, 24, 32, 48, 64, 80, 100, 150, 300)],
        'RLIMIT_STACK': [thousand << 10 for thousand in (80, 128, 256)],
        'RLIMIT_FSIZE': [0, 1, 10, 30, 60, 100],
    }
    for name, limits in sizes.items():
        for most in limits:
            kind = getattr(resource, name)
            got = trial.outcome(row.words, None, preexec_fn=limited(kind, most))
            trial.note('limits', row.words, got, f'{name} {most}', is_right_under_limit(trial, row, got, kind))
    reader, broken = os.pipe()
    os.close(reader)
    full, only_read = os.open('/dev/full', os.O_WRONLY), os.open('/dev/null', os.O_RDONLY)
    for name, output in (('full', full), ('only to be read', only_read), ('a broken pipe', broken)):
        got = trial.outcome(row.words, None, stdout=output)
        os.close(output)
        right = got.status == (5 if plain.printed else plain.status)
        trial.note('limits', row.words, got, f'standard output is {name}', right and trial.has_whole_file(row, got))


def try_names(trial, row):
    """A word that is no UTF-8 text in the place of each word: it is told with its number and bytes, and nothing is printed or written."""
    for place in range(len(row.words)):
        for foreign, shown in FOREIGN.items():
            words = [*row.words[:place], os.fsdecode(foreign), *row.words[place + 1:]]
            got = trial.outcome(words, None)
            told = b'error: word %d is no UTF-8 text: %s\n' % (place + 1, shown)
            right = (got.status, got.printed, got.told, got.out) == (6, b'', told, BEFORE)
            trial.note('names', words, got, {}, right and got.others == trial.looks)


KINDS = {'memory': try_memory, 'threads': try_threads, 'pieces': try_pieces, 'files': try_files, 'limits': try_limits,
         'names': try_names, 'scattered': try_scattered, 'budgets': try_budgets}
ONCE = {'scattered': 'prove', 'pieces': 'check', 'budgets': 'prove'}


def chosen(words, all_rows):
    """The kinds and the rows that the words pick: all where no word is of that sort."""
    commands = {row.words[0] for row in all_rows}
    for word in words:
        if word not in commands | KINDS.keys():
            sys.exit(f'no kind and no command: {word}')
    kinds = [kind for kind in KINDS if kind in words or not KINDS.keys() & set(words)]
    return kinds, [row for row in all_rows if row.words[0] in words or not commands & set(words)]


def try_all(trial, kinds, picked):
    """Tries each kind with each row, and prints a line for each kind."""
    for row in picked:
        trial.plain_outcome(row)
    for kind in kinds:
        for row in [Row(0, [ONCE[kind]])] if kind in ONCE else picked:
            try:
                KINDS[kind](trial, row)
            except Hangs:
                print(f'{kind}: {shlex.join(row.words)} is left after {SHOWN} runs that took too long', flush=True)
        print(f'{kind}: {trial.runs.get(kind, 0)} runs, {trial.wrong.get(kind, 0)} went wrong', flush=True)


def main():
    """Tries the kinds and commands that were asked for; status 1 where a run went wrong."""
    program = built_program()
    if not shutil.which('gcc'):
        print('left out, since there is no gcc\n0 passed, 0 failed, 1 skipped')
        return
    trial = Trial(program)
    try:
        try_all(trial, *chosen(sys.argv[1:], list(rows(has_trim(trial.program)))))
    finally:
        if not trial.wrong:
            shutil.rmtree(trial.folder)
    if trial.wrong:
        print(f'the texts and the shim stand in {trial.folder}')
    failed = sum(trial.wrong.values())
    print(f'{sum(trial.runs.values()) - failed} passed, {failed} failed')
    sys.exit(failed > 0 or not trial.runs)


if __name__ == '__main__':
    main()
