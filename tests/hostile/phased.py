"""Gives the built program long texts that are put together from small random parts, and judges what phases tell of them.

`decide --phases` may say `no deadlock` or `deadlock` only where `prove` says the same of the whole, which is small enough for it; and
the schedule of a deadlock has to end stuck by `replay`. The folder that `phases` writes, with the evidence of each job, has to give `join` the same answer. Then the folder is spoiled: two lines of
the order change places, a number is another phase's, an evidence is another's, a line of a phase moves to another rank. `join` may go
on saying `no deadlock` only where `prove` says so of the whole, which stays what it is."""
import argparse
import os
import random
import shutil
import subprocess
import sys
import tempfile
import time


def part(draw, ranks):
    """The lines of each rank of a part: mostly one that takes all that is sent in it."""
    lines = [[] for _ in range(ranks)]
    kind = draw.randrange(6)
    root = draw.randrange(ranks)
    others = [rank for rank in range(ranks) if rank != root]
    tag = draw.randrange(2)
    if kind <= 2:
        # A gather of any source, and sometimes an answer to all or to some.
        for place, rank in enumerate(others):
            lines[rank].append(f'{draw.choice(["send", "ssend", "bsend"])} {root} {tag}')
            named = f'recv {rank} {tag}' if draw.random() < 0.1 else f'recv * {"*" if place % 2 else tag}'
            lines[root].append(named)
        if draw.random() < 0.7:
            for rank in others:
                if draw.random() < 0.9:
                    lines[root].append(f'send {rank} 5')
                    lines[rank].append(f'recv {root} 5')
    elif kind == 3 and others:
        other = draw.choice(others)
        lines[root].append(f'isend a {other} {tag}')
        lines[root].append('wait a')
        lines[other].append(f'recv {draw.choice([root, "*"])} {draw.choice([tag, "*"])}')
    elif kind == 4 and others:
        other = draw.choice(others)
        lines[root].append(f'sendrecv {other} 6 {other} 6')
        lines[other].append(f'sendrecv {root} 6 {root} 6')
    elif others:
        other = draw.choice(others)
        lines[root].append(f'send {other} 7')
        lines[other].append(f'mprobe h {draw.choice([root, "*"])} 7')
        lines[other].append('mrecv h')
    if draw.random() < 0.05:
        lines[root].append(f'bsend {draw.randrange(ranks)} {tag}')
    return lines


def whole(draw):
    ranks = draw.randint(2, 4)
    kinds = [part(draw, ranks) for _ in range(draw.randint(1, 3))]
    parts = [draw.choice(kinds) for _ in range(draw.randint(1, 5))]
    text = [f'ranks {ranks}', f'policy {draw.choice(["any", "any", "none", "all"])}']
    for rank in range(ranks):
        text.append(f'rank {rank}')
        for lines in parts:
            text += lines[rank]
    return '\n'.join(text) + '\n'


class Trial:
    def __init__(self, program, folder):
        self.program = program
        self.folder = folder
        self.findings = 0
        self.counts = {}

    def run(self, *words):
        done = subprocess.run([self.program, *words], cwd=self.folder, capture_output=True, text=True, timeout=300)
        return done.returncode, (done.stdout.splitlines() or [''])[0]

    def find(self, what):
        self.findings += 1
        kept = tempfile.mkdtemp(prefix='phased.')
        shutil.copytree(self.folder, kept, dirs_exist_ok=True)
        print(f'{kept}: {what}')

    def agree(self, what, answer, proved):
        """Both kinds of answer are proved, so two of them may not differ."""
        status, words = answer
        self.counts[f'{what}: {words.split(":")[0]}'] = self.counts.get(f'{what}: {words.split(":")[0]}', 0) + 1
        if status not in (0, 1, 2):
            self.find(f'{what} gives {status} {words}')
        elif status < 2 and proved[0] < 2 and status != proved[0]:
            self.find(f'{what} gives {words}, and prove {proved[1]}')

    def ends_stuck(self, *words):
        """The schedule that is written with a deadlock is one of the whole."""
        if self.run(*words, '--out', 'schedule')[0] == 1 and self.run('replay', 'long.mpi', 'schedule')[0] != 1:
            self.find(f'the schedule of {" ".join(words)} does not end stuck')

    def spoil(self, draw):
        path = os.path.join(self.folder, 'phases', 'phases')
        order = open(path).read().split()
        texts = sorted(name for name in os.listdir(os.path.join(self.folder, 'phases')) if name.endswith('.mpi'))
        way = draw.randrange(4)
        if way == 0 and len(order) > 1:
            one, other = draw.sample(range(len(order)), 2)
            order[one], order[other] = order[other], order[one]
        elif way == 1 and order:
            order[draw.randrange(len(order))] = str(draw.randint(1, len(texts)))
        elif way == 2:
            shown = [name for name in os.listdir(os.path.join(self.folder, 'phases')) if name.endswith('.evidence')]
            if len(shown) > 1:
                one, other = draw.sample(shown, 2)
                shutil.copy(os.path.join(self.folder, 'phases', one), os.path.join(self.folder, 'phases', other))
        else:
            name = os.path.join(self.folder, 'phases', draw.choice(texts))
            lines = open(name).read().splitlines()
            calls = [place for place, line in enumerate(lines) if line.split()[0] not in ('ranks', 'policy', 'rank')]
            if calls:
                line = lines.pop(draw.choice(calls))
                lines.insert(draw.randint(3, len(lines)), line)
                open(name, 'w').write('\n'.join(lines) + '\n')
        open(path, 'w').write(''.join(number + '\n' for number in order))

    def one(self, draw):
        shutil.rmtree(os.path.join(self.folder, 'phases'), ignore_errors=True)
        os.mkdir(os.path.join(self.folder, 'phases'))
        open(os.path.join(self.folder, 'long.mpi'), 'w').write(whole(draw))
        proved = self.run('prove', 'long.mpi', '--workers', '1')
        self.agree('decide --phases', self.run('decide', 'long.mpi', '--phases'), proved)
        status, words = self.run('phases', 'long.mpi', '--out', 'phases')
        if not words.startswith('phases '):
            self.agree('phases', (status, words), proved)
            return
        for job in open(os.path.join(self.folder, 'phases', 'jobs')).read().split():
            self.run('prove', job, '--workers', '1', '--out', job[:-len('mpi')] + 'evidence')
        self.agree('join', self.run('join', 'long.mpi', 'phases'), proved)
        self.ends_stuck('join', 'long.mpi', 'phases')
        self.ends_stuck('decide', 'long.mpi', '--phases')
        for _ in range(3):
            self.spoil(draw)
            self.agree('join, spoiled', self.run('join', 'long.mpi', 'phases'), proved)


def main():
    words = argparse.ArgumentParser()
    words.add_argument('minutes', nargs='?', type=float, default=5)
    words.add_argument('--seed', type=int, default=random.randrange(2**32))
    asked = words.parse_args()
    root = os.path.join(os.path.dirname(os.path.abspath(__file__)), '..', '..')
    program = os.path.abspath(os.environ.get('MPIPROVE', os.path.join(root, 'crates', 'mpiprove', 'out', 'mpiprove')))
    print(f'seed {asked.seed}')
    draw = random.Random(asked.seed)
    end = time.time() + asked.minutes * 60
    with tempfile.TemporaryDirectory() as folder:
        trial = Trial(program, folder)
        tried = 0
        while time.time() < end:
            trial.one(draw)
            tried += 1
    for what in sorted(trial.counts):
        print(f'{trial.counts[what]:6} {what}')
    print(f'{tried} programs, {trial.findings} findings')
    # A run in which phases decided nothing, or no deadlock, tells nothing.
    decided = all(trial.counts.get(f'join: {answer}') for answer in ('no deadlock', 'deadlock'))
    return 1 if trial.findings or not decided else 0


sys.exit(main())
