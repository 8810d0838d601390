"""Makes SPMD texts by chance, unrolls them by the built program, and holds each answer against a second unroller.

Run by tests/unrolled [MINUTES] [--seed N]. A finding is a program, a map or a refusal that spmd.py doesn't share, to the line that
is refused; a table of `decide --ranks` that differs from what `decide` says of single programs; a crash; a run of more than 20
seconds; a status that doesn't fit. Findings are kept in a folder.
"""
import argparse
import glob
import os
import random
import re
import shutil
import tempfile
import time
from collections import Counter

import spmd
from program import EXAMPLES, built_program, content, put, run

SECONDS = 20
MOST_CALLS = 3000
NUMBERS = '0 0 1 1 1 2 2 3 4 5 7 62 63 127 128 32767 32768 99999 100000 9223372036854775807'.split()
ODD = ['9223372036854775808', '9' * 400, '1a', 'x' * 33, '$', '!', '\\', '"', '\0', '\x7f', '*', '(', ')', '[', ']', ',', '=', '==', '<', '\n', '#',
       'end', 'else', 'elif 1 == 1', 'param z = 1', 'policy all', 'then', 'to', 'step 0', 'comm', 'among', 'null', 'rank', 'not', '-']


class Author:
    """Writes a text. Names are given values before they are used, but for a few."""

    def __init__(self, chance):
        self.chance, self.names, self.loops, self.lines, self.open, self.label = chance, [], [], [], [], 0

    def pick(self, *choices):
        return self.chance.choice(choices)

    def number(self, depth=3):
        roll = self.chance.random()
        if depth == 0 or roll < 0.45:
            names = self.names + self.loops
            return self.pick('rank', 'size', self.chance.choice(NUMBERS[:8]), self.chance.choice(NUMBERS) if roll < 0.02 else '1',
                             self.chance.choice(names) if names else '2', self.chance.choice(names) if names else 'rank')
        if roll < 0.5:
            return f'if {self.condition(depth - 1)} then {self.number(depth - 1)} else {self.number(depth - 1)}'
        if roll < 0.55:
            return '-' + self.factor(depth - 1)
        if roll < 0.75:
            joints = self.pick('+', '-', '*'), self.pick('+', '-', '*')
            return f'{self.factor(depth - 1)} {joints[0]} {self.factor(depth - 1)}' + (f' {joints[1]} {self.factor(depth - 1)}' if roll < 0.62 else '')
        operator = self.pick('div', 'mod', 'mod', 'shl', 'shr', 'xor')
        right = self.pick('2', '3', 'size', '1') if roll < 0.97 else self.factor(depth - 1)
        return f'{self.factor(depth - 1)} {operator} {right}'

    def factor(self, depth):
        text = self.number(depth)
        return f'({text})' if ' ' in text or text[0] == '-' else text

    def condition(self, depth=2):
        roll = self.chance.random()
        if depth == 0 or roll < 0.6:
            test = f'{self.number(depth)} {self.pick("==", "!=", "<", "<=", ">", ">=")} {self.number(depth)}'
            return f'({test})' if roll < 0.1 else test
        if roll < 0.7:
            return f'not ({self.condition(depth - 1)})' if roll < 0.68 else f'not {self.condition(0)}'
        joint = self.pick('and', 'or')
        return f'({self.condition(depth - 1)}) {joint} ({self.condition(depth - 1)})' if roll < 0.85 else f'{self.condition(0)} {joint} {self.condition(0)}'

    def peer(self):
        return self.pick('(rank + 1) mod size', '(rank + size - 1) mod size', '0', 'size - 1', 'rank xor 1', 'if rank > 0 then rank - 1 else null',
                         'if rank < size - 1 then rank + 1 else null', 'null', f'({self.number(1)}) mod size')

    def tag(self):
        return self.pick('0', '1', '2', f'({self.number(1)}) mod 7', self.chance.choice(self.loops) if self.loops else '3', self.chance.choice(NUMBERS))

    def wild(self, part):
        return '*' if self.chance.random() < 0.2 else part()

    def comm(self):
        return f' comm {self.pick("0", "1", "127", self.number(1))}' if self.chance.random() < 0.15 else ''

    def new_label(self):
        self.label += 1
        return f'{self.pick("q", "r", "h")}{self.label}' + (f'[{self.number(1)}]' if self.chance.random() < 0.3 else '')

    def put(self, text):
        blanks = self.pick(' ', '\t', '  ') if self.chance.random() < 0.05 else ' '
        tail = self.pick(' # note', '', ' ', '\r') if self.chance.random() < 0.1 else ''
        self.lines.append('  ' * len(self.open) + text.replace(' ', blanks) + tail)
        if self.chance.random() < 0.03:
            self.lines.append(self.pick('', '# only a note', '   '))

    def call(self):
        kind = self.chance.randrange(9)
        send, take = self.pick('send', 'ssend', 'bsend'), self.pick('recv', 'recv', 'probe')
        if kind == 0:
            self.put(f'{send} {self.peer()}, {self.tag()}{self.comm()}')
        elif kind == 1:
            self.put(f'{take} {self.wild(self.peer)}, {self.wild(self.tag)}{self.comm()}')
        elif kind == 2:
            self.put(f'sendrecv {self.peer()}, {self.tag()}, {self.wild(self.peer)}, {self.wild(self.tag)}{self.comm()}')
        elif kind in (3, 4):
            labels = [self.new_label() for _ in range(self.chance.randrange(1, 4))]
            for label in labels:
                self.put(f'i{send} {label}, {self.peer()}, {self.tag()}{self.comm()}' if self.chance.random() < 0.5 else
                         f'irecv {label}, {self.wild(self.peer)}, {self.wild(self.tag)}{self.comm()}')
            if self.chance.random() < 0.95:
                self.put('waitall ' + self.pick(', ', ',', ',\n   ').join(labels) if self.chance.random() < 0.6 or len(labels) > 1 else f'wait {labels[0]}')
        elif kind == 5:
            handle, request = self.new_label(), self.new_label()
            self.put(f'mprobe {handle}, {self.wild(self.peer)}, {self.wild(self.tag)}{self.comm()}')
            if self.chance.random() < 0.5:
                self.put(f'mrecv {handle}')
            else:
                self.put(f'imrecv {request}, {handle}')
                self.put(f'wait {request}')
        else:
            name = self.chance.choice(spmd.KINDS)
            root = ' ' + self.pick('0', 'size - 1', f'({self.number(1)}) mod size') if name in ('bcast', 'reduce', 'gather', 'scatter') else ''
            group = self.pick('', '', '', ' among 0 to size - 1', ' among rank mod 2 to size - 1 step 2', f' among {self.number(1)} to {self.number(1)}')
            self.put(name + root + group + self.comm())

    def statements(self, count):
        for _ in range(count):
            roll = self.chance.random()
            if roll < 0.2:
                own = [name for name in self.names if name[0] == 'n' or roll < 0.004]
                name = f'n{len(self.names)}' if self.chance.random() < 0.8 or not own else self.chance.choice(own)
                self.put(f'let {name} = {self.peer() if roll < 0.03 else self.number()}')
                if name not in self.names and not self.open:
                    self.names.append(name)
            elif roll < 0.35 and len(self.open) < 4:
                self.loop()
            elif roll < 0.5 and len(self.open) < 4:
                self.branch()
            elif roll < 0.505:
                self.put('error')
            else:
                self.call()

    def loop(self):
        name = f'i{len(self.loops)}'
        self.put(f'for {name} = {self.pick("0", "1", "rank")} to {self.pick("2", "3", "size - 1", "rank + 1")}' + self.pick('', '', ' step 2', ' step 3'))
        self.open.append('for')
        self.loops.append(name)
        self.statements(self.chance.randrange(3))
        self.loops.pop()
        self.open.pop()
        self.put('end')

    def branch(self):
        self.put(f'if {self.condition()}')
        self.open.append('if')
        self.statements(self.chance.randrange(3))
        for _ in range(self.chance.choice([0, 0, 0, 1, 2])):
            self.lines.append('  ' * (len(self.open) - 1) + f'elif {self.condition()}')
            self.statements(self.chance.randrange(2))
        if self.chance.random() < 0.5:
            self.lines.append('  ' * (len(self.open) - 1) + 'else')
            self.statements(self.chance.randrange(2))
        self.open.pop()
        self.put('end')

    def text(self):
        self.put('spmd')
        if self.chance.random() < 0.3:
            self.put('policy ' + self.pick('any', 'none', 'all'))
        for _ in range(self.chance.choice([0, 0, 1, 2])):
            value = self.pick('', ' = 1', ' = size', f' = {self.number(1)}')
            self.put(f'param p{len(self.names)}{value if "rank" not in value else ""}')
            self.names.append(f'p{len(self.names)}')
        self.statements(self.chance.randrange(1, 9))
        return ''.join(line + '\n' for line in self.lines)


def spoilt(chance, text):
    """A piece is put in, taken out or exchanged, or the end is cut off."""
    how, place = chance.randrange(4), chance.randrange(len(text) + 1)
    if how == 0:
        return text[:place]
    words = text.split(' ')
    at = chance.randrange(len(words))
    if how == 1:
        words[at] = chance.choice(ODD)
    elif how == 2:
        del words[at]
    else:
        words.insert(at, chance.choice([*ODD, chance.choice(words)]))
    return ' '.join(words)


class Fuzzer:
    def __init__(self, program, seed):
        self.program, self.chance, self.seed = program, random.Random(seed), seed
        self.room, self.kept = tempfile.mkdtemp(), tempfile.mkdtemp()
        self.findings, self.answers = 0, Counter()
        self.texts = [open(path, encoding='ascii').read() for path in sorted(glob.glob(f'{EXAMPLES}/spmd/*.spmd'))]

    def find(self, what, words):
        """Keeps the text with what was found."""
        self.findings += 1
        folder = os.path.join(self.kept, str(self.findings))
        shutil.copytree(self.room, folder)
        put(folder, 'finding', f'{" ".join(words)}\n{what}\n')
        print(f'{folder}: {what}', flush=True)

    def settings(self, text):
        names = re.findall(r'^param +(\w+)', text, re.MULTILINE | re.ASCII)
        made = [f'{name}={self.chance.choice(["0", "1", "2", "3", "-1", "4"])}' for name in names if self.chance.random() < 0.7]
        if self.chance.random() < 0.03:
            made.append(self.chance.choice(['x=1', 'p0=1', 'p0', 'p0=', 'p0=1x', 'p0=' + '9' * 19, 'p0=' + '0' * 20, '=1', 'p0=-', 'rank=1', 'p0=--1']))
        return made

    def case(self):
        text = Author(self.chance).text() if self.chance.random() < 0.8 else self.chance.choice(self.texts)
        while self.chance.random() < 0.2:
            text = spoilt(self.chance, text)
        source, size, settings = text.encode('latin-1'), self.chance.choice([1, 2, 3, 4, 5, 6, 8, 9, 16]), self.settings(text)
        put(self.room, 't.spmd', source)
        way = self.chance.choice([[], [], ['--collectives', 'least'], ['--collectives', 'most']])
        said = [*way, *(word for setting in settings for word in ('--set', setting))]
        words = ['unroll', 't.spmd', '--ranks', str(size), '--map', 'map', *said]
        put(self.room, 'map', 'none')
        status, printed, told = run(self.program, words, self.room, SECONDS)
        try:
            wanted, wanted_map = spmd.unrolled('t.spmd', source, size, settings, barriers='most' in way)
            wanted_status = 0
        except spmd.Refused as refused:
            wanted, wanted_map, wanted_status = f'refused {refused}\n', 'none', 3
        self.answers['unrolled' if not wanted_status else 'read, and refused' if ', rank ' in wanted else 'not read'] += 1
        printed = printed.decode('latin-1')
        alike = printed.startswith(wanted[:-4]) and len(printed.split('\n')) == 2 if wanted.endswith(': ...\n') else printed == wanted
        if status != wanted_status or not alike:
            self.find(f'status {status}: {printed[:300]!r} {told[:300]!r}\nthe other unroller: {wanted[:300]!r}', words)
        elif content(self.room, 'map') != wanted_map.encode('latin-1'):
            self.find('the map is another', words)
        elif self.chance.random() < 0.3:
            self.sweep(said)

    def sweep(self, said):
        """A table has the rows that single programs have, and the gravest status of them."""
        first = self.chance.choice([1, 2, 3, 5])
        last = first + self.chance.choice([0, 1, 3])
        words = ['decide', 't.spmd', '--ranks', self.chance.choice([f'{first}..{last}', str(first)]), *said]
        if '..' not in words[3]:
            last = first
        status, printed, told = run(self.program, words, self.room, SECONDS)
        rows, statuses = [], []
        for size in range(first, last + 1):
            own, text, _ = run(self.program, ['unroll', 't.spmd', '--ranks', str(size), *said], self.room, SECONDS)
            if own == 0:
                put(self.room, 'p.mpi', text)
                own, text, _ = run(self.program, ['decide', 'p.mpi'], self.room, SECONDS)
            rows.append(f'ranks {size}: ' + text.decode('latin-1'))
            statuses.append(own)
        gravest = next(one for one in (1, 4, 2, 3, 0) if one in statuses)
        self.answers[f'tables with {gravest}'] += 1
        # places of the text stand behind the numbers of lines
        if status != gravest or re.sub(r'(line \d+) \(t\.spmd:.*?\)(?= of rank)', r'\1', printed.decode('latin-1')) != ''.join(rows):
            self.find(f'status {status}: {printed[:300]!r} {told[:300]!r}\nsingle programs: {gravest}, {"".join(rows)[:300]!r}', words)


def main():
    """Works for so many minutes, and prints figures; status 1 where something was found."""
    parser = argparse.ArgumentParser(prog='tests/unrolled')
    parser.add_argument('minutes', nargs='?', type=float, default=1)
    parser.add_argument('--seed', type=int, default=int(time.time()))
    options = parser.parse_args()
    fuzzer = Fuzzer(built_program(), options.seed)
    end = time.time() + 60 * options.minutes
    while time.time() < end:
        fuzzer.case()
    shutil.rmtree(fuzzer.room)
    print('texts: ' + ', '.join(f'{count} {name}' for name, count in fuzzer.answers.most_common()))
    print(f'findings: {fuzzer.findings}, seed {options.seed}' + (f', kept in {fuzzer.kept}' if fuzzer.findings else ''))
    if fuzzer.findings:
        raise SystemExit(1)
    os.rmdir(fuzzer.kept)


if __name__ == '__main__':
    main()
