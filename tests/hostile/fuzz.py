"""Changes the texts of the examples by chance, gives them to the built program, and holds each answer against a second judge.

Run by tests/fuzz [MINUTES] [--seed N]. A finding is an answer that judge.py doesn't share, to the
line that is refused; a crash; a run of more than 20 seconds; a line that is unknown; a status that
doesn't fit its line. Findings are kept in a folder.
"""
import argparse
import glob
import os
import random
import re
import shutil
import tempfile
import time
from collections import Counter

import judge
from program import EXAMPLES, ROOT, built_program, content, has_trim, put, run

SECONDS = 20
MOST_BYTES = 100_000
FEW_CALLS = 10
MOST_STATES = 30_000
WORDS = """send ssend bsend isend issend ibsend recv irecv probe mprobe mrecv imrecv wait waitall sendrecv barrier iprobe comm q
    h request * rank ranks policy any none all evidence schedule refutation line : tree split leaf issue match see
    buffered""".split()
NUMBERS = '0 1 2 3 4 5 63 64 65 255 256 32767 32768 2147483647 2147483648 99999999999999999999 -1 -0 00 01'.split()
KINDS_OF_CALLS = [kinds.split() for kinds in ('send ssend bsend', 'isend issend ibsend irecv', 'recv probe send', 'mprobe irecv')]
STATUSES = {0: 'no deadlock', 1: 'deadlock', 2: 'unknown (budget|full|left|race)', 3: 'refused (?!memory$).*'}
BUFFERED = 'ranks 1\npolicy any\nrank 0\nbsend 0 1\n'


def changed_bytes(chance, text, _):
    """One byte is changed, put in or left out."""
    place = chance.randrange(len(text) + 1)
    byte = chance.choice(['', chr(chance.randrange(256)), chance.choice('\n 019*:-')])
    return text[:place] + byte + text[place + chance.randrange(2):]


def changed_lines(chance, text, other):
    """Lines are dropped, doubled, repeated, exchanged, moved, or taken from another text."""
    lines = text.split('\n')
    one, two = sorted(chance.randrange(len(lines)) for _ in range(2))
    how = chance.randrange(6)
    if how == 0:
        del lines[one:one + chance.choice([1, 1, 2, 4])]
    elif how == 1:
        lines.insert(two, lines[one])
    elif how == 2:
        lines[one], lines[two] = lines[two], lines[one]
    elif how == 3:
        lines.insert(one, lines.pop(two))
    elif how == 4:
        lines[one:one + chance.randrange(2)] = [chance.choice(other.split('\n'))]
    else:
        lines[one:one] = [lines[one]] * chance.choice([2, 3, 5, 8, 63, 64] + [1024, 4096] * (chance.random() < 0.02))
    return '\n'.join(lines)


def changed_words(chance, text, _):
    """Words of lines are changed, exchanged, dropped or doubled: hints and literals too."""
    lines = [line.split(' ') for line in text.split('\n')]
    line, second = chance.choice(lines), chance.choice(lines)
    place, other = chance.randrange(len(line)), chance.randrange(len(second))
    how = chance.randrange(5)
    if how == 0:
        del line[place]
    elif how == 1:
        line.insert(place, line[place])
    elif how == 2:
        line[place], second[other] = second[other], line[place]
    elif how == 3:
        line[place] = chance.choice(WORDS + NUMBERS)
    else:
        chance.shuffle(line)
    return '\n'.join(' '.join(words) for words in lines)


def changed_number(chance, text, _):
    """One number becomes another, or a number does wherever it stands, or a sign is turned."""
    numbers = list(re.finditer('-?[0-9]+', text))
    if not numbers:
        return text
    match, other = chance.choice(numbers), chance.choice(numbers)[0]
    number = chance.choice([other, chance.choice(NUMBERS), str(int(match[0]) + chance.choice([-1, 1, 2])), str(-int(match[0]))])
    if chance.random() < 0.2:
        return re.sub(rf'(?<![0-9-]){match[0]}(?![0-9])', number, text)
    return text[:match.start()] + number + text[match.end():]


def changed_call(chance, text, _):
    """A call becomes another one of the same shape, takes a star, a communicator, or another policy comes."""
    lines = text.split('\n')
    place = chance.choice([place for place, line in enumerate(lines) if not line.startswith('rank')] or [0])
    words = lines[place].split(' ')
    kinds = [kinds for kinds in KINDS_OF_CALLS if words[0] in kinds]
    if words[0] == 'policy':
        words = ['policy', chance.choice(['any', 'none', 'all'])]
    elif kinds and chance.random() < 0.6:
        words[0] = chance.choice(chance.choice(kinds))
    elif kinds and len(words) > 1 and chance.random() < 0.7:
        words[chance.randrange(1, len(words))] = chance.choice(['*', '0', '1', '2'])
    elif kinds:
        words += ['comm', chance.choice(['0', '1', '2', '255', '256'])]
    lines[place] = ' '.join(words)
    return '\n'.join(lines)


def renumbered(chance, text, _):
    """A proof line is doubled or taken out, and numbers close up behind it; or two steps, leaves or hints are exchanged."""
    lines = text.split('\n')
    heading = re.fullmatch('refutation [0-9]+ ([0-9]+)', lines[1]) if len(lines) > 1 else None
    proof = [place for place, line in enumerate(lines) if line.startswith('line')]
    if not heading or not proof or len(heading[1]) > 9:
        same = [place for place, line in enumerate(lines) if place > 1 and line]
        one, two = (chance.choice(same) for _ in range(2)) if same else (0, 0)
        lines[one], lines[two] = lines[two], lines[one]
        return '\n'.join(lines)
    place = chance.choice(proof)
    number, more = int(heading[1]) + proof.index(place) + 1, chance.choice([-1, 1])
    lines[place:place + 1] = [lines[place]] * (1 + more)

    def moved(match):
        return str(int(match[0]) + more) if int(match[0]) > number else match[0]
    for later in range(place + (more > 0), len(lines)):
        front, colon, back = lines[later].rpartition(' : ' if lines[later].startswith('line') else 'leaf ')
        lines[later] = front + colon + re.sub('[0-9]{1,9}', moved, back) if colon else lines[later]
    return '\n'.join(lines)


def changed_version(chance, text, _):
    """Another version, or one that there isn't."""
    return re.sub('^evidence [0-9]', f'evidence {chance.choice("01223")}', text)


OF_PROGRAMS = [changed_bytes, changed_words, *[changed_lines] * 2, *[changed_number] * 2, *[changed_call] * 8]
OF_EVIDENCES = [changed_bytes, changed_version, *[changed_lines, changed_words] * 2, *[changed_number, renumbered] * 4]


def walked(chance, source):
    """A schedule of a program: steps by chance until none is enabled."""
    machine = judge.Machine(judge.read_program(source.encode()))
    state, lines = machine.opening, ['evidence 1', 'schedule']
    while steps := machine.enabled_steps(state):
        step = chance.choice(steps)
        state = machine.after(state, step)
        numbers = f'{step[1]}{" buffered" * step[2]}' if step[0] == 'issue' else f'{step[1] + 1} {step[2] + 1}'
        lines.append(f'{step[0]} {numbers}')
    return '\n'.join(lines) + '\n'


class Fuzzer:
    """The texts to begin with, the program, and what was seen so far."""

    def __init__(self, program, seed):
        self.program, self.chance = program, random.Random(seed)
        self.versions = (1, 2) if has_trim(program) else (1,)
        self.room = tempfile.mkdtemp(prefix='fuzz-', dir='/dev/shm' if os.path.isdir('/dev/shm') else None)
        self.kept = tempfile.mkdtemp(prefix='fuzz-findings-', dir=os.environ.get('TMPDIR', '/tmp'))
        self.cases, self.answers, self.findings, self.formulas = Counter(), Counter(), 0, {}
        rows = re.findall('^\\| `((?:line|tree)[^`]*/)` \\|', content(ROOT, 'docs/FORMATS.md').decode(), re.MULTILINE)
        self.texts = [(BUFFERED, ['evidence 1\nrefutation 2 3\n' + row.replace('/', '\n') for row in rows])]
        for path in sorted(glob.glob(os.path.join(EXAMPLES, '*.mpi'))):
            with open(path) as file:
                source = file.read()
            self.texts.append((source, []))
            beside = content(EXAMPLES, os.path.basename(path)[:-4] + '.evidence')
            for more in (['--workers', '1'], ['--depth', '0']):
                if self.call(['prove', path, '--out', 'evidence', *more])[0] in (0, 1):
                    self.texts[-1][1].append(content(self.room, 'evidence').decode())
                else:
                    self.find('an example without an answer')
            self.texts[-1][1].extend([beside.decode()] if beside else [walked(self.chance, source)])
            if max(len(evidence) for evidence in self.texts[-1][1]) > MOST_BYTES:
                # The second judge, which is plain Python, would spend the whole time on it.
                self.texts.pop()

    def call(self, words):
        """A run in the room of this case: its status, the first line, and all that it printed."""
        self.words = words
        status, printed, told = run(self.program, words, self.room, SECONDS)
        line = printed.decode('latin-1').split('\n')[0]
        if status not in range(7) or status == 5 or b'panic' in told:
            self.find(f'ended with {status}: {told.decode("latin-1")[-300:]}')
        return status, line, printed

    def find(self, what):
        """Keeps the texts of this case with what is wrong."""
        self.findings += 1
        folder = os.path.join(self.kept, str(self.findings))
        shutil.copytree(self.room, folder)
        note = f'{" ".join(self.words)}\n{what}\n'
        put(folder, 'note', note)
        print(f'finding {self.findings}: {note}', end='', flush=True)

    def expect(self, answer, wanted):
        """The line is the judge's, and the status fits it."""
        status, line, _ = answer
        self.answers[' '.join(word for word in line.split()[:4] if not word.isdigit())] += 1
        if not re.fullmatch(STATUSES.get(status, 'no line'), line):
            self.find(f'status {status} with the line: {line}')
        elif line != wanted:
            self.find(f'answered: {line}\nthe judge: {wanted}')

    def formula_of(self, text):
        """The formula that the program encodes, or why it refuses to."""
        if text not in self.formulas:
            put(self.room, 'encoded', text)
            status, line, printed = self.call(['encode', 'encoded'])
            clauses = [[int(word) for word in clause.split()[1:]] for clause in printed.decode('latin-1').splitlines()[1:]]
            self.formulas[text] = judge.Formula(int(line.split()[1]), clauses) if status == 0 else line.removeprefix('refused ')
        return self.formulas[text]

    def verdict(self):
        return judge.verdict(content(self.room, 'program'), content(self.room, 'evidence'), self.formula_of, self.versions)

    def changed(self, text, changes, others):
        """A text with one to three changes; lines may come from one of the others."""
        for _ in range(self.chance.choice([1, 1, 1, 2, 3])):
            text = self.chance.choice(changes)(self.chance, text, self.chance.choice(others))
        return text.encode('latin-1')

    def put_changed_program(self, text):
        put(self.room, 'program', self.changed(text, OF_PROGRAMS, [other for other, _ in self.texts]))

    def try_program(self, text, _):
        """prove answers as the judge does, with an evidence that it accepts, and as all runs show."""
        self.put_changed_program(text)
        source = content(self.room, 'program')
        put(self.room, 'evidence', 'none')
        answer = self.call(['prove', 'program', '--out', 'evidence', '--budget', '3000', '--workers', self.chance.choice('14')])
        self.try_decision(source, answer[1])
        try:
            program = judge.read_program(source)
        except judge.Refused as refused:
            return self.expect(answer, f'refused {refused}')
        if answer[1] in ('no deadlock', 'deadlock'):
            self.expect(answer, self.verdict())
            self.expect(self.call(['check', 'program', 'evidence']), answer[1])
        else:
            formula = judge.size_refusal(program) or self.formula_of(source)
            self.expect(answer, f'refused {formula}' if isinstance(formula, str) else 'unknown budget')
        if len(program.calls) <= FEW_CALLS:
            stuck = judge.can_get_stuck(program, MOST_STATES)
            self.cases['all runs'] += stuck is not None
            if stuck is not None and answer[1] != ('deadlock' if stuck else 'no deadlock'):
                self.find(f'answered: {answer[1]}\nall runs: {"some" if stuck else "none"} ends stuck')
        return None

    def try_several(self):
        """decide of two programs tells of each what it tells of one, and ends as the graver of the two."""
        put(self.room, 'other', 'ranks 1\npolicy any\nrank 0\nrecv 0 0\n')
        own, other = self.call(['decide', 'program']), self.call(['decide', 'other'])
        both = self.call(['decide', 'program', 'other', 'program'])
        rows = b'program program: ' + own[2], b'program other: ' + other[2]
        if both[0] != 1 or both[2] != rows[0] + rows[1] + rows[0]:
            self.find('several programs are told otherwise than one by one')
        twice = self.call(['decide', 'program', 'program'])
        if twice[0] != own[0] or twice[2] != 2 * rows[0]:
            self.find('a program is told otherwise beside itself')

    def try_decision(self, source, proved):
        """decide tells the judge's fault, or what prove does; of a deadlock check accepts the schedule. A race names a call."""
        put(self.room, 'schedule', 'none')
        self.try_several()
        answer = self.call(['decide', 'program', '--out', 'schedule'])
        try:
            judge.read_program(source, judge.LONG)
        except judge.Refused as refused:
            return self.expect(answer, f'refused {refused}')
        self.expect(answer, 'unknown race' if answer[0] == 2 else 'deadlock' if answer[0] == 1 else 'no deadlock')
        if answer[0] == 2 and answer[2].count(b' of rank ') < 2:
            self.find('the race names no two calls')
        if proved in ('no deadlock', 'deadlock') and answer[0] != 2 and answer[1] != proved:
            self.find(f'prove answered: {proved}')
        if proved == 'deadlock' and answer[1] == 'deadlock' and self.call(['check', 'program', 'schedule'])[0] != 1:
            self.find('check refuses the schedule of decide')
        if answer[1] != 'deadlock' and content(self.room, 'schedule') != b'none':
            self.find('a schedule without a deadlock')
        return None

    def try_evidence(self, text, evidences):
        """check says of a changed evidence what the judge says."""
        put(self.room, 'program', text)
        others = [self.chance.choice(self.texts)[1][0], evidences[0]]
        put(self.room, 'evidence', self.changed(self.chance.choice(evidences), OF_EVIDENCES, others))
        self.check_evidence()

    def try_both(self, text, evidences):
        """The same where the program is changed too."""
        self.put_changed_program(text)
        evidence = self.chance.choice(evidences)
        put(self.room, 'evidence', self.changed(evidence, OF_EVIDENCES, [evidence]) if self.chance.random() < 0.3 else evidence)
        self.check_evidence()

    def check_evidence(self):
        wanted = self.verdict()
        answer = self.call(['check', 'program', 'evidence', '--pieces', self.chance.choice('14')])
        self.expect(answer, wanted)
        for words in (['explain', 'program', 'evidence'], ['export', 'program', 'evidence', '--out', 'proof']):
            if self.chance.random() < 0.2 and self.call(words)[0] != answer[0]:
                self.find(f'its status is not the one of check: {answer[0]}')
        if 2 in self.versions and self.chance.random() < 0.5:
            self.check_trim()

    def check_trim(self):
        """trim prints and writes what the judge does."""
        wanted, text = judge.trimmed(content(self.room, 'evidence'), self.versions)
        put(self.room, 'trimmed', 'none')
        status, line, _ = self.call(['trim', 'evidence', '--out', 'trimmed'])
        if line != wanted or status != (0 if text else 3) or content(self.room, 'trimmed') != (text or b'none'):
            self.find(f'status {status}, {line}\nthe judge: {wanted}')

    def work(self, end):
        """Cases of all kinds until the time is over."""
        tries = {'program': self.try_program, 'evidence': self.try_evidence, 'both': self.try_both}
        while time.time() < end:
            kind = self.chance.choice(['program', 'evidence', 'evidence', 'both'])
            self.cases[kind] += 1
            tries[kind](*self.chance.choice(self.texts))
            if len(self.formulas) > 300:
                self.formulas.clear()


def main():
    """Works for so many minutes, and prints figures; status 1 where something was found."""
    parser = argparse.ArgumentParser(prog='tests/fuzz')
    parser.add_argument('minutes', nargs='?', type=float, default=1)
    parser.add_argument('--seed', type=int, default=int(time.time()))
    options = parser.parse_args()
    fuzzer = Fuzzer(built_program(), options.seed)
    try:
        fuzzer.work(time.time() + 60 * options.minutes)
    finally:
        shutil.rmtree(fuzzer.room)
    for title, counts in (('cases', fuzzer.cases), ('answers', fuzzer.answers)):
        print(f'{title}: ' + ', '.join(f'{count} {name}' for name, count in sorted(counts.items(), key=lambda pair: -pair[1])))
    print(f'findings: {fuzzer.findings}, seed {options.seed}' + (f', kept in {fuzzer.kept}' if fuzzer.findings else ''))
    if fuzzer.findings:
        raise SystemExit(1)
    os.rmdir(fuzzer.kept)


if __name__ == '__main__':
    main()
