"""Random programs whose calls depend on what they found: what the driver says of them beside a walk through all of their states.

usage: simulate.py CONVERT FROM TO [--open] [--alike] [--plant]

Each seed from FROM to below TO is a program of two or three ranks; its runs are made by chance, with the outcomes that the driver
forces, and recorded as the recorder does, so that the converter CONVERT makes their texts. Where no run gets stuck,
and without other words, there have to be as many paths as there are. `--open`: wildcards may be left open; `--alike`: programs whose
workers may be exchanged for one another, and the driver is told so; `--plant`: one outcome of each choice is forgotten, which has to
be seen. The last line is `N passed, M failed`."""
import collections
import os
import random
import subprocess
import sys
import tempfile

sys.path.insert(0, os.path.join(os.path.dirname(os.path.abspath(__file__)), '..', '..', 'paths'))

from alike import Alike                                                 # noqa: E402
from explore import Explorer                                            # noqa: E402
from knowledge import Knowledge                                         # noqa: E402
from machine import Machine                                             # noqa: E402
from runs import Refused, Runner                                        # noqa: E402
from sites import Sites                                                 # noqa: E402
from texts import FAILED, IN_A_ROW                                                # noqa: E402

MOST_STATES = 800
MOST_RUNS = 150


class Program:
    """`next(rank, history)` is the rank's next call, by the outcomes of those before: calls that fit together, then made wild, and what
    follows an outcome is the same rest, changed by chance with it. A call is (operation, ..)."""

    def __init__(self, seed, alike):
        self.seed, self.alike, self.cache = seed, alike, {}
        chance = random.Random(seed)
        self.size = 3 if alike else chance.choice([2, 3, 3, 3])
        self.changes = chance.random() < 0.5
        self.lists = [[] for _ in range(self.size)]
        make = random.Random(seed * 7 + 1)
        for _ in range(make.choice([1, 2]) if alike else make.choice([2, 3, 3, 4])):
            self.add_message(make)
        for calls in self.lists[:1] if alike else self.lists:
            self.make_wild(calls, make)

    def add_message(self, make):
        tag, mode, reply = make.choice([0, 0, 1]), make.choice('tttsb'), make.random() < 0.5
        for source in (1, 2) if self.alike else (make.randrange(self.size),):
            to = 0 if self.alike else make.choice([r for r in range(self.size) if r != source])
            named = not self.alike and make.random() < 0.2
            self.lists[source].append(['send', mode, to, tag])
            self.lists[to].append(['recv', source if named else None, tag if self.alike or make.random() < 0.5 else None])
            if reply:
                self.lists[to].append(['reply', 2])
                self.lists[source].append(['recv', to, 2])

    @staticmethod
    def make_wild(calls, make):
        for call in calls:
            if call[0] == 'recv' and call[1] is None and make.random() < 0.3:
                call[0] = make.choice(['poll', 'loop'])
            elif call[0] == 'recv' and make.random() < 0.35:
                call[0] = 'irecv'
            elif call[0] == 'send' and make.random() < 0.35:
                call[0] = 'isend'

    def next(self, rank, history):
        key = (rank, history)
        if key not in self.cache:
            self.cache[key] = self.find_next(rank, history)
        return self.cache[key]

    def find_next(self, rank, history):
        todo, left, last, count = [list(c) for c in self.lists[rank]], list(history), None, 0
        waiting, tests = [], 0
        while True:
            at = len(history) - len(left)
            if todo:
                call = todo.pop(0)
                if call[0] == 'reply' and last is None:
                    continue
                if call[0] in ('isend', 'irecv'):
                    count += 1
                now = ('send', 't', last, call[1]) if call[0] == 'reply' else tuple(call) + ((count,) if call[0] in ('isend', 'irecv') else ())
            elif waiting and tests < 1 and len(waiting) == 1 and self.chance(rank, 'test').random() < 0.4:
                tests, now = tests + 1, ('test', tuple(waiting))
            elif waiting:
                now = ('some' if self.chance(rank, 'some').random() < 0.3 else 'any', tuple(waiting))
            else:
                now = ('end',)
            if not left:
                return now
            outcome = left.pop(0)
            if now[0] in ('isend', 'irecv'):
                waiting.append(now[-1])
            elif now[0] in ('any', 'some', 'test') and outcome != FAILED:
                waiting, last = [q for q in waiting if q not in outcome], None
            elif now[0] in ('poll', 'loop') and outcome == FAILED:
                todo.insert(0 if self.chance(rank, at, 'f').random() < 0.5 else min(1, len(todo)), ['recv', call[1], call[2]])
            elif now[0] in ('poll', 'loop'):
                todo.insert(0, ['recv', outcome[0], outcome[1]])
            elif now[0] == 'recv':
                last = outcome[0]
            self.change(rank, now, outcome, todo)

    def chance(self, *key):
        return random.Random(repr((self.seed,) + key))

    def change(self, rank, call, outcome, todo):
        """What follows is changed by chance with the outcome; of ranks that are alike with its tag alone."""
        if not self.changes or call[0] not in ('recv', 'any', 'some') or not outcome or (self.alike and rank):
            return
        chance = self.chance(0 if self.alike else rank, outcome[1:] if self.alike else outcome, len(todo))
        if chance.random() < 0.3 and len(todo) > 1:
            at = chance.randrange(len(todo) - 1)
            todo[at], todo[at + 1] = todo[at + 1], todo[at]
        elif chance.random() < 0.06 and todo:
            todo.pop()


class State:
    """Of a run: the calls of each rank, with their outcomes, None while they wait."""

    def __init__(self, program):
        self.program = program
        self.calls, self.out = [[] for _ in range(program.size)], [[] for _ in range(program.size)]
        self.buffered, self.match = set(), {}

    def key(self):
        return repr((self.calls, self.out, sorted(self.buffered), sorted(self.match.items())))

    def copy(self):
        other = State(self.program)
        other.calls, other.out = [list(x) for x in self.calls], [list(x) for x in self.out]
        other.buffered, other.match = set(self.buffered), dict(self.match)
        return other

    def is_done(self, at):
        call = self.calls[at[0]][at[1]]
        return at in self.match or (call[0] in ('send', 'isend') and (call[1] == 'b' or at in self.buffered))

    def fits(self, send, rank, source, tag):
        call = self.calls[send[0]][send[1]]
        return call[2] == rank and source in (None, send[0]) and tag in (None, call[3])

    def messages(self):
        sends = [(r, i) for r in range(self.program.size) for i, c in enumerate(self.calls[r]) if c[0] in ('send', 'isend')]
        return [at for at in sends if at not in self.match]

    def can_take(self, send, rank, place, source, tag):
        """Whether a receive or probe at that place may find the message: no earlier one of its rank fits, and no earlier receive."""
        if not self.fits(send, rank, source, tag):
            return False
        if any(x[0] == send[0] and x[1] < send[1] and self.fits(x, rank, source, tag) for x in self.messages()):
            return False
        return not any(c[0] in ('recv', 'irecv') and (rank, i) not in self.match and self.fits(send, rank, c[1], c[2])
                       for i, c in enumerate(self.calls[rank][:place]))

    def start_of(self, rank, name):
        return next((rank, i) for i, c in enumerate(self.calls[rank]) if c[0] in ('isend', 'irecv') and c[-1] == name)

    def outcomes(self):
        """Of each call with a choice, also what nonblocking receives found."""
        found = [(at, self.message(send)) for at, send in self.match.items() if self.calls[at[0]][at[1]][0] == 'irecv']
        return repr(self.out), repr(sorted(found))

    def stands_in(self, rank):
        """The call in which a rank waits, or None."""
        return self.calls[rank][-1] if self.calls[rank] and self.out[rank][-1] is None else None

    def has_ended(self, rank):
        return bool(self.calls[rank]) and self.calls[rank][-1][0] == 'end'

    def message(self, send):
        return send[0], self.calls[send[0]][send[1]][3]

    def returns(self, rank):
        """The outcomes with which the call in which a rank waits can return."""
        place, call = len(self.calls[rank]) - 1, self.stands_in(rank)
        if call[0] == 'send' and self.is_done((rank, place)):
            yield ()
        elif call[0] in ('any', 'some', 'test'):
            done = tuple(q for q in call[1] if self.is_done(self.start_of(rank, q)))
            for k in range(1, 2 ** len(done)):
                some = tuple(q for i, q in enumerate(done) if k >> i & 1)
                if len(some) == 1 or call[0] == 'some':
                    yield some
        elif call[0] in ('poll', 'loop'):
            for send in self.messages():
                if self.can_take(send, rank, place, call[1], call[2]):
                    yield self.message(send)
        if call[0] in ('poll', 'test'):
            yield FAILED

    def steps(self):
        for rank in range(self.program.size):
            if self.has_ended(rank):
                continue
            if self.stands_in(rank) is None:
                call = self.program.next(rank, tuple(self.out[rank]))
                if call[0] in ('send', 'isend') and call[1] == 't':
                    yield ('issue', rank, call, True)
                yield ('issue', rank, call, False)
            else:
                for outcome in self.returns(rank):
                    yield ('return', rank, outcome)
        for send in self.messages():
            to = self.calls[send[0]][send[1]][2]
            for place, call in enumerate(self.calls[to]):
                if call[0] in ('recv', 'irecv') and (to, place) not in self.match and self.can_take(send, to, place, call[1], call[2]):
                    yield ('match', send, (to, place))

    def apply(self, step):
        if step[0] == 'issue':
            _, rank, call, buffered = step
            self.calls[rank].append(call)
            self.out[rank].append(() if call[0] in ('isend', 'irecv', 'end') else None)
            if buffered:
                self.buffered.add((rank, len(self.calls[rank]) - 1))
        elif step[0] == 'return':
            self.out[step[1]][-1] = step[2]
        else:
            send, taker = step[1:]
            self.match[send], self.match[taker] = taker, send
            if self.calls[taker[0]][taker[1]][0] == 'recv':
                self.out[taker[0]][taker[1]] = self.message(send)


def can_get_stuck(program):
    """By a walk through all states: whether some run gets stuck, or None where there are too many; and what came of each run that didn't."""
    seen, todo, ends = set(), [State(program)], set()
    while todo:
        state = todo.pop()
        key = state.key()
        if key in seen:
            continue
        seen.add(key)
        if len(seen) > MOST_STATES:
            return None, ends
        steps = list(state.steps())
        if not steps and not all(state.has_ended(r) for r in range(program.size)):
            return True, ends
        if not steps:
            ends.add(state.outcomes())
        for step in steps:
            other = state.copy()
            other.apply(step)
            todo.append(other)
    return False, ends


class Recorded:
    """A run by chance with forced outcomes, and its recordings."""

    def __init__(self, program, forced, seed):
        self.program, self.forced, self.chance = program, forced, random.Random(seed)
        self.lines = [['recording 1 %d %d simulated' % (r, program.size), 'state ?', 'comm 0 world : ' + ' '.join(map(str, range(program.size))),
                       'comm 1 self : %d' % r] for r in range(program.size)]
        self.numbers, self.count, self.in_row = {}, [0] * program.size, [False] * program.size
        self.state = State(program)
        while True:
            step = self.choose()
            if step is None:
                break
            self.state.apply(step)
            self.tell(step)
        for rank in range(program.size):
            self.lines[rank][1] = 'state i' if self.state.stands_in(rank) is not None or self.state.has_ended(rank) else 'state b'

    def is_allowed(self, step):
        """Whether no forced outcome forbids it."""
        if step[0] == 'issue':
            return True
        at = step[2] if step[0] == 'match' else (step[1], len(self.state.calls[step[1]]) - 1)
        forced = self.forced.get((at[0], self.numbers.get(at)))
        if forced is None:
            return True
        value = self.state.message(step[1]) if step[0] == 'match' else step[2]
        return forced[1] == value or (forced[1] == FAILED and self.state.calls[at[0]][at[1]][0] == 'loop')

    def choose(self):
        """Sends are buffered mostly, so that forced outcomes come."""
        steps = [s for s in self.state.steps() if self.is_allowed(s)]
        waits = lambda s: s[0] == 'issue' and not s[3] and s[2][0] in ('send', 'isend') and s[2][1] == 't'
        good = [s for s in steps if not waits(s) or self.chance.random() < 0.2]
        return self.chance.choice(good or steps) if steps else None

    def call(self, rank, *words):
        self.in_row[rank] &= words[1] == 'polls'
        self.lines[rank].append('call ' + ' '.join('*' if w is None else str(w) for w in words) + ' @')

    def number(self, at, is_choice, polls=False):
        if is_choice:
            row = self.count[at[0]] // IN_A_ROW * IN_A_ROW
            self.count[at[0]] = self.count[at[0]] + 1 if self.in_row[at[0]] else row + IN_A_ROW
            self.numbers[at], self.in_row[at[0]] = self.count[at[0]], polls
        self.choice(at)

    def choice(self, at):
        if at in self.numbers:
            self.lines[at[0]].append('choice %d' % self.numbers[at])

    def tell(self, step):
        if step[0] == 'issue':
            self.tell_call(step[1], step[2])
        elif step[0] == 'return':
            self.tell_return(step[1], step[2])
        elif self.state.calls[step[2][0]][step[2][1]][0] == 'recv' and step[2] in self.numbers:
            self.lines[step[2][0]].append('found 0 %d %d 1' % self.state.message(step[1]))

    def tell_call(self, rank, call):
        """The name of the function has the place of the call in the list, which stands for its site."""
        at, op = (rank, len(self.state.calls[rank]) - 1), call[0]
        if op == 'send':
            self.call(rank, 'MPI_Send', 'send', call[1], 0, call[2], call[3], 4)
        elif op == 'isend':
            self.call(rank, 'MPI_Isend', 'isend', call[1], call[4], 0, call[2], call[3], 4)
        elif op == 'recv':
            self.call(rank, 'MPI_Recv%d' % at[1], 'recv', 0, call[1], call[2], 4)
            self.number(at, None in call[1:3])
        elif op == 'irecv':
            self.call(rank, 'MPI_Irecv%d' % at[1], 'irecv', call[3], 0, call[1], call[2], 4)
            self.number(at, None in call[1:3])
        elif op in ('any', 'some'):
            self.call(rank, 'MPI_Waitany' if op == 'any' else 'MPI_Waitsome', 'any', *call[1])
            self.number(at, True)
        elif op in ('poll', 'loop'):
            self.call(rank, 'MPI_Iprobe', 'polls', 0, call[1], call[2])
            self.number(at, True, True)
            if op == 'loop' and self.forced.get((rank, self.numbers[at]), (0, 0))[1] == FAILED:
                self.lines[rank].append('spins %d' % self.numbers[at])
        elif op == 'test':
            self.call(rank, 'MPI_Test', 'polls', *call[1])
            self.number(at, True, True)
        else:
            self.call(rank, 'MPI_Finalize', 'end')

    def tell_return(self, rank, outcome):
        at = (rank, len(self.state.calls[rank]) - 1)
        call = self.state.calls[rank][-1]
        if call[0] in ('poll', 'loop') and outcome != FAILED:
            self.call(rank, 'MPI_Iprobe', 'iprobe', 0, call[1], call[2])
            self.choice(at)
            if None in call[1:3]:
                self.lines[rank].append('found 0 %d %d 1' % outcome)
        elif call[0] in ('any', 'some', 'test') and outcome != FAILED:
            self.call(rank, {'any': 'MPI_Waitany', 'some': 'MPI_Waitsome', 'test': 'MPI_Test'}[call[0]], 'took', *outcome)
            self.choice(at)
            for name in outcome:
                start = self.state.start_of(rank, name)
                if start in self.numbers:
                    self.lines[rank].append('found %d %d %d 1' % ((name,) + self.state.message(self.state.match[start])))

    def write(self, folder):
        for rank, lines in enumerate(self.lines):
            with open(os.path.join(folder, 'rank.%d' % rank), 'w') as file:
                file.write('\n'.join(lines) + '\n')
        return all(self.state.has_ended(r) for r in range(self.program.size))


class Simulated:
    """In place of a Runner."""

    def __init__(self, program, convert, folder):
        self.program, self.convert, self.folder, self.runs = program, convert, folder, 0

    def run(self, forced):
        self.runs += 1
        ended = Recorded(self.program, forced, self.runs * 1000 + self.program.seed).write(self.folder)
        name = os.path.join(self.folder, 'run')
        if os.path.exists(name + '.choices'):
            os.unlink(name + '.choices')
        done = subprocess.run([self.convert, '--outcomes', '--run', '0' if ended else 'time', self.folder, name], capture_output=True, text=True)
        if not os.path.exists(name + '.choices'):
            raise Refused(done.returncode, done.stderr)
        return Runner.read(name)


def copy_of(machine):
    other = Machine(machine.text, machine.wide)
    other.issued, other.buffered = list(machine.issued), set(machine.buffered)
    other.match, other.seen, other.log = dict(machine.match), dict(machine.seen), list(machine.log)
    other.sends, other.takers = [list(x) for x in machine.sends], [list(x) for x in machine.takers]
    return other


def key_of(machine):
    return tuple(machine.issued), frozenset(machine.buffered), frozenset(machine.match.items()), frozenset(machine.seen.items())


class Walk:
    """In place of a Decider: all states of a text."""

    def __init__(self):
        self.asked = 0

    def ask(self, text):
        self.asked += 1
        seen, stack = set(), [Machine(text)]
        while stack:
            machine = stack.pop()
            if key_of(machine) in seen:
                continue
            seen.add(key_of(machine))
            steps = list(machine.steps())
            if not steps and not machine.are_finished():
                return 'deadlock', machine
            for step in steps:
                for buffered in (True, False) if step[0] == 'issue' else (False,):
                    other = copy_of(machine)
                    other.apply(step, buffered)
                    stack.append(other)
        return 'no deadlock', None


class Pinned(Sites):
    """Each choice is pinned."""

    def learn(self, explorer, path):
        pass


def said_of(program, convert, folder, words):
    sites = Sites() if '--open' in words else Pinned()
    alike = Alike(1, 2) if '--alike' in words else None
    explorer = Explorer(Simulated(program, convert, folder), Walk(), MOST_RUNS, alike, lambda line: None, sites)
    explorer.explore()
    while not explorer.deadlock and not explorer.lacks and not explorer.todo and any(sites.open.values()):
        changed = sites.sample(explorer, 6)
        if not changed:
            break
        for site in changed:
            sites.open[site] = False
        explorer.again()
    if explorer.deadlock:
        return 'deadlock', explorer
    if explorer.lacks or explorer.todo or set(explorer.answers) - {'no deadlock'} or (alike and not alike.check(explorer)):
        return 'unknown', explorer
    return 'no deadlock', explorer


def plant():
    """Alternatives are forgotten."""
    whole = Knowledge.alternatives
    Knowledge.alternatives = lambda self, choice: set(sorted(whole(self, choice), key=str)[1:])


def main():
    convert, first, last = sys.argv[1], int(sys.argv[2]), int(sys.argv[3])
    words = sys.argv[4:]
    if '--plant' in words:
        plant()
    tally, wrong = collections.Counter(), 0
    with tempfile.TemporaryDirectory() as folder:
        for seed in range(first, last):
            program = Program(seed, '--alike' in words)
            truth, ends = can_get_stuck(program)
            if truth is None:
                tally['too large'] += 1
                continue
            said, explorer = said_of(program, convert, folder, words)
            right = 'deadlock' if truth else 'no deadlock'
            tally['%s, said %s' % (right, said)] += 1
            tally['paths'] += len(explorer.paths)
            tally['runs'] += explorer.runner.runs
            tally["outcomes that can't be had together"] += explorer.impossible
            tally['outcomes left out since ranks are alike'] += explorer.skipped
            tally['of several paths'] += said == 'no deadlock' and len(explorer.paths) > 1
            if said == 'no deadlock' and not words and len(ends) != len(explorer.leaves()):
                wrong += 1
                print('seed %d: %d paths, said %d' % (seed, len(ends), len(explorer.leaves())), flush=True)
            if said not in (right, 'unknown'):
                wrong += 1
                print('seed %d: %s, said %s, open %s' % (seed, right, said, sorted(s for s, o in explorer.sites.open.items() if o)), flush=True)
            elif said == 'unknown' and '-v' in words:
                print('seed %d: %s, unknown: %s %s' % (seed, right, explorer.lacks[:2], dict(explorer.answers)), flush=True)
    for word, count in sorted(tally.items()):
        print('%8d %s' % (count, word))
    right = sum(n for w, n in tally.items() if ', said ' in w) - wrong
    print('%d passed, %d failed' % (right, wrong))
    sys.exit(wrong != 0)


if __name__ == '__main__':
    main()
