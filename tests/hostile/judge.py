"""A second judge, in plain Python, which shares no code with the program: texts by docs/FORMATS.md, runs by docs/DEFINITIONS.md.

`verdict` says of a program and an evidence what `check` should print, `trimmed` what `trim` should, and `can_get_stuck` goes
through all runs of a small program. The clauses of a program's formula come from `encode`.
"""
import re
from collections import namedtuple

MOST = 2_147_483_647
NUMBER = '(0|[1-9][0-9]*)'
NUMBER_OR_STAR = r'(0|[1-9][0-9]*|\*)'
NAME = '([a-z][a-z0-9]{0,15})'
COMMUNICATOR = f'(?: comm {NUMBER})?'
SENDS = {'send': 'standard', 'ssend': 'synchronous', 'bsend': 'buffered'}
TAKERS = ('recv', 'mprobe')
COLLECTIVES = """barrier bcast gather gatherv scatter scatterv allgather allgatherv alltoall alltoallv alltoallw reduce allreduce
    reduce_scatter reduce_scatter_block scan exscan""".split()
REFUSED_WORDS = {*COLLECTIVES, *('i' + word for word in COLLECTIVES), *"""iprobe improbe test testall testany testsome waitany
    waitsome cancel request_free rsend irsend send_init bsend_init ssend_init rsend_init recv_init psend_init precv_init start
    startall isendrecv sendrecv_replace put get accumulate win_create comm_dup comm_split comm_create""".split()}
# Each shape has the letters of its fields: D and S peers, T tags, C a communicator, Q a request, H a handle.
SHAPES = [(re.compile(pattern), fields) for pattern, fields in [
    (f'(s?send|bsend) {NUMBER} {NUMBER}{COMMUNICATOR}', 'DTC'),
    (f'(is?send|ibsend) {NAME} {NUMBER} {NUMBER}{COMMUNICATOR}', 'QDTC'),
    (f'(recv|probe) {NUMBER_OR_STAR} {NUMBER_OR_STAR}{COMMUNICATOR}', 'STC'),
    (f'(irecv) {NAME} {NUMBER_OR_STAR} {NUMBER_OR_STAR}{COMMUNICATOR}', 'QSTC'),
    (f'(mprobe) {NAME} {NUMBER_OR_STAR} {NUMBER_OR_STAR}{COMMUNICATOR}', 'HSTC'),
    (f'(mrecv) {NAME}', 'H'),
    (f'(imrecv) {NAME} {NAME}', 'QH'),
    (f'(wait) {NAME}', 'Q'),
    (f'(waitall)((?: {NAME})+)', 'W'),
    (f'(sendrecv) {NUMBER} {NUMBER} {NUMBER_OR_STAR} {NUMBER_OR_STAR}{COMMUNICATOR}', 'DTSUC'),
]]
Limits = namedtuple('Limits', 'bytes ranks ranges calls')


def ranges(peer, tag, communicator):
    """The least and the greatest number of each field."""
    return {'D': (0, peer), 'S': (0, peer), 'T': (0, tag), 'U': (0, tag), 'C': (1, communicator)}


# Those of programs that have a formula, and those of `decide`, which has none but that of its numbers.
SHORT = Limits(1_048_576, 64, ranges(63, 32767, 255), 1024)
LONG = Limits(MOST ** 2, MOST, ranges(MOST, MOST, MOST), MOST ** 2)

Call = namedtuple('Call', 'word kind rank place mode blocks peer tag communicator uses')
Program = namedtuple('Program', 'policy ranks calls own partner')
Formula = namedtuple('Formula', 'variables clauses')
Schedule = namedtuple('Schedule', 'steps')
Refutation = namedtuple('Refutation', 'version variables clauses lines nodes')


class Refused(Exception):
    """What stands behind `refused `."""


def is_within(value, low, high):
    return value is None or value == '*' or low <= int(value) <= high


def call_line(line):
    """The word and the fields of a call line of any numbers, or None."""
    for pattern, letters in SHAPES:
        match = pattern.fullmatch(line)
        if match:
            return match[1], dict(zip(letters, match.groups()[1:]))
    return None


def read_program_lines(text, limits):
    """The policy, the number of ranks, and each call line with its rank and place."""
    if len(text) > limits.bytes:
        raise Refused('text too large')
    ranks, policy, rank, found = None, None, -1, []
    lines = text.decode('latin-1').split('\n')
    for number, line in enumerate(lines, 1):
        ended = number < len(lines)
        if not ended and line == '' and rank >= 0 and rank + 1 == ranks:
            return policy, ranks, found
        if not line.isascii():
            raise Refused(f'line {number} not ascii')
        if rank >= 0 and ended and line.split(' ')[0] in REFUSED_WORDS:
            raise Refused(f'line {number} out of profile {line.split(" ")[0]}')
        heading = re.fullmatch(f'ranks {NUMBER}', line) if number == 1 else None
        call = call_line(line) if rank >= 0 else None
        if ended and heading:
            ranks = int(heading[1])
            if not 1 <= ranks <= limits.ranks:
                raise Refused(f'line {number} range')
        elif ended and number == 2 and line in ('policy any', 'policy none', 'policy all'):
            policy = line[7:]
        elif ended and number > 2 and line == f'rank {rank + 1}' and rank + 1 < ranks:
            rank, place = rank + 1, 0
        elif ended and call:
            if not all(is_within(value, *limits.ranges[letter]) for letter, value in call[1].items() if letter in limits.ranges):
                raise Refused(f'line {number} range')
            place += 1
            found.append((rank, place, *call))
        else:
            raise Refused(f'line {number} syntax')
    raise AssertionError('the last piece of a text is always judged')


def expanded(rank, place, word, fields):
    """The calls of a line. A use is of a request (Q) or a handle (H): the letter, the name, and whether it is a start."""
    def number(letter):
        return None if fields[letter] == '*' else int(fields[letter])

    def call(shown, kind, uses=(), mode=None, blocks=True, peer=None, tag=None):
        communicator = int(fields.get('C') or 0)
        return Call(shown, kind, rank, place, mode, blocks, peer, tag, communicator, uses)

    if word == 'sendrecv':
        names = [('Q', f'{side} {rank} {place}') for side in ('send', 'recv')]
        return [call('isend', 'send', ((*names[0], True),), 'standard', False, number('D'), number('T')),
                call('irecv', 'recv', ((*names[1], True),), None, False, number('S'), number('U')),
                *(call('wait', 'wait', ((*name, False),)) for name in names)]
    if word == 'waitall':
        return [call('wait', 'wait', (('Q', name, False),)) for name in fields['W'].split()]
    kind = word[1:] if word.startswith('i') else word
    uses = [('Q', fields['Q'], word != 'wait')] if 'Q' in fields else []
    uses += [('H', fields['H'], word == 'mprobe')] if 'H' in fields else []
    peer = number('D') if 'D' in fields else number('S') if 'S' in fields else None
    tag = number('T') if 'T' in fields else None
    return [call(word, 'send' if kind in SENDS else kind, tuple(uses), SENDS.get(kind), kind == word, peer, tag)]


def call_faults(calls, ranks, most):
    """Each fault of a call line: rank, place, its place in the table of refusals, and its words."""
    last, starts = {}, {}
    for place, call in enumerate(calls):
        for letter, name, is_start in call.uses:
            key, base, thing = (call.rank, letter, name), 'QH'.index(letter) * 3, {'Q': 'request', 'H': 'handle'}[letter]
            if is_start and last.get(key):
                yield call.rank, call.place, base + 1, f'{thing} open'
            if not is_start and not last.get(key):
                yield call.rank, call.place, base, f'{thing} unknown'
            last[key] = is_start
            if is_start:
                starts.setdefault(key, []).append(call)
            else:
                starts[key] = []
        if call.peer is not None and call.peer >= ranks:
            yield call.rank, call.place, 6, 'peer range'
        if place == most:
            yield call.rank, call.place, 7, 'too many calls'
    for (_, letter, _), left in starts.items():
        for call in left:
            yield call.rank, call.place, 'QH'.index(letter) * 3 + 2, {'Q': 'request', 'H': 'handle'}[letter] + ' left'


def read_program(text, limits=SHORT):
    """The program of a text within the limits. A partner is the start that a wait ends, the probe of a matched receive, or the other way round."""
    policy, ranks, lines = read_program_lines(text, limits)
    calls = [call for line in lines for call in expanded(*line)]
    faults = sorted(call_faults(calls, ranks, limits.calls))
    if faults:
        raise Refused(f'rank {faults[0][0]} place {faults[0][1]} {faults[0][3]}')
    partner, started = {}, {}
    for place, call in enumerate(calls):
        for letter, name, is_start in call.uses:
            if is_start:
                started[call.rank, letter, name] = place
            else:
                partner[place] = started[call.rank, letter, name]
                if letter == 'H':
                    partner[partner[place]] = place
    own = [[place for place, call in enumerate(calls) if call.rank == rank] for rank in range(ranks)]
    return Program(policy, ranks, calls, own, partner)


def fits(send, finder):
    return (send.peer == finder.rank and finder.peer in (None, send.rank) and finder.tag in (None, send.tag)
            and send.communicator == finder.communicator)


def pairs_of(program):
    """All pairs of a send and a receive, matched probe or probe that fit."""
    finders = [place for place, call in enumerate(program.calls) if call.kind in (*TAKERS, 'probe')]
    return [(send, finder) for send, call in enumerate(program.calls) if call.kind == 'send'
            for finder in finders if fits(call, program.calls[finder])]


class Machine:
    """The runs of a program. A state: how many calls each rank has issued, the buffered sends, the matches and the sees."""

    def __init__(self, program):
        self.program, self.calls = program, program.calls
        self.position = {place: index for own in program.own for index, place in enumerate(own)}
        senders, finders = {}, {}
        for send, finder in pairs_of(program):
            senders.setdefault(finder, []).append(send)
            finders.setdefault(send, []).append(finder)
        self.earlier = {(send, finder): (
            [other for other in senders[finder] if other < send and self.calls[other].rank == self.calls[send].rank],
            [other for other in finders[send] if other < finder and self.calls[other].kind in TAKERS])
            for finder in senders for send in senders[finder]}
        self.opening = (0,) * program.ranks, frozenset(), frozenset(), frozenset()

    def is_issued(self, state, place):
        return self.position[place] < state[0][self.calls[place].rank]

    def is_done(self, state, place):
        """The operation of a call is done."""
        _, buffered, matches, sees = state
        call = self.calls[place]
        if call.kind in TAKERS:
            return any(taker == place for _, taker in matches)
        if call.kind == 'probe':
            return any(probe == place for _, probe in sees)
        if call.kind == 'send' and call.mode != 'buffered':
            return place in buffered or any(send == place and self.is_fetching(state, taker) for send, taker in matches)
        return True

    def is_fetching(self, state, taker):
        return self.calls[taker].kind == 'recv' or self.is_issued(state, self.program.partner[taker])

    def has_returned(self, state, place):
        call = self.calls[place]
        return not call.blocks or self.is_done(state, self.program.partner[place] if call.kind == 'wait' else place)

    def may_issue(self, state, rank, buffered):
        own, index = self.program.own[rank], state[0][rank]
        if index == len(own) or (index and not self.has_returned(state, own[index - 1])):
            return False
        is_standard = self.calls[own[index]].mode == 'standard'
        return (self.program.policy != ('none' if buffered else 'all')) if is_standard else not buffered

    def may_find(self, state, send, finder):
        """A match or a see, by the finder's kind, is enabled."""
        if (send, finder) not in self.earlier or not (self.is_issued(state, send) and self.is_issued(state, finder)):
            return False
        matched = {place for match in state[2] for place in match}
        if send in matched or finder in matched or any(probe == finder for _, probe in state[3]):
            return False
        return all(other in matched for others in self.earlier[send, finder] for other in others)

    def is_enabled(self, state, step):
        if step[0] == 'issue':
            return step[1] < self.program.ranks and self.may_issue(state, *step[1:])
        is_probe = step[2] < len(self.calls) and self.calls[step[2]].kind == 'probe'
        return is_probe == (step[0] == 'see') and self.may_find(state, *step[1:])

    def after(self, state, step):
        issued, buffered, matches, sees = state
        if step[0] == 'match':
            return issued, buffered, matches | {step[1:]}, sees
        if step[0] == 'see':
            return issued, buffered, matches, sees | {step[1:]}
        place = self.program.own[step[1]][issued[step[1]]]
        issued = tuple(count + (rank == step[1]) for rank, count in enumerate(issued))
        return issued, buffered | {place} if step[2] else buffered, matches, sees

    def enabled_steps(self, state):
        steps = [('issue', rank, buffered) for rank in range(self.program.ranks) for buffered in (False, True)]
        steps += [('see' if self.calls[finder].kind == 'probe' else 'match', send, finder) for send, finder in self.earlier]
        return [step for step in steps if self.is_enabled(state, step)]

    def end(self, state):
        ranks = zip(state[0], self.program.own)
        if all(count == len(own) and (not own or self.has_returned(state, own[-1])) for count, own in ranks):
            return 'finished'
        return 'live' if self.enabled_steps(state) else 'stuck'


def can_get_stuck(program, most):
    """Whether some run ends stuck, or None where there are more than so many states."""
    machine = Machine(program)
    found, waiting = {machine.opening}, [machine.opening]
    while waiting:
        state = waiting.pop()
        if machine.end(state) == 'stuck':
            return True
        fresh = {machine.after(state, step) for step in machine.enabled_steps(state)} - found
        found |= fresh
        waiting += fresh
        if len(found) > most:
            return None
    return False


def read_step(line):
    """A step as a tuple, calls counted from 0, and its numbers with their least values; or None."""
    match = re.fullmatch(f'issue {NUMBER}( buffered)?', line)
    if match:
        return ('issue', int(match[1]), match[2] is not None), [(int(match[1]), 0)]
    match = re.fullmatch(f'(match|see) {NUMBER} {NUMBER}', line)
    return match and ((match[1], int(match[2]) - 1, int(match[3]) - 1), [(int(match[2]), 1), (int(match[3]), 1)])


class EvidenceReader:
    """The lines of an evidence, one after another."""

    def __init__(self, text):
        self.lines, self.number = text.decode('latin-1').split('\n'), 0

    def refuse(self, kind):
        raise Refused('evidence too large' if kind == 'too large' else f'evidence line {self.number} {kind}')

    def next(self):
        """The next line; None at the end of the text. A line without its end is a fault."""
        self.number += 1
        line = self.lines[self.number - 1]
        if self.number < len(self.lines):
            return line
        return None if line == '' else self.refuse('syntax')

    def next_of(self, pattern):
        line = self.next()
        return (line is not None and re.fullmatch(pattern, line)) or self.refuse('syntax')

    def check_range(self, numbers):
        if not all(low <= number <= MOST for number, low in numbers):
            self.refuse('range')


def read_schedule(reader):
    steps = []
    while (line := reader.next()) is not None:
        step, numbers = read_step(line) or reader.refuse('syntax')
        reader.check_range(numbers)
        steps.append(step)
        if len(steps) > 4096:
            reader.refuse('too large')
    return Schedule(steps)


def read_tree(reader):
    """The nodes in preorder, each with its depth."""
    nodes, depths = [], [0]
    while depths:
        match = reader.next_of(f'(split|leaf) {NUMBER}')
        depth = depths.pop()
        reader.check_range([(int(match[2]), 1)])
        nodes.append((match[1], int(match[2]), depth))
        if depth > 64 or len(nodes) > 65536:
            reader.refuse('too large')
        depths += [depth + 1] * 2 if match[1] == 'split' else []
    return nodes


def read_refutation(reader, version, heading):
    reader.check_range([(int(heading[1]), 0), (int(heading[2]), 0)])
    lines = []
    while (match := reader.next_of(f'tree|line((?: -?{NUMBER})*) :((?: {NUMBER})*)'))[0] != 'tree':
        literals, hints = [int(word) for word in match[1].split()], [int(word) for word in match[3].split()]
        variables = [abs(literal) for literal in literals]
        reader.check_range([(number, 1) for number in variables + hints])
        if any(first >= second for first, second in zip(variables, variables[1:])):
            reader.refuse('range')
        lines.append((literals, hints))
        if len(lines) > 1_000_000:
            reader.refuse('too large')
    nodes = read_tree(reader)
    if reader.next() is not None:
        reader.refuse('syntax')
    return Refutation(version, int(heading[1]), int(heading[2]), lines, nodes)


def read_evidence(text, versions):
    """The evidence of a text, of one of these versions."""
    reader = EvidenceReader(text)
    version = int(reader.next_of('evidence ([12])')[1])
    if version not in versions:
        reader.refuse('syntax')
    heading = reader.next_of(f'schedule|refutation {NUMBER} {NUMBER}')
    if heading[0] != 'schedule':
        return read_refutation(reader, version, heading)
    return read_schedule(reader) if version == 1 else reader.refuse('syntax')


def hint_fault(clauses, literals, hints):
    """What is wrong with the hints of a line, given the clauses before it, or None."""
    true = {-literal for literal in literals}
    for place, hint in enumerate(hints, 1):
        if not 1 <= hint <= len(clauses):
            return f'hint {place} range'
        left = [literal for literal in clauses[hint - 1] if -literal not in true]
        if not left:
            return None if place == len(hints) else f'hint {place + 1} after conflict'
        if len(left) > 1 or left[0] in true:
            return f'hint {place} idle'
        true.add(left[0])
    return 'no conflict'


def tree_fault(variables, clauses, nodes):
    """What is wrong with the first faulty node, or None."""
    path, is_second = [], False
    for place, (kind, number, depth) in enumerate(nodes, 1):
        if is_second:
            path = path[:depth - 1] + [-path[depth - 1]]
        is_second = kind == 'leaf'
        if not 1 <= number <= (variables if kind == 'split' else len(clauses)):
            return f'tree node {place} number'
        if kind == 'split':
            path.append(number)
        elif not all(-literal in path for literal in clauses[number - 1]):
            return f'tree node {place} leaf'
    return None


def needed_lines(refutation):
    """The numbers of the lines that a leaf names, or a hint of a later line that is needed."""
    needed = {number for kind, number, _ in refutation.nodes if kind == 'leaf'}
    first = refutation.clauses + 1
    for place in reversed(range(len(refutation.lines))):
        if first + place in needed:
            needed.update(refutation.lines[place][1])
    return [number for number in range(first, first + len(refutation.lines)) if number in needed]


def check_refutation(formula, refutation):
    if (refutation.variables, refutation.clauses) != (formula.variables, len(formula.clauses)):
        raise Refused('counts')
    clauses = list(formula.clauses)
    for literals, hints in refutation.lines:
        too_high = any(abs(literal) > formula.variables for literal in literals)
        fault = 'number' if too_high else hint_fault(clauses, literals, hints)
        if fault:
            raise Refused(f'proof line {len(clauses) + 1} {fault}')
        clauses.append(literals)
    fault = tree_fault(formula.variables, clauses, refutation.nodes)
    if fault:
        raise Refused(fault)
    unneeded = set(range(len(formula.clauses) + 1, len(clauses) + 1)) - set(needed_lines(refutation))
    if refutation.version == 2 and unneeded:
        raise Refused(f'proof line {min(unneeded)} unneeded')


def check_schedule(program, schedule):
    machine = Machine(program)
    state = machine.opening
    for number, step in enumerate(schedule.steps, 1):
        if not machine.is_enabled(state, step):
            raise Refused(f'step {number} not enabled')
        state = machine.after(state, step)
    if machine.end(state) != 'stuck':
        raise Refused(f'not stuck {machine.end(state)}')


def size_refusal(program):
    """Why a program's formula is too large, as far as its clauses aren't counted, or None."""
    finders = sum(call.kind in (*TAKERS, 'probe') for call in program.calls)
    too_many = 'encode too many events' if len(program.calls) + finders > 1024 else None
    return 'pairs too many' if len(pairs_of(program)) > 8192 else too_many


def verdict(program_text, evidence_text, formula_of, versions):
    """What `check` prints. The formula of a text, or why there is none, is told by the program's `encode`."""
    try:
        program = read_program(program_text)
        evidence = read_evidence(evidence_text, versions)
        if isinstance(evidence, Schedule):
            check_schedule(program, evidence)
            return 'deadlock'
        formula = size_refusal(program) or formula_of(program_text)
        if isinstance(formula, str):
            raise Refused(formula)
        check_refutation(formula, evidence)
        return 'no deadlock'
    except Refused as refused:
        return f'refused {refused}'


def trimmed(evidence_text, versions):
    """What `trim` prints, and the text that it writes or None."""
    try:
        evidence = read_evidence(evidence_text, versions)
        if isinstance(evidence, Schedule):
            raise Refused('not a refutation')
        first, behind = evidence.clauses + 1, evidence.clauses + len(evidence.lines) + 1
        named = [(number, behind) for kind, number, _ in evidence.nodes if kind == 'leaf']
        named += [(hint, first + place) for place, (_, hints) in enumerate(evidence.lines) for hint in hints]
        if any(number >= limit for number, limit in named):
            raise Refused('number')
    except Refused as refused:
        return f'refused {refused}', None
    needed = needed_lines(evidence)
    new = {number: first + place for place, number in enumerate(needed)}
    lines = ['evidence 2', f'refutation {evidence.variables} {evidence.clauses}']
    for number in needed:
        literals, hints = evidence.lines[number - first]
        lines.append(' '.join(['line', *map(str, literals), ':', *(str(new.get(hint, hint)) for hint in hints)]))
    lines += ['tree', *(f'{kind} {new.get(number, number) if kind == "leaf" else number}' for kind, number, _ in evidence.nodes)]
    return f'lines {len(evidence.lines)} {len(needed)}', '\n'.join(lines).encode() + b'\n'
