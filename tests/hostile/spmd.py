"""Unrolls SPMD texts in a way of its own, which shares no code with the program.

`unrolled(path, source, ranks, settings)` gives the program's text and its map, or raises Refused with the line that is told.
The words of faults of the grammar aren't looked at: of these the place alone is told.
"""
import re

WORDS = set('''spmd policy any none all param let for to step end if then elif else error comm among rank size null not and or div
    mod shl shr xor send ssend bsend isend issend ibsend recv irecv probe mprobe mrecv imrecv wait waitall sendrecv barrier bcast
    reduce allreduce gather scatter allgather alltoall scan'''.split())
KINDS = 'barrier bcast reduce allreduce gather scatter allgather alltoall scan'.split()
SENDS = 'send ssend bsend isend issend ibsend'.split()
COMPARISONS = {'==': lambda a, b: a == b, '!=': lambda a, b: a != b, '<': lambda a, b: a < b, '<=': lambda a, b: a <= b,
               '>': lambda a, b: a > b, '>=': lambda a, b: a >= b}
LONE = 'div mod shl shr xor'.split()
BLANKS = b' \t\r\n'


class Refused(Exception):
    pass


class Ungrammatical(Exception):
    """A line that the grammar refuses."""


class Wrong(Exception):
    """A value that can't be one."""


def pieces(path, source):
    """The pieces, each with its line and kind. A line ends where no bracket is open and no comma came last."""
    found, line, open_brackets, at = [], 1, 0, 0

    def refuse(why):
        raise Refused(f'{path}:{line}: {why}')

    while at < len(source):
        match = re.compile(rb'[0-9A-Za-z_]+|#[^\n]*|==|!=|<=|>=|[-+*,()\[\]=<>]|[ \t\r]|\n').match(source, at)
        if not match:
            refuse('a character that has no meaning here')
        piece, at = match[0].decode('latin-1'), match.end()
        if piece == '\n':
            if not open_brackets and found and found[-1][1] not in (',', '\n'):
                found.append((line, '\n'))
            line += 1
        elif piece[0] in '# \t\r':
            continue
        elif piece[0].isdigit():
            digits = re.match('[0-9]*', piece)[0]
            if int(digits) >= 2 ** 63:
                refuse('a number above 9223372036854775807')
            if digits != piece:
                refuse('a character that has no meaning here')
            found.append((line, int(piece)))
        else:
            if re.match(r'\w', piece) and piece not in WORDS and len(piece) > 32:
                refuse('a name of more than 32 characters')
            open_brackets = max(0, open_brackets + (piece in '([') - (piece in ')]'))
            found.append((line, piece))
    if found and found[-1][1] not in (',', '\n'):
        found.append((line, '\n'))
    return found + [(line, '')]


class Reader:
    """Statements and expressions are tuples that begin with their kind."""

    def __init__(self, found):
        self.found, self.at, self.parameters, self.loops = found, 0, [], []

    def line(self):
        return self.found[self.at][0]

    def fail(self):
        """Tells the line on which what is read begins."""
        begins = self.at
        while begins > 0 and self.found[begins - 1][1] != '\n':
            begins -= 1
        raise Ungrammatical(self.found[begins][0])

    def next(self):
        return self.found[self.at][1]

    def take(self, *pieces):
        if self.next() in pieces and not isinstance(self.next(), int):
            self.at += 1
            return self.found[self.at - 1][1]
        return None

    def expect(self, *pieces):
        return self.take(*pieces) or self.fail()

    def name(self):
        piece = self.next()
        if isinstance(piece, int) or not re.fullmatch(r'\w+', piece) or piece in WORDS:
            self.fail()
        self.at += 1
        return piece

    def number(self, depth=32, **where):
        return self.sum(depth, **where)

    def row(self, part, joints, depth, where):
        """Parts with these between them, 256 at most."""
        parts = [part(depth, **where)]
        while self.next() in joints and not isinstance(self.next(), int):
            parts += [self.take(*joints), part(depth, **where)]
            if len(parts) > 512:
                self.fail()
        return parts

    def condition(self, depth=32, **where):
        parts = self.row(self.conjunction, ['or'], depth, where)
        return parts[0] if len(parts) == 1 else ('or', parts[::2])

    def conjunction(self, depth, **where):
        parts = self.row(self.negation, ['and'], depth, where)
        return parts[0] if len(parts) == 1 else ('and', parts[::2])

    def negation(self, depth, **where):
        if self.take('not'):
            if not depth:
                self.fail()
            return 'not', self.negation(depth - 1, **where)
        return self.test(depth, **where)

    def test(self, depth, **where):
        start = self.at
        if self.next() == '(':
            # A condition in parentheses, or a number that begins with one.
            try:
                self.at += 1
                if not depth:
                    self.fail()
                inner = self.condition(depth - 1, **where)
                self.expect(')')
                if self.next() not in (*COMPARISONS, *LONE, '+', '-', '*') or isinstance(self.next(), int):
                    return inner
            except Ungrammatical as fault:
                furthest = fault
            else:
                furthest = None
            self.at = start
            try:
                return self.comparison(depth, **where)
            except Ungrammatical as fault:
                raise max(fault, furthest or fault, key=lambda f: f.args)
        return self.comparison(depth, **where)

    def comparison(self, depth, **where):
        left = self.sum(depth, **where)
        return 'compare', self.expect(*COMPARISONS), left, self.sum(depth, **where)

    def sum(self, depth, **where):
        if self.take('if'):
            if not depth:
                self.fail()
            condition = self.condition(depth - 1, **where)
            self.expect('then')
            yes = self.sum(depth - 1, **where)
            self.expect('else')
            return 'if', condition, yes, self.sum(depth - 1, **where)
        parts = self.row(self.term, ['+', '-'], depth, where)
        return self.folded(parts)

    def folded(self, parts):
        left = parts[0]
        for joint, right in zip(parts[1::2], parts[2::2]):
            left = joint, left, right
        return left

    def term(self, depth, **where):
        left = self.factor(depth, **where)
        if self.next() in LONE and not isinstance(self.next(), int):
            made = self.take(*LONE), left, self.factor(depth, **where)
            if self.next() in (*LONE, '*') and not isinstance(self.next(), int):
                self.fail()
            return made
        parts = [left]
        while self.take('*'):
            parts += ['*', self.factor(depth, **where)]
            if len(parts) > 512:
                self.fail()
        if self.next() in LONE and not isinstance(self.next(), int):
            self.fail()
        return self.folded(parts)

    def factor(self, depth, **where):
        piece = self.next()
        if isinstance(piece, int):
            self.at += 1
            return 'number', piece
        if piece in ('-', '('):
            if not depth:
                self.fail()
            self.at += 1
            if piece == '-':
                return 'minus', self.factor(depth - 1, **where)
            inner = self.sum(depth - 1, **where)
            self.expect(')')
            return inner
        if piece == 'rank' and where.get('parameter'):
            self.fail()
        if self.take('rank', 'size', 'null'):
            return (piece,)
        return 'name', self.name()

    def label(self):
        name, index = self.name(), None
        if self.take('['):
            index = self.number()
            self.expect(']')
        fits = re.fullmatch('[a-z0-9]{1,9}' if index else '[a-z0-9]{1,16}', name)
        if not fits or not index and re.search('ix[0-9]+$', name):
            self.fail()
        return name, index

    def wild(self):
        return '*' if self.take('*') else self.number()

    def optional(self, word):
        return self.number() if self.take(word) else None

    def arguments(self, word):
        """The arguments of a call, in their order."""
        request = None
        if word in ('isend', 'issend', 'ibsend', 'irecv', 'imrecv', 'mprobe'):
            request = self.label()
            self.expect(',')
        if word in SENDS:
            to = self.number()
            self.expect(',')
            return word, request, to, self.number(), self.optional('comm')
        if word in ('recv', 'probe', 'irecv', 'mprobe'):
            source = self.wild()
            self.expect(',')
            return word, request, source, self.wild(), self.optional('comm')
        if word in ('mrecv', 'imrecv'):
            return word, request, self.label()
        if word == 'sendrecv':
            parts = [self.number()]
            for part in (self.number, self.wild, self.wild):
                self.expect(',')
                parts.append(part())
            return word, *parts, self.optional('comm')
        if word == 'wait':
            return word, self.label()
        if word == 'waitall':
            labels = [self.label()]
            while self.take(','):
                if len(labels) == 1024:
                    self.fail()
                labels.append(self.label())
            return word, labels
        if word in KINDS:
            root = self.number() if word in ('bcast', 'reduce', 'gather', 'scatter') else None
            group = None
            if self.take('among'):
                first = self.number()
                self.expect('to')
                group = first, self.number(), self.optional('step')
            return word, root, group, self.optional('comm')
        self.at -= 1
        return self.fail()

    def end_line(self):
        if not self.take('\n') and self.next() != '':
            self.fail()

    def variable(self):
        name = self.name()
        if name in self.parameters or name in self.loops:
            self.fail()
        self.expect('=')
        return name

    def block(self, ends, depth):
        """Statements up to one of these words, which isn't taken."""
        if depth > 32:
            self.at -= 1
            self.fail()
        statements = []
        while self.next() not in ends or isinstance(self.next(), int):
            statements.append(self.statement(depth))
            self.end_line()
        return statements

    def branch(self, line, depth):
        """What stands behind `if` or `elif`."""
        condition = self.condition()
        self.end_line()
        yes, no = self.block(('elif', 'else', 'end', ''), depth + 1), []
        second = self.line()
        if self.take('elif'):
            return 'if', line, condition, yes, [self.branch(second, depth + 1)]
        if self.take('else'):
            self.end_line()
            no = self.block(('elif', 'else', 'end', ''), depth + 1)
        self.expect('end')
        return 'if', line, condition, yes, no

    def statement(self, depth):
        line, word = self.line(), self.next()
        if word not in WORDS or isinstance(word, int):
            self.fail()
        self.at += 1
        if word == 'let':
            return 'let', line, self.variable(), self.number()
        if word == 'error':
            return 'error', line
        if word == 'if':
            return self.branch(line, depth)
        if word == 'for':
            name = self.variable()
            self.loops.append(name)
            first = self.number()
            self.expect('to')
            last, step = self.number(), 1
            if self.take('step'):
                step = self.next()
                if not isinstance(step, int) or not 1 <= step < 2 ** 32:
                    self.fail()
                self.at += 1
            self.end_line()
            body = self.block(('end', 'elif', 'else', ''), depth + 1)
            self.expect('end')
            self.loops.pop()
            return 'for', line, name, first, last, step, body
        return 'call', line, self.arguments(word)

    def text(self):
        self.expect('spmd')
        self.end_line()
        policy = 'any'
        if self.take('policy'):
            policy = self.expect('any', 'none', 'all')
            self.end_line()
        heads = []
        while self.next() == 'param':
            line = self.line()
            self.at += 1
            name = self.name()
            if name in self.parameters:
                self.fail()
            self.parameters.append(name)
            heads.append(('param', line, name, self.number(parameter=True) if self.take('=') else None))
            self.end_line()
        statements = self.block(('',), 0)
        return policy, heads + statements


def wide(number):
    if not -2 ** 63 <= number < 2 ** 63:
        raise Wrong('a number beyond 64 bits')
    return number


def whole(value):
    if value is None:
        raise Wrong('null where a number has to stand')
    return value


def above_zero(number):
    if number <= 0:
        raise Wrong(f'divisor {number} is not above 0')
    return number


def shift(number):
    if not 0 <= number <= 62:
        raise Wrong(f'a shift by {number} is not 0 to 62')
    return number


def from_zero(number):
    if number < 0:
        raise Wrong(f'xor of {number}, which is below 0')
    return number


OPERATORS = {'+': lambda a, b: a + b, '-': lambda a, b: a - b, '*': lambda a, b: a * b, 'div': lambda a, b: a // above_zero(b),
             'mod': lambda a, b: a % above_zero(b), 'shl': lambda a, b: a * 2 ** shift(b), 'shr': lambda a, b: a // 2 ** shift(b),
             'xor': lambda a, b: from_zero(a) ^ from_zero(b)}


class Rank:
    """One rank's way through a text."""

    def __init__(self, rank, size, values, barriers, meetings):
        self.rank, self.size, self.values, self.barriers, self.left_out, self.met, self.calls = rank, size, dict(values), barriers, [], [], []
        self.meetings = meetings

    def value(self, expression):
        kind, *parts = expression
        if kind == 'number':
            return parts[0]
        if kind == 'null':
            return None
        if kind in ('rank', 'size'):
            return getattr(self, kind)
        if kind == 'name':
            if parts[0] not in self.values:
                raise Wrong(f'{parts[0]} has no value here')
            return self.values[parts[0]]
        if kind == 'if':
            return self.value(parts[1] if self.holds(parts[0]) else parts[2])
        if kind == 'minus':
            return wide(-self.number(parts[0]))
        left = self.number(parts[0])
        right = self.number(parts[1])
        return wide(OPERATORS[kind](left, right))

    def number(self, expression):
        return whole(self.value(expression))

    def holds(self, condition):
        kind, *parts = condition
        if kind == 'not':
            return not self.holds(parts[0])
        if kind == 'and':
            return all(self.holds(part) for part in parts[0])
        if kind == 'or':
            return any(self.holds(part) for part in parts[0])
        left, right = self.value(parts[1]), self.value(parts[2])
        if parts[0] not in ('==', '!='):
            left, right = whole(left), whole(right)
        return COMPARISONS[parts[0]](left, right)

    def within(self, number, limit, words):
        if not 0 <= number < limit:
            raise Wrong(words.format(number))
        return number

    def peer(self, expression):
        number = self.value(expression)
        if number is not None and number < 0:
            raise Wrong(f'peer {number} is below 0')
        return number if number is None else self.within(number, self.size, 'peer {} is not below ' + str(self.size))

    def member(self, expression):
        self.number(expression)
        return self.peer(expression)

    def source(self, expression):
        return '*' if expression == '*' else self.peer(expression)

    def tag(self, expression):
        return '*' if expression == '*' else self.within(self.number(expression), 32768, 'tag {} is not 0 to 32767')

    def communicator(self, expression):
        return self.within(self.number(expression), 128, 'communicator {} is not 0 to 127') if expression else 0

    def label(self, form):
        name, index = form
        return name, None if index is None else self.within(self.number(index), 100000, 'index {} is not 0 to 99999')

    def is_left_out(self, kind, label):
        return any(entry[:2] == (kind, label) for entry in self.left_out)

    def start(self, kind, label):
        if label and self.is_left_out(kind, label):
            raise Wrong(f'{label[0]} is started again before its end')

    def is_open(self, kind, label):
        """Whether a call started it, and no call behind that ended it."""
        is_open = False
        for _, (word, request, handle, *_) in self.calls:
            if word in ('wait', 'waitall'):
                is_open = is_open and not (kind == 'request' and label in request)
            elif word in ('mrecv', 'imrecv') and kind == 'handle':
                is_open = is_open and handle != label
            elif request == label and (word == 'mprobe') == (kind == 'handle'):
                is_open = True
        return is_open

    def leave(self, kind, label, where):
        if self.is_open(kind, label):
            raise Wrong(f'{label[0]} is started again before its end')
        self.left_out.append((kind, label, where))

    def forget(self, kind, label):
        self.left_out = [entry for entry in self.left_out if entry[:2] != (kind, label)]

    def message(self, word, request, peer, tag, communicator, where):
        """A send, a receive or a probe."""
        kind = 'handle' if word == 'mprobe' else 'request'
        request = request and self.label(request)
        peer = self.peer(peer) if word in SENDS else self.source(peer)
        tag = self.tag(tag)
        communicator = self.communicator(communicator)
        self.start(kind, request)
        if peer is not None:
            self.put(where, word, request, None, [peer, tag], communicator)
        elif request:
            self.leave(kind, request, where)

    def put(self, where, word, request=None, handle=None, numbers=(), communicator=0):
        self.calls.append((where, [word, request, handle, list(numbers), communicator]))

    def exchange(self, to, tag, source, other, communicator, where):
        to, tag = self.peer(to), self.tag(tag)
        source, other, communicator = self.source(source), self.tag(other), self.communicator(communicator)
        if to is None and source is not None:
            self.put(where, 'recv', numbers=[source, other], communicator=communicator)
        elif to is not None and source is None:
            self.put(where, 'send', numbers=[to, tag], communicator=communicator)
        elif to is not None:
            self.put(where, 'sendrecv', numbers=[to, tag, source, other], communicator=communicator)

    def collective(self, kind, root, group, communicator, where):
        root = root and self.member(root)
        first, last, step = (self.member(group[0]), self.member(group[1]), 1) if group else (0, self.size - 1, 1)
        if group and group[2]:
            step = self.number(group[2])
            if not 1 <= step < 65536:
                raise Wrong(f'step {step} of a group is not 1 to 65535')
        own = self.communicator(communicator)
        members = range(first, last + 1, step)
        root = first if root is None else root
        for rank in (self.rank, root):
            if rank not in members:
                raise Wrong(f'rank {rank} is not of the group')
        meeting = own, *members
        if meeting not in self.meetings:
            self.meetings.append(meeting)
        communicator = 128 + self.meetings.index(meeting)
        tag = 32 * self.met.count(meeting) + 2 * KINDS.index(kind)
        self.met.append(meeting)
        others = [rank for rank in members if rank != self.rank]
        meet, spread, collect = ([('recv', 0), ('bsend', 1)], [('bsend', 0), ('recv', 1)]), \
            ([('send', 0), ('bsend', 1)], [('recv', 0), ('recv', 1)]), ([('recv', 0), ('recv', 1)], [('bsend', 0), ('send', 1)])
        if kind == 'scan' and not self.barriers:
            lower, upper = [rank for rank in others if rank < self.rank][-1:], [rank for rank in others if rank > self.rank][:1]
            made = [('recv', lower, 0), ('bsend', upper, 0), ('send', upper, 1), ('recv', lower, 1)]
        else:
            forms = {} if self.barriers else {'bcast': spread, 'scatter': spread, 'reduce': collect, 'gather': collect}
            forms = forms.get(kind, meet)
            made = [(word, others if self.rank == root else [root], second) for word, second in forms[self.rank != root]]
        for word, peers, second in made:
            for peer in peers:
                self.put(where, word, numbers=[peer, tag + second], communicator=communicator)

    def perform(self, arguments, where):
        word, *parts = arguments
        if word in KINDS:
            self.collective(word, *parts, where)
        elif word == 'sendrecv':
            self.exchange(*parts, where)
        elif word in ('wait', 'waitall'):
            labels = []
            for form in parts[0] if word == 'waitall' else parts:
                label = self.label(form)
                if self.is_left_out('request', label):
                    self.forget('request', label)
                    continue
                if not labels:
                    self.put(where, word, labels)
                labels.append(label)
        elif word in ('mrecv', 'imrecv'):
            request, handle = parts[0] and self.label(parts[0]), self.label(parts[1])
            self.start('request', request)
            if self.is_left_out('handle', handle):
                self.forget('handle', handle)
                if request:
                    self.leave('request', request, where)
            else:
                self.put(where, word, request, handle)
        else:
            self.message(word, *parts, where)


class Unroller:
    def __init__(self, path, source, size, settings, barriers=False, most_turns=10_000_000):
        self.path, self.size, self.barriers, self.turns, self.most_turns = path, size, barriers, 0, most_turns
        if len(source) > 65536:
            raise Refused(f'{path}:1: the text has more than 65536 bytes')
        self.source = source
        try:
            self.policy, self.statements = Reader(pieces(path, source)).text()
        except Ungrammatical as fault:
            raise Refused(f'{path}:{fault.args[0]}: ...') from None
        self.settings = self.set(settings)

    def set(self, settings):
        parameters = [statement[2] for statement in self.statements if statement[0] == 'param']
        values = {}
        for word in settings:
            name, equals, text = word.partition('=')
            why = None if equals else 'it is not written NAME=VALUE'
            if not why and (not re.fullmatch('-?[0-9]{1,19}', text) or abs(int(text)) >= 2 ** 63):
                why = 'the value is no number'
            if not why and name not in parameters:
                why = 'the text has no such parameter'
            if not why and name in values:
                why = 'the parameter is set twice'
            if why:
                raise Refused(f'{self.path}, --set {word}: {why}')
            values[name] = int(text)
        return values

    def place(self, rank, line, turns):
        return f'{self.path}:{line}, rank {rank}' + ''.join(f', {name}={value}' for name, value in turns)

    def run(self, rank, statements, turns):
        for statement in statements:
            kind, line, *parts = statement
            try:
                if kind == 'param':
                    if parts[0] not in rank.values:
                        if parts[1] is None:
                            raise Wrong(f'the parameter {parts[0]} has no value')
                        rank.values[parts[0]] = rank.value(parts[1])
                elif kind == 'let':
                    rank.values[parts[0]] = rank.value(parts[1])
                elif kind == 'error':
                    raise Wrong('error was reached')
                elif kind == 'call':
                    rank.perform(parts[0], (line, tuple(turns)))
                elif kind == 'if':
                    chosen = parts[1] if rank.holds(parts[0]) else parts[2]
                else:
                    first, last = rank.number(parts[1]), rank.number(parts[2])
            except Wrong as why:
                raise Refused(f'{self.place(rank.rank, line, turns)}: {why}') from None
            if kind == 'if':
                self.run(rank, chosen, turns)
            elif kind == 'for':
                self.loop(rank, line, turns, parts[0], range(first, last + 1, parts[3]), parts[4])

    def loop(self, rank, line, turns, name, values, body):
        turn = turns
        for value in values:
            if value >= 2 ** 63:
                break
            if self.turns == self.most_turns:
                raise Refused(f'{self.place(rank.rank, line, turn)}: more than {self.most_turns} turns of loops')
            self.turns += 1
            turn = [*turns, (name, value)]
            rank.values[name] = value
            self.run(rank, body, turn)
        rank.values.pop(name, None)

    def whole(self):
        """The program's text, and the map's entries."""
        lines, places = [f'ranks {self.size}', f'policy {self.policy}'], []
        said = [said_of(line) for line in self.source.split(b'\n')]
        # Who meets in collective calls, in the order in which they first do: a communicator and its ranks.
        meetings = []
        for number in range(self.size):
            rank = Rank(number, self.size, self.settings, self.barriers, meetings)
            self.run(rank, self.statements, [])
            if rank.left_out:
                _, label, (line, turns) = rank.left_out[0]
                raise Refused(f'{self.place(number, line, turns)}: {label[0]} is never waited for')
            places.append(rank.calls)
        for number, calls in enumerate(places):
            self.order(number, calls)
        entries = []
        for number, calls in enumerate(places):
            lines.append(f'rank {number}')
            for (line, turns), call in calls:
                lines.append(line_of(call))
                where = ''.join(f', {name}={value}' for name, value in turns)
                entries.append(f'line {len(lines)}: rank {number}, {self.path}:{line}{where}: {said[line - 1]}')
        text = ''.join(line + '\n' for line in lines)
        head = ['map 1', f'of {len(text)} bytes, sum {summed(text.encode()):016x}']
        return text, ''.join(line + '\n' for line in [*head, *entries, 'end'])

    def order(self, number, calls):
        """The first request or handle that is wrong."""
        last = {}
        ends = [[('request', label) for label in request] if word in ('wait', 'waitall')
                else [('handle', handle)] if handle else [] for _, (word, request, handle, _, _) in calls]
        for at, ((line, turns), (word, request, handle, _, _)) in enumerate(calls):
            start = None if word in ('wait', 'waitall') or not request else ('handle' if word == 'mprobe' else 'request', request)
            wrong = set()
            for end in ends[at]:
                if last.get(end) != 'start':
                    wrong.add(end[0] + ' unknown')
                last[end] = 'end'
            if start:
                if last.get(start) == 'start':
                    wrong.add(start[0] + ' open')
                if not any(start in later for later in ends[at + 1:]):
                    wrong.add(start[0] + ' left')
                last[start] = 'start'
            for fault, words in FAULTS.items():
                if fault in wrong:
                    raise Refused(f'{self.place(number, line, turns)}: {words}')


FAULTS = {'request unknown': 'the request is not started, or it was waited for already',
          'request open': 'the request is started again before it is waited for',
          'request left': 'the request is never waited for',
          'handle unknown': 'the handle has no message, or it was received already',
          'handle open': 'the handle is used again before its message is received',
          'handle left': 'the message of the handle is never received'}


def said_of(line):
    """What a line says up to a comment, with single blanks, and none before `<`."""
    words = ' '.join(line.split(b'#')[0].decode('latin-1').replace('\t', ' ').replace('\r', ' ').split(' '))
    return re.sub(' (?=<)', '', re.sub(' +', ' ', words).strip(' '))


def spelled(label):
    return label[0] + ('' if label[1] is None else f'ix{label[1]}')


def line_of(call):
    word, request, handle, numbers, communicator = call
    labels = request if word in ('wait', 'waitall') else [label for label in (request, handle) if label]
    return ' '.join([word, *map(spelled, labels), *map(str, numbers), *(['comm', str(communicator)] if communicator else [])])


def summed(text):
    total = 0xcbf29ce484222325
    for byte in text:
        total = (total ^ byte) * 0x100000001b3 % 2 ** 64
    return total


def unrolled(path, source, size, settings=(), **limits):
    return Unroller(path, source, size, settings, **limits).whole()
