"""A path of a program: its text with the program's own wildcards, its choices, and the text in which some of them are pinned."""

FAILED = ('failed',)
IN_A_ROW = 64       # numbers of choices rise by it, and polls in a row have those behind the first one's
ALL_POLLS = ('test', 'testany', 'testsome', 'testall', 'probe')


class Call:
    """A call after expansion, or a poll that failed (`nop`). `peer` and `tag` are as in the program: None for a wildcard."""

    def __init__(self, rank, no, pos, op, line):
        self.rank, self.no, self.pos, self.op, self.line = rank, no, pos, op, line
        self.mode = self.peer = self.tag = self.target = self.choice = self.number = None
        self.comm = 0
        self.last = True      # of the waits of one line the last one

    def is_send(self):
        return self.op in ('send', 'isend')

    def is_taker(self):
        return self.op in ('recv', 'irecv', 'mprobe')


class Choice:
    """What the program could see of a call. `value`: (source, tag) with the program's tag, names of requests, FAILED, or None where
    the rank stands in it or nobody saw it."""

    def __init__(self, rank, number, kind):
        self.id, self.kind = (rank, number), kind
        self.value = self.pattern = self.call = None
        self.options, self.stands, self.site = [], False, ''
        self.spins = self.again = self.is_tried = False     # a poll: nothing else follows it; it came again; whether that is known

    def is_source(self):
        return self.kind == 'source'

    def name(self):
        """Its number among the rank's, from 1, and of later polls in a row their place in it."""
        row, place = divmod(self.id[1], IN_A_ROW)
        return '%d.%d' % (row, place + 1) if place else '%d' % row

    def is_beside(self, other):
        """Whether both are polls of one row."""
        return self is not other and self.id[0] == other.id[0] and self.id[1] // IN_A_ROW == other.id[1] // IN_A_ROW

    def is_poll(self):
        return self.kind in ALL_POLLS


def number_or_any(word):
    return None if word == '*' else int(word)


def sum_of(data):
    """The checksum of Fowler, Noll and Vo in its form 1a, of 64 bits, which the head of a map has."""
    value = 0xcbf29ce484222325
    for byte in data:
        value = (value ^ byte) * 0x100000001b3 & 0xffffffffffffffff
    return value


class Path:
    def __init__(self, text, map_text='', choices=''):
        self.lines = text.split('\n')[:-1]
        self.map = map_text
        self.places, self.program_tags, self.added = {}, {}, set()
        self.ranks, self.choices, self.ended, self.by_line = [], {}, [], {}
        self.policy = self.lines[1].split()[1]
        self.read_map()
        self.end = self.end_of_map()
        waiting = self.read_choices(choices)
        self.read_lines(waiting)
        self.calls = [c for rank in self.ranks for c in rank]
        for no, call in enumerate(self.calls):
            call.no = no
        numbered = [c for c in self.calls if c.op != 'nop']
        for number, call in enumerate(numbered, 1):
            call.number = number
        self.of_number = numbered
        self.size = len(self.ranks)
        self.used_tags = {c.tag for c in self.calls if c.tag is not None}
        self.text_tags = {program: number for number, program in self.program_tags.items()}
        self.in_order = None

    # ---- reading

    def read_map(self):
        for line in self.map.split('\n'):
            if line.startswith('line '):
                number, rest = line[5:].split(': ', 1)
                self.places[int(number)] = rest.split(', ', 1)[1]
                if '; ADDED: ' in rest:
                    self.added.add(int(number))
            elif line.startswith('tag '):
                words = line.split()
                self.program_tags[int(words[1][:-1])] = int(words[2])

    def end_of_map(self):
        return next((line[11:] for line in self.map.split('\n') if line.startswith('text ends: ')), 'finished')

    def read_choices(self, text):
        """Gives the choices of each rank with the line that they stand at or before."""
        waiting, now = {}, None
        for words in (line.split() for line in text.split('\n')):
            if not words:
                continue
            if words[0] == 'choice':
                now = Choice(int(words[1]), int(words[2]), words[3])
                self.choices[now.id] = now
                waiting.setdefault(now.id[0], []).append((int(words[5]), words[4] == 'at', now))
            elif words[0] == 'pattern':
                now.pattern = (int(words[1]), number_or_any(words[2]), number_or_any(words[3]))
            elif words[0] == 'option':
                now.options.append((int(words[1]), [int(x) for x in words[2:]]))
            elif words[0] == 'value':
                now.value, now.stands = self.value_of(now, words[1:]), words[1] == 'none' and not now.is_source()
            elif words[0] == 'spins':
                now.spins = now.is_tried = True
            elif words[0] == 'again':
                now.again = True
            elif words[0] == 'site':
                now.site = ' '.join(words[1:])
            elif words[0] == 'rank':
                self.ended.append(words[2] == 'ended')
        return waiting

    def value_of(self, choice, words):
        if words[0] == 'failed':
            return FAILED
        if words[0] == 'found':
            if int(words[3]) != int(words[2]):
                self.program_tags[int(words[3])] = int(words[2])
            return (int(words[1]), int(words[2]))
        if words[0] == 'took':
            names = [int(x) for x in words[1:]]
            return tuple(names if choice.kind == 'testall' else sorted(names))
        return None

    def read_lines(self, waiting):
        names, pending = {}, []
        for at, line in enumerate(self.lines, 1):
            words = line.split()
            if words[0] in ('ranks', 'policy'):
                continue
            if words[0] == 'rank':
                self.add_polls(pending, None)
                self.ranks.append([])
                names, pending = {}, sorted(waiting.get(len(self.ranks) - 1, ()), key=lambda x: (x[0], x[1], x[2].id))
                continue
            self.add_polls(pending, at)
            choice = pending.pop(0)[2] if pending and pending[0][0] == at else None
            before = len(self.ranks[-1])
            self.add_line(at, words, names)
            self.by_line[at] = self.ranks[-1][before:]
            if choice:
                self.bind(choice, self.by_line[at])
        self.add_polls(pending, None)
        for choice in self.choices.values():
            choice.options = [(name, [self.by_line[x][0] for x in lines]) for name, lines in choice.options]

    def add_polls(self, pending, line):
        """Polls that failed before a line; None for the end of the rank."""
        while pending and (line is None or pending[0][0] < line or (pending[0][0] == line and not pending[0][1])):
            choice = pending.pop(0)[2]
            call = self.add('nop', None)
            call.choice = choice
            choice.call = call

    @staticmethod
    def bind(choice, calls):
        """A choice stands in the receive of its line, or in each wait of it."""
        for call in calls:
            if choice.is_source() and not call.is_taker() and call.op != 'probe':
                continue
            call.choice = choice
            choice.call = choice.call or call

    def add(self, op, line):
        rank = len(self.ranks) - 1
        call = Call(rank, 0, len(self.ranks[rank]), op, line)
        self.ranks[rank].append(call)
        return call

    def add_line(self, at, words, names):
        comm = 0
        if len(words) > 3 and words[-2] == 'comm':
            comm, words = int(words[-1]), words[:-2]
        op = words[0]
        if op in ('send', 'ssend', 'bsend'):
            self.send(self.add('send', at), op, words[1:], comm)
        elif op in ('isend', 'issend', 'ibsend'):
            names['q', words[1]] = self.send(self.add('isend', at), op[1:], words[2:], comm)
        elif op in ('recv', 'probe'):
            self.take(self.add(op, at), words[1:], comm)
        elif op in ('irecv', 'mprobe'):
            names['q' if op == 'irecv' else 'h', words[1]] = self.take(self.add(op, at), words[2:], comm)
        elif op == 'mrecv':
            self.add(op, at).target = names['h', words[1]]
        elif op == 'imrecv':
            call = self.add(op, at)
            call.target = names['h', words[2]]
            names['q', words[1]] = call
        elif op in ('wait', 'waitall'):
            for name in words[1:]:
                call = self.add('wait', at)
                call.target, call.last = names['q', name], name == words[-1]
        else:
            self.add_both(at, words, comm)

    def add_both(self, at, words, comm):
        sent = self.send(self.add('isend', at), 'send', words[1:3], comm)
        received = self.take(self.add('irecv', at), words[3:5], comm)
        for start in (sent, received):
            call = self.add('wait', at)
            call.target, call.last = start, start is received

    @staticmethod
    def send(call, op, words, comm):
        call.mode = {'send': 't', 'ssend': 's', 'bsend': 'b'}[op]
        call.peer, call.tag, call.comm = int(words[0]), int(words[1]), comm
        return call

    @staticmethod
    def take(call, words, comm):
        call.peer, call.tag, call.comm = number_or_any(words[0]), number_or_any(words[1]), comm
        return call

    # ---- tags beyond those of a text have other numbers there

    def text_tag(self, tag):
        if tag not in self.text_tags and tag > 32767:
            free = next(n for n in range(32767, -1, -1) if n not in self.used_tags)
            self.used_tags.add(free)
            self.text_tags[tag], self.program_tags[free] = free, tag
        return self.text_tags.get(tag, tag)

    def program_tag(self, tag):
        return self.program_tags.get(tag, tag)


class Text:
    """A path with the choices for which `pinned` says so as they came out, and the other wildcards open."""

    def __init__(self, path, pinned):
        self.path, self.size, self.policy = path, path.size, path.policy
        self.calls, self.ranks = path.calls, path.ranks
        self.pins = {}
        for call in path.calls:
            choice = call.choice
            if choice and choice.kind in ('source', 'probe') and choice.value not in (None, FAILED) and call.op != 'nop' and pinned(choice):
                self.pins[call.no] = (choice.value[0], path.text_tag(choice.value[1]))

    def envelope(self, call):
        return self.pins.get(call.no) or (call.peer, call.tag)

    def fits(self, send, taker, wide=False):
        peer, tag = (taker.peer, taker.tag) if wide else self.envelope(taker)
        return send.peer == taker.rank and send.comm == taker.comm and peer in (None, send.rank) and tag in (None, send.tag)

    def render(self):
        """The text; the lines of the path with the pins in place of its wildcards."""
        out = list(self.path.lines)
        first = {'recv': 1, 'probe': 1, 'irecv': 2, 'mprobe': 2, 'sendrecv': 3}
        for no, (peer, tag) in self.pins.items():
            line = self.calls[no].line
            words = out[line - 1].split(' ')
            at = first[words[0]]
            words[at:at + 2] = [str(peer), str(tag)]
            out[line - 1] = ' '.join(words)
        return '\n'.join(out) + '\n'

    def map(self):
        """The map of the path, for this text."""
        data = self.render().encode()
        lines = self.path.map.split('\n')
        if len(lines) > 1:
            lines[1] = 'of %d bytes, sum %016x' % (len(data), sum_of(data))
        return '\n'.join(lines)


def none_pinned(choice):
    return False


def all_pinned(choice):
    return True


def same_calls(a, b):
    """Whether two paths have the same calls where all wildcards are open."""
    return a.lines == b.lines
