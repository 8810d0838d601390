"""Runs of a text by the step rules of MPI 4.1, chapter 3: calls are issued, sends are matched with receives, probes see."""


class Machine:
    """`wide`: with the program's own wildcards in place of the pins. Polls that failed return at once."""

    def __init__(self, text, wide=False):
        self.text, self.wide = text, wide
        self.issued = [0] * text.size
        self.buffered, self.match, self.seen = set(), {}, {}
        self.log = []                                   # the steps that were applied, each with whether it is buffered
        self.came = []                                  # choices, in the order in which their outcomes came
        self.sends = [[] for _ in range(text.size)]     # to each rank, issued and not matched
        self.takers = [[] for _ in range(text.size)]    # of each rank, issued and not matched
        self.receipts = {c.target.no: c for c in text.calls if c.op in ('mrecv', 'imrecv')}

    def is_issued(self, call):
        return call.pos < self.issued[call.rank]

    def is_done(self, call):
        if call.is_send():
            if call.mode == 'b' or call.no in self.buffered:
                return True
            taker = self.match.get(call.no)
            if taker is None:
                return False
            if self.text.calls[taker].op == 'mprobe':
                receipt = self.receipts.get(taker)
                return receipt is not None and self.is_issued(receipt)
            return True
        if call.is_taker():
            return call.no in self.match
        if call.op == 'probe':
            return call.no in self.seen
        return call.op != 'wait' or self.is_done(call.target)

    def has_returned(self, call):
        return call.op in ('isend', 'irecv', 'imrecv') or self.is_done(call)

    def last(self, rank):
        """The call that the rank issued last, or None."""
        at = self.issued[rank]
        return self.text.ranks[rank][at - 1] if at else None

    def can_issue(self, rank):
        last = self.last(rank)
        return self.issued[rank] < len(self.text.ranks[rank]) and (last is None or self.has_returned(last))

    def is_finished(self, rank):
        last = self.last(rank)
        return self.issued[rank] == len(self.text.ranks[rank]) and (last is None or self.has_returned(last))

    def are_finished(self):
        return all(self.is_finished(r) for r in range(self.text.size))

    def note(self, call):
        if call.choice and call.choice not in self.came:
            self.came.append(call.choice)

    def issue(self, rank, buffered=False):
        last = self.last(rank)
        if last is not None and not (last.choice and last.choice.is_source()):
            self.note(last)
        call = self.text.ranks[rank][self.issued[rank]]
        self.issued[rank] += 1
        if call.is_send():
            self.sends[call.peer].append(call)
            if buffered and call.mode == 't':
                self.buffered.add(call.no)
        elif call.is_taker() or call.op == 'probe':
            self.takers[rank].append(call)
        elif call.op == 'nop':
            self.note(call)

    def matches(self):
        """Each send and receive or probe that can be matched now."""
        for rank in range(self.text.size):
            if not self.sends[rank] or not self.takers[rank]:
                continue
            for at, taker in enumerate(self.takers[rank]):
                closed = set()      # ranks whose first message that fits was seen
                for send in self.sends[rank]:
                    if send.rank in closed or not self.text.fits(send, taker, self.wide):
                        continue
                    closed.add(send.rank)
                    if not any(x.op != 'probe' and self.text.fits(send, x, self.wide) for x in self.takers[rank][:at]):
                        yield send, taker

    def steps(self):
        for rank in range(self.text.size):
            if self.can_issue(rank):
                yield ('issue', rank)
        for send, taker in self.matches():
            yield ('match', send, taker)

    def apply(self, step, buffered=False):
        self.log.append((step, buffered))
        if step[0] == 'issue':
            self.issue(step[1], buffered)
            return
        send, taker = step[1:]
        self.takers[taker.rank].remove(taker)
        if taker.op == 'probe':
            self.seen[taker.no] = send.no
        else:
            self.match[send.no], self.match[taker.no] = taker.no, send.no
            self.sends[send.peer].remove(send)
        if taker.choice and taker.choice.is_source():
            self.note(taker)

    def may_buffer(self, step, wanted):
        """Whether the send that is issued is buffered, as far as the policy leaves it open."""
        return step[0] == 'issue' and self.text.policy != 'none' and (wanted or self.text.policy == 'all')

    def run(self, wanted=lambda call: True):
        """To its end, by the first step of each; a send is buffered where that is wanted."""
        while True:
            step = next(self.steps(), None)
            if step is None:
                return self
            call = self.text.ranks[step[1]][self.issued[step[1]]] if step[0] == 'issue' else None
            self.apply(step, self.may_buffer(step, call is not None and wanted(call)))

    def replay(self, lines):
        """The steps of a schedule, as `prove` and `decide` write them."""
        numbers = self.text.path.of_number
        for words in (line.split() for line in lines):
            if words[0] == 'issue':
                self.skip(int(words[1]))
                self.apply(('issue', int(words[1])), len(words) > 2)
            else:
                self.apply(('match', numbers[int(words[1]) - 1], numbers[int(words[2]) - 1]))
        for rank in range(self.text.size):
            if self.last(rank) is None or self.has_returned(self.last(rank)):
                self.skip(rank)
        return self

    def skip(self, rank):
        """Polls that failed are no steps of a schedule."""
        calls = self.text.ranks[rank]
        while self.issued[rank] < len(calls) and calls[self.issued[rank]].op == 'nop':
            self.apply(('issue', rank))


def outcomes_in_order(path, pinned_text):
    """The choices that have an outcome, in an order in which one can come after the other: that of a run with all outcomes as they were."""
    if path.in_order is None:
        came = Machine(pinned_text).run().came
        rest = [c for c in sorted(path.choices.values(), key=lambda c: (c.id[1], c.id[0])) if c not in came]
        path.in_order = [c for c in came + rest if c.value is not None]
    return path.in_order
