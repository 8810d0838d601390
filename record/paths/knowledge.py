"""Which outcomes of a choice could have been others: what each call surely knows of the other ranks, and so what it can't have found."""
import collections
import itertools

from texts import FAILED


class Knowledge:
    """`know[c][q]`: how many calls of rank q are surely issued when call c is, in each run of the program that the text covers."""

    def __init__(self, text):
        self.text, self.partly = text, False
        self.sends = collections.defaultdict(list)      # by destination and communicator
        self.takers = collections.defaultdict(list)
        for call in text.calls:
            if call.is_send():
                self.sends[call.peer, call.comm].append(call)
            elif call.is_taker():
                self.takers[call.rank, call.comm].append(call)
        self.takers_that_fit = {}
        for (rank, comm), takers in self.takers.items():
            for send in self.sends[rank, comm]:
                self.takers_that_fit[send.no] = [t for t in takers if text.fits(send, t)]
        self.fitting = {}
        self.exact = self.pairs_in_order()
        self.done_at = self.ends_of_takers()
        self.know = self.fixpoint()

    def sends_for(self, taker):
        if taker.no not in self.fitting:
            self.fitting[taker.no] = [s for s in self.sends[taker.rank, taker.comm] if self.text.fits(s, taker)]
        return self.fitting[taker.no]

    def takers_for(self, send):
        return self.takers_that_fit.get(send.no, [])

    def pairs_in_order(self):
        """Channels on which the k-th send is taken by the k-th taker in each run: all takers that fit name it."""
        exact, channels = {}, collections.defaultdict(list)
        for sends in self.sends.values():
            for send in sends:
                channels[send.rank, send.peer, send.comm, send.tag].append(send)
        for (rank, _, _, tag), sends in channels.items():
            takers = self.takers_for(sends[0])
            if any(self.text.envelope(t) != (rank, tag) for t in takers):
                continue
            for send, taker in itertools.zip_longest(sends, takers):
                if send:
                    exact[send.no] = taker
                if taker:
                    exact[taker.no] = send
        return exact

    def ends_of_takers(self):
        """The place of the call whose return tells that a taker has found."""
        ends = {}
        for call in self.text.calls:
            if call.op in ('recv', 'mprobe', 'probe'):
                ends[call.no] = call.pos
            elif call.op == 'wait':
                ends.setdefault(call.target.no, call.pos)
        return ends

    def fixpoint(self):
        """From `all` down, until nothing changes: what the call before knew, and what its return told."""
        size = self.text.size
        self.know = [[len(rank) for rank in self.text.ranks] for _ in self.text.calls]
        changed = True
        while changed:
            changed = False
            for rank in range(size):
                now = [0] * size
                for call in self.text.ranks[rank]:
                    now[rank] = call.pos
                    lower = [min(x, y) for x, y in zip(self.know[call.no], now)]
                    if lower != self.know[call.no]:
                        self.know[call.no], changed = lower, True
                    now = [max(x, y) for x, y in zip(self.know[call.no], self.told(call))]
        return self.know

    def told(self, call):
        if call.op in ('recv', 'mprobe', 'probe'):
            return self.meet(self.may_find(call))
        start = call.target if call.op == 'wait' else call
        if call.op == 'wait' and start.op == 'irecv':
            return self.meet(self.may_find(start))
        if start.is_send() and start.mode == 's' and (call.op == 'wait' or call.op == 'send'):
            return self.meet(self.may_take(start))
        return [0] * self.text.size

    def meet(self, calls):
        """What each of several calls knows once it is issued; all, where there are none."""
        vectors = []
        for call in calls:
            vector = list(self.know[call.no])
            vector[call.rank] = max(vector[call.rank], call.pos + 1)
            vectors.append(vector)
        return [min(x) for x in zip(*vectors)] if vectors else [len(rank) for rank in self.text.ranks]

    def is_issued_after(self, send, taker):
        """Whether the send is surely issued only once the taker has found."""
        at = self.done_at.get(taker.no)
        return at is not None and self.know[send.no][taker.rank] >= at + 2

    def may_find(self, taker):
        if taker.op != 'probe' and taker.no in self.exact:
            return [self.exact[taker.no]] if self.exact[taker.no] else []
        return [s for s in self.sends_for(taker) if not self.is_issued_after(s, taker)]

    def may_take(self, send):
        if send.no in self.exact:
            return [self.exact[send.no]] if self.exact[send.no] else []
        return self.takers_for(send)

    # ---- other outcomes

    def sources(self, rank, pos, comm, peer, tag, is_known_later):
        """What a receive or probe of these arguments may find, with the program's tags."""
        out, closed = set(), set()
        for send in self.sends[rank, comm]:
            if peer not in (None, send.rank) or tag not in (None, send.tag) or send.rank in closed or is_known_later(send):
                continue
            taker = self.exact.get(send.no)
            if taker is not None and taker.pos < pos:
                continue
            out.add((send.rank, self.text.path.program_tag(send.tag)))
            if send.no in self.exact:
                closed.add(send.rank)
        return out

    def sources_of_poll(self, choice):
        call = choice.call
        comm, peer, tag = choice.pattern
        return self.sources(call.rank, call.pos, comm, peer, tag, lambda s: self.know[s.no][call.rank] > call.pos + 1)

    def may_be_done(self, start, rank, pos):
        """Whether an operation may be done while the rank stands in its call `pos`."""
        if start.op == 'irecv':
            return any(self.know[s.no][rank] < pos + 2 for s in self.may_find(start))
        if start.is_send() and start.mode == 's':
            return any(self.know[t.no][rank] < pos + 2 for t in self.may_take(start))
        return True

    def alternatives(self, choice):
        """Outcomes other than the one it had: all that can be, and perhaps more."""
        call = choice.call
        if call is None:
            return set()
        if choice.is_source():
            return self.sources(call.rank, call.pos, call.comm, call.peer, call.tag, lambda s: self.is_issued_after(s, call)) - {choice.value}
        if choice.kind == 'probe':
            return (self.sources_of_poll(choice) | {FAILED}) - {choice.value}
        can = [name for name, starts in choice.options if all(self.may_be_done(s, call.rank, call.pos) for s in starts)]
        out = {FAILED} if choice.is_poll() else set()
        if choice.kind in ('any', 'testany'):
            out |= {(name,) for name in can}
        elif choice.kind in ('some', 'testsome'):
            out |= self.sets_of(sorted(can))
        elif len(can) == len(choice.options):
            out.add(tuple(name for name, _ in choice.options))
        return out - {choice.value}

    def sets_of(self, names):
        """Each set of what may be done at once; of more than three requests single ones and all."""
        if len(names) <= 3:
            return {x for k in range(1, len(names) + 1) for x in itertools.combinations(names, k)}
        self.partly = True
        return {(name,) for name in names} | {tuple(names)}
