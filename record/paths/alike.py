"""Ranks that may be exchanged for one another: of two outcomes that differ by such ranks one is followed."""
import random

from texts import FAILED, Text


class Alike:
    def __init__(self, first, last):
        self.ranks = set(range(first, last + 1))
        self.good = self.tried = 0

    @staticmethod
    def mentions(choice, value):
        """The ranks that an outcome names."""
        if value == FAILED:
            return set()
        if choice.kind in ('source', 'probe'):
            return {value[0]}
        starts = [s for name, of in choice.options if name in value for s in of]
        return {s.peer for s in starts if s.peer is not None}

    def twin(self, before, choice, value, node):
        """An outcome that was followed, for which this one is exchanged by ranks that nothing above has named; or None."""
        named = set()
        for other, had in before:
            named.add(other.id[0])
            named |= self.mentions(other, had)
        mine = self.mentions(choice, value)
        if len(mine) != 1 or not mine <= self.ranks - named or choice.id[0] in self.ranks:
            return None
        for other in list(node.edges) + sorted(node.asked, key=str):
            theirs = self.mentions(choice, other)
            if other in (value, FAILED) or len(theirs) != 1 or theirs == mine or not theirs <= self.ranks - named:
                continue
            if choice.kind not in ('source', 'probe') or other[1:] == value[1:]:
                return other
        return None

    def check(self, explorer, most=3):
        """Runs paths with ranks exchanged, and compares their calls."""
        chance = random.Random(1)
        leaves = explorer.leaves()
        for leaf in chance.sample(leaves, min(most, len(leaves))):
            ranks = sorted(self.ranks)
            to = ranks[:]
            while to == ranks and len(ranks) > 1:
                chance.shuffle(to)
            exchange = dict(zip(ranks, to))
            forced = self.exchanged(leaf, explorer, exchange)
            if forced is None:
                continue
            self.tried += 1
            other = explorer.try_run(forced)
            back = {b: a for a, b in exchange.items()}
            self.good += other is not None and not other.hung and self.calls_of(other, explorer, back) == self.calls_of(leaf, explorer, {})
        return self.good == self.tried and self.tried > 0

    def exchanged(self, path, explorer, exchange):
        """The outcomes of a path with ranks exchanged; None where a request stands for none of them."""
        forced = {}
        for choice in explorer.ordered(path):
            if not explorer.is_pinned(choice):
                continue
            value = choice.value
            if value != FAILED and choice.kind in ('source', 'probe'):
                value = (exchange.get(value[0], value[0]),) + value[1:]
            elif value != FAILED and self.mentions(choice, value) & self.ranks:
                value = self.exchanged_names(choice, value, exchange)
                if value is None:
                    return None
            forced[exchange.get(choice.id[0], choice.id[0]), choice.id[1]] = (choice.kind, value)
        return forced

    @staticmethod
    def exchanged_names(choice, value, exchange):
        by_peer = {starts[0].peer: name for name, starts in choice.options if len(starts) == 1}
        peers = {name: peer for peer, name in by_peer.items()}
        out = []
        for name in value:
            peer = peers.get(name)
            other = by_peer.get(exchange.get(peer, peer)) if peer is not None else name
            if other is None:
                return None
            out.append(other)
        return tuple(sorted(out))

    @staticmethod
    def calls_of(path, explorer, exchange):
        text = Text(path, explorer.is_pinned)
        to = lambda rank: exchange.get(rank, rank)
        out = {}
        for rank, calls in enumerate(text.ranks):
            kept = [c for c in calls if c.op not in ('nop', 'wait')]
            out[to(rank)] = [(c.op, c.mode, c.comm, to(text.envelope(c)[0] if not c.is_send() else c.peer), c.tag) for c in kept]
        return out
