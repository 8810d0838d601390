"""The tree of outcomes: runs the program with other outcomes until none is left that has no path."""
import collections

from runs import Refused
from knowledge import Knowledge
from machine import outcomes_in_order
from stuck import UNTRIED, are_only_pins_stuck, cannot_be, has_choice, stuck_along, why_not_real
from texts import FAILED, IN_A_ROW, Text, all_pinned, same_calls


class Node:
    """Of a tree over paths: a choice with an edge for each outcome, or a leaf."""

    def __init__(self):
        self.choice = self.first = self.leaf = None       # `first`: the choice as the first path has it
        self.edges, self.asked, self.impossible, self.skipped = {}, set(), set(), {}
        self.spins = self.is_impossible = False


class Deadlock:
    def __init__(self, number, text, machine, forced):
        self.number, self.text, self.machine, self.forced = number, text, machine, forced


class Explorer:
    def __init__(self, runner, decider, most_runs, alike, tell, sites):
        self.runner, self.decider, self.most_runs, self.alike, self.tell, self.sites = runner, decider, most_runs, alike, tell, sites
        self.known = []         # paths of all runs that ended
        self.begin()

    def begin(self):
        self.root, self.todo = Node(), collections.deque()
        self.paths, self.lacks, self.deadlock = [], [], None
        self.answers = collections.Counter()
        self.impossible = self.skipped = 0
        self.partly = self.is_stale = False

    # ---- runs

    @staticmethod
    def force_of(outcomes):
        return {choice.id: (choice.kind, value) for choice, value in outcomes}

    def try_run(self, forced):
        """As `run`, and None where it was refused."""
        try:
            return self.run(forced)
        except Refused:
            return None

    def run(self, forced):
        """A path with these outcomes: one that is known, or that of a run."""
        for path in self.known:
            if all(i in path.choices and path.choices[i].kind == kind and path.choices[i].value == value for i, (kind, value) in forced.items()):
                return path
        path = self.runner.run(forced)
        path.hung = not all(path.ended)
        if not path.hung:
            self.known.append(path)
        return path

    def ordered(self, path):
        return outcomes_in_order(path, Text(path, all_pinned))

    def is_pinned(self, choice):
        return self.sites.is_pinned(choice)

    # ---- the tree

    def explore(self):
        base = self.run({})
        self.accept(base, [])
        if self.deadlock:
            return
        again = self.runner.run(self.force_of((c, c.value) for c in self.ordered(base)))
        if all(base.ended) and all(again.ended) and not same_calls(base, again):
            self.lacks.insert(0, 'the program is not deterministic: %s' % self.first_difference(base, again))
            return
        self.go_on()

    def go_on(self):
        while self.todo and not self.deadlock and not self.is_used_up():
            before, choice, value, node, parent = self.todo.popleft()
            forced = before + [(choice, value)]
            try:
                self.accept(self.run(self.force_of(forced)), forced, node, value, parent)
            except Refused as refused:
                self.lacks.append('a run was refused: %s; forced last: rank %d, %s, %s' % (
                    refused.reason(), choice.id[0], choice.site, words_of(choice, value)))
            self.tell('%d runs, %d paths, %d outcomes open' % (self.runner.runs, len(self.paths), len(self.todo)))
            if self.is_stale:
                self.again()
                return

    def is_used_up(self):
        return self.runner.runs >= self.most_runs

    def again(self):
        """The same with other sites left open; runs aren't made twice."""
        first = self.paths[0] if self.paths else None
        self.begin()
        if first:
            self.accept(first, [])
        self.go_on()

    @staticmethod
    def first_difference(a, b):
        for number, (x, y) in enumerate(zip(a.lines + ['no more'], b.lines + ['no more']), 1):
            if x != y:
                where = a.places.get(number) or b.places.get(number) or 'the end'
                return 'with the same outcomes it made other calls, first in %s' % where
        return 'with the same outcomes it ended elsewhere'

    def misses(self, path, forced):
        """What is told where an outcome wasn't met, or at another call."""
        for choice, value in forced:
            mine = path.choices.get(choice.id)
            rank, number = choice.id[0], choice.name()
            if value == FAILED and choice.id[1] % IN_A_ROW and mine is None:
                continue
            if mine is None and path.hung:
                return 'a run with forced outcomes ended before outcome %s of rank %d' % (number, rank)
            if mine is None or mine.kind != choice.kind or mine.site != choice.site:
                return 'the program is not deterministic: outcome %s of rank %d was of %s, and is of %s' % (
                    number, rank, choice.site, mine.site if mine else 'none')
            if mine.value not in (value, None) and not (value == FAILED and mine.spins):
                return 'an outcome could not be forced: %s of rank %d, %s' % (number, rank, choice.site)
        return None

    def is_explained(self, a, b):
        """Whether two paths that should have had the same calls differ in what open wildcards found: these are pinned from now on, and
        the tree is made anew."""
        sites = {c.site for c in a.choices.values() if c.is_source() and not self.is_pinned(c) and (
            c.id not in b.choices or b.choices[c.id].value != c.value)}
        for site in sites:
            self.sites.open[site] = False
        self.is_stale |= bool(sites)
        return bool(sites)

    def accept(self, path, forced, node=None, value=None, parent=None):
        missed = self.misses(path, forced)
        if missed:
            if not parent or not self.is_explained(parent, path):
                self.lacks.append(missed)
        elif path.hung:
            self.take_hung(path, forced, node, value)
        else:
            self.take(path, forced, parent)

    def take(self, path, forced, parent):
        self.sites.learn(self, path)
        trail, leaf = self.insert(path)
        if leaf is None:
            if not parent or not self.is_explained(parent, path):
                self.lacks.append('a path lacks an outcome that those beside it have')
            return
        text = Text(path, self.is_pinned)
        if path in self.paths:
            return
        if leaf.leaf is not path:
            if Text(leaf.leaf, self.is_pinned).render() != text.render() and not self.is_explained(leaf.leaf, path):
                self.lacks.append('the program is not deterministic: %s' % self.first_difference(leaf.leaf, path))
            return
        self.paths.append(path)
        path.number = len(self.paths)
        self.judge(path, text, forced)
        if not self.deadlock:
            self.follow(path, trail, text)

    def insert(self, path):
        """Adds a path to the tree; gives the nodes on its way with its choices, and the leaf, or None where a choice is missing."""
        node, used, trail = self.root, set(), []
        rest = [c for c in self.ordered(path) if self.is_pinned(c)]
        while True:
            if node.choice is None and node.leaf is None:
                choice = next((c for c in rest if c.id not in used), None)
                if choice is None:
                    node.leaf = path
                    return trail, node
                node.choice, node.first = choice.id, choice
            if node.choice is None:
                return trail, node
            choice = path.choices.get(node.choice)
            if choice is None and node.first.id[1] % IN_A_ROW:
                node = node.edges.setdefault(FAILED, Node())        # a poll to which the row didn't come
                continue
            if choice is None or choice.value is None:
                return trail, None
            used.add(choice.id)
            node.spins |= choice.spins
            trail.append((node, choice))
            node = node.edges.setdefault(choice.value, Node())

    # ---- answers

    def real(self, text):
        """The answer to a text, a machine at its stuck end where that is one of the program, and why it isn't."""
        answer, machine = self.decider.ask(text)
        if answer != 'deadlock':
            return answer, None, answer
        why = why_not_real(machine, machine.log)
        if why == UNTRIED:
            self.sites.try_polls(self, machine)
            why = why_not_real(machine, machine.log)
        return answer, machine if why is None else None, why

    def try_polls(self, machine):
        self.sites.try_polls(self, machine)

    def judge(self, path, text, forced):
        answer, machine, why = self.real(text)
        if answer == 'deadlock' and machine is None:
            text = Text(path, all_pinned)
            answer, machine, _ = self.real(text)
            if answer == 'deadlock' and machine is None:
                none = not has_choice(text) and are_only_pins_stuck(text, self.try_polls)
                answer = 'no deadlock' if none else 'a stuck end that is perhaps none of the program: ' + why
        if machine is not None:
            self.deadlock = Deadlock(path.number, text, machine, forced)
        self.answers[answer] += 1

    def take_hung(self, path, forced, node, value):
        """A run that didn't end: a deadlock, or outcomes that can't be had together."""
        for choice, wanted in forced:
            mine = path.choices.get(choice.id)
            if mine is not None and mine.value is None and mine.is_source():
                mine.value = wanted
        ids = {choice.id for choice, _ in forced}
        text = Text(path, lambda c: c.id in ids or self.is_pinned(c))
        answer, machine, why = self.real(text)
        if answer == 'deadlock' and machine is None:
            machine = stuck_along(text)
        if machine is not None:
            path.number = len(self.paths) + 1
            self.paths.append(path)
            self.deadlock = Deadlock(path.number, text, machine, forced)
        elif node is not None and cannot_be(text, forced, self.try_polls):
            self.take_impossible(path, forced, node, value, text)
        elif path.end == 'cut off':
            self.lacks.append('a run was ended, since it made no call for long (--time)')
        else:
            self.lacks.append('a run hung, and why is not shown (%s); forced last: %s' % (
                why, '; '.join('rank %d, %s, %s' % (c.id[0], c.site, words_of(c, v)) for c, v in forced[-2:])))

    def take_impossible(self, path, forced, node, value, text):
        """It stays as a leaf, since other outcomes on its way are followed."""
        for choice, wanted in forced:
            mine = path.choices.get(choice.id)
            if mine is not None and mine.value is None:
                mine.value = wanted
        path.in_order = None
        node.impossible.add(value)
        self.impossible += 1
        trail, leaf = self.insert(path)
        if leaf is not None:
            leaf.is_impossible = True
        self.follow(path, trail, text)

    # ---- other outcomes

    def follow(self, path, trail, text):
        knowledge = Knowledge(text)
        before = []
        for node, choice in trail:
            ended = any(c.is_beside(choice) and value != FAILED for c, value in before)     # another poll ended the row
            for value in sorted(knowledge.alternatives(choice), key=str):
                if ended and value != FAILED:
                    continue
                if value in node.edges or value in node.asked or value in node.impossible or (value == FAILED and node.spins):
                    continue
                if self.alike:
                    other = self.alike.twin(before, choice, value, node)
                    if other is not None:
                        self.skipped += value not in node.skipped
                        node.skipped[value] = other
                        continue
                node.asked.add(value)
                row = [(c, FAILED) for c in path.choices.values() if c.is_beside(choice) and value != FAILED and (c, c.value) not in before]
                self.todo.append((before + row, choice, value, node, path))
            before.append((choice, choice.value))
        self.partly |= knowledge.partly

    def leaves(self):
        out, nodes = [], [self.root]
        while nodes:
            node = nodes.pop()
            if node.leaf is not None and not node.is_impossible:
                out.append(node.leaf)
            nodes.extend(node.edges.values())
        return out


def words_of(choice, value):
    if value == FAILED:
        return 'failed'
    if choice.kind in ('source', 'probe'):
        return 'found rank %d with tag %d' % value
    places = {name: starts for name, starts in choice.options}
    peers = []
    for name in value:
        starts = places.get(name) or []
        call = starts[0] if starts else None
        known = call is not None and call.peer is not None
        peers.append('request %d' % name + (' (%s rank %d)' % ('to' if call.is_send() else 'from', call.peer) if known else ''))
    return 'took ' + ', '.join(peers)
