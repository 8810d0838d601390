"""What is told at the end, the texts and maps of the paths, and the tree of outcomes."""
import glob
import os
import re

from explore import words_of
from texts import FAILED, Text, none_pinned


def place_of(path, call):
    """The function and the place of a call in the source."""
    told = path.places.get(call.line, '') if call.line else ''
    parts = [p for p in told.split(', ') if not re.fullmatch(r'\d+ bytes', p)]
    return ', '.join(parts) or (call.choice.site if call.choice else call.op)


def one(count, what):
    return '%d %s%s' % (count, what, '' if count == 1 else 's')


class Report:
    def __init__(self, explorer, name, tell):
        self.explorer, self.name, self.tell = explorer, name, tell
        self.paths = explorer.paths

    def write(self):
        """Gives the exit status."""
        x = self.explorer
        self.write_texts()
        status, answer = self.answer()
        with open(self.name + '.paths', 'w') as file:
            file.write('paths 1\n' + ''.join(line + '\n' for line in answer + self.tree() + ['end']))
        for line in answer:
            self.tell(line)
        if x.deadlock:
            number = x.deadlock.number
            self.tell('next: mpiprove explain %s.%d.mpi --map %s.%d.map' % (self.name, number, self.name, number))
        return status

    def write_texts(self):
        for old in glob.glob(glob.escape(self.name) + '.[0-9]*.*'):
            if re.fullmatch(r'\.\d+\.(mpi|map)', old[len(self.name):]):
                os.unlink(old)
        for path in self.paths:
            deadlock = self.explorer.deadlock
            text = deadlock.text if deadlock and deadlock.text.path is path else Text(path, self.explorer.is_pinned)
            with open('%s.%d.mpi' % (self.name, path.number), 'w') as file:
                file.write(text.render())
            with open('%s.%d.map' % (self.name, path.number), 'w') as file:
                file.write(text.map())

    # ---- the answer

    def answer(self):
        x = self.explorer
        if x.deadlock:
            return self.deadlock()
        lacks = list(dict.fromkeys(x.lacks))
        lacks += ['%s: %s' % (one(n, 'path'), a) for a, n in sorted(x.answers.items()) if a != 'no deadlock']
        if x.todo:
            lacks.append('%s not followed after %s' % (one(len(x.todo), 'outcome'), one(x.runner.runs, 'run')))
        if not lacks and x.alike and not x.alike.check(x):
            lacks.append('whether the ranks are alike: %d of %d paths with ranks exchanged had the same calls' % (x.alike.good, x.alike.tried))
        if x.partly:
            lacks.append('a wait for some of more than three requests: not each set of what may be done was followed')
        if lacks or not self.paths:
            return 2, ['unknown paths', '%s, %s' % (one(len(self.paths), 'path'), one(x.runner.runs, 'run'))] + lacks[:12] + self.assumed()
        return 0, ['no deadlock on any of %s' % one(len(self.paths), 'path')] + self.assumed() + self.counts()

    def counts(self):
        x = self.explorer
        out = ['%s; %s asked, %d of them of prove' % (one(x.runner.runs, 'run'), one(x.decider.asked, 'text'), x.decider.proved)]
        if x.impossible:
            out.append('%s can\'t be had together with those before it: no run has them' % one(x.impossible, 'outcome'))
        return out

    def assumed(self):
        x = self.explorer
        out = ['assumed: what a rank calls follows from its input and from what its calls found, for this input and number of ranks']
        for site in sorted(s for s, is_open in x.sites.open.items() if is_open):
            out.append('assumed: no outcome changes a call: %s (%s tried)' % (site, one(x.sites.tried[site], 'other one')))
        if x.sites.sampled:
            out.append('tried: %s of all of these at once' % one(x.sites.sampled, 'random match'))
        for site in sorted({c.site for p in self.paths for c in p.choices.values() if c.spins}):
            out.append('assumed: polled until it succeeds: %s' % site)
        if x.skipped:
            out.append('assumed: ranks %d to %d are alike: %s not run; %d of %d paths with ranks exchanged had the same calls' % (
                min(x.alike.ranks), max(x.alike.ranks), one(x.skipped, 'outcome'), x.alike.good, x.alike.tried))
        return out

    def deadlock(self):
        x, found = self.explorer, self.explorer.deadlock
        path, machine = found.text.path, found.machine
        wide = Text(path, none_pinned)
        accepted = x.decider.is_accepted(wide.render(), found.text.render())
        out = ['deadlock on path %d' % found.number]
        for choice, value in found.forced:
            words = words_of(path.choices.get(choice.id, choice), value)
            out.append('outcome %s of rank %d: %s: %s' % (choice.name(), choice.id[0], choice.site, words))
        for rank in range(path.size):
            call = machine.last(rank)
            if call is not None and not machine.is_finished(rank):
                out.append('rank %d waits in %s' % (rank, place_of(path, call)))
                if call.choice and call.choice.is_poll():
                    out.append('assumed: polled until it succeeds: %s' % call.choice.site)
        out.append("check accepts the schedule with the program's own wildcards" if accepted else
                   "the schedule was replayed with the program's own wildcards")
        return 1, out + self.counts()[:1]

    # ---- the tree

    def tree(self):
        out, stack = [], [(self.explorer.root, 0, None)]
        while stack:
            node, depth, edge = stack.pop()
            indent = ' ' * depth
            if edge is not None:
                out.append(indent + edge)
            if node.leaf is not None:
                out.append(indent + (' path %d' % node.leaf.number if not node.is_impossible else " can't be"))
            if node.choice is None:
                continue
            choice = node.first
            out.append('%s choice %s of rank %d: %s' % (indent, choice.name(), node.choice[0], choice.site))
            for value, other in sorted(node.skipped.items(), key=str):
                out.append('%s  %s: as %s' % (indent, words_of(choice, value), words_of(choice, other)))
            for value in sorted(node.asked - set(node.edges), key=str):
                if value not in node.impossible and not (value == FAILED and node.spins):
                    out.append('%s  %s: not followed' % (indent, words_of(choice, value)))
            for value, below in sorted(node.edges.items(), key=str, reverse=True):
                stack.append((below, depth + 2, words_of(choice, value)))
        return out
