"""Wildcards that are left open: no other outcome of their site was seen to change a call."""
import collections
import random

from knowledge import Knowledge
from machine import Machine
from texts import FAILED, Text, all_pinned, same_calls

MOST_RUNS = 20      # on what follows polls that fail


class Sites:
    def __init__(self):
        self.open, self.tried, self.tests, self.sampled, self.tries = {}, {}, 0, 0, 0

    def is_pinned(self, choice):
        return not choice.is_source() or not self.open.get(choice.site, False)

    def learn(self, explorer, path):
        """Flips outcomes of sites that aren't known yet, one at a time: of up to four, each to up to two others."""
        new = collections.defaultdict(list)
        order = explorer.ordered(path)
        for choice in order:
            if choice.is_source() and choice.site not in self.open:
                new[choice.site].append(choice)
        if not new:
            return
        knowledge = Knowledge(Text(path, all_pinned))
        for site, choices in new.items():
            flips = [(choices[i], value) for i in sorted({0, min(1, len(choices) - 1), len(choices) // 2, len(choices) - 1})
                     for value in sorted(knowledge.alternatives(choices[i]))[:2]]
            if flips and not explorer.is_used_up():
                self.open[site] = all(self.is_same(explorer, path, order, choice, value) for choice, value in flips)
                self.tried[site] = len(flips)

    def is_same(self, explorer, path, order, choice, value):
        """Whether the calls are the same with that other outcome: all others as they were but those that it may change, else those before."""
        self.tests += 1
        at = order.index(choice)
        before = [(c, c.value) for c in order[:at]]
        behind = [(c, c.value) for c in order[at + 1:] if c.site != choice.site and c.id[0] != choice.id[0]]
        other = explorer.try_run(explorer.force_of(before + behind + [(choice, value)]))
        if other is None or other.hung:
            other = explorer.try_run(explorer.force_of(before + [(choice, value)]))
        return other is not None and not other.hung and same_calls(path, other)

    def sample(self, explorer, most):
        """Random matches of all open wildcards at once, taken from runs of the texts. Gives the sites whose calls changed."""
        chance = random.Random(7)
        leaves, tried, changed = explorer.leaves(), [], set()
        for _ in range(most):
            leaf = chance.choice(leaves)
            outcomes, differs = self.random_outcomes(leaf, chance)
            if not differs or outcomes in tried or explorer.is_used_up():
                continue
            tried.append(outcomes)
            other = explorer.try_run(outcomes)
            if other is None or other.hung or not same_calls(leaf, other):
                changed |= differs
        self.sampled = len(tried)
        return changed

    def random_outcomes(self, path, chance):
        text = Text(path, self.is_pinned)
        machine = Machine(text)
        while True:
            steps = list(machine.steps())
            if not steps:
                break
            issues = [s for s in steps if s[0] == 'issue']
            step = chance.choice(issues if issues and chance.random() < 0.7 else steps)
            machine.apply(step, machine.may_buffer(step, True))
        outcomes, differs = {}, set()
        for choice in path.choices.values():
            value = choice.value
            if value is None:
                continue
            if choice.is_source() and not self.is_pinned(choice) and choice.call is not None:
                found = (machine.seen if choice.call.op == 'probe' else machine.match).get(choice.call.no)
                if found is not None:
                    send = text.calls[found]
                    value = (send.rank, path.program_tag(send.tag))
                    differs |= {choice.site} if value != choice.value else set()
            outcomes[choice.id] = (choice.kind, value)
        return outcomes, differs

    def try_polls(self, explorer, machine):
        """Whether something else follows the polls in which ranks stand at a stuck end, by a run in which each is made to fail."""
        path = machine.text.path
        for rank in range(path.size):
            call = machine.last(rank)
            choice = call.choice if call is not None and not machine.is_finished(rank) else None
            if choice is None or not choice.is_poll() or choice.is_tried or choice.stands or self.tries >= MOST_RUNS:
                continue
            self.tries += 1
            order = explorer.ordered(path)
            before = order[:order.index(choice)] if choice in order else []
            other = explorer.try_run(explorer.force_of([(c, c.value) for c in before] + [(choice, FAILED)]))
            mine = other.choices.get(choice.id) if other else None
            if mine is None:
                continue
            choice.is_tried, choice.spins = True, mine.spins
            for beside in path.choices.values():
                if beside.is_beside(choice) and beside.id in other.choices:
                    beside.again |= other.choices[beside.id].again
