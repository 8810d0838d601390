"""Whether a text's stuck end is one of the program, and whether forced outcomes can't be had together."""
import random

from machine import Machine
from texts import FAILED

MOST_BUFFERED = 10      # sets of buffered sends are tried one by one up to so many sends
MOST_WALKS = 12
UNTRIED = 'a poll, and it is not known whether something else follows where it fails'


def is_option_done(machine, options):
    return any(all(machine.is_done(s) for s in starts) for _, starts in options)


def may_probe(machine, choice, found=None):
    """Whether a probe that may fail finds a message in this state."""
    comm, peer, tag = choice.pattern
    if found is not None:
        peer, tag = found[0], machine.text.path.text_tag(found[1])
    sends = machine.sends[choice.id[0]]
    return any(s.comm == comm and peer in (None, s.rank) and tag in (None, s.tag) for s in sends)


def can_end(machine, choice):
    """Whether a wait for some, or a poll, in which a rank stands could succeed."""
    return may_probe(machine, choice) if choice.kind == 'probe' else is_option_done(machine, choice.options)


def row_of_polls(machine, rank, choice):
    """The polls of the row in which a rank stands that come again and again."""
    return [c for c in machine.text.path.choices.values() if c.is_beside(choice) and c.again]


def why_goes_on(machine, rank):
    """Why a rank that stands in its last call isn't stuck in the program; None where it is."""
    path = machine.text.path
    if machine.is_finished(rank):
        return None if path.ended[rank] else 'rank %d goes on behind its last call' % rank
    call = machine.last(rank)
    if call is None:
        return None
    if call.line in path.added:
        return 'a wait that was added'
    choice = call.choice
    if choice is None or choice.is_source():
        return None
    if choice.is_poll() and not choice.spins and not choice.stands:
        return 'a poll that may fail' if choice.is_tried else UNTRIED
    if can_end(machine, choice) and (choice.stands or not choice.is_poll()):
        return 'another operation is done'
    if choice.is_poll() and any(can_end(machine, c) for c in row_of_polls(machine, rank, choice)):
        return 'another poll may succeed'
    return None


def why_not_real(machine, steps):
    """Why the stuck end of these steps is none of the program, with its own wildcards; None where it is one."""
    wide = Machine(machine.text, True)
    for step, buffered in steps:
        if step[0] == 'match' and (step[1], step[2]) not in list(wide.matches()):
            return 'a pin lets a receive take what an earlier one would'
        wide.apply(step, buffered)
    for step in wide.steps():
        if step[0] == 'match' or machine.text.ranks[step[1]][wide.issued[step[1]]].op != 'nop':
            return 'another match is open'
    return next((why for why in (why_goes_on(wide, r) for r in range(machine.text.size)) if why), None)


def stuck_along(text):
    """A stuck end of a run that keeps to the pins and to the program's wildcards, by walks; None where none was met."""
    for seed in range(MOST_WALKS):
        chance = random.Random(seed)
        machine = Machine(text, True)
        while True:
            steps = [s for s in machine.steps() if s[0] == 'issue' or text.fits(s[1], s[2])]
            if not steps:
                break
            step = chance.choice(steps)
            machine.apply(step, machine.may_buffer(step, seed % 3 == 2 or (seed % 3 == 1 and chance.random() < 0.5)))
        if not machine.are_finished() and why_not_real(machine, machine.log) is None:
            return machine
    return None


def are_only_pins_stuck(text, try_polls):
    """Where no wildcard has a choice, one run stands for all with the same sends buffered: in none of these is the program stuck, but
    at most the pins. `try_polls` finds out what follows the polls at an end."""
    standard = [c.no for c in text.calls if c.is_send() and c.mode == 't']
    if len(standard) > MOST_BUFFERED:
        return False
    for k in range(1 << len(standard)):
        some = {no for i, no in enumerate(standard) if k >> i & 1}
        machine = Machine(text).run(lambda call: call.no in some)
        if machine.are_finished():
            continue
        why = why_not_real(machine, machine.log)
        if why == UNTRIED:
            try_polls(machine)
            why = why_not_real(machine, machine.log)
        if why in (None, UNTRIED):
            return False
    return True


def has_choice(text):
    takers = [c for c in text.calls if c.is_taker()]
    return any(len({s.rank for s in text.calls if s.is_send() and text.fits(s, t)}) > 1 for t in takers)


def is_unmet(machine, choice, value):
    """Whether a forced outcome didn't come."""
    call = choice.call
    if call is None or value == FAILED:
        return False
    if choice.is_source() or not choice.stands:
        return not machine.is_done(call)
    if choice.kind == 'probe':
        return not may_probe(machine, choice, value)
    return not all(machine.is_done(s) for name, starts in choice.options if name in value for s in starts)


def cannot_be(text, forced, try_polls):
    """Whether no run that the text covers gives these outcomes: one that buffers all it may tells it, where no wildcard has a choice."""
    path = text.path
    for call in text.calls:
        hangs = call.choice and call.choice.is_source() and call.choice.value is None and call is text.ranks[call.rank][-1] and call.op == 'recv'
        if call.is_taker() and not hangs and len({s.rank for s in text.calls if s.is_send() and text.fits(s, call)}) > 1:
            return False
    machine = Machine(text).run()
    if any(machine.is_finished(r) and not path.ended[r] for r in range(text.size)):
        return False
    ids = {choice.id for choice, _ in forced}
    for rank in range(text.size):
        call = machine.last(rank)
        stands = call is not None and not machine.is_finished(rank) and call.choice and call.choice.stands
        if stands and call.choice.id not in ids and can_end(machine, call.choice):
            return False
    if not any(is_unmet(machine, path.choices[c.id], value) for c, value in forced if c.id in path.choices):
        return False
    return are_only_pins_stuck(text, try_polls)
