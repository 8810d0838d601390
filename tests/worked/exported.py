"""A plain checker of LRAT proofs, and what it says of those that the built program exports.

It shares no code with the program: it reads a formula in the DIMACS format and a proof, and follows each
line's hints.
"""
import os
import subprocess
import tempfile

from program import content, put

SECONDS = 60
# The formula of `buffered` has the clauses `1`, `-1 -2` and `2`.
PROGRAMS = {
    'buffered': 'ranks 1/policy any/rank 0/bsend 0 1/',
    'exchange': 'ranks 2/policy any/rank 0/bsend 1 1/recv 1 1/rank 1/send 0 1/recv 0 1/',
    'unbuffered': 'ranks 2/policy none/rank 0/send 1 1/recv 1 1/rank 1/send 0 1/recv 0 1/',
    'server': 'ranks 3/policy any/rank 0/recv * 1/recv * 1/bsend 1 2/bsend 2 2/rank 1/send 0 1/recv 0 2/rank 2/send 0 1/recv 0 2/',
}
TREE_ALONE = 'evidence 1/refutation 2 3/tree/split 1/split 2/leaf 2/leaf 3/leaf 1/'
LINE_ALONE = 'evidence 1/refutation 2 3/line : 1 3 2/tree/leaf 4/'


def before_zero(words):
    """The numbers before the first 0. The words go on behind it."""
    numbers = []
    for word in words:
        if word == '0':
            return numbers
        numbers.append(int(word))
    raise ValueError('a line without its 0')


def formula_of(text):
    """The clauses of a text in the DIMACS format."""
    heading, *rest = [line for line in text.splitlines() if not line.startswith('c ')]
    variables, count = map(int, heading.removeprefix('p cnf ').split(' '))
    clauses = [before_zero(iter(line.split())) for line in rest]
    if len(clauses) != count or any(not 0 < abs(literal) <= variables for clause in clauses for literal in clause):
        raise ValueError('counts or a variable of the formula')
    return clauses


def proof_of(text):
    """The number, the clause and the hints of each line of a proof."""
    lines = [iter(line.split()) for line in text.splitlines()]
    return [(int(next(words)), before_zero(words), before_zero(words)) for words in lines]


def derives(clauses, clause, hints):
    """Whether the hints lead from the negation of the clause to a conflict at the last one, and each before it makes a literal true."""
    known, is_refuted = {-literal for literal in clause}, False
    for hint in hints:
        if is_refuted or not 0 < hint <= len(clauses):
            return False
        unrefuted = [literal for literal in clauses[hint - 1] if -literal not in known]
        if len(unrefuted) > 1 or known.intersection(unrefuted):
            return False
        is_refuted = not unrefuted
        known.update(unrefuted)
    return is_refuted


def refutes(formula, proof):
    """Whether each line of the proof follows, and one is the empty clause."""
    clauses = list(formula)
    for number, clause, hints in proof:
        if number != len(clauses) + 1 or not derives(clauses, clause, hints):
            return False
        clauses.append(clause)
    return any(not clause for _, clause, _ in proof)


def needs_each_hint(formula, proof):
    """Whether the proof refutes the formula no more, whichever one of its hints is left out."""
    for place, (number, clause, hints) in enumerate(proof):
        for left_out in range(len(hints)):
            line = number, clause, hints[:left_out] + hints[left_out + 1:]
            if refutes(formula, [*proof[:place], line, *proof[place + 1:]]):
                return False
    return True


class Exports:
    """Runs of the built program over one text, in a folder of its own."""

    def __init__(self, built, room, name):
        self.built, self.folder = built, tempfile.mkdtemp(dir=room)
        put(self.folder, 'program', PROGRAMS[name].replace('/', '\n'))

    def run(self, *words):
        return subprocess.run([self.built, *words], cwd=self.folder, stdout=subprocess.PIPE, timeout=SECONDS, check=True).stdout.decode()

    def formula(self):
        return formula_of(self.run('encode', 'program', '--dimacs'))

    def exported(self, evidence):
        """The proof that is exported from an evidence."""
        put(self.folder, 'evidence', evidence.replace('/', '\n'))
        self.run('export', 'program', 'evidence', '--out', 'proof')
        return proof_of(content(self.folder, 'proof').decode())

    def found(self, depth):
        """The proof that is exported from the refutation that a search finds."""
        self.run('prove', 'program', '--workers', '1', '--depth', str(depth), '--out', 'found')
        return self.exported(content(self.folder, 'found').decode())


def is_taken(formula, proof):
    """Whether a proof is taken, each of whose hints is needed."""
    return refutes(formula, proof) and needs_each_hint(formula, proof)


def judged_exports(built, room):
    """What is looked at, and whether it holds."""
    made = {name: Exports(built, room, name) for name in PROGRAMS}
    buffered = made['buffered'].formula()
    for evidence, lines, hints in [(TREE_ALONE, 2, 4), (LINE_ALONE, 1, 3)]:
        proof = made['buffered'].exported(evidence)
        counts = len(proof), sum(len(hints) for _, _, hints in proof)
        yield f'the proof exported from {evidence}', is_taken(buffered, proof) and counts == (lines, hints)
    for name in ('exchange', 'server'):
        for depth in (0, 4):
            yield f'the proof of {name} at depth {depth}', is_taken(made[name].formula(), made[name].found(depth))
    other = made['unbuffered'].formula()
    yield "the proof of another formula isn't taken", not refutes(other, made['exchange'].found(0))
