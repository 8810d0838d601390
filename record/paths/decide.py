"""Asks `mpiprove` of a text, and replays the schedule that it gives."""
import os
import subprocess

from machine import Machine


class Decider:
    def __init__(self, program, folder):
        self.program, self.folder = program, folder
        self.answers, self.asked, self.proved = {}, 0, 0

    def file(self, name):
        return os.path.join(self.folder, name)

    def ask(self, text):
        """The first line of the answer, and at the end of a deadlock a machine there."""
        body = text.render()
        if body not in self.answers:
            self.answers[body] = self.answer(body)
        first, steps = self.answers[body]
        return first, Machine(text).replay(steps) if first == 'deadlock' else None

    def answer(self, body):
        self.asked += 1
        with open(self.file('text.mpi'), 'w') as file:
            file.write(body)
        for command in ('decide', 'prove'):
            evidence = self.file('text.evidence')
            if os.path.exists(evidence):
                os.unlink(evidence)
            words = [command, self.file('text.mpi'), '--out', evidence]
            first = self.first_line(words + (['--workers', '1'] if command == 'prove' else []))
            if first != 'unknown race':
                break
            self.proved += 1
        if first != 'deadlock':
            return first, None
        with open(evidence) as file:
            return first, file.read().split('\n')[2:-1]

    def first_line(self, words):
        done = subprocess.run([self.program] + words, stdout=subprocess.PIPE, stderr=subprocess.PIPE, text=True)
        return done.stdout.split('\n')[0] if done.stdout else 'no answer of mpiprove: ' + (done.stderr.strip().split('\n') or [''])[-1]

    def is_accepted(self, text, body):
        """Whether `check` accepts the schedule for another text of the same calls: that with the program's own wildcards."""
        steps = self.answers.get(body, (None, None))[1]
        if steps is None:
            return False
        with open(self.file('wide.mpi'), 'w') as file:
            file.write(text)
        with open(self.file('wide.evidence'), 'w') as file:
            file.write('evidence 1\nschedule\n' + ''.join(line + '\n' for line in steps))
        return self.first_line(['check', self.file('wide.mpi'), self.file('wide.evidence')]) == 'deadlock'
