"""Runs the program with forced outcomes under the recorder, and reads the path that it took."""
import os
import re
import shutil
import signal
import subprocess
import time

from texts import FAILED, Path

PATIENT = 10        # times as long a run is waited for, where it isn't seen that all ranks wait


class Refused(Exception):
    """The recorder wrote no text of a run: its status, and what it told."""

    def __init__(self, status, told):
        super().__init__(told)
        self.status, self.told = status, told

    def reason(self):
        lines = [line for line in self.told.split('\n') if re.match('refused|fault', line)]
        return lines[0].split(': ', 1)[1] if lines else 'it left no recording'


def forced_lines(forced):
    """As the recorder takes them, from choices' ids to values."""
    out = []
    for (rank, number), (kind, value) in sorted(forced.items()):
        word = 'failed' if value == FAILED else 'found' if kind in ('source', 'probe') else 'took'
        numbers = () if value == FAILED else value
        out.append(' '.join([str(rank), str(number), word] + [str(x) for x in numbers]))
    return ''.join(line + '\n' for line in out)


class Runner:
    def __init__(self, record, options, words, seconds, name):
        self.record, self.options, self.words, self.seconds = record, options, words, seconds
        self.folder = name + '.runs'
        self.runs = 0
        if os.path.lexists(self.folder) and not self.is_ours(self.folder):
            raise FileExistsError('%s is there, and is none of its own' % self.folder)
        shutil.rmtree(self.folder, ignore_errors=True)
        os.makedirs(self.folder)

    @staticmethod
    def is_ours(folder):
        """Whether it may be emptied."""
        return os.path.isdir(folder) and all(re.fullmatch(r'forced|said|(run|text|wide)\.\w+', name) for name in os.listdir(folder))

    def close(self):
        shutil.rmtree(self.folder, ignore_errors=True)

    def run(self, forced):
        """The path of a run with these outcomes. One that was ended too early is tried once more, with more patience."""
        try:
            path = self.run_once(forced, self.seconds / PATIENT)
            if path.end != 'cut off':
                return path
        except Refused:
            if not self.was_ended:
                raise
        return self.run_once(forced, self.seconds)

    def run_once(self, forced, quick):
        self.runs += 1
        name = os.path.join(self.folder, 'run')
        for ending in ('mpi', 'map', 'choices'):
            if os.path.exists(name + '.' + ending):
                os.unlink(name + '.' + ending)
        with open(os.path.join(self.folder, 'forced'), 'w') as file:
            file.write(forced_lines(forced))
        command = [self.record, '--outcomes', os.path.join(self.folder, 'forced'), '-o', name] + self.options + self.words
        with open(os.path.join(self.folder, 'said'), 'w') as said:
            child = subprocess.Popen(command, stdin=subprocess.DEVNULL, stdout=subprocess.DEVNULL, stderr=said, start_new_session=True)
            try:
                self.watch(child, name + '.recording', quick)
            except BaseException:
                self.end(child)
                raise
        with open(os.path.join(self.folder, 'said'), errors='replace') as said:
            told = said.read()
        if not os.path.exists(name + '.choices'):
            raise Refused(child.returncode, told)
        return self.read(name)

    @staticmethod
    def read(name):
        texts = []
        for ending in ('mpi', 'map', 'choices'):
            with open(name + '.' + ending, errors='replace') as file:
                texts.append(file.read())
        return Path(*texts)

    def watch(self, child, recording, quick):
        """Ends a run in which no call came for long, or for a tenth of it where all ranks stand in calls."""
        before, since, began = None, time.monotonic(), time.monotonic()
        self.was_ended = False
        while child.poll() is None:
            time.sleep(0.02)
            sizes, inside = self.look(recording)
            now = time.monotonic()
            if sizes != before:
                before, since = sizes, now
            waits = quick if inside else self.seconds
            if (sizes and now - since > waits) or now - began > 100 * self.seconds:
                self.was_ended = True
                self.end(child)

    @staticmethod
    def look(recording):
        """The sizes of the recordings, and whether each rank has one and stands in a call."""
        sizes, inside = [], True
        try:
            names = [n for n in os.listdir(recording) if n.startswith('rank.')]
            for name in sorted(names):
                file = os.path.join(recording, name)
                sizes.append((name, os.path.getsize(file)))
                with open(file, 'rb') as start:
                    words = start.read(400).split()     # recording 1 RANK SIZE .. state i
                    inside &= words[3] == b'%d' % len(names) and words[words.index(b'state') + 1] == b'i'
        except (OSError, IndexError, ValueError):
            return None, False
        return sizes, inside

    @staticmethod
    def end(child):
        """SIGTERM ends the run, and the text is made all the same."""
        child.send_signal(signal.SIGTERM)
        try:
            child.wait(60)
        except subprocess.TimeoutExpired:
            os.killpg(child.pid, signal.SIGKILL)
            child.wait()
