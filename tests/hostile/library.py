"""Refuses to calls of the library the memory that they ask for, and looks at what comes of their rows.

Run by tests/refusals library [--most N] [--seed N] [FILE..]: FILE is the name of a file of calls
(pools, trees, ..; crates/test_scripts/args has all). The program of crates/test_scripts makes each
call that lacks memory once more. So in a run in which one allocation is refused all rows still have
to hold, those aside that stand behind a search which lacked memory and can't go on; and a run in
which that one and all later ones are may only tell that memory lacks.
"""
import argparse
import os
import random
import re
import shutil
import subprocess
import sys
import tempfile
import time

from program import ROOT, built_shim, content, run

SECONDS = 60
SHOWN = 3
CRATE = os.path.join(ROOT, 'crates', 'test_scripts')

# Files with searches.
SEARCHES = ('solvers', 'states')
SOME_HELD = re.compile(rb'([1-9][0-9]* rows hold\n)?')
# Memory lacked while a file was read, which only standard error says.
UNREAD = b'error: '
# The word memory stands in place of the rows that don't hold, where memory lacked for their text.
LACKED = re.compile(rb"(memory|(.*\n)*?)[1-9][0-9]* rows don't hold\n|([1-9][0-9]* rows hold\n)?")


def built_library():
    """The program that LIBRARY names, else the crate's own, which is proved and built where it is missing."""
    path = os.path.abspath(os.environ.get('LIBRARY') or os.path.join(CRATE, 'out', 'test_scripts'))
    if 'LIBRARY' not in os.environ and not os.access(path, os.X_OK):
        print(f'{path}: no program stands there; proving and building it by rt run, which takes long', file=sys.stderr)
        subprocess.run(['rt', 'run'], cwd=CRATE, stdout=sys.stderr, check=True)
    if not os.access(path, os.X_OK):
        sys.exit(f'{path}: no program stands there')
    return path


class Library:
    """The program, the shim, and the runs that were made."""

    def __init__(self, program, folder, chance, most):
        self.program, self.folder, self.chance, self.most = program, folder, chance, most
        self.shim = built_shim(folder)
        self.runs, self.wrong = 0, 0
        self.held = {}

    def have_held(self, file, printed):
        """Whether the rows have held that have to, where one allocation was refused."""
        return SOME_HELD.fullmatch(printed) if file in SEARCHES else printed == self.rows_held(file)

    def rows_held(self, file):
        """What is printed of the file where nothing is refused."""
        if file not in self.held:
            status, self.held[file], told = run(self.program, [f'{file}.calls'], os.path.join(CRATE, 'data'), SECONDS)
            if status != 0 or told != b'':
                sys.exit(f'{file}: ended with {status} with nothing refused')
        return self.held[file]

    def was_refused(self, file, place, how):
        """Makes a run, judges it, and answers whether an allocation was refused."""
        refused = os.path.join(self.folder, 'refused')
        if os.path.exists(refused):
            os.remove(refused)
        settings = {'LD_PRELOAD': self.shim, 'REFUSED': refused, 'REFUSE': f'memory:{place}:{how}:0'}
        status, printed, told = run(self.program, [f'{file}.calls'], os.path.join(CRATE, 'data'), SECONDS, env={**os.environ, **settings})
        self.runs += 1
        was_refused = os.path.exists(refused)
        if how == 'alone':
            right = status == 0 and told == b'' and self.have_held(file, printed)
        else:
            right = status in (0, 1) and told == b'' and LACKED.fullmatch(printed)
        if not right and not (was_refused and status == 1 and told.startswith(UNREAD)):
            self.tell_wrong(file, status, printed + told, settings)
        return was_refused

    def tell_wrong(self, file, status, said, settings):
        """Counts a wrong run, and tells how to repeat it."""
        self.wrong += 1
        if self.wrong <= SHOWN:
            words = ' '.join(f'{key}={settings[key]}' for key in settings)
            print(f'wrong: {file}: ended with {status}, {said[:300]!r}; again in {CRATE}/data by')
            print(f'  env {words} {self.program} {file}.calls', flush=True)

    def allocations(self, file):
        """How many allocations the file's run asks for."""
        low, high = 0, 1
        while self.was_refused(file, high, 'alone'):
            low, high = high, 2 * high
        while high - low > 1:
            middle = (low + high) // 2
            low, high = (middle, high) if self.was_refused(file, middle, 'alone') else (low, middle)
        return low

    def try_file(self, file):
        """Refuses each allocation alone, or so many by chance where there are more; and some with all later ones."""
        count = self.allocations(file)
        places = range(1, count + 1) if count <= self.most else sorted(self.chance.sample(range(1, count + 1), self.most))
        for place in places:
            self.was_refused(file, place, 'alone')
        for place in places[::10]:
            self.was_refused(file, place, 'on')
        print(f'{file}: {len(places)} of {count} allocations', flush=True)


def main():
    """Tries the files that were asked for; status 1 where a run went wrong."""
    files = [word.removesuffix('.calls') for word in (content(CRATE, 'args') or b'').decode().splitlines()]
    parser = argparse.ArgumentParser(prog='tests/refusals library')
    parser.add_argument('files', nargs='*', metavar='FILE')
    parser.add_argument('--most', type=int, default=2000, metavar='N')
    parser.add_argument('--seed', type=int, default=int(time.time()))
    options = parser.parse_args()
    for name in options.files:
        if name not in files:
            sys.exit(f'no file of calls: {name}')
    folder = tempfile.mkdtemp(prefix='refusals-', dir='/dev/shm' if os.path.isdir('/dev/shm') else None)
    library = Library(built_library(), folder, random.Random(options.seed), options.most)
    for file in options.files or files:
        library.try_file(file)
    print(f'library: {library.runs} runs, {library.wrong} went wrong, seed {options.seed}')
    if library.wrong:
        print(f'the shim stands in {folder}')
        sys.exit(1)
    shutil.rmtree(folder)


if __name__ == '__main__':
    main()
