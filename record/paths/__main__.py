"""Runs an MPI program again and again with forced outcomes, until each path that it can take is a text that was decided.

usage: paths RECORD NAME RUNS SECONDS ALIKE [OPTION ..] -- MPIRUN WORD ..     as record/record hands them

Nothing of it is proved; docs/PATHS.md tells why its answers are right. Exit status: 0 no deadlock, 1 a deadlock, 2 unknown, 3 refused,
5 a file failed, 70 mpiprove can't be run."""
import os
import signal
import subprocess
import sys

from alike import Alike
from answers import Report
from decide import Decider
from explore import Explorer
from runs import Refused, Runner
from sites import Sites

RANDOM_MATCHES = 6


def is_built(program):
    """Without a build each answer would take minutes."""
    build = os.path.join(os.path.dirname(program), 'build')
    if not os.access(program, os.X_OK) or not os.path.isfile(build):
        return os.access(program, os.X_OK)
    return subprocess.run([build, '--state'], stdout=subprocess.PIPE, text=True).stdout.strip() != 'none'


def explore(explorer, sites):
    explorer.explore()
    while not explorer.deadlock and not explorer.lacks and not explorer.todo and any(sites.open.values()) and not explorer.is_used_up():
        changed = sites.sample(explorer, RANDOM_MATCHES)
        if not changed:
            break
        for site in changed:
            sites.open[site] = False
        explorer.again()


def main():
    record, name, runs, seconds, alike = sys.argv[1:6]
    rest = sys.argv[6:]
    options, words = rest[:rest.index('--')], rest[rest.index('--') + 1:]
    program = os.environ['MPIPROVE']
    if not is_built(program):
        print('record: --paths asks mpiprove of each path, which is not built; ./build first', file=sys.stderr)
        return 70
    first, last = (int(x) for x in alike.split('-')) if alike != '-' else (0, -1)
    try:
        runner = Runner(record, options, words, float(seconds), name)
    except FileExistsError as there:
        print('record: %s' % there, file=sys.stderr)
        return 6
    except OSError:
        print("record: %s.runs can't be written" % name, file=sys.stderr)
        return 5
    tell = lambda line: print(line, flush=True)
    sites = Sites()
    ranks = Alike(first, last) if alike != '-' else None
    explorer = Explorer(runner, Decider(program, runner.folder), int(runs), ranks, tell, sites)
    signal.signal(signal.SIGTERM, signal.default_int_handler)
    try:
        try:
            explore(explorer, sites)
        except KeyboardInterrupt:
            explorer.lacks.append('it was ended by a signal')
        return Report(explorer, name, tell).write()
    except Refused as refused:
        sys.stderr.write(''.join(line + '\n' for line in refused.told.split('\n') if line and 'the recording is kept' not in line))
        return refused.status if refused.status > 0 else 3
    except OSError as fault:
        print("record: %s can't be written" % (fault.filename or name), file=sys.stderr)
        return 5
    finally:
        runner.close()


if __name__ == '__main__':
    sys.exit(main())
