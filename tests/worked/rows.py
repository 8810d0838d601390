"""Judges worked examples: each row is one run of the built program, or several that leave the same.

A row has seven columns with `|` between them: the words of each run, with ` ; ` between those of two;
the file `program`; the file `evidence`; the exit status; standard output and standard error, without the
end of the last line; and the file `out`, which isn't there where the column is empty. The last ones may
be missing. Empty lines and those that begin with `#` are no rows, and a row goes on after a line that ends
with a backslash.

- In a text `/` stands for the end of a line, `~` for `|` and `%` for `/`. An output that ends with `...`
  may go on, and has nothing written out by braces. What is told below `file PATH` of why it failed, or once a second, isn't compared.
- `{N PART}` stands for N times PART, in which others may stand, and `{FIRST..LAST PART}` for PART
  with each of these numbers, where `#` in PART is the number and `#+N` one that is greater by N.
- `FIRST then SECOND` are two runs that end and print alike, and what the first writes is the evidence of
  the second, which writes nothing; the columns of both files aren't read. `terminal: ` before the words makes standard error a terminal.
- Where the file `program` is `@PATH`, it is that file beside the rows. The file `nowhere` isn't there and
  can't be made, and for the file `memory` there is no memory. The files of the folder `folder` stand in the
  column of the evidence, or of `out` where they are written, each behind `== ` and its name.
"""
import concurrent.futures
import errno
import glob
import os
import pty
import re
import shutil
import stat
import subprocess
import sys
import tempfile
import threading
from collections import namedtuple

HERE = os.path.dirname(os.path.abspath(__file__))
sys.path.insert(0, os.path.join(os.path.dirname(HERE), 'hostile'))
from exported import judged_exports
from program import WHY, built_program, built_shim, content, put

SECONDS = 120
# Help tells the name by which the program was called.
NAME = 'mpiprove'
# So many opens are tried until the one of the file `memory` is met.
MOST_OPENS = 9
EACH_SECOND = re.compile(rb'progress \d+ s: ')
Row = namedtuple('Row', 'commands program evidence status output errors written')
Ended = namedtuple('Ended', 'status output errors written')


def rows_of(path):
    """The number of the line at which each row of a file ends, and the row."""
    with open(path, encoding='utf-8', newline='\n') as file:
        text = file.read()
    whole = ''
    for number, line in enumerate(text.removesuffix('\n').split('\n'), 1):
        if line == '' or line.startswith('#'):
            continue
        if line.endswith('\\'):
            whole += line[:-1]
            continue
        columns = [column.strip() for column in (whole + line).split('|', 6)]
        yield number, Row(*columns, *[''] * (7 - len(columns)))
        whole = ''


def lines(text):
    """A text whose lines end where a `/` stands, with a `|` for each `~` and a `/` for each `%`."""
    return text.replace('/', '\n').replace('~', '|').replace('%', '/')


REPEATED = re.compile(r'\{(\d+)(?:\.\.(\d+))? ([^{}]*)\}')


def repeated(found):
    """So many times a part, or the part with each number of a range."""
    first, last, part = found.groups()
    if last is None:
        return part * int(first)
    more = re.compile(r'#(?:\+(\d+))?')
    return ''.join(more.sub(lambda each: str(number + int(each[1] or 0)), part) for number in range(int(first), int(last) + 1))


def unfolded(text):
    """A text with each `{N PART}` and `{FIRST..LAST PART}` in it written out, from the inmost ones on."""
    count = 1
    while count:
        text, count = REPEATED.subn(repeated, text)
    return text


def parts_of(archive):
    """The paths of the files in the folder `folder`, with their contents, which stand in a text behind `== ` and the file's name."""
    pieces = [piece.partition(b'\n') for piece in archive.split(b'== ')[1:]]
    return {'folder/' + name.decode(): text for name, _, text in pieces}


def is_told(column, stream):
    """Whether a stream holds what its column tells."""
    if column == '':
        return stream == b''
    if column.endswith('...'):
        return stream.startswith(lines(column[:-3]).encode())
    return stream == (lines(unfolded(column)) + '\n').encode()


class Runs:
    """Runs of the program, each in a folder of its own."""

    def __init__(self, program, room):
        self.program, self.room = program, room
        self.shim = built_shim(room) if shutil.which('gcc') else None

    def run(self, words, program, evidence):
        """What a run leaves, or None where it can't be made here."""
        files = {'program': program, 'evidence': evidence}
        with tempfile.TemporaryDirectory(dir=self.room) as folder:
            if any(word.startswith('folder') for word in words):
                os.mkdir(os.path.join(folder, 'folder'))
                files |= parts_of(evidence)
            for path, text in files.items():
                put(folder, path, text)
            os.symlink('missing/file', os.path.join(folder, 'nowhere'))
            ended = self.start(words, folder)
            return ended and Ended(*ended, written_in(folder, files))

    def start(self, words, folder):
        """The status and both outputs of a run in a folder. Where a word is `memory`, the open of that file is refused for want of memory,
        and without gcc there is no such run."""
        if words[:1] == ['terminal:']:
            return at_terminal(self.program, words[1:], folder)
        if 'memory' not in words:
            return self.call(words, folder, {})
        if self.shim is None:
            return None
        refused = os.path.join(folder, 'refused')
        for number in range(1, MOST_OPENS):
            told = {'LD_PRELOAD': self.shim, 'REFUSE': f'open:{number}:on:{errno.ENOMEM}', 'REFUSED': refused}
            ended = self.call(words, folder, told)
            if content(folder, 'refused') in (b'open memory\n', b'open memory.0.part\n'):
                return ended
            for name in ('refused', 'out', 'memory'):
                if os.path.exists(os.path.join(folder, name)):
                    os.remove(os.path.join(folder, name))
        return self.call(words, folder, {})

    def call(self, words, folder, settings):
        ran = subprocess.run([NAME, *words], executable=self.program, cwd=folder, stdin=subprocess.DEVNULL, stdout=subprocess.PIPE,
                             stderr=subprocess.PIPE, env={**os.environ, **settings}, timeout=SECONDS)
        return ran.returncode, ran.stdout, ran.stderr


def at_terminal(program, words, folder):
    """The status and both outputs of a run whose standard error is a terminal, or None where the system has none to give."""
    try:
        ours, theirs = pty.openpty()
    except OSError:
        return None
    with subprocess.Popen([NAME, *words], executable=program, cwd=folder, stdin=subprocess.DEVNULL, stdout=subprocess.PIPE,
                          stderr=theirs) as started:
        os.close(theirs)
        told = []
        reader = threading.Thread(target=read_terminal, args=(ours, told))
        reader.start()
        try:
            output, _ = started.communicate(timeout=SECONDS)
        finally:
            started.kill()
            reader.join()
    os.close(ours)
    return started.returncode, output, b''.join(told).replace(b'\r\n', b'\n')


def read_terminal(ours, told):
    """Collects what is written to a terminal, until its last writer is gone, which ends with an error."""
    try:
        while piece := os.read(ours, 4096):
            told.append(piece)
    except OSError:
        pass


def written_in(folder, before):
    """What a run wrote: the content of the file `out`, or else those of all files that are new or changed, by their paths. None for no
    file."""
    paths = [os.path.relpath(os.path.join(at, name), folder) for at, _, names in os.walk(folder) for name in names]
    found = {path: content(folder, path) for path in paths if path not in ('nowhere', 'refused')}
    changed = {path: text for path, text in found.items() if before.get(path) != text}
    return changed['out'] if list(changed) == ['out'] else changed or None


def comparable(errors, status):
    """Standard error without the line that says why a file failed, and without what is told once a second, which depends on the machine."""
    told = [line for line in errors.splitlines(True) if not EACH_SECOND.match(line)]
    if status == 5 and len(told) == 2 and told[0].startswith(b'file ') and told[1] in WHY:
        told.pop()
    return b''.join(told)


def is_met(row, ended):
    """Whether a run ended and told what the row says."""
    status = int(row.status)
    return ended.status == status and is_told(row.output, ended.output) and is_told(row.errors, comparable(ended.errors, status))


def has_written(row, ended):
    """Whether a run wrote what the row says."""
    written = lines(unfolded(row.written)).encode()
    return ended.written == (parts_of(written) if isinstance(ended.written, dict) else written or None)


def misses(runs, row):
    """The runs of a row that don't leave what it says, each with what it left. None where they can't be made here."""
    path = row.program.removeprefix('@')
    program = lines(unfolded(row.program)).encode() if path == row.program else content(HERE, path)
    evidence = lines(unfolded(row.evidence)).encode('utf-8', 'surrogateescape')
    found = []
    for words in row.commands.split(' ; '):
        first, _, then = words.partition(' then ')
        if then:
            ended = runs.run(first.split(), program, b'')
            if is_met(row, ended) and isinstance(ended.written, bytes):
                first, ended = then, runs.run(then.split(), program, ended.written)
            is_right = first == then and is_met(row, ended) and ended.written is None
        else:
            ended = runs.run(words.split(), program, evidence)
            if ended is None:
                return None
            is_right = is_met(row, ended) and has_written(row, ended)
        if not is_right:
            found.append((first, ended))
    return found


def cut_rows():
    """Evidence that ends behind each of its bytes, and what `check` says of it: it lacks a line, or its last line lacks its end; but a
    schedule that ends with its heading or with one of its steps isn't stuck yet."""
    cuts = [('ranks 1/policy all/rank 0/send 0 1/recv 0 1/', 'evidence 1/refutation 17 45/line : 10 45 11 9 14 13/tree/leaf 46/', None),
            ('ranks 2/policy any/rank 0/ssend 1 5/recv 1 6/rank 1/mprobe h 0 5/send 0 6/mrecv h/',
             'evidence 1/schedule/issue 0/issue 1/match 1 3/issue 1/', 2)]
    for program, evidence, heading in cuts:
        for length in range(len(evidence)):
            cut = evidence[:length]
            ended = cut.count('/')
            is_whole = heading is not None and cut.endswith('/') and ended >= heading
            told = 'refused not stuck live' if is_whole else f'refused evidence line {ended + 1} syntax'
            yield Row('check program evidence', program, cut, '3', told, '', '')


def foreign_rows():
    """Evidence with a byte that stands in no text at each of its places, and what `check` says of it: which line can't be read. The `%`
    is a `/` there."""
    evidence = 'evidence 1/refutation 2 3/line : 1/line -1 2 : 2 3/tree/split 1/leaf 4/split 2/leaf 5/leaf 1/'
    for place in range(len(evidence)):
        for byte in ['\0', '\t', '\r', '%', '\x7f', '\udc80', '\udcff']:
            told = f'refused evidence line {evidence[:place].count("/") + 1} syntax'
            changed = evidence[:place] + byte + evidence[place + 1:]
            yield Row('check program evidence', 'ranks 1/policy any/rank 0/bsend 0 1/', changed, '3', told, '', '')


def keeps_what_it_should(program, room):
    """In words what is looked at, and whether it holds: a file that is written through a link keeps the link, one in the place of
    another keeps its rights, and a stranger's file stays that has the name of the one that is written beside."""
    with tempfile.TemporaryDirectory(dir=room) as folder:
        shutil.copy(os.path.join(HERE, 'relay.mpi'), folder)
        put(folder, 'relay.evidence.0.part', "another's")
        at = lambda name: os.path.join(folder, name)
        os.symlink('relay.evidence', at('linked'))
        ends = []
        for number, words in enumerate(['prove relay.mpi --out linked', 'check relay.mpi relay.evidence',
                                        'prove relay.mpi --out relay.evidence', 'check relay.mpi linked']):
            if number == 2:
                os.chmod(at('relay.evidence'), 0o640)
            ran = subprocess.run([program, *words.split()], cwd=folder, stdout=subprocess.PIPE, stderr=subprocess.STDOUT, timeout=SECONDS)
            ends.append((ran.returncode, ran.stdout))
        mode = stat.S_IMODE(os.stat(at('relay.evidence')).st_mode)
        names = sorted(os.listdir(folder))
        return 'what stands beside a file that is written stays', (
            ends == [(0, b'no deadlock\n')] * 4 and os.path.islink(at('linked')) and mode == 0o640
            and content(folder, 'relay.evidence.0.part') == b"another's"
            and names == ['linked', 'relay.evidence', 'relay.evidence.0.part', 'relay.mpi'])


def shows_names(program, room):
    """The same: in rows a name is one word of a line, whatever bytes it has."""
    name = 'a\nprogram b: deadlock\x1b[31m.mpi'
    with tempfile.TemporaryDirectory(dir=room) as folder:
        put(folder, name, 'ranks 1\npolicy any\nrank 0\n')
        ran = subprocess.run([program, 'decide', name, name], cwd=folder, stdout=subprocess.PIPE, timeout=SECONDS)
        row = b'program a?program b: deadlock?[31m.mpi: no deadlock\n'
        return 'a name in a row has a question mark for each byte that is no printable ASCII', (ran.returncode, ran.stdout) == (0, row * 2)


def tells_full_disk(program, room):
    """The same: a device that is full while it is written is told as such."""
    ran = subprocess.run([program, 'decide', 'relay.mpi', '--out', '/dev/full'], cwd=HERE, stdout=subprocess.PIPE,
                         stderr=subprocess.PIPE, timeout=SECONDS)
    ended = ran.returncode, ran.stdout, ran.stderr
    shrunk = subprocess.run([program, 'shrink', os.path.join(os.path.dirname(os.path.dirname(HERE)), 'examples', 'head-to-head.mpi'),
                             '--out', '/dev/full'], stdout=subprocess.PIPE, stderr=subprocess.PIPE, timeout=SECONDS)
    return 'a full disk is told as one', (
        ended == (0, b'no deadlock\n', b'')
        and (shrunk.returncode, shrunk.stdout, shrunk.stderr) == (5, b'', b'file /dev/full\nthe disk is full\n'))


def names_each_id_once(program, room):
    """The same: of the parts of a page with two pictures no two have one name, and what is named is there."""
    example = os.path.join(os.path.dirname(os.path.dirname(HERE)), 'examples', 'head-to-head.mpi')
    page = subprocess.run([program, 'explain', example, '--html'], stdout=subprocess.PIPE, timeout=SECONDS).stdout
    ids = re.findall(rb' id="([^"]*)"', page)
    return 'each name of a part of a page stands once', (
        page.count(b'<svg ') == 2 and len(ids) == len(set(ids)) and set(re.findall(rb'url\(#([^)]*)\)', page)) <= set(ids))


def colors_without_memory(program, room):
    """The same: where memory runs out, an answer that is to be in color is printed without it, or want of memory is."""
    if not shutil.which('gcc'):
        return 'without gcc no memory is refused', True
    shim, wrong = built_shim(room), []
    right = [(0, b'\x1b[1;32mno deadlock\n\x1b[0m', b''), (0, b'no deadlock\n', b''), (4, b'unknown memory\n', b''),
             (4, b'\x1b[1;33munknown memory\n\x1b[0m', b''), (4, b'', b'memory\n')]
    for place in range(1, 900, 3):
        ran = subprocess.run([program, 'decide', 'relay.mpi', '--color', 'always'], cwd=HERE, stdout=subprocess.PIPE,
                             stderr=subprocess.PIPE, timeout=SECONDS,
                             env={**os.environ, 'LD_PRELOAD': shim, 'REFUSE': f'memory:{place}:on:0'})
        ended = ran.returncode, ran.stdout, ran.stderr
        if ended not in right:
            wrong.append((place, ended))
    return f'an answer in color that lacks memory is printed without it: {wrong[:3]}', not wrong


def judged(runs, where, row):
    """Whether a row holds, or None where that can't be told here, and what to say of it."""
    try:
        found = misses(runs, row)
    except (ValueError, OSError, subprocess.TimeoutExpired) as error:
        return False, f'{where}: {error!r}'
    if not found:
        return (None if found is None else True), ''
    return False, '\n'.join(f'{where}: {words} left {str(ended)[:2000]}' for words, ended in found)


LOOKS = [keeps_what_it_should, shows_names, tells_full_disk, names_each_id_once, colors_without_memory]


def main(paths):
    program = built_program()
    files = [os.path.abspath(path) for path in paths] or sorted(glob.glob(os.path.join(HERE, '*.rows')))
    rows = [(f'{os.path.basename(path)} line {number}', row) for path in files for number, row in rows_of(path)]
    if not paths:
        rows += [(f'the evidence {row.evidence!a}', row) for row in (*cut_rows(), *foreign_rows())]
    passed = failed = skipped = 0
    with tempfile.TemporaryDirectory(prefix='rows-') as room:
        runs = Runs(program, room)
        with concurrent.futures.ThreadPoolExecutor(os.cpu_count()) as pool:
            for holds, told in pool.map(lambda each: judged(runs, *each), rows):
                passed, failed, skipped = passed + (holds is True), failed + (holds is False), skipped + (holds is None)
                if told:
                    print(told, flush=True)
        for what, holds in () if paths else [*judged_exports(program, room), *(look(program, room) for look in LOOKS)]:
            passed, failed = passed + holds, failed + (not holds)
            if not holds:
                print(f"it doesn't hold: {what}")
    print(f'{passed} passed, {failed} failed' + (f', {skipped} skipped' if skipped else ''))
    sys.exit(failed > 0 or passed == 0)


if __name__ == '__main__':
    main(sys.argv[1:])
