"""What the scripts need of the built program: where it stands, and a run of it with a limit of time."""
import os
import subprocess
import sys

ROOT = os.path.dirname(os.path.dirname(os.path.dirname(os.path.abspath(__file__))))
EXAMPLES = os.path.join(ROOT, 'examples')

# What may stand below the line that tells which file failed.
WHY = {b'no such file or folder\n', b"its rights don't allow it\n", b'it is a folder\n', b'a part of its path is no folder\n',
       b'its file system takes no change\n', b'the disk is full\n'}


def built_program():
    """The program that MPIPROVE names, else the one that ./build made."""
    path = os.path.abspath(os.environ.get('MPIPROVE') or os.path.join(ROOT, 'crates/mpiprove/out/mpiprove'))
    if not os.access(path, os.X_OK):
        sys.exit(f'{path}: no program stands there. ./build makes it, and MPIPROVE=PATH names another')
    return path


def run(program, words, folder, seconds, **more):
    """The exit status of a run in a folder, `hang` where it took too long, and what it printed on both outputs."""
    more.setdefault('stdout', subprocess.PIPE)
    with subprocess.Popen([program, *words], cwd=folder, stdin=subprocess.DEVNULL, stderr=subprocess.PIPE, **more) as started:
        try:
            printed, told = started.communicate(timeout=seconds)
        except subprocess.TimeoutExpired:
            started.kill()
            started.communicate()
            return 'hang', b'', b''
    return started.returncode, printed or b'', told


def built_shim(folder):
    """The library that refuses to a program what it asks the system for, built into a folder."""
    shim = os.path.join(folder, 'shim.so')
    source = os.path.join(os.path.dirname(os.path.abspath(__file__)), 'shim.c')
    subprocess.run(['gcc', '-O1', '-shared', '-fPIC', '-o', shim, source], check=True)
    return shim


def has_trim(program):
    """Whether the program has the command trim, and with it evidence 2."""
    return b'trim' in run(program, ['--help'], None, 20)[1]


def put(folder, name, text):
    """Writes a text into a folder."""
    with open(os.path.join(folder, name), 'wb') as file:
        file.write(text if isinstance(text, bytes) else text.encode())


def content(folder, name):
    """The bytes of a file, or None where there is no file."""
    try:
        with open(os.path.join(folder, name), 'rb') as file:
            return file.read()
    except FileNotFoundError:
        return None
