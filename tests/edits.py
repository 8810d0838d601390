"""Tells each edit of a crate that can't be applied: edits.py ROOT. The status is 1 where there is one.

Its old text doesn't stand exactly once in its file, or its new text is the same, or it has a line that is no
`file:`, `old:` or `new:`, which nothing reads.
"""

import pathlib
import sys


def steps(text):
    """The file, the old and the new text of each step of an edit; without a file, a line that nothing reads."""
    file = old = None
    for line in text.splitlines():
        word, _, rest = line.partition(": ")
        if word == "file":
            file = rest
        elif word == "old":
            old = rest
        elif line.startswith("new:"):
            yield file, old, line[5:]
        elif line:
            yield None, line, None


def fault(folder, file, old, new):
    """Why a step of an edit of the crate in this folder can't be applied, or None."""
    if file is None:
        return "a line that nothing reads"
    if old == new:
        return f"changes nothing in {file}"
    times = (folder / file).read_text().count(old)
    return None if times == 1 else f"stands {times} times in {file}"


def main():
    root = pathlib.Path(sys.argv[1])
    many = 0
    wrong = 0
    for edit in sorted(root.glob("crates/*/m*/*.edit")):
        for file, old, new in steps(edit.read_text()):
            many += 1
            why = fault(edit.parent.parent, file, old, new)
            if why:
                wrong += 1
                print(f"{edit.relative_to(root)}: {why}: {old[:80]}")
    print(f"{many} texts of edits, {wrong} of which can't be applied")
    return 1 if wrong or not many else 0


sys.exit(main())
