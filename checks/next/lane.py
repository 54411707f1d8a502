#!/usr/bin/env python3
"""Proves crates one after another in a clone of its own, each as soon as all that it stands on is proved, as the branch `go` of this
repository has them then.

    lane.py FOLDER NAME NICE JOBS CRATE..

FOLDER holds the clones of all lanes, and for each what `rt ci` said (NAME.out); FOLDER/ends has a line for each crate that ended:
when, its status, and how many minutes of a processor it took. NICE is the lane's place among what runs (-20 first). JOBS is what
rt ci gets as RT_JOBS; with `-` it decides by what memory is free. A crate that wasn't proved is tried again once the branch has
moved. Edits that must fail are left out: the gate tries them."""
import os
import pathlib
import re
import shutil
import subprocess
import sys
import time

TOP = pathlib.Path(__file__).resolve().parent.parent.parent


def origin():
    """The repository whose branch `go` is proved: the one that this clone is of, where it is a clone."""
    said = subprocess.run(['git', 'remote', 'get-url', 'origin'], cwd=TOP, capture_output=True, text=True)
    return said.stdout.strip() or TOP


def libraries(clone):
    """The libraries that each crate uses, by crates.txt."""
    lines = (line.partition('#')[0].partition(':') for line in (clone / 'crates.txt').read_text().splitlines())
    return {head.split()[0]: tail.split() for head, colon, tail in lines if colon}


def proved(folder):
    """The crates that a lane has said to be proved."""
    said = (path.read_text(errors='replace') for path in folder.glob('*.out'))
    return {name for text in said for name in re.findall(r'^rt: (\S+) (?:proved|is kept)', text, re.M)}


def renewed(clone):
    """The clone as the branch is now, and its commit."""
    for words in (['fetch', '-q', 'origin', 'go'], ['reset', '-q', '--hard', 'FETCH_HEAD'], ['clean', '-qfd']):
        subprocess.run(['git', *words], cwd=clone, check=True)
    for path in clone.glob('crates/*/must-fail'):
        shutil.rmtree(path)
    return subprocess.run(['git', 'rev-parse', 'HEAD'], cwd=clone, check=True, capture_output=True, text=True).stdout


def prove(folder, name, jobs, crate):
    """Whether `rt ci` proves the crate."""
    environ = os.environ if jobs == '-' else {**os.environ, 'RT_JOBS': jobs}
    before = os.times()
    with open(folder / f'{name}.out', 'a') as out:
        status = subprocess.run(['rt', 'ci', crate], cwd=folder / name, env=environ, stdout=out, stderr=out).returncode
    with open(folder / 'ends', 'a') as ends:
        behind = os.times()
        spent = behind.children_user + behind.children_system - before.children_user - before.children_system
        ends.write(f'{time.strftime("%H:%M")} {crate} {status} {spent / 60:.1f}\n')
    return status == 0


def main(folder, name, nice, jobs, *crates):
    folder, left, failed = pathlib.Path(folder), list(crates), {}
    clone = folder / name
    pathlib.Path('/proc/self/autogroup').write_text(nice)
    if not clone.is_dir():
        subprocess.run(['git', 'clone', '-q', '-b', 'go', origin(), clone], check=True)
    while left:
        at, uses, done = renewed(clone), libraries(clone), proved(folder)
        ready = [it for it in left if failed.get(it) != at and all(low in done for low in uses[it] if low in uses)]
        if not ready:
            time.sleep(5)
        elif prove(folder, name, jobs, ready[0]):
            left.remove(ready[0])
        else:
            failed[ready[0]] = at


if len(sys.argv) < 6:
    sys.exit(__doc__)
main(*sys.argv[1:])
