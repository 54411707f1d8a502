#!/usr/bin/env python3
"""Copies the libraries that the lanes of FOLDER (lane.py) build into INTO/crates, with the sources that they were built of, as soon as
they are there, so that BUILT=INTO checks/only.py and checks/edits.py can stand on them. It goes on until it is ended.

    copy_built.py FOLDER INTO

A running `rt ci` works in /tmp/rt-copy-PID-.., which is gone when it ends."""
import pathlib
import shutil
import sys
import time


def files(top):
    """What tells the files below a folder from others: names, sizes, and when they were put there."""
    return sorted((str(it.relative_to(top)), it.stat().st_size, it.stat().st_ctime) for it in top.rglob('*') if it.is_file())


def is_of(folder, copy):
    """Whether a lane's call of `rt ci` works in that copy."""
    pid = copy.name.split('-')[2]
    parent = pathlib.Path(f'/proc/{pid}/stat').read_text().rpartition(')')[2].split()[1]
    return str(folder) in pathlib.Path(f'/proc/{parent}/cmdline').read_text().split('\0')


def sizes(lists):
    """The same without times."""
    return [[it[:2] for it in one] for one in lists]


def copy(crate, into):
    """Copies a built crate, unless it changed meanwhile or is there; whether it is there then."""
    parts = [it for it in ('out/rlib', 'src', 'specs', 'proofs') if (crate / it).is_dir()]
    seen, room = [files(crate / it) for it in parts], into / f'{crate.name}.new'
    if sizes(files(into / crate.name / it) for it in parts) == sizes(seen):
        return True
    shutil.rmtree(room, ignore_errors=True)
    for it in parts:
        shutil.copytree(crate / it, room / it)
    if [files(crate / it) for it in parts] != seen or sizes(files(room / it) for it in parts) != sizes(seen):
        return False
    shutil.rmtree(into / crate.name, ignore_errors=True)
    room.rename(into / crate.name)
    return True


def main(folder, into):
    done = set()
    into.mkdir(parents=True, exist_ok=True)
    while True:
        for built in pathlib.Path('/tmp').glob('rt-copy-*-*/repo/crates/*/out/rlib'):
            crate = built.parent.parent
            try:
                place = (crate, built.stat().st_ino)
                if place not in done and is_of(folder, crate.parent.parent.parent):
                    seen = files(built)
                    if seen and time.time() - max(it[2] for it in seen) > 3 and copy(crate, into):
                        done.add(place)
            except OSError:
                continue  # the call has ended, and its copy is gone
        time.sleep(2)


if len(sys.argv) != 3:
    sys.exit(__doc__)
main(pathlib.Path(sys.argv[1]).resolve(), pathlib.Path(sys.argv[2]) / 'crates')
