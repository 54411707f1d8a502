"""Copies crates, and all on which they stand, into a folder, with their lines of crates.txt and with HANDLES, so that a
program can be built there: the gate takes no program from here.

usage: copy_crates.py FOLDER CRATE..
"""
import os, re, shutil, sys

TOP = os.path.dirname(os.path.dirname(os.path.abspath(__file__)))


def copy(folder, crates):
    with open(os.path.join(TOP, "crates.txt"), encoding="utf-8") as file:
        lines = {line.split(":")[0].split()[0]: line for line in file if re.match("[a-z]", line)}
    needed, wanted = set(), list(crates)
    while wanted:
        name = wanted.pop()
        if name in lines and name not in needed:
            needed.add(name)
            wanted += lines[name].split(":")[1].split()
    kept = shutil.ignore_patterns("must-fail", "out")
    for name in needed:
        shutil.copytree(os.path.join(TOP, "crates", name), os.path.join(folder, "crates", name), ignore=kept, symlinks=True)
    with open(os.path.join(folder, "crates.txt"), "w", encoding="utf-8") as file:
        file.writelines(line for name, line in lines.items() if name in needed)
    shutil.copy(os.path.join(TOP, "HANDLES"), folder)


if __name__ == "__main__":
    copy(sys.argv[1], sys.argv[2:])
