#!/usr/bin/env python3
"""Writes rt's stamp beside each library that is built in a clone, so that `rt plant` takes it as it is. No verdict rests on it.

usage: checks/next/stamps.py CLONE
"""
import importlib.machinery
import os
import sys
import types

RTLIB = "/opt/rattle/bin/rtlib.py"


def main(clone):
    rt = types.ModuleType("rtlib")
    rt.__file__ = RTLIB
    importlib.machinery.SourceFileLoader("rtlib", RTLIB).exec_module(rt)
    top, known = os.path.abspath(clone), {}
    os.chdir(top)
    for name in sorted(os.listdir("crates")):
        folder = os.path.join(top, "crates", name)
        library = os.path.join(folder, "out", "rlib")
        if os.path.isdir(os.path.join(library, f"{name}.rlib")):
            crate = known.get(folder) or rt.Crate(folder, top, known)
            known[folder] = crate
            with open(os.path.join(library, "stamp"), "w", encoding="utf-8") as file:
                file.write(crate.stamp())
            print(name, "is built" if crate.is_built() else "isn't built")


sys.dont_write_bytecode = True
if len(sys.argv) != 2:
    sys.exit(__doc__)
main(sys.argv[1])
