#!/usr/bin/env python3
"""Checks functions of a crate over the sources of the crates below it, so that none of these has to be proved or built before.

    checks/only.py CRATE [FLAG..] PATH..     a function, or a module or type by its path below the crate; the clauses of others
                                             aren't read
    BUILT=CLONE checks/only.py ..            a library that rt ci or rt lib has built in that clone, of the sources that stand here,
                                             is taken as it is built, which is faster

The flags are rattle's: --allow-holes, --incremental=FOLDER, which keeps what is checked between calls, --jobs=N. What the functions
call is checked too, in the crates below as well. A clause that cites what another crate's specs pass on is refused with
contract-cites-code in this way of checking alone, and the function is called not proved for that: look past these at other errors
and at goals. It is no verdict."""
import filecmp
import os
import pathlib
import subprocess
import sys

sys.dont_write_bytecode = True
import edits


def same(here, there):
    """Whether two folders hold the same files."""
    files = lambda top: {it.relative_to(top) for it in top.rglob('*') if it.is_file()}
    return files(here) == files(there) and all(filecmp.cmp(here / it, there / it, shallow=False) for it in files(here))


def built(own, uses):
    """Which of these crates are built in the clone BUILT from the sources that stand here, with all that they use."""
    clone, found = os.environ.get('BUILT'), {}
    for name in (it for it in uses if clone and it in own):
        there = pathlib.Path(clone) / 'crates' / name
        parts = [it for it in ('src', 'specs', 'proofs') if (edits.TOP / 'crates' / name / it).is_dir()]
        if all(it in found for it in uses[name] if it in uses) and (there / 'out' / 'rlib' / f'{name}.rlib').is_dir() \
                and all(same(edits.TOP / 'crates' / name / it, there / it) for it in parts):
            found[name] = there / 'out' / 'rlib'
    return found


def main(crate, words):
    uses = edits.libraries()
    if crate not in uses:
        sys.exit(f'only: there is no crate {crate}')
    own = edits.below(crate, uses)[0]
    done = built(own, uses)
    read = own - set(done)
    named = {name for it in read | {crate} for name in uses[it]}
    said = [f'{edits.KIT}/bin/rattle', 'check', '--crate-name', crate, f'crates/{crate}/src/lib.rt']
    said += [f'--extern={name}={edits.KIT}/rlibs/{name}.rlib' for name in sorted({'std'} | named - set(uses))]
    said += [f'--extern={name}={room}/{name}.rlib' for name, room in done.items() if name in named]
    said += [f'-Ldependency={room}' for room in (f'{edits.KIT}/rlibs', *done.values())]
    said += [f'--lib={name}:{",".join([*uses[name], "std"])}=crates/{name}/src/lib.rt' for name in uses if name in read]
    said += [f'--antt-project={edits.KIT}/rattle/logic/antt-project.json', f'--logic-built={edits.KIT}/logic_built', f'--links={crate}=']
    said += ['--jobs=1'] * (not any(it.startswith('--jobs') for it in words))
    said += [it if it.startswith('-') else f'--only={it}' for it in words]
    return subprocess.run(said, cwd=edits.TOP).returncode


if len(sys.argv) < 3:
    sys.exit(__doc__)
sys.exit(main(sys.argv[1], sys.argv[2:]))
