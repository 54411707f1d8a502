#!/usr/bin/env python3
"""Puts a hole in place of the proof of each function of these crates in a clone that is thrown away, so that checks/only.py with
--allow-holes takes what stands below a crate by its statements alone, before any of it is proved.

    holes.py CLONE CRATE..

Functions of traits and of impls of them, and laws (laws.rt), keep their proofs."""
import pathlib
import re
import sys

sys.dont_write_bytecode = True
sys.path.insert(0, str(pathlib.Path(__file__).resolve().parent.parent))
import edits


def functions(crate):
    """The path of each function whose proof is to be a hole."""
    for source in sorted((crate / 'src').rglob('*.rt')):
        text, path = source.read_text(), source.relative_to(crate)
        for found in re.finditer(r'^( *)(?:pub(?:\([a-z]+\))? )?(?:const )?fn \w+', text, re.M):
            kind, name = edits.function(text, found.end())
            of_trait = not name.startswith(f'{kind}::') if kind else found[1]
            if source.name != 'laws.rt' and not of_trait:
                module = edits.home(crate, kind, path) if kind else edits.module(path)
                yield f'{module}::{name}'.split('::')


def put_hole(proofs, path, name):
    """Leaves a hole of the proof of this function; one that calls itself has its proof in a folder with a `+`."""
    folder = proofs.joinpath(*path)
    place = folder / f'+{name}' if (folder / f'+{name}').is_dir() else folder / name
    for old in place.glob('*.antt'):
        old.unlink()
    place.mkdir(parents=True, exist_ok=True)
    stated = '.'.join(['Rattle', proofs.parent.name, 'proofs', *path, place.name, *(['Statement'] if place.name == name else [])])
    (place / 'Proof.antt').write_text(
        f'use {stated} as stated\n\npub {place.name}_spec : {{M : Type 1}} → stated.statement M\n{place.name}_spec = ?\n')


def main(clone, *crates):
    for crate in (pathlib.Path(clone) / 'crates' / it for it in crates):
        for *path, name in list(functions(crate)):
            put_hole(crate / 'proofs', path, name)


if len(sys.argv) < 3:
    sys.exit(__doc__)
main(*sys.argv[1:])
