#!/usr/bin/env python3
"""Tries edits that the check must refuse: of each crate named (of all, where none is) those of checks/edits/CRATE, which
rt ci doesn't read, and those of crates/CRATE/must-fail, which it tries itself. An edit is refused where a function is
without a proof then. Edits of a crate that change different functions are tried in one check, over the libraries that rt ci
or rt lib has built here: each such function has to be without a proof for its own sake, and not for that of one that it calls.
What isn't refused so is tried by itself: the functions of the files that it changes, and those that they call, and the
whole crate where these are all proved. Before the edits of a crate, the functions of all files that they change are
checked as they are, and all have to be proved.

    checks/edits.py [CRATE..]       all edits of these crates
    checks/edits.py --gate          those that the list checks/edits/gate names, without the check before them, for rt ci
                                    has proved these functions
    checks/edits.py --apply         none; only whether all can be applied

It prints what each edit came to, and the status is 0 exactly where all are refused."""
import concurrent.futures
import os
import pathlib
import re
import shutil
import subprocess
import sys
import tempfile

TOP = pathlib.Path(__file__).resolve().parent.parent
KIT = pathlib.Path(shutil.which('rt') or sys.exit('edits: the kit is not on the PATH')).resolve().parent.parent
# What a check takes at most, for how many run at once.
CHECK_BYTES = 4 << 30


def libraries():
    """The libraries that each crate uses, by crates.txt."""
    uses = {}
    for line in (TOP / 'crates.txt').read_text().splitlines():
        head, colon, tail = line.partition('#')[0].partition(':')
        if colon:
            uses[head.split()[0]] = tail.split()
    return uses


def below(crate, uses):
    """Our own crates below this one, and the kit's libraries that it names."""
    own, left = set(), [crate]
    while left:
        found = {name for name in uses[left.pop()] if name in uses} - own
        own |= found
        left += found
    return own, {'std', *(name for name in uses[crate] if name not in uses)}


def words(crate, uses):
    """The words of a check of the crate, over built libraries."""
    own, kit = below(crate, uses)
    built = lambda name: TOP / 'crates' / name / 'out' / 'rlib'
    for name in own:
        if not (built(name) / f'{name}.rlib').is_dir():
            sys.exit(f'edits: {name} is not built, which {crate} stands on: run rt ci at the top, or rt lib in crates/{name}')
    said = [f'{KIT}/bin/rattle', 'check', '--crate-name', crate, 'src/lib.rt']
    said += [f'--extern={name}={KIT}/rlibs/{name}.rlib' for name in sorted(kit)]
    said += [f'--extern={name}={built(name)}/{name}.rlib' for name in uses[crate] if name in uses]
    said += [f'-Ldependency={KIT}/rlibs', *(f'-Ldependency={built(name)}' for name in sorted(own))]
    return [*said, f'--antt-project={KIT}/rattle/logic/antt-project.json', f'--logic-built={KIT}/logic_built', f'--links={crate}=', '--jobs=1']


def module(path):
    """The module that a file of src/ holds."""
    return '::'.join(pathlib.PurePath(path).with_suffix('').parts[1:])


def pairs(edit):
    """The file that an edit changes, and what each text of it becomes."""
    path, old, found = None, None, []
    for line in edit.read_text().splitlines():
        kind, _, text = line.partition(':')
        text = text.removeprefix(' ')
        if kind == 'file':
            path = text
        elif kind == 'old':
            old = text
        elif kind == 'new':
            found.append((path, old, text))
    return found


def check(room, crate, uses, modules):
    """Checks the functions of these modules of the crate that stands in this folder, or all where none is named: whether
    all are proved, nothing where no proof was looked at, and all that the check said."""
    only = [f'--only={name}' for name in sorted(modules)]
    kept = [f'--incremental={room}/kept'] if (room / 'kept').is_dir() else []
    ran = subprocess.run([*words(crate, uses), *kept, *only], cwd=room, stdin=subprocess.DEVNULL, stdout=subprocess.PIPE,
                         stderr=subprocess.STDOUT, text=True, errors='replace')
    looked = re.search(r'^(only=|logic=)', ran.stdout, re.M)
    return ran.returncode == 0 if looked else None, ran.stdout


def check_modules(room, crate, uses, modules):
    """The same, where a module without a function of its own has the whole crate checked."""
    proved, said = check(room, crate, uses, modules)
    return check(room, crate, uses, []) if f'error: `{crate}` has no function' in said else (proved, said)


def applied(room, edit):
    """The files that an edit changes, as it makes them, or why it can't be applied."""
    changed = {}
    for line in edit.read_text().splitlines():
        if line.partition(':')[0] not in ('file', 'old', 'new'):
            return None, f'BAD EDIT: a line is none of an edit: {line}'
    for path, old, new in pairs(edit):
        text = changed.get(path) or (room / path).read_text()
        if text.count(old) != 1:
            return None, f'BAD EDIT: its text is in {path} {text.count(old)} times, and not once: {old}'
        changed[path] = text.replace(old, new)
    return changed, None


def function(text, at):
    """The function of a file that holds this place of its text, and the type whose it is, if it is one's; nothing where none does."""
    names = [it[1] for it in re.finditer(r'^ *(?:pub(?:\([a-z]+\))? )?(?:ghost )?(?:const )?fn (\w+)', text[:at], re.M)]
    blocks = list(re.finditer(r'^(?:impl\b(?:<.*?>)? (?:(?P<trait>\w+)(?:<.*?>)? for )?(?P<type>\w+)|\})', text[:at], re.M))
    if not names:
        return None
    if not blocks or blocks[-1]['type'] is None:
        return None, names[-1]
    return blocks[-1]['type'], f"{blocks[-1]['type']}{blocks[-1]['trait'] or ''}::{names[-1]}"


def home(room, kind, path):
    """The module that declares this type, of whose path its functions are named, or else that of the file."""
    declared = re.compile(rf'^(?:pub(?:\([a-z]+\))? )?(?:struct|enum) {kind}\b', re.M)
    return module(next((it.relative_to(room) for it in sorted((room / 'src').rglob('*.rt')) if declared.search(it.read_text())), path))


def functions(room, edit):
    """The functions whose bodies an edit changes, by their paths; nothing where it changes what is outside of all."""
    found = set()
    for path, old, _ in pairs(edit):
        text = (room / path).read_text()
        held = function(text, text.index(old))
        if held is None:
            return None
        kind, name = held
        found.add('::'.join(it for it in (home(room, kind, path) if kind else module(path), name) if it))
    return found


def written(room, texts):
    """Writes these texts of files, and gives back those that stood there."""
    was = {path: (room / path).read_text() for path in texts}
    for path, text in texts.items():
        (room / path).write_text(text)
    return was


def try_edit(room, crate, edit, uses):
    """Whether the check refuses the edit by itself, and what to say."""
    label = f'{crate}/{edit.name}'
    changed, bad = applied(room, edit)
    if bad:
        return False, f'{label}: {bad}'
    was = written(room, changed)
    proved, said = check_modules(room, crate, uses, map(module, changed))
    if proved:
        proved, said = check(room, crate, uses, [])
    written(room, was)
    if proved:
        return False, f'{label}: NOT REFUSED: the crate is still proved'
    left = re.findall(r'^fn (\S+): (?:not proved|no proof)', said, re.M)
    if proved is None or not left:
        return False, f'{label}: BAD EDIT: no proof was looked at: ' + next((it for it in said.splitlines() if 'error' in it), said)
    return True, f'{label}: refused: {", ".join(left[:3])}'


def try_together(room, crate, edits, uses):
    """Tries edits of a crate that change different functions, all in one check: of each that is refused what to say, those of
    which nothing is known since their functions call others that are edited, and those that are to be tried by themselves. An
    edit is refused here only where the function that it changes is without a proof for its own sake."""
    was, changes, chosen, alone, later = {}, {}, {}, [], []
    for edit in edits:
        changed, bad = applied(room, edit)
        names = None if bad else functions(room, edit)
        if names is None and not (changed is None and changes):
            alone.append(edit)
        elif names is None or names & set().union(*chosen.values()):
            later.append(edit)
        else:
            chosen[edit] = names
            for path, text in written(room, changed).items():
                was.setdefault(path, text)
            changes |= changed
    if not chosen:
        return [], later, alone
    proved, said = check(room, crate, uses, set().union(*chosen.values()))
    written(room, was)
    if proved is None:
        # Those of the files that are at fault by themselves, and the others once more; or all, where it doesn't say which.
        at_fault = set(re.findall(r'^(\S+\.rt):\d+:\d+: error', said, re.M))
        bad = [edit for edit in chosen if at_fault & {path for path, _, _ in pairs(edit)}] or list(chosen)
        return [], later + [edit for edit in chosen if edit not in bad], alone + bad
    refused = []
    for edit, names in chosen.items():
        reasons = {it[1]: it[2] for it in re.finditer(r'^fn (\S+): (?:not proved|no proof)(.*)', said, re.M)}
        own = [name for name in names if not reasons.get(f'{crate}::{name}', ': it calls').startswith(': it calls')]
        if own:
            refused.append((True, f'{crate}/{edit.name}: refused: {", ".join(own)}'))
        elif len(chosen) > 1 and any(f'{crate}::{name}' in reasons for name in names):
            later.append(edit)
        else:
            alone.append(edit)
    return refused, later, alone


def try_edits(crate, edits, uses, first):
    """Tries these edits of a crate; `first` says whether the files are checked as they are before."""
    with tempfile.TemporaryDirectory() as room:
        room = pathlib.Path(room)
        for part in 'src', 'specs', 'proofs':
            if (TOP / 'crates' / crate / part).is_dir():
                shutil.copytree(TOP / 'crates' / crate / part, room / part)
        (room / 'kept').mkdir()
        if first:
            proved, said = check_modules(room, crate, uses, {module(path) for edit in edits for path, _, _ in pairs(edit)})
            if not proved:
                return [(False, f'{crate}: not all is proved as it is, so no edit was tried: {said}')]
        tried, left = [], edits
        while left:
            refused, left, alone = try_together(room, crate, left, uses)
            tried += refused
            for _, said in refused:
                print(said, flush=True)
            for edit in alone:
                tried.append(try_edit(room, crate, edit, uses))
                print(tried[-1][1], flush=True)
        return tried


def main(named):
    uses, gate = libraries(), named == ['--gate']
    if gate:
        edits = [TOP / 'checks' / 'edits' / line for line in (TOP / 'checks' / 'edits' / 'gate').read_text().split()]
    else:
        edits = sorted([*TOP.glob('checks/edits/*/*.edit'), *TOP.glob('crates/*/must-fail/*.edit')])
    of = {}
    for edit in edits:
        of.setdefault(edit.parent.name if edit.parent.parent.name == 'edits' else edit.parent.parent.name, []).append(edit)
    if named == ['--apply']:
        bad = [f'{crate}/{edit.name}: {said}' for crate in of for edit in of[crate] if (said := applied(TOP / 'crates' / crate, edit)[1])]
        print('\n'.join([*bad, f'{len(edits)} edits, {len(bad)} of which can not be applied']))
        return 1 if bad else 0
    for crate in named if not gate else []:
        if crate not in of:
            sys.exit(f"edits: {crate} is no crate that has edits")
    chosen = {crate: of[crate] for crate in (of if gate or not named else named)}
    memory = 1024 * int(re.search(r'MemAvailable: *(\d+) kB', pathlib.Path('/proc/meminfo').read_text())[1])
    with concurrent.futures.ThreadPoolExecutor(max(1, min(os.cpu_count(), memory // CHECK_BYTES))) as pool:
        # The crates with most libraries first, whose checks are the longest.
        order = sorted(chosen, key=lambda crate: -len(below(crate, uses)[0]))
        tried = [it for done in pool.map(lambda crate: try_edits(crate, chosen[crate], uses, not gate), order) for it in done]
    for well, said in tried:
        if not well:
            print('not refused: ' + said)
    print(f'{sum(well for well, _ in tried)} of {sum(map(len, chosen.values()))} edits were refused')
    return 0 if all(well for well, _ in tried) else 1


if __name__ == '__main__':
    sys.exit(main(sys.argv[1:]))
