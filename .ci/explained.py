"""Runs tools/explain on a file of each cause for which a line can be bad, and compares what it says with the manual.

The causes are the rows of the table in docs/SCENARIOS.md, "A bad line explained": the kind, what is wanted, the lines that make
it, and the word under the carets. Each file has two nodes, their link, and those lines, of which the last is bad. Each cause of
crates/m2_scenario_text/src/flaw.rt has a row, but the one of which the manual says that no file comes to it; and the forms and
examples that tools/explain has are those of the manual. A row with another word, place or kind must be objected to.
"""
import importlib.machinery, importlib.util, os, re, subprocess, sys, tempfile

sys.dont_write_bytecode = True
TOP = os.path.dirname(os.path.dirname(os.path.abspath(__file__)))
TOOL = os.path.join(TOP, "tools", "explain")
PROGRAM = os.path.join(TOP, "crates", "explain", "out", "explain")
MANUAL = os.path.join(TOP, "docs", "SCENARIOS.md")
FLAWS = os.path.join(TOP, "crates", "m2_scenario_text", "src", "flaw.rt")
PAIR = ["node a osd 127.0.0.1:7001/1", "node b osd 127.0.0.1:7002/2", "link a b lossless_peer lossless_peer"]
NEVER = {"fewer_links"}  # of which the manual says so
MOST_BYTES, MOST_PART = 4194304, 65536


def rows(text, title):
    """The rows of the first table below a title, without its head."""
    section = text.split(f"# {title}\n")[1]
    table = re.search(r"((?:^\|.*\|\n)+)", section, re.M)[1]
    return [[cell.strip() for cell in row.strip("|").split(" | ")] for row in table.splitlines()][2:]


def made(cause, cell):
    """The lines behind the pair that a cell of the table says, and the options of the command."""
    options = re.findall(r"with `(--[a-z]+)`", cell)
    cell = re.sub(r",? with `--[a-z]+`", "", cell)
    lines = []
    for times, line in re.findall(r"(?:(\d+) times )?`([^`]*)`", cell):
        lines += [line] * int(times or 1)
    if cause == "fewer_nodes":
        lines = [f"node n{n} osd 127.0.0.1:{8000 + n}/1" for n in range(14)] + lines
    elif cause == "shorter_part":
        lines = [lines[0].replace("MIDDLE", "61" * (MOST_PART + 1))]
    elif cause == "smaller_file":
        lines = ["#" * MOST_BYTES]
    return lines, options


def place(cause, cell, bad, before):
    """From where to where the carets stand below a bad line, which so many bytes of the file stand before."""
    if cause == "smaller_file":
        return MOST_BYTES - before, MOST_BYTES - before + 1
    if cause == "shorter_part":
        return bad.index("61" * MOST_PART), len(bad) - len(" -")
    if cell == "the end":
        return len(bad) + 1, len(bad) + 2
    if cell.startswith("the first byte of"):
        return bad.index(cell.split("`")[1]), bad.index(cell.split("`")[1]) + 1
    word = cell.strip("`")
    return [(it.start(), it.end()) for it in re.finditer(r"\S+", bad) if it[0] == word][-1]


def shown(line, start, end):
    """A line as it is shown, and the carets below it: of a long line 100 characters about them."""
    line = "".join(it if " " <= it <= "~" else "?" * len(it.encode()) for it in line)
    first = max(0, min(start - 50, len(line) - 100))
    cut = line[first : first + 100]
    before, behind = "..." if first else "", "..." if first + 100 < len(line) else ""
    return [before + cut + behind, " " * (len(before) + start - first) + "^" * (min(end, first + 100) - start if start < first + 100 else 1)]


def objection(row, folder):
    """What is wrong about what explain says of the file of a row, if anything is."""
    kind, cause, wanted, cell, under = row
    cause = cause.strip("`")
    lines, options = made(cause, cell)
    text = "\n".join(PAIR + lines)
    file = os.path.join(folder, f"{cause}.scenario")
    with open(file, "w", encoding="utf-8") as out:
        out.write(text + "\n")
    ran = subprocess.run([sys.executable, TOOL, "--program", PROGRAM, *options, file], capture_output=True, text=True)
    said = ran.stdout.splitlines()
    if ran.returncode or len(said) < 4:
        return f"status {ran.returncode}: {ran.stdout}{ran.stderr}"
    command = options[0][2:] if options else "(sim|run)"
    head = rf"{re.escape(file)}: line {len(PAIR + lines)} is bad for {command}, of kind {kind}"
    if not re.fullmatch(head, said[0]):
        return f"it says {said[0]!r}"
    bad = lines[-1]
    if said[1:3] != shown(bad, *place(cause, under, bad, len("\n".join(PAIR + lines[:-1])) + 1)):
        return "it shows\n" + "\n".join(said[1:3])
    return None if said[3] == f"wanted: {wanted}" else f"it says {said[3]!r}"


def forms_differ(text):
    """How the forms of line in tools/explain differ from the manual's."""
    loader = importlib.machinery.SourceFileLoader("explain", TOOL)
    explain = importlib.util.module_from_spec(importlib.util.spec_from_loader("explain", loader))
    loader.exec_module(explain)
    manual = {}
    for cells in rows(text, "The forms of line"):
        form, example = re.match(r"`([^`]*)`", cells[0])[1], cells[1].strip("`")
        manual.setdefault(form.split()[0], []).append((form, example))
    found = {first: sorted(forms) for first, (forms, _) in explain.FORMS.items()}
    if found != {first: sorted(form for form, _ in forms) for first, forms in manual.items()}:
        return f"the forms of line are {manual}, and tools/explain has {explain.FORMS}"
    wrong = [example for first, (_, example) in explain.FORMS.items() if example not in [it for _, it in manual[first]]]
    return f"these examples aren't the manual's: {wrong}" if wrong else None


def causes():
    """The causes that the reader has."""
    with open(FLAWS, encoding="utf-8") as file:
        body = file.read().split("pub enum Wanted {\n")[1].split("\n}\n")[0]
    return {re.sub(r"(?<!^)(?=[A-Z])", "_", name).lower() for name in re.findall(r"^    (\w+)(?: \{.*\})?,", body, re.M)}


def main():
    with open(MANUAL, encoding="utf-8") as file:
        text = file.read()
    table = rows(text, "A bad line explained")
    missing = causes() - {row[1].strip("`") for row in table} - NEVER
    bad = [f"no row has the cause {cause}" for cause in sorted(missing)]
    differs = forms_differ(text)
    bad += [differs] if differs else []
    with tempfile.TemporaryDirectory() as folder:
        for row in table:
            said = objection(row, folder)
            bad += [f"{row[1]}, {row[3]}: {said}, and the manual has {row}"] if said else []
        for part, wrong in ((0, "13"), (2, "a word"), (4, "`link`")):
            row = next(list(it) for it in table if it[1] == "`fitting_policy`")
            row[part] = wrong
            bad += [] if objection(row, folder) else [f"{row} isn't objected to"]
    print("\n".join(bad) if bad else f"a file of each of {len(table)} causes of bad lines is explained as the manual has it")
    sys.exit(1 if bad else 0)


main()
