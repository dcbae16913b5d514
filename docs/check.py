#!/usr/bin/env python3
"""Checks the documents against the sources: docs/check.py, in any folder.

- Each row of the tables of docs/PROVED.md names crates, functions and clauses that stand in the sources.
- Each quoted block (a line `<!-- quoted from FILE -->` before its fence) is a part of that file.
- Each relative link of a document leads to a file, and to a heading where it names one.
- Each wrong change that docs/THEOREM.md names is an edit in `must-fail/` of a crate that its row names.
- The calls that README.md shows, with their outputs, stand one after another in what the tables of cases come to.
- The maps of the crates are those that docs/maps.py makes of crates.txt.
- README.md, docs/DECISIONS.md and all prose together keep their sizes.

Prints a line for each fault. The status is 1 where there is one.
"""
import os
import re
import sys

import maps

TOP = os.path.dirname(os.path.dirname(os.path.realpath(__file__)))
PROVED = "docs/PROVED.md"
NAMELESS = "–"
DEMO, CASES = "README.md", "crates/mq_cases/stdout"
THEOREM = "docs/THEOREM.md"
# The most bytes of a document, and of all prose for a thousand lines of the product's code.
MOST = {"README.md": 9216, "docs/DECISIONS.md": 20480}
MOST_PROSE = 12 * 1024
FUNCTION = re.compile(r"^( *)(?:pub )?(?:unsafe )?fn (\w+)", re.M)
OWNER = re.compile(r"^(?:pub )?(?:unsafe )?(?:impl\b(?:<.*?>)?(?: [\w:]+(?:<.*>)? for)? (\w+)|trait (\w+))", re.M)


def read(path):
    """The text of a file of the repository."""
    with open(os.path.join(TOP, path), encoding="utf-8") as file:
        return file.read()


def files_below(folder, ending):
    """The paths below a folder of the repository that end so."""
    for at, folders, names in os.walk(os.path.join(TOP, folder)):
        folders[:] = sorted(it for it in folders if it not in ("out", ".git"))
        for name in sorted(names):
            if name.endswith(ending):
                yield os.path.relpath(os.path.join(at, name), TOP)


def documents():
    """The paths of all prose."""
    return [it for it in files_below(".", ".md")]


def contract_at(text, begin, indent):
    """The text of a function from its head to its end."""
    end = re.compile(rf"^{indent}}}|^{indent}(?:pub )?fn |^\}}", re.M).search(text, begin + len(indent) + 1)
    return text[begin : end.start() if end else len(text)]


def clauses_of(contract):
    """The names of the clauses of a contract, of which a requirement has the word after it."""
    names = set()
    for kind, name in re.findall(r"\b(ensures|requires)\*? ?(\w*) ?\{", contract):
        names.add((name or NAMELESS) + (" (required)" if kind == "requires" else ""))
    return names


def functions_of(crate):
    """The clauses of each function of a crate, by its name alone and with its type or trait before it."""
    found = {}
    for path in files_below(f"crates/{crate}/src", ".rt"):
        text = read(path)
        owners = [(it.start(), it.group(1) or it.group(2)) for it in OWNER.finditer(text)]
        for it in FUNCTION.finditer(text):
            clauses = clauses_of(contract_at(text, it.start(), it.group(1)))
            owner = [name for at, name in owners if at < it.start()][-1:] if it.group(1) else []
            for name in [it.group(2), *(f"{each}::{it.group(2)}" for each in owner)]:
                found.setdefault(name, set()).update(clauses)
    return found


def parts(cell):
    """The words of a cell of a table: groups, separated by semicolons, of items, separated by commas."""
    return [[it.strip().replace("`", "") for it in group.split(",") if it.strip()] for group in cell.split(";")]


def with_owners(names):
    """The functions of a cell: one without an owner has that of the function before it, or none."""
    owner, full = None, []
    for name in names:
        if "::" in name:
            owner = name.split("::")[0]
        full.append([name] if "::" in name or owner is None else [f"{owner}::{name}", name])
    return full


def faults_of_row(crates, functions, clauses, known):
    """The faults of a row: what it names and no crate has."""
    for crate in crates:
        if crate not in known:
            if not os.path.isdir(os.path.join(TOP, "crates", crate, "src")):
                yield f"there is no crate {crate}"
                return
            known[crate] = functions_of(crate)
    pairs = list(zip(functions, clauses)) if len(functions) == len(clauses) else [(sum(functions, []), sum(clauses, []))]
    for names, wanted in pairs:
        have = {}
        for spellings in with_owners(names):
            found = [known[crate][name] for name in spellings for crate in crates if name in known[crate]]
            if not found:
                yield f"no function {spellings[0]} in {', '.join(crates)}"
            have[spellings[0]] = set().union(*found)
        for clause in wanted:
            if not any(clause in it for it in have.values()):
                yield f"no clause {clause} at {', '.join(have)}"
        for name, it in have.items():
            if it and not it & set(wanted):
                yield f"no clause of the row stands at {name}"


def faults_of_proved():
    """The faults of the index of what is proved."""
    known, rows = {}, 0
    for number, line in enumerate(read(PROVED).splitlines(), 1):
        cells = [it.strip() for it in line.strip().strip("|").split("|")]
        if not line.startswith("|") or len(cells) != 4 or cells[1] == "crate" or set(cells[1]) <= set("-: "):
            continue
        rows += 1
        crates = sum(parts(cells[1]), [])
        for fault in faults_of_row(crates, parts(cells[2]), parts(cells[3]), known):
            yield f"{PROVED}:{number}: {fault}"
    if rows == 0:
        yield f"{PROVED}: no row of a table was found"


def faults_of_quotes(path):
    """The quoted blocks of a document that are no part of the file that they name."""
    for it in re.finditer(r"^<!-- quoted from (\S+) -->\n```\w*\n(.*?)^```$", read(path), re.M | re.S):
        source, quoted = it.groups()
        if not os.path.isfile(os.path.join(TOP, source)):
            yield f"{path}: quotes {source}, which isn't there"
        elif quoted not in read(source):
            yield f"{path}: a block isn't what {source} has: {quoted.splitlines()[:1]}"


def anchors_of(path):
    """The anchors of a document's headings."""
    heads = re.findall(r"^#+ (.*)$", read(path), re.M)
    return {re.sub(r"[^\w\- ]", "", it.lower()).replace(" ", "-") for it in heads}


def faults_of_links(path):
    """The relative links of a document that lead nowhere."""
    text = re.sub(r"^```.*?^```$", "", read(path), flags=re.M | re.S)
    links = re.findall(r"\]\(([^)\s]+)\)", text) + re.findall(r"^\[[^\]]+\]: (\S+)$", text, re.M)
    for link in links:
        if re.match(r"\w+:", link):
            continue
        file, _, anchor = link.partition("#")
        to = os.path.normpath(os.path.join(os.path.dirname(path), file)) if file else path
        if not os.path.exists(os.path.join(TOP, to)):
            yield f"{path}: the link {link} leads nowhere"
        elif anchor and to.endswith(".md") and anchor not in anchors_of(to):
            yield f"{path}: {to} has no heading for {link}"


def faults_of_changes():
    """The wrong changes of docs/THEOREM.md that stand in `must-fail/` of none of the crates beside them."""
    rows = re.findall(r"^\|[^|]*\|[^|]*\|([^|]*)\|([^|]*)\|$", read(THEOREM).partition("| program |")[2], re.M)
    for crates, changes in ((re.findall(r"`(mq\w+)`:", it), re.findall(r"`(\w+)`", change)) for it, change in rows):
        for change in changes:
            paths = [f"crates/{crate}/must-fail/{change}.edit" for crate in crates]
            if not any(os.path.isfile(os.path.join(TOP, path)) for path in paths):
                yield f"{THEOREM}: no edit {change} in {', '.join(crates)}"


def faults_of_demo():
    """The demo of README.md, unless its calls and outputs stand in the stored output of the tables of cases."""
    shown = re.search(r"(?:^    .*\n)+", read(DEMO), re.M).group().replace("\n    ", "\n")
    calls = re.split(r"^ *\$ \./mqfs ", shown, flags=re.M)[1:]
    if not calls or "".join(f"> {it}status 0\n" for it in calls) not in read(CASES):
        yield f"{DEMO}: its calls and outputs don't stand in {CASES}"


def is_product(crate):
    """Whether a crate is one of the product, and not one for tests or an example."""
    return not re.match(r"mq_(test_|cases|watch|example_)", crate)


def without_contracts(text):
    """A source without its clauses, whose braces are balanced."""
    kept, at = [], 0
    for it in re.finditer(r"\b(?:ensures|requires|ghost)\*? ?\w*(?:: )? ?\{", text):
        if it.start() < at:
            continue
        kept.append(text[at : it.start()])
        depth, at = 1, it.end()
        while depth and at < len(text):
            depth += {"{": 1, "}": -1}.get(text[at], 0)
            at += 1
    return "".join([*kept, text[at:]])


def lines_of_product():
    """The lines of the product's code, without blank lines, comments, imports and contracts."""
    count = 0
    for crate in sorted(os.listdir(os.path.join(TOP, "crates"))):
        if is_product(crate):
            for path in files_below(f"crates/{crate}/src", ".rt"):
                lines = [it.strip() for it in without_contracts(read(path)).splitlines()]
                count += sum(1 for it in lines if it and not re.match(r"//|(?:pub )?use |ghost use ", it))
    return count


def faults_of_sizes():
    """The documents that are longer than they may be."""
    sizes = {it: os.path.getsize(os.path.join(TOP, it)) for it in documents()}
    for path, most in MOST.items():
        if sizes.get(path, 0) > most:
            yield f"{path}: {sizes[path]} bytes, more than {most}"
    prose, lines = sum(sizes.values()), lines_of_product()
    if prose * 1000 > MOST_PROSE * lines:
        yield f"all prose: {prose} bytes for {lines} lines of product code, more than {MOST_PROSE} for a thousand"


def main():
    """Prints all faults."""
    faults = [*faults_of_proved(), *faults_of_changes(), *faults_of_demo(), *maps.faults(), *faults_of_sizes()]
    for path in documents():
        faults += [*faults_of_quotes(path), *faults_of_links(path)]
    for fault in faults:
        print(fault)
    print(f"documents: {len(faults)} faults" if faults else "documents: no fault")
    return 1 if faults else 0


if __name__ == "__main__":
    sys.exit(main())
