"""The tables of cases of the crate mq_cases: which there are, what they are to come to, and what a program makes of them.

The crate has its tables in data/, their names in args, one a line, and what they come to in stdout: for each table a line `table NAME`, and
for each case an empty line, the case's own line, and what its calls print.
"""
import os
import subprocess

CRATE = "mq_cases"
# The seconds of processor time that one table may take, and the seconds after which it is stopped even if it only waits
LIMIT, PATIENCE = 60, 900


class Case:
    """A case of a table: its line, or none for what stands before the first case, and all that it prints, with the line."""

    def __init__(self, table, line):
        self.table, self.line, self.lines = table, line, [line] if line else []

    def __str__(self):
        return f"{self.table}: {self.line or 'before the first case'}"

    def said(self):
        """What the case prints, without empty lines at the end."""
        return "\n".join(self.lines).rstrip("\n")


def folder_of(top):
    return os.path.join(top, "crates", CRATE)


def read(path):
    with open(path, encoding="utf-8", errors="surrogateescape", newline="\n") as file:
        return file.read()


def names(top):
    """The names of the tables, in the order in which they are run."""
    return read(os.path.join(folder_of(top), "args")).split()


def cases_of(text):
    """The cases of an output."""
    found = []
    for line in text.split("\n"):
        if line.startswith("table "):
            found.append(Case(line.removeprefix("table "), ""))
        elif line.startswith("case ") and found:
            found.append(Case(found[-1].table, line))
        elif found:
            found[-1].lines.append(line)
    return found


def stored(top):
    """What the tables are to come to, as cases."""
    return cases_of(read(os.path.join(folder_of(top), "stdout")))


def run(program, folder, name):
    """The cases that a program makes of the table of this name in a folder, and how the program ended otherwise than it should, or None."""
    printed, ended = os.path.join(folder, f"{name}.out"), None
    words = ["sh", "-c", f'ulimit -t {LIMIT}; exec "$0" "$1"', program, name]
    with open(printed, "wb") as output:
        try:
            ran = subprocess.run(words, cwd=folder, stdin=subprocess.DEVNULL, stdout=output, timeout=PATIENCE)
            if ran.returncode:
                ended = f"by signal {-ran.returncode}" if ran.returncode < 0 else f"with status {ran.returncode}"
        except subprocess.TimeoutExpired:
            ended = f"after {PATIENCE} seconds, when it was stopped"
    return cases_of(read(printed)), ended


def differing(found, wanted):
    """The pairs of cases that differ: each what was found, or None, and what was wanted, or None."""
    count = max(len(found), len(wanted))
    padded = [[*cases, *[None] * (count - len(cases))] for cases in (found, wanted)]
    return [(one, other) for one, other in zip(*padded) if one is None or other is None or one.said() != other.said()]
