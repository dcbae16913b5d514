"""Durable groups of one key a second: the program on stores, `mqfs` with groups of one file block, and SQLite, as a table.

    python3 bench/stores.py KV_PROGRAM PROGRAM [GROUPS [REPEATS]]

KV_PROGRAM is `mq_kv_tool`. All files lie on a file system in memory. First 100 keys get values of 8 digits in one group; each of GROUPS
groups (4,000) then puts another value for one of them. In `mqfs` these are the first bytes of the 100 blocks of a file, each of which a
group overwrites, so that it is logged. SQLite has a row for each key, and a transaction for each group, by one connection in WAL mode with
synchronous=FULL. From the time of a program's call is taken that of the same call with the first group alone. Each figure is the least of
REPEATS calls (5), made in turn.
"""
import os
import sqlite3
import subprocess
import sys
import tempfile

from measure import least
from sqlite import PIECE, seconds

KEYS = 100


def puts(groups):
    """The key and the value of each group."""
    for at in range(groups):
        yield at % KEYS, f"{at + KEYS:08}"


class Store:
    def __init__(self, program, folder):
        self.program, self.image, self.folder = program, os.path.join(folder, "store"), folder

    def file(self, groups):
        path = os.path.join(self.folder, f"groups{groups}")
        first = "".join(f"put k{key} {key:08}\n" for key in range(KEYS)) + "sync\n"
        with open(path, "w") as file:
            file.write(first + "".join(f"put k{key} {value}\nsync\n" for key, value in puts(groups)))
        return path

    def run(self, groups):
        subprocess.run([self.program, "new", self.image], check=True, stdout=subprocess.DEVNULL)
        return [self.program, "apply", self.image, self.file(groups)]


class FileSystem:
    def __init__(self, program, folder):
        self.program, self.image, self.folder = program, os.path.join(folder, "image"), folder

    def script(self, groups):
        path = os.path.join(self.folder, f"script{groups}")
        first = f"create /f\nwrite /f 0 fill:30:{KEYS * PIECE}\nfsync\n"
        with open(path, "w") as file:
            file.write(first + "".join(f'write /f {key * PIECE} "{value}"\nfsync\n' for key, value in puts(groups)))
        return path

    def run(self, groups):
        subprocess.run([self.program, "format", self.image, "1", "1024", "19", "256"], check=True, stdout=subprocess.DEVNULL)
        return [self.program, "run", self.image, self.script(groups)]


def called(kind, groups):
    """The seconds of a program's call."""
    words = kind.run(groups)
    return seconds(lambda: subprocess.run(words, check=True, stdout=subprocess.DEVNULL))


def base(path):
    """A database with the keys."""
    opened = sqlite3.connect(path, isolation_level=None)
    opened.execute("pragma journal_mode=wal")
    opened.execute("pragma synchronous=full")
    opened.execute("create table pairs (key text primary key, value text) without rowid")
    opened.execute("begin immediate")
    opened.executemany("insert into pairs values (?, ?)", ((f"k{key}", f"{key:08}") for key in range(KEYS)))
    opened.execute("commit")
    return opened


def put_each(opened, groups):
    for key, value in puts(groups):
        opened.execute("begin immediate")
        opened.execute("insert or replace into pairs values (?, ?)", (f"k{key}", value))
        opened.execute("commit")


def main(words):
    if not 2 <= len(words) <= 4:
        sys.exit(__doc__)
    groups, repeats = [*map(int, words[2:]), *(4000, 5)[len(words) - 2 :]]
    memory = "/dev/shm" if os.path.isdir("/dev/shm") else None
    with tempfile.TemporaryDirectory(dir=memory) as folder:
        store, system = Store(os.path.abspath(words[0]), folder), FileSystem(os.path.abspath(words[1]), folder)
        runs = []
        for turn in range(repeats):
            opened = base(os.path.join(folder, f"base{turn}"))
            runs.append([called(kind, count) for kind in (store, system) for count in (groups, 0)])
            runs[-1].append(seconds(lambda: put_each(opened, groups)))
            opened.close()
        whole, none, other, begun, beside = least(runs)
    print("| what | groups a second | each |\n|---|---|---|")
    row = f"SQLite {sqlite3.sqlite_version}, one row"
    for name, took in (("`mq_kv_tool`, one key", whole - none), ("`mqfs`, one file block", other - begun), (row, beside)):
        print(f"| {name} | {groups / took:.0f} | {1e6 * took / groups:.1f} us |")


if __name__ == "__main__":
    main(sys.argv[1:])
