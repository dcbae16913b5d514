"""Groups of the generated workload per second: one session of the program, and SQLite beside it.

    python3 bench/sqlite.py PROGRAM [GROUPS [REPEATS]]

Both work on a file system in memory. The program runs one script of GROUPS groups (4,000) on a fresh image; from its time is taken that
of the same call with no group, which loads, checks and saves the image. SQLite keeps each file in pieces of 4,096 bytes, one row for
each, and does each group as one transaction, in WAL mode with synchronous=FULL, through Python's own module; it is measured twice, with
every group synced and with the groups that end with `fatomic` under synchronous=NORMAL, which does not sync them. The best of REPEATS
runs (5) counts.
"""
import os
import sqlite3
import subprocess
import sys
import tempfile
import time

from workload import groups_of, script_of

PIECE = 4096


def seconds(act):
    began = time.perf_counter()
    act()
    return time.perf_counter() - began


class Base:
    def __init__(self, path):
        self.base = sqlite3.connect(path, isolation_level=None)
        self.base.execute("pragma journal_mode=wal")
        self.base.execute("pragma synchronous=full")
        self.base.execute("create table files (path text primary key, size integer) without rowid")
        self.base.execute("create table pieces (path text, at integer, data blob, primary key (path, at)) without rowid")

    def size(self, path):
        row = self.base.execute("select size from files where path = ?", (path,)).fetchone()
        return None if row is None else row[0]

    def piece(self, path, at):
        row = self.base.execute("select data from pieces where path = ? and at = ?", (path, at)).fetchone()
        return bytearray(PIECE) if row is None else bytearray(row[0])

    def put(self, path, at, data):
        self.base.execute("insert or replace into pieces values (?, ?, ?)", (path, at, bytes(data)))

    def write(self, path, offset, byte, count):
        size = self.size(path)
        if size is None or count == 0:
            return
        end = offset + count
        for at in range(min(offset, size) // PIECE, (end + PIECE - 1) // PIECE):
            data = self.piece(path, at)
            low, high = max(offset - at * PIECE, 0), min(end - at * PIECE, PIECE)
            if low < high:
                data[low:high] = bytes([byte]) * (high - low)
            self.put(path, at, data)
        if end > size:
            self.base.execute("update files set size = ? where path = ?", (end, path))

    def truncate(self, path, count):
        size = self.size(path)
        if size is None:
            return
        if count < size:
            self.base.execute("delete from pieces where path = ? and at >= ?", (path, (count + PIECE - 1) // PIECE))
            if count % PIECE:
                data = self.piece(path, count // PIECE)
                data[count % PIECE:] = bytes(PIECE - count % PIECE)
                self.put(path, count // PIECE, data)
        self.base.execute("update files set size = ? where path = ?", (count, path))

    def group(self, verb, path, count, offset, byte):
        self.base.execute("begin immediate")
        if verb < 2:
            self.base.execute("insert or ignore into files values (?, 0)", (path,))
            self.write(path, offset, byte, count)
        elif verb == 2:
            self.truncate(path, count)
        else:
            self.base.execute("delete from pieces where path = ?", (path,))
            self.base.execute("delete from files where path = ?", (path,))
        self.base.execute("commit")

    def run(self, groups, every):
        for verb, path, count, offset, byte, durable in groups:
            if not every:
                self.base.execute("pragma synchronous=" + ("full" if durable else "normal"))
            self.group(verb, path, count, offset, byte)


def main(words):
    program = os.path.abspath(words[0])
    count, repeats = [int(w) for w in words[1:3]] + [4000, 5][len(words) - 1:]
    memory = "/dev/shm" if os.path.isdir("/dev/shm") else None
    with tempfile.TemporaryDirectory(dir=memory) as folder:
        image = os.path.join(folder, "image")
        scripts = {}
        for groups in (0, count):
            scripts[groups] = os.path.join(folder, f"script{groups}")
            with open(scripts[groups], "w") as file:
                file.write(script_of(7, 0, groups))

        def ran(groups):
            subprocess.run([program, "format", image, "1", "1024", "19", "256"], check=True, stdout=subprocess.DEVNULL)
            return seconds(lambda: subprocess.run([program, "run", image, scripts[groups]], check=True, stdout=subprocess.DEVNULL))

        own = min(ran(count) for _ in range(repeats)) - min(ran(0) for _ in range(repeats))
        print(f"program: {count / own:.0f} groups a second, {1e6 * own / count:.1f} us each")
        groups = list(groups_of(7, 0, count))
        for every, name in ((True, "each group synced"), (False, "synced where the group ends with fsync")):
            best = None
            for turn in range(repeats):
                base = Base(os.path.join(folder, f"base{every}{turn}"))
                took = seconds(lambda: base.run(groups, every))
                best = took if best is None else min(best, took)
                base.base.close()
            print(f"SQLite {sqlite3.sqlite_version}, {name}: {count / best:.0f} groups a second, {1e6 * best / count:.1f} us each")


if __name__ == "__main__":
    main(sys.argv[1:])
