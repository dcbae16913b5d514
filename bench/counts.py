"""The line that `mqfs gen` is to print, by a plain program over the groups of the workload.

    python3 bench/counts.py SEED THREADS GROUPS
"""
import sys

from workload import groups_of


def written(old, offset, count, byte):
    """The bytes of a file after `create` and `write`; None stands for no file."""
    new = old or b""
    if count == 0:
        return new
    new = new.ljust(offset + count, b"\0")
    return new[:offset] + bytes([byte]) * count + new[offset + count :]


def after(old, verb, count, offset, byte):
    """The bytes of a file after a group, where None stands for no file."""
    if verb < 2:
        return written(old, offset, count, byte)
    if verb == 2 and old is not None:
        return old[:count].ljust(count, b"\0")
    return None


def line_of(seed, threads, groups):
    commits, files, size = threads, 0, 0
    for thread in range(threads):
        held = {}
        for verb, path, count, offset, byte, _ in groups_of(seed, thread, groups):
            old = held.get(path)
            held[path] = after(old, verb, count, offset, byte)
            # a group that changes nothing draws no number
            commits += held[path] != old
        there = [data for data in held.values() if data is not None]
        files += len(there)
        size += sum(map(len, there))
    return f"threads {threads} groups {groups} commits {commits} dirs {threads} files {files} bytes {size}"


if __name__ == "__main__":
    print(line_of(*map(int, sys.argv[1:])))
