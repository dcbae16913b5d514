"""The figures of docs/PERFORMANCE.md that one run can give, as rows of tables.

    python3 bench/measure.py PROGRAM [REPEATS]

All files lie on a file system in memory. Each figure is the least of REPEATS runs (5), taken in turn, so that a machine whose speed
changes changes all of them.

- Groups a second of `gen 7 T 2000` for T = 1, 2 and 4 by wall time, less the time of the same call with no group, beside SQLite with the
  same groups: in WAL mode with synchronous=FULL, one transaction for each group, by one connection.
- `recover`, `ls` and `run` on a small image and on the largest one, which has an empty file system and blocks that are not zeros: wall
  and processor time, and the peak of memory, beside the bytes of the image and one copy of them.
"""
import os
import shutil
import struct
import subprocess
import sys
import tempfile
import time

from sqlite import Base, seconds
from workload import groups_of

SEED, GROUPS = 7, 2000
SMALL = "2 1024 64 256".split()
LARGEST = "16 16384 32 2046".split()
BLOCK, HEADER, RING = 4096, 40, 262160
LEAST = 64 << 20


def used(words):
    """Runs a command, and gives its wall time, its processor time and its peak of memory in bytes."""
    began = time.perf_counter()
    child = subprocess.Popen(words, stdout=subprocess.DEVNULL)
    _, status, usage = os.wait4(child.pid, 0)
    wall = time.perf_counter() - began
    if status:
        sys.exit(f"{' '.join(words)} ended with {status}")
    return wall, usage.ru_utime + usage.ru_stime, usage.ru_maxrss * 1024


def least(runs):
    return [min(column) for column in zip(*runs)]


def groups(program, folder, repeats):
    print("| threads | groups a second | SQLite | times as many | to one thread |\n|---|---|---|---|---|")
    took = {}
    for turn in range(repeats):
        for threads in (1, 2, 4):
            whole = used([program, "gen", str(SEED), str(threads), str(GROUPS)])[0]
            none = used([program, "gen", str(SEED), str(threads), "0"])[0]
            base = Base(os.path.join(folder, f"base{turn}{threads}"))
            lists = [list(groups_of(SEED, thread, GROUPS)) for thread in range(threads)]
            other = seconds(lambda: [base.run(each, True) for each in lists])
            base.base.close()
            took.setdefault(threads, []).append((whole, none, other))
    one = None
    for threads, runs in took.items():
        whole, none, other = least(runs)
        rate = threads * GROUPS / (whole - none)
        one = one or rate
        beside = threads * GROUPS / other
        print(f"| {threads} | {rate:.0f} | {beside:.0f} | {rate / beside:.2f} | {rate / one:.2f} |")


def images(program, folder, repeats):
    print("| image | bytes | command | wall | processor | copies | peak | times the bytes |\n|---|---|---|---|---|---|---|---|")
    script = os.path.join(folder, "script")
    with open(script, "w") as file:
        file.write("mkdir /a\ncreate /a/f\nwrite /a/f 0 \"hi\"\nfsync\n")
    for name, geometry in (("small", SMALL), ("largest", LARGEST)):
        image, work = os.path.join(folder, name), os.path.join(folder, "work")
        subprocess.run([program, "format", image, *geometry], check=True, stdout=subprocess.DEVNULL)
        if name == "largest":
            fill(image)
        size = os.path.getsize(image)
        calls = {"ls": [program, "ls", image], "recover": [program, "recover", work], "run": [program, "run", work, script]}
        runs = {}
        for _ in range(repeats):
            runs.setdefault("copy", []).append((seconds(lambda: shutil.copyfile(image, work)), 0, 0))
            for command, words in calls.items():
                runs.setdefault(command, []).append(used(words))
        copy = least(runs.pop("copy"))[0]
        for command, each in runs.items():
            wall, processor, peak = least(each)
            # of a small process this script's own memory is told, from which it was forked
            held = f"{peak} | {peak / size:.2f}" if peak > LEAST else "- | -"
            print(f"| {name} | {size} | `{command}` | {wall:.3f} s | {processor:.3f} s | {wall / copy:.1f} | {held} |")


def fill(image):
    """Fills each block of an image that no file system looks at: those of the journal areas, and those of the zones that are free."""
    with open(image, "rb") as file:
        head = file.read(HEADER)
        queues, area, meta, zone = struct.unpack_from("<IIII", head, 12)
        head += file.read(queues * RING)
        (count,) = struct.unpack("<I", file.read(4))
        blocks = {}
        for _ in range(count):
            (lba,) = struct.unpack("<I", file.read(4))
            blocks[lba] = file.read(BLOCK)
    homes = queues * area
    for lba in [*range(homes), *range(homes + meta, homes + meta + queues * zone)]:
        blocks.setdefault(lba, struct.pack("<I", lba + 1) * (BLOCK // 4))
    with open(image, "wb") as file:
        file.write(head + struct.pack("<I", len(blocks)))
        for lba in sorted(blocks):
            file.write(struct.pack("<I", lba) + blocks[lba])


def main(words):
    program = os.path.abspath(words[0])
    repeats = int(words[1]) if len(words) > 1 else 5
    memory = "/dev/shm" if os.path.isdir("/dev/shm") else None
    with tempfile.TemporaryDirectory(dir=memory) as folder:
        groups(program, folder, repeats)
        images(program, folder, repeats)


if __name__ == "__main__":
    main(sys.argv[1:])
