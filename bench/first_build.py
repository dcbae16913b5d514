"""What the first build takes: side by side, by the script `prove`, and crate after crate, as a table.

    python3 bench/first_build.py [COMMIT] [--beside] [--after]

Each is made in a clone of its own of COMMIT (HEAD) of the repository that this script is in. Side by side, `./prove mqfs` proves and
builds; crate after crate, `rt lib` is called in each crate of the program, the lowest first, and `rt run` in that of the program, each
with as many jobs as `rt` chooses. With --beside or --after only one of them is made.

`rt` takes over what other copies of the repository on the machine keep in the folders `out`, and what earlier runs of `rt ci` kept, so
remove these first. Nothing else should run meanwhile.
"""
import os
import resource
import subprocess
import sys
import tempfile
import time

OWN = os.path.dirname(os.path.dirname(os.path.abspath(__file__)))
PROGRAM = "mqfs_bin"


def crates_of(top):
    """The crates below the program, each after those that it uses, and the program."""
    needs, order = {}, []
    with open(os.path.join(top, "crates.txt")) as file:
        for line in file:
            name, found, used = line.split("#")[0].partition(":")
            if found:
                needs[name.strip()] = used.split()

    def visit(name):
        if name in needs and name not in order:
            for below in needs[name]:
                visit(below)
            order.append(name)

    visit(PROGRAM)
    return order


def call(words, folder):
    """Calls a command, and returns how many seconds it took."""
    begin = time.time()
    status = subprocess.run(words, cwd=folder, stdin=subprocess.DEVNULL, stdout=subprocess.DEVNULL).returncode
    if status:
        sys.exit(f"{' '.join(words)} in {os.path.basename(folder)} ended with status {status}")
    return time.time() - begin


def beside(top):
    """Proves and builds by the script `prove`."""
    return call(["./prove", "mqfs"], top)


def after(top):
    """Proves and builds crate after crate."""
    total = 0
    for name in crates_of(top):
        # The program is also run, with no words, and says how it is used.
        words = ["rt", "lib"] if name != PROGRAM else ["sh", "-c", f"rt run; test -x out/{PROGRAM}"]
        took = call(words, os.path.join(top, "crates", name))
        total += took
        print(f"{name}: {took:.0f} s, {total / 60:.1f} min in all", file=sys.stderr)
    return total


def processor_time():
    """The seconds of processor time of all commands that have ended."""
    used = resource.getrusage(resource.RUSAGE_CHILDREN)
    return used.ru_utime + used.ru_stime


def main():
    words = sys.argv[1:]
    commit = next((it for it in words if not it.startswith("--")), "HEAD")
    ways = {"--beside": ("side by side", beside), "--after": ("crate after crate", after)}
    chosen = [it for it in ways if it in words] or list(ways)
    print(f"{os.cpu_count()} processors\n\n| the first build | minutes | minutes of processor time |\n|---|---|---|")
    for it in chosen:
        name, made = ways[it]
        with tempfile.TemporaryDirectory() as room:
            top = os.path.join(room, "repo")
            subprocess.run(["git", "clone", "-q", OWN, top], check=True)
            subprocess.run(["git", "-C", top, "checkout", "-q", commit], check=True)
            before = processor_time()
            took = made(top)
            print(f"| {name} | {took / 60:.1f} | {(processor_time() - before) / 60:.1f} |", flush=True)


main()
