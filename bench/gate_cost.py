"""What a run of `rt ci` costs, by kind and by crate, as tables of processor minutes.

    python3 bench/gate_cost.py [--anew] [CRATE..]
    python3 bench/gate_cost.py -- COMMAND..
    python3 bench/gate_cost.py --pid PID

Runs `rt ci` with the words given, or the command, or watches one that is running until it ends, and looks each second at what runs below it.
The tables are printed at the end, or when this script is interrupted, and the status is that of the command. Each process of the toolchain
counts with all that it starts:

- edits: a check in a folder that `rt` made for a must-fail edit, or the check of a crate that its edits begin with
- tests: a check or a build with `--test`, the tests that then run, and whatever is done for a crate whose name begins with `mq_test_`
- programs: a check, a build or a link of a `main.rt`, and the program that then runs
- libraries: each other check or build

What a process did after the last look at it is known once it has been waited for, as its parent then has all its time. What ran between two
looks and ended is `not seen`. What had ended before a command was watched by its number is part of that.
"""
import os
import re
import resource
import signal
import subprocess
import sys
import time

TICKS = os.sysconf("SC_CLK_TCK")
KINDS = ["libraries", "tests", "edits", "programs"]
# What a process that is none of the toolchain's works for
RT = ("rt", "")


def read(path):
    """The bytes of a file of /proc, or none where the process has ended."""
    try:
        with open(path, "rb") as file:
            return file.read()
    except OSError:
        return b""


def numbers(pid):
    """The fields of a process behind its name, from its state on, or none where it has been waited for."""
    return read(f"/proc/{pid}/stat").rpartition(b")")[2].split()


def own_seconds(fields):
    return sum(map(int, fields[11:13])) / TICKS


def waited_seconds(fields):
    """The processor time of the processes that a process has waited for, with all that those waited for."""
    return sum(map(int, fields[13:15])) / TICKS


def all_seconds(pid):
    """The processor time of a process and of all that it started."""
    fields = numbers(pid)
    return own_seconds(fields) + waited_seconds(fields) + sum(all_seconds(each) for each in children(pid))


def children(pid):
    """The processes that a process started and has not waited for."""
    try:
        tasks = os.listdir(f"/proc/{pid}/task")
    except OSError:
        return []
    return [each.decode() for task in tasks for each in read(f"/proc/{pid}/task/{task}/children").split()]


def family(pid):
    """The fields of a process and its children, with none that it waited for meanwhile."""
    while True:
        fields, found = numbers(pid), children(pid)
        if numbers(pid)[13:15] == fields[13:15]:
            return fields, found


def part_of(pid):
    """The kind and the crate that a process works for, or None. One that has ended no longer shows it."""
    told = read(f"/proc/{pid}/cmdline").decode(errors="replace")
    ran = re.search(r"/rt-run-[^/]*/bin/(\w+?)(_tests)?\0", told)
    if ran:
        return ("tests" if ran[2] or ran[1].startswith("mq_test_") else "programs", ran[1])
    tool = os.path.basename(told.partition("\0")[0])
    try:
        folder = os.readlink(f"/proc/{pid}/cwd")
    except OSError:
        folder = ""
    named = re.search(r"\0--crate-name\0(\w+)", told) or re.search(r"/crates/(\w+)", f"{folder}\0{told}")
    if not tool.startswith("rattle") or not named:
        return None
    crate = named[1]
    if "/rt-edit-" in folder or "/rt-edits-" in told:
        return ("edits", crate)
    if "\0--test\0" in told or f"/{crate}_tests" in told or crate.startswith("mq_test_"):
        return ("tests", crate)
    return ("programs" if "src/main.rt\0" in told or tool == "rattle-link" else "libraries", crate)


class Samples:
    """What each process below a command works for, and its seconds: of one of the toolchain's with all that it started. A process is known
    by its number and the time at which it began."""

    def __init__(self):
        self.parts, self.seconds, self.whole, self.waits = {}, {}, {}, {}

    def take(self, pid):
        """Looks at a process, and at those below it where it is not itself one of the toolchain's. Returns by what it is known, or None."""
        fields, below = family(pid)
        key = (pid, *fields[19:20])
        part = part_of(pid) or self.parts.get(key)
        if not fields or not part and fields[0] == b"Z":
            return None
        self.parts[key] = part or RT
        if self.parts[key] != RT:
            self.seconds[key] = self.whole[key] = max(all_seconds(pid), self.seconds.get(key, 0))
            return key
        self.seconds[key] = own_seconds(fields)
        running = {self.take(each) for each in below} - {None}
        self.settle(key, waited_seconds(fields), running)
        self.whole[key] = own_seconds(fields) + waited_seconds(fields) + sum(self.whole[each] for each in running)
        return key

    def settle(self, key, waited, running):
        """Shares what a process's children did between the last look at them and their end among those of the toolchain that have ended."""
        before, had = self.waits.get(key, (waited, running))
        self.waits[key] = waited, running
        unseen = waited - before - sum(self.whole[each] for each in had - running)
        ended = [each for each in had - running if self.parts[each] != RT]
        for each in ended:
            self.seconds[each] += max(unseen, 0) / len(ended)

    def sums(self):
        """The minutes by kind and crate."""
        found = {}
        for key, part in self.parts.items():
            found[part] = found.get(part, 0) + self.seconds[key] / 60
        return found


def row(*cells):
    print(f"| {' | '.join(it if isinstance(it, str) else f'{it:.1f}' for it in cells)} |")


def kit():
    """The line of the toolchain that names it."""
    return subprocess.run(["rt", "version"], capture_output=True, text=True).stdout.strip()


def report(sums, total, minutes):
    """Prints the tables."""
    print(f"\n{len(os.sched_getaffinity(0))} processors, {minutes:.1f} minutes, {kit()}\n\n| kind | processor minutes |\n|---|---|")
    for kind in KINDS:
        row(kind, sum(minutes for part, minutes in sums.items() if part[0] == kind))
    row("`rt` itself", sums.get(RT, 0))
    row("not seen", max(total - sum(sums.values()), 0))
    row("all", max(total, sum(sums.values())))
    crates = {name: [sums.get((kind, name), 0) for kind in KINDS] for _, name in sums if name}
    print(f"\n| crate | {' | '.join(KINDS)} | all |\n|{'---|' * (len(KINDS) + 2)}")
    for name, minutes in sorted(crates.items(), key=lambda it: -sum(it[1])):
        row(f"`{name}`", *minutes, sum(minutes))
    sys.stdout.flush()


def used_by_children():
    used = resource.getrusage(resource.RUSAGE_CHILDREN)
    return (used.ru_utime + used.ru_stime) / 60


def watch_own(words, samples):
    """Runs a command to its end, and returns its status and the minutes that the system counted."""
    before, ran = used_by_children(), subprocess.Popen(words)
    try:
        while ran.poll() is None:
            samples.take(str(ran.pid))
            time.sleep(1)
    except (KeyboardInterrupt, SystemExit):
        ran.terminate()
        ran.wait()
    return ran.returncode, used_by_children() - before


def watch_other(pid, samples):
    """Watches a process to its end, and returns the status 0 and the minutes that the system counted at the last look."""
    fields, total = numbers(pid), 0
    start = fields[19:20]
    if not fields:
        sys.exit(f"there is no process {pid}")
    try:
        while fields[19:20] == start and fields[0] != b"Z":
            samples.take(pid)
            total = max(total, all_seconds(pid) / 60)
            time.sleep(1)
            fields = numbers(pid)
    except (KeyboardInterrupt, SystemExit):
        pass
    return 0, total


def main(words):
    signal.signal(signal.SIGTERM, lambda number, _: sys.exit(128 + number))
    began, samples = time.time(), Samples()
    if words[:1] == ["--pid"] and len(words) == 2:
        status, total = watch_other(words[1], samples)
    elif words[:1] == ["--"] and len(words) > 1:
        status, total = watch_own(words[1:], samples)
    elif any(it.startswith("-") and it != "--anew" for it in words):
        sys.exit(__doc__)
    else:
        status, total = watch_own(["rt", "ci", *words], samples)
    report(samples.sums(), total, (time.time() - began) / 60)
    sys.exit(status if status >= 0 else 128 - status)


if __name__ == "__main__":
    main(sys.argv[1:])
