"""Two sessions that commit to directories of their own and then to one that they share, cut at random moments.

    python3 bench/sharing.py PROGRAM [GROUPS [CUTS [SEED]]]

Each session has GROUPS groups (2,000), the first half of them in its own directory and the other half in the shared one. One run goes
to its end, and CUTS runs (40) are cut at random events, with a random pick. Of each run the history that it prints is read back and
carried out by the small file system of `history.py`: each commit's replies have to be those that are printed. Of each cut a recovery is made, and
the tree that it leaves has to be the one after a prefix of that history, with every number that an `fsync` was answered.
"""
import os
import random
import subprocess
import sys
import tempfile

from history import Tree, read_report, text_of

EMPTY = ["format", "2", "1024", "64", "4096"]


def groups_of(name, count):
    """What one session asks: files are made, written, renamed and taken away again."""
    groups = [["mkdir /c", f"mkdir /{name}"]]
    for at in range(1, count):
        folder = f"/{name}" if at < count // 2 else "/c"
        file = f"{folder}/{name}{at % 40}"
        step = (at // 40) % 4
        if step == 0:
            groups.append([f"create {file}", f'write {file} 0 "{at}"'])
        elif step == 1:
            groups.append([f'write {file} {at % 5000} "{at}"'])
        elif step == 2:
            groups.append([f"rename {file} {file}.old", f"create {file}"])
        else:
            groups.append([f"unlink {file}.old", f"unlink {file}"])
    return groups


class Run:
    def __init__(self, program, folder, count):
        self.program, self.folder = program, folder
        self.groups = [groups_of("a", count), groups_of("b", count)]
        self.scripts = []
        for name, groups in zip("ab", self.groups):
            path = os.path.join(folder, name)
            with open(path, "w") as file:
                file.write(text_of(groups))
            self.scripts.append(path)
        self.image = os.path.join(folder, "image")

    def call(self, *words):
        done = subprocess.run([self.program, *words], capture_output=True, text=True)
        if done.returncode not in (0,):
            raise SystemExit(f"{words}: status {done.returncode}: {done.stdout[:200]}")
        return done.stdout

    def history(self, text):
        """Carries the history out. The listings after each number, and the greatest number that was acknowledged."""
        entries, answers, last = read_report(text)
        tree, listings, next_group, numbers = Tree(), [], [0, 0], []
        listings.append(tree.listing())
        for is_commit, number, session, group, replies in entries:
            assert group >= next_group[session], "a session's groups are out of order"
            next_group[session] = group + 1
            told = [tree.act(request) for request in self.groups[session][group]]
            assert told == replies, (number, session, group, told, replies)
            if is_commit:
                numbers.append(number)
                listings.append(tree.listing())
            else:
                assert tree.listing() == listings[-1], "a read changed the tree"
        assert numbers == list(range(1, len(numbers) + 1)), "numbers are missing"
        done = max([int(w[1]) for _, _, w in answers if w[0] == "ok"], default=0)
        return listings, done, last

    def start(self):
        self.call("format", self.image, *EMPTY[1:])

    def whole(self):
        self.start()
        listings, done, last = self.history(self.call("run", self.image, *self.scripts))
        assert last == f"clean {len(listings) - 1}" and done <= len(listings) - 1
        assert self.call("ls", self.image).splitlines() == listings[-1]
        return len(listings) - 1

    def cut(self, events, pick):
        self.start()
        text = self.call("run", self.image, *self.scripts, "--cut", str(events), "--pick", str(pick))
        listings, done, last = self.history(text)
        # the base that the cut left, and how many numbers stand above it
        base = int(self.call("dump", self.image).split("\n", 1)[0].split(" ")[1])
        prefix = int(self.call("recover", self.image).split("\n", 1)[0].split(" ")[1])
        reached = base + prefix
        assert done <= reached < len(listings), (done, reached, len(listings))
        assert self.call("ls", self.image).splitlines() == listings[reached]
        return int(last.split(" ")[1]), done, reached, len(listings) - 1, base


def main(words):
    program = os.path.abspath(words[0])
    count, cuts, seed = [int(w) for w in words[1:4]] + [2000, 40, 1][len(words) - 1:]
    draw = random.Random(seed)
    memory = "/dev/shm" if os.path.isdir("/dev/shm") else None
    with tempfile.TemporaryDirectory(dir=memory) as folder:
        run = Run(program, folder, count)
        print("whole:", run.whole(), "commits")
        most, _, _, _, _ = run.cut(4_000_000_000, 0)
        print("events of a whole run without its last checkpoint:", most)
        lost = 0
        for _ in range(cuts):
            events, done, reached, drawn, base = run.cut(draw.randrange(most), draw.randrange(1 << 30))
            lost += drawn - reached
            print(f"cut {events}: acknowledged up to {done}, reached {reached} of {drawn}, base {base}", flush=True)
        print(f"{cuts} cuts: each left a prefix with all that was acknowledged; {lost} numbers in all were lost")


main(sys.argv[1:])
