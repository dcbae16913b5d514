"""Calls of the program in which a request for memory is refused, for each of their requests in turn.

    python3 bench/memory.py [--jobs N] [--from N] [--step N] [--program FILE] [CALL..]

Builds the program without its proofs over the heap of `memory/heap.c`, which refuses the Nth request, or the Nth and all later ones; with
--program FILE it is kept there, and taken from there the next time. Each CALL, or all, is made for all N, or from --from on each --step-th:

- `one`: a `run` of a session that makes a directory and a file in it by one `fsync`;
- `two`: a `run` of two sessions. The first overwrites a file of 340 blocks, so that its journal area of 1,024 places is full at its fourth
  group, and it makes a checkpoint. The second makes, writes, renames and removes files in a directory of its own;
- each other command, by its first word.

Each has to end with status 0 or 6. At 0 a `run` has done everything: the report says so, and the image is clean and has the tree. At 6 the
output is the line `memory` or a part of a report from its begin on; the image is the old one byte by byte, or a recovery of it leaves the
tree after the first groups of the printed history, or, where none was printed, of one that the scripts allow. Each number that an `fsync`
was answered with `ok` is among them. Another command at 0 prints and saves what it does with all its memory. At 6 it prints the line
`memory` or a part of that output, and the files are as before or as after the whole call.

A call that ends otherwise, or not within a minute, is printed, and the status is 1.
"""
import argparse
import hashlib
import itertools
import os
import struct
import subprocess
import sys
import tempfile
from collections import Counter
from concurrent.futures import ThreadPoolExecutor

OWN = os.path.dirname(os.path.abspath(__file__))
TOP = os.path.dirname(OWN)
sys.path[:0] = [os.path.join(TOP, "tools")]
import quick_build  # noqa: E402
from history import LINE, Tree, read_report  # noqa: E402

PROGRAM = "mqfs_bin"
HEAP = os.path.join(OWN, "memory", "heap.c")
BLOCKS = 340 * 4096
# The geometry of the image, and the groups of each session
RUNS = {
    "one": ("2 1024 64 256", [[["mkdir /a", "create /a/f", 'write /a/f 0 "hi"', "fsync"]]]),
    "two": (
        "2 1024 64 512",
        [
            [
                ["mkdir /a", "create /a/f", f"write /a/f 0 fill:01:{BLOCKS}", "fsync"],
                *([f"write /a/f 0 fill:{number:02x}:{BLOCKS}", "fsync"] for number in (2, 3, 4)),
                ["rename /a/f /a/g", "fatomic"],
                ['write /a/g 9 "end"', "fsync"],
            ],
            [
                ["mkdir /b", "fatomic"],
                ["create /b/f", 'write /b/f 0 "one"', "fsync"],
                ['write /b/f 5000 "two"', "fatomic"],
                ["rename /b/f /b/g", "create /b/f", "fsync"],
                ["unlink /b/f", 'write /b/g 2 "three"', "fsync"],
            ],
        ],
    ),
}
# The other commands, over a name `d`, which holds what a cut of `one` left, and a name `t`, which holds a block text
OTHERS = [
    "format d 2 1024 64 256",
    "recover d",
    "recover d --cut 5",
    "ls d",
    "cat d /a/f",
    "dump d",
    "check d",
    "blocks t --save d",
    "blocks t --cut 12 --again 3 --save e",
    "gen 7 1 8 --save d",
]
TEXT = b"5=ab 7=01\n-7 9=ff\n"
MEMORY = b"memory\n"


class Wrong(Exception):
    """A call that ended as none may: why."""


def link_heap(folder, out):
    """Links the object `program.o` in a folder with the heap that refuses requests."""
    kit = quick_build.kit()
    words = [f"--target={quick_build.MACHINE}", "--no-default-config", "-O1", "-fPIE", "-c", HEAP, "-o", f"{folder}/heap.o"]
    quick_build.carry_out("clang", [f"{kit}/toolchain/bin/clang", *words])
    words = ["--target", quick_build.MACHINE, "--toolchain", f"{kit}/toolchain", "-o", out]
    words += [f"{folder}/program.o", f"{folder}/heap.o", f"{kit}/c/libos_c.a", f"{kit}/c/liblibc_c.a"]
    quick_build.carry_out("rattle-link", [f"{kit}/bin/rattle-link", *words])


def build(out):
    """Builds the program over the heap that refuses requests."""
    with tempfile.TemporaryDirectory(prefix="memory-") as folder:
        root = os.path.join(TOP, "crates", PROGRAM, "src", "main.rt")
        below = quick_build.libraries((TOP, quick_build.crates_of(TOP)[PROGRAM]))
        module = quick_build.lowered(PROGRAM, root, below, folder)
        quick_build.compile_module(module, [*quick_build.COMPILED, "-O1"], f"{folder}/program.o")
        link_heap(folder, out)


def sum_of(data):
    """A sum of bytes, in place of which it stands."""
    return hashlib.blake2b(data).digest()


class Call:
    """A call of the program, with the files over which it is made."""

    def __init__(self, program, folder, words, files):
        self.program, self.folder, self.words, self.files = program, folder, words, files

    def made(self, refused, words, files):
        """The status, the output, the counts of the heap, and the files that are left."""
        with tempfile.TemporaryDirectory(dir=self.folder) as folder, tempfile.NamedTemporaryFile(dir=self.folder) as counts:
            counts.write(bytes(16))
            counts.flush()
            for name, data in files.items():
                with open(os.path.join(folder, name), "wb") as file:
                    file.write(data)
            how = {"capture_output": True, "cwd": folder, "env": {"REFUSED": refused, "COUNTED": counts.name}, "timeout": 60}
            done = subprocess.run([self.program, *words], **how)
            left = {}
            for name in os.listdir(folder):
                with open(os.path.join(folder, name), "rb") as file:
                    left[name] = file.read()
            counts.seek(0)
            return done.returncode, done.stdout, struct.unpack("<2q", counts.read()), left

    def whole(self, words, files):
        """The output of a call with all its memory, which has to end with 0, and the files that are left."""
        status, output, _, left = self.made("0", words, files)
        if status:
            raise Wrong(f"{' '.join(words)}: status {status}: {output[:200]!r}")
        return output, left

    def refuse(self, refused):
        """How many requests were made, how many were refused, what is said of it, and what is wrong, where these are refused."""
        try:
            status, output, (requests, ones), left = self.made(refused, self.words, self.files)
        except subprocess.TimeoutExpired:
            return 0, 1, "wrong", f"REFUSED={refused}: it did not end within a minute"
        try:
            if status not in (0, 6):
                raise Wrong(f"status {status}")
            return requests, ones, self.judge(status, output, left), ""
        except Wrong as wrong:
            return requests, ones, "wrong", f"REFUSED={refused}: {wrong}"


class Other(Call):
    """A call of another command than `run`."""

    def __init__(self, program, folder, words, files):
        super().__init__(program, folder, words.split(), files)
        self.output, self.left = self.whole(self.words, files)

    def judge(self, status, output, left):
        """Says in a few words what the call came to, and raises Wrong where it may not come to it."""
        if status == 0:
            if (output, left) != (self.output, self.left):
                raise Wrong(f"status 0 with {output[:200]!r}")
            return "0"
        if output != MEMORY and not self.output.startswith(output):
            raise Wrong(f"status 6 with {output[:200]!r}")
        if left not in (self.files, self.left):
            raise Wrong("the files are neither as before nor as after the whole call")
        return f"6, {'one line' if output == MEMORY else 'a part of the output'}, the {'old' if left == self.files else 'new'} files"


class Run(Call):
    """A call of `run` on a fresh image."""

    def __init__(self, program, folder, geometry, sessions):
        super().__init__(program, folder, ["run", "d"], {})
        self.sessions = sessions
        self.files = self.whole(["format", "d", *geometry.split()], {})[1]
        self.empty = sum_of(self.files["d"])
        # What was found on the images with these sums
        self.found = {self.empty: (0, Tree().paths)}
        for number, groups in enumerate(sessions):
            self.words.append(f"s{number}")
            self.files[f"s{number}"] = "".join("\n".join(group) + "\n" for group in groups).encode()

    def cut(self, *words):
        """The image after a cut."""
        return self.whole([*self.words, "--cut", *words], self.files)[1]["d"]

    def tree_on(self, image):
        """How many numbers an image reaches, and the tree that a recovery leaves. Equal images are recovered once."""
        found = sum_of(image)
        if found not in self.found:
            self.found[found] = self.recovered(image)
        return self.found[found]

    def recovered(self, image):
        """As tree_on."""
        base = int(self.whole(["dump", "d"], {"d": image})[0].split(b"\n", 1)[0].split(b" ")[1])
        output, files = self.whole(["recover", "d"], {"d": image})
        paths = {}
        for line in self.whole(["ls", "d"], files)[0].decode().splitlines():
            kind, rest = line.split(" ", 1)
            path = rest if kind == "d" else rest.split(" ", 1)[1]
            paths[path] = None if kind == "d" else self.whole(["cat", "d", path], files)[0]
        return base + int(output.split(b"\n", 1)[0].split(b" ")[1]), paths

    def carried_out(self, entries):
        """The tree after each number of a printed history, whose replies have to be those of the tree."""
        tree = Tree()
        trees, next_group = [dict(tree.paths)], [0] * len(self.sessions)
        for is_commit, number, session, group, replies in entries:
            told = [tree.act(request) for request in self.sessions[session][group][:-1]]
            if not is_commit or number != len(trees) or group != next_group[session] or told != replies:
                raise Wrong(f"commit {number} of session {session}, group {group}, is not as it has to be")
            next_group[session] += 1
            trees.append(dict(tree.paths))
        return trees

    def allowed(self, reached):
        """The trees after this many groups: the sessions have directories of their own, and each group changes something."""
        for counts in itertools.product(*(range(len(groups) + 1) for groups in self.sessions)):
            if sum(counts) == reached:
                tree = Tree()
                for groups, count in zip(self.sessions, counts):
                    for request in itertools.chain(*(group[:-1] for group in groups[:count])):
                        tree.act(request)
                yield tree.paths

    def is_acknowledged(self, session, group, words):
        """Whether these words answer an `fsync` that was done."""
        return words[0] == "ok" and self.sessions[session][group][-1] == "fsync"

    def read(self, status, text):
        """The trees of a report's history, and the least number that its image has to reach. Of one line, None and 0."""
        if status == 6 and text in ("", MEMORY.decode()):
            return None, 0
        *whole, rest = text.split("\n")
        if not all(map(LINE.fullmatch, whole)) or not text.startswith("base"):
            raise Wrong(f"status {status} with {text[:200]!r}")
        entries, answers, last = read_report("\n".join(whole))
        trees = self.carried_out(entries)
        least = max([int(words[1]) for session, group, words in answers if self.is_acknowledged(session, group, words)], default=0)
        is_whole = not rest and last == f"clean {len(trees) - 1}"
        words = [words[0] for _, _, words in answers]
        if is_whole and ("memory" in words) != (status == 6):
            raise Wrong(f"status {status} with {text!r}")
        if status == 0 and not (is_whole and words == ["ok"] * sum(map(len, self.sessions))):
            raise Wrong(f"status 0 with {text!r}")
        return trees, len(trees) - 1 if is_whole else least

    def judge(self, status, output, left):
        """Says in a few words what the run came to, and raises Wrong where it may not come to it."""
        trees, least = self.read(status, output.decode())
        reached, paths = self.tree_on(left["d"])
        if reached < least:
            raise Wrong(f"it reaches {reached}, and not {least}")
        if paths not in (list(self.allowed(reached)) if trees is None else trees[reached : reached + 1]):
            raise Wrong(f"the tree is not one after {reached} numbers")
        if status == 0:
            return "0"
        return f"6, {'one line' if trees is None else 'a report'}, the {'old' if sum_of(left['d']) == self.empty else 'new'} image"


def try_all(call, suffix, asked):
    """Refuses each request in turn, until a row of calls makes fewer. Gives how many requests the longest made, and how often what came of
    one that was refused; prints what is wrong."""
    found, most, number = Counter(), 0, asked.begin
    with ThreadPoolExecutor(asked.jobs) as pool:
        while True:
            numbers = range(number, number + 32 * asked.step, asked.step)
            ran = list(pool.map(lambda at: call.refuse(f"{at}{suffix}"), numbers))
            for requests, ones, said, wrong in ran:
                most = max(most, requests)
                found[said] += bool(ones or wrong)
                if wrong:
                    print(wrong, flush=True)
            if not any(ones for _, ones, _, _ in ran):
                return most, +found
            number += 32 * asked.step


def calls(program, folder, names):
    """The calls that are named, or all, each with what is said of it first."""
    for name, (geometry, sessions) in RUNS.items():
        if name in names or not names:
            run = Run(program, folder, geometry, sessions)
            # With a cut far behind, there is no checkpoint at the end
            is_made = not run.whole(["dump", "d"], {"d": run.cut("4000000000")})[0].startswith(b"base 0\n")
            yield f"{name} ({'a' if is_made else 'no'} checkpoint before the end)", run
    files = {"d": Run(program, folder, *RUNS["one"]).cut("19"), "t": TEXT}
    for words in OTHERS:
        if words.split()[0] in names or not names:
            yield f"`{words}`", Other(program, folder, words, files)


def options(text):
    """The options of a script in which each request for memory is refused in turn."""
    parser = argparse.ArgumentParser(description=text, formatter_class=argparse.RawDescriptionHelpFormatter)
    parser.add_argument("--jobs", type=int, default=os.cpu_count(), metavar="N")
    parser.add_argument("--from", type=int, default=1, metavar="N", dest="begin")
    parser.add_argument("--step", type=int, default=1, metavar="N")
    parser.add_argument("--program", metavar="FILE")
    return parser


def main():
    parser = options(__doc__)
    parser.add_argument("calls", nargs="*", metavar="CALL")
    asked = parser.parse_args()
    memory = "/dev/shm" if os.path.isdir("/dev/shm") else None
    is_wrong = False
    with tempfile.TemporaryDirectory(dir=memory) as folder:
        program = os.path.abspath(asked.program or os.path.join(folder, "program"))
        if not os.path.exists(program):
            build(program)
        for name, call in calls(program, folder, asked.calls):
            for suffix, which in (("", "one request refused"), ("-", "all from one on refused")):
                most, found = try_all(call, suffix, asked)
                is_wrong |= "wrong" in found
                told = "; ".join(f"{count} ended with {said}" for said, count in sorted(found.items()))
                print(f"{name}, {which}: at most {most} requests; {told}", flush=True)
    sys.exit(is_wrong)


if __name__ == "__main__":
    main()
