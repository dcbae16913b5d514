"""A replica to which memory is refused, at each request in turn.

    python3 bench/replica_memory.py [--jobs N] [--from N] [--step N] [--program FILE]

Builds the program of `replica_memory/main.rattle` without proofs over the heap of `memory/heap.c`, which refuses the Nth request; with
--program FILE it is kept there, and taken from there the next time. It opens a replica on a drive in memory with the smallest journal area,
and offers it three updates of 512 blocks. The first offer recovers and opens, as each after an opening does, and the other two reclaim the
area. An offer that memory refuses is made once more. Then the power is cut, and the drive recovered. The program is run for all N, or from
--from on for each --step-th.

Each run has to end with status 0 and all that a plain loop over the updates leaves in the home blocks, or, where another request than one
of an offer was refused, with status 6. An offer is made once more just where a request of its was refused. The build marks where four
functions of an offer begin, so the heap knows in which part of it a request was refused: before the recovery, in it, between it and the end
of the opening, or in the commit.

A run that ends otherwise, or not within a minute, is printed, and the status is 1. So is it where all N were tried, and no request of some
part was refused.
"""
import os
import shutil
import struct
import subprocess
import sys
import tempfile
from collections import Counter
from concurrent.futures import ThreadPoolExecutor

OWN = os.path.dirname(os.path.abspath(__file__))
TOP = os.path.dirname(OWN)
sys.path[:0] = [os.path.join(TOP, "tools")]
import quick_build  # noqa: E402
from memory import link_heap, options  # noqa: E402

CRATES = "mq_blocks mq_drive mq_image mq_image_ops mq_ledger mq_recover mq_replica".split()
MODULES = os.path.join(TOP, "tests", "replica")
# The parts of an offer, each with the function that begins it
PARTS = {
    "before the recovery": "mq_replica::replica::Replica+P::offer::",
    "in the recovery": "mq_recover::ports::recover::",
    "in the opening": "mq_replica::reopen::open_ports::",
    "in the commit": "mq_replica::applying::apply::",
}
# What `main.rattle` offers, and the home blocks before the last one
LAST, WRITES, STEP, BLOCKS = 3, 512, 10, 1115


def marked(text):
    """The text of a module in which the functions that begin a part say so."""
    lines, part, found = [], 0, set()
    for line in text.split("\n"):
        lines.append(line)
        if line.startswith("define "):
            part = next((at for at, name in enumerate(PARTS.values(), 1) if f'@"{name}' in line), 0)
        elif part and line == "start:":
            lines.append(f"  store i64 {part}, ptr @phase_now")
            found.add(part)
            part = 0
    if len(found) != len(PARTS):
        raise quick_build.StepFailed("marking", f"of {len(PARTS)} functions {len(found)} were found")
    return "\n".join([*lines, "@phase_now = external global i64", ""])


def build(out):
    """Builds the program over the heap that refuses requests."""
    with tempfile.TemporaryDirectory(prefix="replica-memory-") as folder:
        os.mkdir(f"{folder}/src")
        shutil.copyfile(os.path.join(OWN, "replica_memory", "main.rattle"), f"{folder}/src/main.rt")
        for name in ("images", "updates"):
            shutil.copyfile(os.path.join(MODULES, f"{name}.rattle"), f"{folder}/src/{name}.rt")
        module = quick_build.lowered("replica", f"{folder}/src/main.rt", quick_build.libraries((TOP, CRATES)), folder)
        text = f"{folder}/module.ll"
        quick_build.compile_module(module, ["-S", "-emit-llvm", "-O0", "-Xclang", "-disable-llvm-passes"], text)
        with open(text) as file:
            whole = marked(file.read())
        with open(text, "w") as file:
            file.write(whole)
        quick_build.compile_module(text, [*quick_build.COMPILED, "-O1"], f"{folder}/program.o")
        link_heap(folder, out)


def expected():
    """What a run has to print, its lines `again` aside."""
    fills = [0] * BLOCKS
    for number in range(1, LAST + 1):
        first = number * STEP
        fills[first : first + WRITES] = [number] * WRITES
    lines = [f"reached {LAST}", f"last {LAST}"]
    lines += [f"{at} {fill}" for at, fill in enumerate(fills) if fill != (fills[at - 1] if at else 0)]
    return lines


def run(program, refused):
    """How many requests a run made, what it came to, and what is wrong with it."""
    with tempfile.NamedTemporaryFile() as counts:
        counts.write(bytes(24))
        counts.flush()
        how = {"capture_output": True, "text": True, "env": {"REFUSED": str(refused), "COUNTED": counts.name}, "timeout": 60}
        try:
            done = subprocess.run([program], **how)
        except subprocess.TimeoutExpired:
            return 0, "wrong", f"REFUSED={refused}: it did not end within a minute"
        counts.seek(0)
        requests, ones, part = struct.unpack("<3q", counts.read())
    lines = done.stdout.split("\n")[:-1]
    again = [line for line in lines if line.startswith("again ")]
    if not ones and done.returncode == 0 and lines == expected():
        return requests, "", ""
    if ones == 1 and done.returncode == 0 and len(again) == 1 and lines == again + expected():
        return requests, list(PARTS)[part - 1], ""
    if ones == 1 and done.returncode == 6 and not again and expected()[: len(lines)] == lines:
        return requests, "6", ""
    return requests, "wrong", f"REFUSED={refused}: status {done.returncode}, {ones} refused: {done.stdout[:200]!r}"


def run_all(program, asked):
    """Refuses each request in turn. Gives how many there are, and how often what came of one that was refused; prints what is wrong."""
    requests, said, wrong = run(program, 0)
    if said:
        sys.exit(wrong)
    found = Counter()
    with ThreadPoolExecutor(asked.jobs) as pool:
        for _, said, wrong in pool.map(lambda at: run(program, at), range(asked.begin, requests + 1, asked.step)):
            found[said or "nothing refused"] += 1
            if wrong:
                print(wrong, flush=True)
    return requests, found


def main():
    asked = options(__doc__).parse_args()
    with tempfile.TemporaryDirectory() as folder:
        program = os.path.abspath(asked.program or os.path.join(folder, "program"))
        if not os.path.exists(program):
            build(program)
        requests, found = run_all(program, asked)
    offers = ", ".join(f"{found[part]} {part}" for part in PARTS)
    print(f"{requests} requests; refused to an offer: {sum(found[part] for part in PARTS)} ({offers}); else: {found['6']} ended with 6")
    is_missed = asked.begin == asked.step == 1 and not all(found[part] for part in PARTS)
    sys.exit(bool(found["wrong"] or found["nothing refused"] or is_missed))


if __name__ == "__main__":
    main()
