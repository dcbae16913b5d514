"""The groups of the generated workload (`workload` of the crate mq_script), as scripts.

    python3 bench/workload.py SEED THREAD GROUPS > SCRIPT
"""
import sys

WORD = (1 << 64) - 1
LONG = (1 << 128) - 1
MULTIPLIER = 0x2360ED051FC65DA44385DF649FCCF645


class Generator:
    """Lcg128Xsl64 of rand_pcg, seeded by `seed_from_u64` of rand_core."""

    def __init__(self, seed):
        state, words = seed & WORD, []
        for _ in range(8):
            state = (state * 6364136223846793005 + 11634580027462260723) & WORD
            shifted = (((state >> 18) ^ state) >> 27) & 0xFFFFFFFF
            turn = state >> 59
            words.append(((shifted >> turn) | (shifted << (32 - turn))) & 0xFFFFFFFF)
        long = [words[2 * i] | words[2 * i + 1] << 32 for i in range(4)]
        self.increment = (long[2] | long[3] << 64) | 1
        self.state = (long[0] | long[1] << 64) + self.increment & LONG
        self.step()

    def step(self):
        self.state = (self.state * MULTIPLIER + self.increment) & LONG

    def next_word(self):
        self.step()
        turn = self.state >> 122
        word = (self.state >> 64 ^ self.state) & WORD
        return (word >> turn | word << (64 - turn)) & WORD


def groups_of(seed, thread, groups):
    """Each group: what is done to which file, with its numbers, and whether it ends with `fsync`."""
    draw = Generator(seed + thread & WORD)
    for number in range(1, groups + 1):
        word = draw.next_word()
        yield (
            word // 16 % 4,
            f"/t{thread}/f{word % 16}",
            word // 64 % 9000,
            (word >> 20) % 20000,
            (word >> 40) % 256,
            number % 4 == 0 or number == groups,
        )


def script_of(seed, thread, groups):
    text = [f"mkdir /t{thread}\nfsync\n"]
    for verb, path, count, offset, byte, durable in groups_of(seed, thread, groups):
        if verb < 2:
            text.append(f"create {path}\nwrite {path} {offset} fill:{byte:02x}:{count}\n")
        elif verb == 2:
            text.append(f"truncate {path} {count}\n")
        else:
            text.append(f"unlink {path}\n")
        text.append("fsync\n" if durable else "fatomic\n")
    return "".join(text)


if __name__ == "__main__":
    sys.stdout.write(script_of(*[int(word) for word in sys.argv[1:4]]))
