"""The machine's numbers, and a stream of random ones."""

P = 0xFFFFFFFF00000001
STACK_END = 0xFFFFFFFD00000003
HEAP_END = 0xFFFFFFFE00000002
WORD = 1 << 64
MAX = WORD - 1
CLOCK_END = 10**12

MOST_FRAMES = 512
MOST_CELLS = 2048
MOST_VALUES = 4096

# Numbers beside those at which an operation changes its mind.
EDGES = [0, 1, 2, 0xFFFFFFFE, 0xFFFFFFFF, 0x100000000, P - 1, P, P + 1, MAX]

# Where a region begins or ends; 2^64 is 0 again.
REGION_EDGES = [0, STACK_END, HEAP_END, P]


class SplitMix64:
    """The numbers that a seed gives."""

    def __init__(self, seed):
        self.state = seed

    def word(self):
        self.state = (self.state + 0x9E3779B97F4A7C15) % WORD
        z = self.state
        z = (z ^ (z >> 30)) * 0xBF58476D1CE4E5B9 % WORD
        z = (z ^ (z >> 27)) * 0x94D049BB133111EB % WORD
        return z ^ (z >> 31)

    def below(self, limit):
        return self.word() % limit

    def pick(self, values):
        return values[self.below(len(values))]

    def one_in(self, count):
        return self.below(count) == 0
