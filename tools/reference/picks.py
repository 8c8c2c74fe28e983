"""The words that a worker draws: `Pcg32` of the crate `rand_pcg`, begun with `seed_from_u64`.

Pcg32 has a state of 64 bits that is multiplied and added to; its word is made of the state before that, by a shift and a
rotation. `seed_from_u64` of `rand_core` fills the 16 bytes of a seed with four words of a generator of the same kind that
adds another number and steps before each word; they are read as the state and the number that is added, which is made odd.
"""

MULTIPLIER = 6364136223846793005
SEEDING_ADDEND = 11634580027462260723
WORD = 1 << 64


def output(state):
    """A word of 32 bits, from a state."""
    shifted, turn = ((state >> 18 ^ state) >> 27) % (1 << 32), state >> 59
    return (shifted >> turn | shifted << (32 - turn)) % (1 << 32)


def seed_words(state):
    """The two words of 64 bits that a seed becomes."""
    found = []
    for _ in range(4):
        state = (state * MULTIPLIER + SEEDING_ADDEND) % WORD
        found.append(output(state))
    return found[0] | found[1] << 32, found[2] | found[3] << 32


def words(seed):
    """The words of the generator of a worker, from its seed on."""
    state, addend = seed_words(seed % WORD)
    addend |= 1
    state = (state + addend) * MULTIPLIER + addend
    while True:
        state %= WORD
        yield output(state)
        state = state * MULTIPLIER + addend
