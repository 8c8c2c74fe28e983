"""One case at random: the words of the command line, and the input."""
from .engine import engine
from .faults import arithmetic, beginning, pair_of_faults
from .hosts import host_model
from .models import ModelMaker
from .mutations import damaged, damaged_listing, laid_out, listing_bytes, words_of
from .replay_cases import replay_case
from .rows import EMPTY, faulty_pair, valid_pair
from .run_models import run_model
from .runs import drawn_run
from .statements import system_of
from .word_lists import random_words

THREE_ATOMS = b'atomic ctrl A = 0; big s = A | A | A; react r = A --> A; begin brs init s; rules = [ {r} ]; end'
# Without a legal step, so that each number of workers writes the same.
QUIET_ATOMS = b'atomic ctrl A = 0; atomic ctrl B = 0; big s = A | A; react r = B --> A; begin brs init s; rules = [ {r} ]; end'
SEEDS = [0, 1, 2, 18446744073709551615, 9223372036854775808]
SMALL = 24
MATCHES = [['match', '--explain'], ['match', '--explain'], ['match']]


def model_case(random, faults, damages):
    words = words_of(ModelMaker(random, faults).model())
    for _ in range(random.choice(damages)):
        words = damaged(random, words) if any(word != '\n' for word in words) else words
    command = random.choice([['show'], ['show'], ['run', '--steps', '4'], *MATCHES])
    if command[0] == 'match' and random.random() < 0.15:
        command = command + ['--most', str(random.randint(1, 3))]
    return command, laid_out(random, words)


def host_case(random):
    """A host and redexes; `--most` is often near the number of occurrences of a rule."""
    command, data = random.choice(MATCHES), '\n'.join(host_model(random)).encode()
    if random.random() < 0.2:
        status, written = engine(['match'], data)
        counts = [int(line.split()[-1]) for line in written.decode().splitlines() if line.startswith('rule ')]
        if status == 0:
            command = command + ['--most', str(max(1, random.choice(counts) + random.randint(-1, 1)))]
    return command, data


def listing_case(random):
    if random.random() < 0.4:
        return ['compose'], listing_bytes(faulty_pair(random))
    lines = valid_pair(random)
    for _ in range(random.choice([0, 0, 1, 1, 2])):
        if lines and None not in lines:
            lines = damaged_listing(random, lines)
    return ['compose'], listing_bytes(lines)


def words_case(random):
    words = random_words(random)
    if 'compose' in words:
        return words, listing_bytes(['signature 0'] + EMPTY * 2)
    if 'replay' in words:
        return words, b'journal 1\nend\n' + QUIET_ATOMS
    return words, QUIET_ATOMS if 'run' in words else THREE_ATOMS


def run_case(random):
    """A run of one worker, of so many steps that the host stays small."""
    data = '\n'.join(run_model(random)).encode()
    seed = random.choice([random.choice(SEEDS), random.randrange(1 << 64), random.randrange(100)])
    most = random.choice([0, 1, 4, 12, 12, 30])
    run = drawn_run(system_of(data), seed, most, lambda host: len(host.big.nodes) <= SMALL)
    steps = len(run.entries) if run.end == 'limit' else most
    return ['run', '--steps', str(steps), f'--seed={seed}'] + ['--workers', '1'] * (random.random() < 0.2), data


def draw(random):
    """The words and the input of one case."""
    chance = random.random()
    if chance < 0.30:
        return model_case(random, [0, 0, 0.03, 0.03, 0.08], [0, 0, 0, 0, 0, 1, 1, 2])
    if chance < 0.42:
        return model_case(random, [0.15, 0.25], [0, 0, 0, 1])
    if chance < 0.56:
        return host_case(random)
    if chance < 0.66:
        return run_case(random)
    if chance < 0.72:
        return replay_case(random)
    if chance < 0.83:
        return listing_case(random)
    if chance < 0.88:
        return words_case(random)
    make = random.choice([arithmetic, beginning, pair_of_faults])
    return ['show'], make(random).encode('latin1')
