"""A case: an input, and what each command has to do with it."""
import dataclasses
import typing

MODELS = ['check', 'show', 'match', 'explain', 'run', 'workers']
COMMANDS = [*MODELS, 'compose']

# So many occurrences at most are told with context and parameter, each as long as the host.
EXPLAINED = 40
STEPS = 3
WORKERS = 8

# What a run takes at most, where its case says nothing else.
SECONDS = 10
MEBIBYTES = 1024


@dataclasses.dataclass(frozen=True)
class Case:
    """An input by its name, and of each command the statuses that it may end with.

    `said` is how the answer of the command `tells` begins. `most` is the option of `match`. `seconds` has the bounds that
    are not SECONDS, by the name of the command, and `mebibytes` is the most memory.
    """

    name: str
    make: typing.Callable[[], str | bytes]
    statuses: dict[str, set[int]]
    said: str = ''
    tells: str = 'check'
    most: int = 100_000
    seconds: dict[str, float] = dataclasses.field(default_factory=dict)
    mebibytes: int = MEBIBYTES

    def input(self):
        """The bytes of the input."""
        made = self.make()
        return made if isinstance(made, bytes) else made.encode()

    def words(self, command):
        """The words of a command line."""
        return {
            'check': ['check'],
            'show': ['show'],
            'match': ['match', '--most', str(self.most)],
            'explain': ['match', '--explain', '--most', str(min(self.most, EXPLAINED))],
            'run': ['run', '--steps', str(STEPS)],
            'workers': ['run', '--workers', str(WORKERS), '--steps', str(STEPS)],
            'compose': ['compose'],
        }[command]


def accepted(name, make, count=0, most=100_000, said='ok ', **bounds):
    """A model, of which the rule that occurs most often occurs `count` times."""
    statuses = {command: {0} for command in MODELS}
    statuses['match'] = {6 if count > most else 0}
    statuses['explain'] = {6 if count > min(most, EXPLAINED) else 0}
    return Case(name, make, statuses | {'compose': {1}}, said, most=most, **bounds)


def refused(name, make, said, **bounds):
    """A text that is no model, or one that describes no system."""
    return Case(name, make, {command: {1} for command in COMMANDS}, f'refused {said}', **bounds)


def too_long(name, make):
    """An input with more bytes than one may have."""
    return Case(name, make, {command: {8} for command in COMMANDS}, 'too long')


def damaged(name, make, **bounds):
    """A model with a damage: whether it is one still is not known before."""
    statuses = {command: {0, 1} for command in MODELS}
    return Case(name, make, statuses | {'match': {0, 1, 6}, 'explain': {0, 1, 6}, 'compose': {1}}, **bounds)


def listing(name, make, said='bigraph ', **bounds):
    """A signature and two bigraphs, which `compose` composes, or refuses where `said` tells so."""
    statuses = {command: {1} for command in MODELS}
    statuses['compose'] = {1 if said.startswith('refused') else 0}
    return Case(f'listing_{name}', make, statuses, said, 'compose', **bounds)
