"""Cases of `replay`: journals in front of models, whole and damaged, by hand and at random."""
from .run_models import run_model
from .runs import drawn_run, journal_lines
from .statements import system_of

SMALL = 24
ROOMS = ('ctrl Building = 0; ctrl Room = 0; atomic ctrl Agent = 1; '
         'big s = Building.(Room.1 | Room.1 | Room.1 | Agent{a} | Agent{b}); '
         'react enter = Agent{x} | Room.id --> Room.(Agent{x} | id); begin brs init s; rules = [ {enter} ]; end').encode()
STEPS = ['step 0 0 4 1', 'step 1 0 5 2']
# What stands in place of the first step.
FIRST = ['step 0 0 1 4', 'step 0 7 4 1', 'step 0 0 04 1', 'step 0 0 4 1 ', 'step 0 0 4  1', 'step 0 0', 'step 0 0 ', 'step 0', 'step', '',
         'end', 'journal 1', 'step 2147483647 0 4 1', 'step 2147483648 0 4 1', 'step 0 2147483648 4 1', 'step 0 0 4 2147483648',
         'step 0 0 4 2147483647', 'step 0 0 4', 'step 0 0 4 1 2', 'step 0 0 4 4', 'Step 0 0 4 1', 'step 0 0 4 1\r', 'step 0 0 4\t1',
         'step -0 0 4 1', 'step 0 0 +4 1', ' step 0 0 4 1', 'step 0 0 4 1\nstep 0 0 4 1']
DAMAGES = ['exchange', 'repeat', 'drop', 'number', 'number', 'number', 'add', 'text', 'text', 'cut', 'model']


def replay_cases():
    """Words and inputs."""
    inputs = [b'', b'journal 1', b'journal 1\n', b'journal 1\nend\n', b'journal 1\nend\nend\n']
    inputs += ['\n'.join(['journal 1', first, STEPS[1], 'end', '']).encode() + ROOMS for first in STEPS[:1] + FIRST]
    whole = '\n'.join(['journal 1', *STEPS, 'end', '']).encode() + ROOMS
    inputs += [whole[:count] for count in range(60)] + [b'\n' + whole, whole.replace(b'step 1', b'step 0'), whole[1:]]
    inputs += ['\n'.join(['journal 1', *reversed(STEPS), 'end', '']).encode() + ROOMS]
    return [(['replay'], data) for data in inputs] + [(['replay', '--steps', '0', '--workers', '2'], whole)]


def changed_number(random, line):
    words = line.split(' ')
    place = random.randrange(1, len(words))
    words[place] = str(random.choice([random.randrange(10), int(words[place]) + 1, 2147483647]))
    return ' '.join(words)


def damaged_steps(random, steps, damage):
    """The steps with one damage, where there is a step."""
    place = random.randrange(len(steps)) if steps else 0
    if damage == 'add':
        numbers = [random.randrange(12) for _ in range(random.randint(2, 5))]
        return steps[:place] + [' '.join(['step', '0'] + [str(number) for number in numbers])] + steps[place:]
    if not steps:
        return steps
    if damage == 'exchange':
        other = random.randrange(len(steps))
        steps[place], steps[other] = steps[other], steps[place]
        return steps
    if damage == 'number':
        return steps[:place] + [changed_number(random, steps[place])] + steps[place + 1:]
    return steps[:place] + [steps[place]] * (2 if damage == 'repeat' else 0) + steps[place + 1:]


def damaged_text(random, text):
    """A journal with a byte more, less or changed."""
    place = random.randrange(len(text))
    new = random.choice(['', ' ', '0', '\n', 'x', text[place] * 2])
    return text[:place] + new + text[place + 1:]


def replay_case(random):
    """The journal of a small run, perhaps damaged, in front of its model."""
    data = '\n'.join(run_model(random)).encode()
    run = drawn_run(system_of(data), random.randrange(100), random.choice([0, 1, 3, 8, 15]), lambda host: len(host.big.nodes) <= SMALL)
    steps = journal_lines([(random.choice([0, 0, 1, 63]), rule, nodes) for _, rule, nodes in run.entries])[1:-1]
    damages = random.choices(DAMAGES, k=random.choice([0, 0, 1, 1, 1, 2]))
    for damage in damages:
        if damage not in ('text', 'cut', 'model'):
            steps = damaged_steps(random, steps, damage)
    text = '\n'.join(['journal 1', *steps, 'end', ''])
    if 'text' in damages:
        text = damaged_text(random, text)
    if 'model' in damages:
        data = data[:random.randrange(len(data))]
    whole = text.encode() + data
    return ['replay'], whole[:random.randrange(len(whole))] if 'cut' in damages else whole
