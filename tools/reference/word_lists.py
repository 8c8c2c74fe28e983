"""Random words of a command line."""

VALUES = ['0', '1', '5', '64', '65', '300', '301', '1000000', '1000001', '100000', '100001', '18446744073709551615',
          '18446744073709551616', '00000000000000000005', '000000000000000000005', '', '-1', '+1', 'x', '5 ', ' 5', '1e3',
          '0x5', '99999999999999999999', '10', '1', '2', '3', '--', '-', '5.0', '\u0665', '5\t']
ODD = ['--mos', '--Most', '-m', '--most-', '--at', '--help', '-h', '--version', '-V', '-', '---', '--=', '--most=5=6', '-most']
OTHERS = ['replays', 'runs', 'trials', 'Match', '', 'matc', 'matchx', 'help', 'match ']


def random_words(random):
    groups = []
    for _ in range(random.choice([0, 1, 1, 2, 3])):
        option = random.choice(['--most', '--workers', '--steps', '--seed', '--size'])
        value, chance = random.choice(VALUES), random.random()
        groups.append([random.choice(ODD)] if chance < 0.1 else [f'{option}={value}'] if chance < 0.5
                      else [option, value] if chance < 0.95 else [option])
    if random.random() < 0.3:
        groups.append([random.choice(['--explain'] * 4 + ['--explain=', '--explain=x', '--explain=true', '--exp'])])
    chance = random.random()
    if chance < 0.97:
        usual = ['match', 'match', 'match', 'check', 'show', 'compose', 'run', 'replay']
        groups.append([random.choice(usual if chance < 0.9 else OTHERS)])
    groups += [['check']] * (random.random() < 0.05) + [['--']] * (random.random() < 0.15)
    random.shuffle(groups)
    return [word for group in groups for word in group]
