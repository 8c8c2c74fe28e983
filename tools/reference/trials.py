"""What `trial` writes, by docs/FORMATS.md."""
from .occurrences import Search
from .reactions import fresh_host
from .runs import drawn_run
from .statements import system_of

MODEL = '''ctrl Building = 0;
ctrl Closed = 0;
ctrl Room = 0;
atomic ctrl Agent = 1;
atomic ctrl Computer = 1;
atomic ctrl Seat = 2;
big room = Room.Computer{{n}};
big agent = /a Agent{{a}};
big s = /n Building.({});
react sit = Agent{{x}} | Room.Computer{{n}} --> Room.Seat{{x,n}};
react shut = Building.id --> Closed.id;
begin brs
  init s;
  rules = [ {{sit}}, {{shut}} ];
end
'''
MOST_STEPS = 1000


def trial_lines(size):
    system = system_of(MODEL.format(' | '.join(['room'] * size + ['agent'] * size)).encode())
    host = fresh_host(system.host)
    lines = [f'trial {size}', f'nodes {len(host.big.nodes)} edges {len(host.big.edges)}']
    for number, rule in enumerate(system.rules):
        count = sum(1 for _ in Search(host.index, rule.redex).maps())
        lines.append(f'rule {number} {rule.label} count {count}')
    run = drawn_run(system, 0, MOST_STEPS)
    lines.append(f'steps {len(run.entries)} {run.end}')
    return lines + [f'host nodes {len(run.host.big.nodes)} edges {len(run.host.big.edges)}']
