#!/usr/bin/env python3
"""Writes a model for `match`: matches.py KIND [NUMBER].

trial N      N rooms and N agents in a building: a redex that occurs N times N times, with a name and a link that all
             rooms share; 3 N + 1 nodes
rooms N      N rooms of five nodes each: a redex of five nodes, with a link that is closed
chain K      2^K nodes in one another: a redex of one node with a site
star K       2^K - 1 nodes in one: a redex of two nodes with a site
pairs N      N pairs of nodes, each with a closed link of its own: the redex is such a pair
triples N    N triples of nodes, each with two closed links of its own: the redex is such a triple
deep K       2^K nodes in one another, and two beside: a redex of two regions
missing K    2^K nodes beside one another, and 4,096 rules whose redex occurs nowhere
units K      2^K units of 29 nodes, each with links of its own, all on one link of 2^K racks; six redexes: two regions
             tied by a name alone, closed links of three and of four points, five nodes in one another, two equal nodes
             and a third on one link in three regions, three regions with a closed link and two shared names
more N       N + 1 equal nodes side by side sought beside N
hub K        2^K nodes `A` and one `B` on one link: the redex is a pair of them
"""
import sys


def block(init, rules):
    return f'begin brs\n  init {init};\n  rules = [ {rules} ];\nend\n'


def doubled(first, operator, count):
    return f'big p0 = {first};\n' + ''.join(f'big p{k + 1} = p{k} {operator} p{k};\n' for k in range(count))


def times(count, word):
    return ' | '.join(count * [word])


def trial(size):
    return f'''ctrl Building = 0;
ctrl Closed = 0;
ctrl Room = 0;
atomic ctrl Agent = 1;
atomic ctrl Computer = 1;
atomic ctrl Seat = 2;
big room = Room.Computer{{n}};
big agent = /a Agent{{a}};
big s = /n Building.({times(size, 'room')} | {times(size, 'agent')});
react sit = Agent{{x}} | Room.Computer{{n}} --> Room.Seat{{x,n}};
react shut = Building.id --> Closed.id;
''' + block('s', '{sit}, {shut}')


def rooms(size):
    return f'''ctrl Building = 0;
ctrl Room = 0;
ctrl Desk = 0;
atomic ctrl Lamp = 0;
atomic ctrl Agent = 1;
atomic ctrl Computer = 1;
big room = Room.(Desk.Lamp | /a (Agent{{a}} | Computer{{a}}));
big s = Building.({times(size, 'room')});
react leave = Room.(Desk.(Lamp | id) | /a (Agent{{a}} | Computer{{a}}) | id) --> Room.(Desk.(Lamp | id) | id);
''' + block('s', '{leave}')


def chain(power):
    return f'''ctrl A = 0;
{doubled('A.id', '*', power)}big s = p{power} * 1;
react r = A.id --> A.id;
''' + block('s', '{r}')


def star(power):
    return f'''ctrl N = 0;
atomic ctrl A = 0;
{doubled('A', '|', power)}big s = N.({' | '.join(f'p{k}' for k in range(power))});
react r = N.(A | id) --> N.(A | id);
''' + block('s', '{r}')


def pairs(size):
    return f'''atomic ctrl A = 1;
atomic ctrl B = 1;
big pair = /x (A{{x}} | B{{x}});
big s = {times(size, 'pair')};
react r = /x (A{{x}} | B{{x}}) --> 1;
''' + block('s', '{r}')


def triples(size):
    return f'''atomic ctrl A = 1;
atomic ctrl B = 2;
atomic ctrl C = 1;
big triple = /x /y (A{{x}} | B{{x,y}} | C{{y}});
big s = {times(size, 'triple')};
react r = /x /y (A{{x}} | B{{x,y}} | C{{y}}) --> 1;
''' + block('s', '{r}')


def deep(power):
    return f'''ctrl A = 0;
ctrl B = 0;
ctrl D = 0;
{doubled('A.id', '*', power)}big s = p{power} * (B.1 | D.1);
react r = B.id || D.id --> B.id || D.id;
''' + block('s', '{r}')


def missing(power):
    return f'''atomic ctrl A = 0;
atomic ctrl B = 0;
{doubled('A', '|', power)}fun react r(n, m) = B --> B;
begin brs
  int n = [0:1:63];
  int m = [0:1:63];
  init p{power};
  rules = [ {{r(n, m)}} ];
end
'''


def units(power):
    return f'''ctrl Room = 0;
ctrl Agent = 1;
ctrl Rack = 1;
ctrl Desk = 0;
ctrl Shelf = 0;
ctrl Box = 0;
ctrl Tray = 0;
atomic ctrl Card = 0;
atomic ctrl Key = 1;
atomic ctrl Lamp = 1;
atomic ctrl Cable = 1;
atomic ctrl Plug = 1;
atomic ctrl Computer = 1;
atomic ctrl User = 1;
atomic ctrl Pin = 2;
atomic ctrl Socket = 3;
big desk = Desk.Shelf.Box.Tray.Card;
big wired = /c (Cable{{c}} | Cable{{c}} | Rack{{y}}.Cable{{c}});
big plugged = /d (Plug{{d}} | Plug{{d}} | Plug{{d}} | Plug{{d}});
big lit = /k (Room.(Agent{{k}}.Key{{k}} | desk | wired | plugged) | Lamp{{k}});
big used = /m (Room.Computer{{m}} | Room.Computer{{m}} | User{{m}});
big joined = /e /a /b (Room.Pin{{e,a}} | Pin{{e,b}} | Socket{{e,a,b}});
big unit = lit | used | joined;
{doubled('unit', '|', power)}react light = Agent{{k}}.(Key{{k}} | id) || Lamp{{k}} --> Agent{{k}}.(Key{{k}} | id) || Lamp{{k}};
react wire = /c (Cable{{c}} | Cable{{c}} | Rack{{y}}.Cable{{c}}) --> Rack{{y}}.1;
react plug = Room.(/d (Plug{{d}} | Plug{{d}} | Plug{{d}} | Plug{{d}}) | id) --> Room.id;
react deal = Desk.Shelf.Box.Tray.Card --> Desk.1;
react use = Computer{{m}} || Computer{{m}} || User{{m}} --> Computer{{m}} || Computer{{m}} || User{{m}};
react join = /e (Pin{{e,a}} || Pin{{e,b}} || Socket{{e,a,b}}) --> /e (Pin{{e,a}} || Pin{{e,b}} || Socket{{e,a,b}});
''' + block(f'p{power}', '{light}, {wire}, {plug}, {deal}, {use}, {join}')


def more(size):
    return f'''atomic ctrl A = 0;
big s = {times(size, 'A')};
react r = {times(size + 1, 'A')} --> 1;
''' + block('s', '{r}')


def hub(power):
    return f'''atomic ctrl A = 1;
atomic ctrl B = 1;
{doubled('A{x}', '|', power)}big s = p{power} | B{{x}};
react r = A{{x}} | B{{x}} --> A{{x}};
''' + block('s', '{r}')


KINDS = {
    'trial': (trial, 300),
    'rooms': (rooms, 2000),
    'chain': (chain, 15),
    'star': (star, 15),
    'pairs': (pairs, 1000),
    'triples': (triples, 300),
    'deep': (deep, 15),
    'missing': (missing, 16),
    'units': (units, 11),
    'more': (more, 12),
    'hub': (hub, 15),
}


def main():
    make, number = KINDS[sys.argv[1]]
    if len(sys.argv) > 2:
        number = int(sys.argv[2])
    sys.stdout.write(make(number))


main()
