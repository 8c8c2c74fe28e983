#!/usr/bin/env python3
"""Writes a model for `run`: runs.py KIND NUMBER.

ring N       a token that goes round N seats, each tied to the next by a name of its own: one step is legal; N + 1 nodes
walk N       N rooms in a building, and an agent that goes from room to room: N - 1 steps are legal; N + 2 nodes
crowd N      N rooms and N agents, each in one: as many steps as candidates are kept are legal; 2 N + 1 nodes
unlit N      N rooms of 14 nodes, each of which takes part in a step where no Lamp is in it: a negative condition on the
             parameter, whose pattern occurs nowhere; 15 N + 1 nodes
alone N      the same with a condition on the context
beside N     N boxes with a light in each, which may go out where no box is dark: a negative condition on the context, whose
             pattern occurs after the first step

Few steps are legal at each host of these, and each touches few nodes; N nodes, a few more, stand beside them:

moving N     an agent that goes to and fro between two rooms
carrying N   a box that goes to and fro, with N nodes in it
crowded N    an agent that goes in and out of a room, beside N nodes in one place
copying N    ten nodes that are copied and then dropped
tying N      two nodes that get an edge of their own each, and one together; the N nodes have N / 2 edges
joining N    a node that is tied to the link of all N and is untied
popping N    a stack of N nodes in one another, of which the topmost is taken away until there is none
"""
import sys


def block(init, rules):
    return f'begin brs\n  init {init};\n  rules = [ {rules} ];\nend\n'


def times(count, word):
    return ' | '.join(count * [word])


def ring(size):
    seats = ' | '.join(f'Seat{{e{place},e{(place + 1) % size}}}.{"Token" if place == 0 else 1}' for place in range(size))
    return f'''ctrl Seat = 2;
atomic ctrl Token = 0;
big s = {seats};
react pass = Seat{{x,y}}.Token | Seat{{y,z}}.1 --> Seat{{x,y}}.1 | Seat{{y,z}}.Token;
''' + block('s', '{pass}')


def walk(size):
    return f'''ctrl Building = 0;
ctrl Room = 0;
atomic ctrl Agent = 0;
big s = Building.(Room.Agent | {times(size - 1, 'Room.1')});
react go = Room.(Agent | id) | Room.id --> Room.id | Room.(Agent | id);
''' + block('s', '{go}')


def crowd(size):
    return f'''ctrl Building = 0;
ctrl Room = 0;
atomic ctrl Agent = 0;
big s = Building.({times(size, 'Room.Agent')});
react go = Room.(Agent | id) | Room.id --> Room.id | Room.(Agent | id);
''' + block('s', '{go}')


def unlit(size, side='param'):
    return f'''ctrl Building = 0;
ctrl Room = 0;
atomic ctrl Lamp = 0;
atomic ctrl Desk = 0;
big room = Room.({times(14, 'Desk')});
big s = Building.({times(size, 'room')});
react turn = Room.id --> Room.id if !Lamp in {side};
''' + block('s', '{turn}')


def beside(size):
    return f'''ctrl Box = 0;
ctrl Dark = 0;
atomic ctrl Light = 0;
big s = {times(size, 'Box.Light')};
react out = Box.Light --> Dark.1 if !Dark.1 in ctx;
react on = Dark.1 --> Box.Light;
''' + block('s', '{out, on}')


def shelf(size):
    return f'Shelf.({times(size, "Book")})'


def moving(size):
    return f'''ctrl Room = 0;
ctrl Shelf = 0;
atomic ctrl Agent = 0;
atomic ctrl Book = 0;
big s = Room.Agent | Room.1 | {shelf(size)};
react go = Room.(Agent | id) | Room.id --> Room.id | Room.(Agent | id);
''' + block('s', '{go}')


def carrying(size):
    return f'''ctrl Room = 0;
ctrl Shelf = 0;
atomic ctrl Book = 0;
big s = Room.{shelf(size)} | Room.1;
react go = Room.(Shelf.id | id) | Room.id --> Room.id | Room.(Shelf.id | id);
''' + block('s', '{go}')


def crowded(size):
    return f'''ctrl Hall = 0;
ctrl Room = 0;
atomic ctrl Agent = 0;
atomic ctrl Book = 0;
big s = Hall.(Agent | Room.1 | {times(size, 'Book')});
react enter = Agent | Room.id --> Room.(Agent | id);
react leave = Room.(Agent | id) --> Agent | Room.id;
''' + block('s', '{enter, leave}')


def copying(size):
    return f'''ctrl Press = 0;
ctrl Tray = 0;
ctrl Shelf = 0;
atomic ctrl Clip = 0;
atomic ctrl Page = 0;
atomic ctrl Book = 0;
big s = Press.(Clip | {times(9, 'Page')}) | Tray.1 | {shelf(size)};
react copy = Press.id | Tray.1 --> Press.id | Tray.id @ [0, 0];
react drop = Tray.(Clip | id) --> Tray.1 @ [];
''' + block('s', '{copy, drop}')


def tying(size):
    return f'''ctrl Shelf = 0;
atomic ctrl End = 1;
atomic ctrl Plug = 1;
atomic ctrl Socket = 1;
big wire = /w (End{{w}} | End{{w}});
big s = /x Plug{{x}} | /y Socket{{y}} | Shelf.({times(size // 2, 'wire')});
react tie = /x Plug{{x}} | /y Socket{{y}} --> /z (Plug{{z}} | Socket{{z}});
react untie = /z (Plug{{z}} | Socket{{z}}) --> /x Plug{{x}} | /y Socket{{y}};
''' + block('s', '{tie, untie}')


def joining(size):
    return f'''ctrl Shelf = 0;
atomic ctrl End = 1;
atomic ctrl Hub = 1;
atomic ctrl Plug = 1;
big s = /h (Hub{{h}} | Shelf.({times(size, 'End{h}')})) | /x Plug{{x}};
react join = /x Plug{{x}} | Hub{{h}} --> Plug{{h}} | Hub{{h}};
react part = Plug{{h}} | Hub{{h}} --> /x Plug{{x}} | Hub{{h}};
''' + block('s', '{join, part}')


def popping(size):
    powers = [k for k in range(size.bit_length()) if size >> k & 1]
    doubled = ''.join(f'big p{k + 1} = p{k} * p{k};\n' for k in range(size.bit_length() - 1))
    return f'''ctrl Stack = 0;
ctrl Frame = 0;
big p0 = Frame.id;
{doubled}big s = Stack.id * {' * '.join(f'p{k}' for k in powers)} * 1;
react pop = Stack.Frame.id --> Stack.id;
''' + block('s', '{pop}')


KINDS = {
    'ring': ring,
    'walk': walk,
    'crowd': crowd,
    'unlit': unlit,
    'alone': lambda size: unlit(size, 'ctx'),
    'beside': beside,
    'moving': moving,
    'carrying': carrying,
    'crowded': crowded,
    'copying': copying,
    'tying': tying,
    'joining': joining,
    'popping': popping,
}

if __name__ == '__main__':
    if len(sys.argv) != 3 or sys.argv[1] not in KINDS:
        sys.exit(__doc__)
    sys.stdout.write(KINDS[sys.argv[1]](int(sys.argv[2])))
