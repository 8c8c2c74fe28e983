#!/usr/bin/env python3
"""Refuses the program each request for memory in turn, and looks at how it ends.

    python3 tools/try_memory.py [--jobs N] [--upto N] [--shots N] [--only PART] PROGRAM

Each model of examples/models is read by `check`, `show`, `match`, `match --explain` and `run` with one and with four workers,
and the journal that `run` writes by `replay`; a listing by `compose`; `trial` makes a model of its own. In each case the first
request for memory is refused, then the second, and so on, each in a run of its own, up to the first that the program does
not come to; with --upto those behind the first N, which are all the same requests in a loop, are refused at --shots places
drawn at random alone. One refusal is made at a time: the requests behind it are granted, so that a program which goes on
with less than it asked for would be seen by what it writes. The shim that refuses is compiled with `cc` and loaded in front of
the C library.

A run is wrong where its status is neither 5, want of memory, nor that of the run with all memory, with its text (a request that
would give back memory may be refused); where with 5 it wrote anything that is no beginning of that text; or where it was
killed, or has not ended in a minute. With several workers the text is another in each run, so of it only the status is looked
at, and with 5 whether it begins as a journal. The last line is `N runs, M wrong`, also after Ctrl-C; the status is 1 where
M > 0.
"""
import argparse
import concurrent.futures
import dataclasses
import os
import pathlib
import random
import subprocess
import sys
import tempfile

EXAMPLES = pathlib.Path(__file__).resolve().parents[1] / 'examples'
SECONDS = 60
NO_MEMORY = 5
SHIM = r'''
#define _GNU_SOURCE
#include <dlfcn.h>
#include <errno.h>
#include <stdatomic.h>
#include <stdlib.h>
#include <unistd.h>

static atomic_long left = -1;
static int tells = -1;
static void *(*next_malloc)(size_t);
static void *(*next_realloc)(void *, size_t);
static int (*next_memalign)(void **, size_t, size_t);
static void *(*next_aligned)(size_t, size_t);

__attribute__((constructor)) static void begin(void) {
    next_malloc = dlsym(RTLD_NEXT, "malloc");
    next_realloc = dlsym(RTLD_NEXT, "realloc");
    next_memalign = dlsym(RTLD_NEXT, "posix_memalign");
    next_aligned = dlsym(RTLD_NEXT, "aligned_alloc");
    const char *number = getenv("REFUSED_REQUEST"), *descriptor = getenv("REFUSED_TELLS");
    if (descriptor) tells = atoi(descriptor);
    if (number) atomic_store(&left, atol(number));
}

/* The request of that number, counted from 1, is refused; a byte tells that it came. */
static int is_refused(void) {
    if (atomic_load(&left) < 0 || atomic_fetch_sub(&left, 1) != 1) return 0;
    if (write(tells, "!", 1) < 0) _exit(99);
    errno = ENOMEM;
    return 1;
}

void *malloc(size_t size) {
    if (!next_malloc) next_malloc = dlsym(RTLD_NEXT, "malloc");
    return is_refused() ? NULL : next_malloc(size);
}

void *realloc(void *old, size_t size) {
    if (!next_realloc) next_realloc = dlsym(RTLD_NEXT, "realloc");
    return is_refused() ? NULL : next_realloc(old, size);
}

int posix_memalign(void **made, size_t align, size_t size) {
    return is_refused() ? ENOMEM : next_memalign(made, align, size);
}

void *aligned_alloc(size_t align, size_t size) {
    return is_refused() ? NULL : next_aligned(align, size);
}
'''


@dataclasses.dataclass(frozen=True)
class Case:
    """A name, the words, the input, and whether the text is the same in each run."""

    name: str
    words: tuple
    input: bytes
    is_one_text: bool = True


@dataclasses.dataclass
class Run:
    """The status of a run, none where it was ended; what it wrote; whether the request came."""

    status: int | None
    text: bytes
    came: bool


def run(program, shim, case, number):
    """The run in which the request of that number is refused; none is where the number is 0."""
    told, tells = os.pipe()
    environment = {'LD_PRELOAD': str(shim), 'REFUSED_REQUEST': str(number), 'REFUSED_TELLS': str(tells)} if number else {}
    try:
        ended = subprocess.run([program, *case.words], input=case.input, stdout=subprocess.PIPE, stderr=subprocess.DEVNULL,
                               env=environment, pass_fds=(tells,), timeout=SECONDS, check=False)
        status, text = ended.returncode, ended.stdout
    except subprocess.TimeoutExpired as late:
        status, text = None, late.stdout or b''
    os.close(tells)
    came = os.read(told, 1) == b'!'
    os.close(told)
    return Run(status, text, came)


def fault_of(case, whole, one):
    """What is wrong with the run, or none."""
    if one.status is None or one.status < 0 or one.status >= 128:
        return f'ended by {one.status}'
    if one.status == NO_MEMORY:
        if case.is_one_text and not whole.text.startswith(one.text):
            return 'what it wrote is no beginning of the text'
        if not case.is_one_text and one.text and not one.text.startswith(b'journal 1\n'):
            return 'what it wrote begins no journal'
        return None
    if one.status != whole.status:
        return f'status {one.status} in place of {whole.status}'
    if case.is_one_text and one.text != whole.text:
        return 'another text with the same status'
    return None


def cases_of(program, part):
    """All cases whose name has the part."""
    found = []
    for path in sorted((EXAMPLES / 'models').glob('*.model')):
        model = path.read_bytes()
        for words in (('check',), ('show',), ('match',), ('match', '--explain'), ('run', '--steps', '6')):
            found.append(Case(f'{path.stem} {" ".join(words)}', words, model))
        found.append(Case(f'{path.stem} run by four', ('run', '--steps', '6', '--workers', '4'), model, False))
        written = subprocess.run([program, 'run', '--steps', '6'], input=model, stdout=subprocess.PIPE, check=True).stdout
        journal = written[:written.index(b'end\n') + len(b'end\n')]
        found.append(Case(f'{path.stem} replay', ('replay',), journal + model))
    listing = EXAMPLES / 'compose' / 'room-in-building.listing'
    found.append(Case('compose', ('compose',), listing.read_bytes()))
    found.append(Case('trial 3', ('trial', '3'), b''))
    return [case for case in found if part in case.name]


def numbers_of(program, shim, case, upto, shots):
    """The numbers of the requests that are refused: all up to the bound, and some of the others."""
    last = count_of(program, shim, case)
    chosen = list(range(1, min(last, upto) + 1))
    if last > upto:
        chosen += sorted(random.Random(case.name).sample(range(upto + 1, last + 1), min(shots, last - upto)))
    return chosen, last


def count_of(program, shim, case):
    """About how many requests the program makes: the greatest number that comes, by halving."""
    low, high = 0, 1
    while run(program, shim, case, high).came:
        low, high = high, 2 * high
    while high - low > 1:
        middle = (low + high) // 2
        if run(program, shim, case, middle).came:
            low = middle
        else:
            high = middle
    return low


def built(folder):
    """The shim, compiled."""
    source, shim = folder / 'refuse.c', folder / 'refuse.so'
    source.write_text(SHIM, encoding='utf-8')
    subprocess.run(['cc', '-O1', '-shared', '-fPIC', str(source), '-o', str(shim), '-ldl'], check=True)
    return shim


def main():
    """Tries all cases."""
    words = argparse.ArgumentParser(description=__doc__.split('\n', maxsplit=1)[0])
    words.add_argument('--jobs', type=int, default=1)
    words.add_argument('--upto', type=int, default=400)
    words.add_argument('--shots', type=int, default=100)
    words.add_argument('--only', default='')
    words.add_argument('program')
    asked = words.parse_args()
    runs = wrong = 0
    try:
        with tempfile.TemporaryDirectory() as name, concurrent.futures.ThreadPoolExecutor(asked.jobs) as pool:
            shim = built(pathlib.Path(name))
            for case in cases_of(asked.program, asked.only):
                whole = run(asked.program, shim, case, 0)
                numbers, last = numbers_of(asked.program, shim, case, asked.upto, asked.shots)
                tried = pool.map(lambda number: (number, run(asked.program, shim, case, number)), numbers)
                faults = [(number, fault_of(case, whole, one)) for number, one in tried]
                runs += len(faults)
                for number, fault in faults:
                    if fault:
                        wrong += 1
                        print(f'{case.name}: request {number} of {last}: {fault}', flush=True)
    except KeyboardInterrupt:
        pass
    print(f'{runs} runs, {wrong} wrong')
    return 1 if wrong else 0


if __name__ == '__main__':
    sys.exit(main())
