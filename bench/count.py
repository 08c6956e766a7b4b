#!/usr/bin/env python3
"""count.py BENCH MAP...

Counts instructions, where the time of a small part of a long call is lost in the noise of the rest: the same lines as BENCH, the program of
this folder, prints, and the same differences, of what valgrind's callgrind counts for each call. The counts are the same in every run. The
last column is the ratio of cycles as KCachegrind estimates them: an instruction is 1, a branch that was mispredicted and a miss of the first
cache 10 more, a miss of the last cache 100 more. glibc is told not to clear and copy by single instructions that are counted for each byte.
"""
import argparse
import os
import re
import subprocess

TUNABLES = 'glibc.cpu.x86_rep_stosb_threshold=1000000000:glibc.cpu.x86_rep_movsb_threshold=1000000000'
PASSES = (1, 2, 3)
COSTS = {'Ir': 1, 'Bcm': 10, 'Bim': 10, 'I1mr': 10, 'D1mr': 10, 'D1mw': 10, 'ILmr': 100, 'DLmr': 100, 'DLmw': 100}


class Counts:
    """Instructions and estimated cycles."""

    def __init__(self, instructions, cycles):
        self.instructions, self.cycles = instructions, cycles

    def __add__(self, other):
        return Counts(self.instructions + other.instructions, self.cycles + other.cycles)

    def __sub__(self, other):
        return Counts(self.instructions - other.instructions, self.cycles - other.cycles)


def count(bench, name, whose, call):
    command = ['valgrind', '--tool=callgrind', '--cache-sim=yes', '--branch-sim=yes', '--callgrind-out-file=/dev/null', bench, 'once', name, whose, call]
    done = subprocess.run(command, env={**os.environ, 'GLIBC_TUNABLES': TUNABLES}, stderr=subprocess.PIPE, text=True, check=True)
    events = re.search(r'Events\s+: (.*)', done.stderr)[1].split()
    collected = dict(zip(events, map(int, re.search(r'Collected : (.*)', done.stderr)[1].split())))
    return Counts(collected['Ir'], sum(cost * collected[event] for event, cost in COSTS.items()))


def main():
    parser = argparse.ArgumentParser(description=__doc__, formatter_class=argparse.RawDescriptionHelpFormatter)
    parser.add_argument('bench')
    parser.add_argument('map', nargs='+')
    asked = parser.parse_args()
    bench = asked.bench
    for name in asked.map:
        none = count(bench, name, 'none', '-')

        def rust(call):
            return count(bench, name, 'rust', call) - none

        def ours(call):
            return count(bench, name, 'ours', call) - none

        refused, bare = ours('refused'), ours('bare')
        view = ours('plain') - ours('fewer')
        context = rust('context')
        lines = [('partition', rust('partition'), ours('partition')), ('context', context, bare - refused + view)]
        calls = [(p, rust(f'pass-{p}'), ours(f'call-{p}')) for p in PASSES]
        lines += [(f'pass {p}', alone, call - bare - view) for p, alone, call in calls]
        lines += [(f'context and pass {p}', context + alone, call - refused) for p, alone, call in calls]
        lines += [(f'whole call, pass {p}', rust(f'call-{p}'), call) for p, _, call in calls]
        print(f'\n{name}\n\n{"":<22} {"Rust":>14} {"ours":>14} {"ratio":>7} {"of cycles":>10}')
        for line, theirs, own in lines:
            ratio, cycles = own.instructions / theirs.instructions, own.cycles / theirs.cycles
            print(f'{line:<22} {theirs.instructions:>14,} {own.instructions:>14,} {ratio:>7.2f} {cycles:>10.2f}', flush=True)


main()
