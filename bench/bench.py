#!/usr/bin/env python3
"""Runs `flit run --summary` beside `flit step --summary` and plain C++ programs on the same traces, and prints ratios.

    bench/bench.py [--rounds N] [--program PATH] [--calls N] [--instructions]

Each program of this folder is built with g++ -O3 into a folder of its own, which is removed at the end. Where a library isn't
installed, or the program doesn't know a command yet, a line says so, and it is left out. Every program is run once a round,
one after the other, so that what else the machine does falls on all alike; of its rounds the least time counts. With
--instructions the program and the twin are counted by callgrind instead, which tells the same on a machine under load.
"""
import argparse
import os
import re
import shutil
import subprocess
import sys
import tempfile
import time

HERE = os.path.dirname(os.path.abspath(__file__))
TOP = os.path.dirname(HERE)
SEED = 7

# The C++ programs: the name in the table, the source, and what it is linked with.
PLAIN = [
    ('twin', 'twin.cpp', []),
    ('std::set, mutex', 'mutex_set.cpp', []),
    ('libcds', 'cds_set.cpp', ['-lcds']),
    ('libpmemobj', 'pmem_set.cpp', ['-lpmemobj']),
]


class Timed:
    """One run: its output, its user time, the time of the whole process and its greatest memory."""

    def __init__(self, words, trace, env=None):
        with open(trace) as source:
            begin = time.perf_counter()
            child = subprocess.Popen(words, stdin=source, stdout=subprocess.PIPE, stderr=subprocess.PIPE, env=env)
            self.output, self.errors = child.stdout.read(), child.stderr.read()
            _, status, used = os.wait4(child.pid, 0)
            self.whole = time.perf_counter() - begin
            child.returncode = os.waitstatus_to_exitcode(status)
        self.status, self.user, self.memory = child.returncode, used.ru_utime, used.ru_maxrss


def note(text):
    print(text, file=sys.stderr, flush=True)


def built_program(given):
    """The built program. Without a path it is made by ./flit, which proves and builds it where that is needed."""
    if given:
        return os.path.abspath(given)
    subprocess.run([os.path.join(TOP, 'flit'), 'make', '0', '1', '1', '1'], stdout=subprocess.DEVNULL, check=True)
    return os.path.join(TOP, 'crates', 'flit', 'out', 'flit')


def build_plain(folder):
    """The commands of the C++ programs that can be built."""
    made = {}
    for name, source, libraries in PLAIN:
        program = os.path.join(folder, source.replace('.cpp', ''))
        build = ['g++', '-O3', '-std=c++17', '-pthread', '-o', program, os.path.join(HERE, source)] + libraries
        done = subprocess.run(build, capture_output=True, text=True)
        if done.returncode:
            missing = next((line for line in done.stderr.splitlines() if 'error' in line or 'cannot find' in line), '')
            note('left out: %s, which was not built: %s' % (name, missing))
            continue
        made[name] = [program]
        if source == 'pmem_set.cpp':
            place = '/dev/shm' if os.path.isdir('/dev/shm') else folder
            words = [program, os.path.join(place, 'flit_bench_%d.pool' % os.getpid())]
            made[name] = ['env', 'PMEM_IS_PMEM_FORCE=1'] + words
            made[name + ', msync'] = words
    return made


def make_trace(program, folder, calls, keys, workers):
    path = os.path.join(folder, 'make_%d_%d_%d' % (calls, keys, workers))
    if not os.path.exists(path):
        with open(path, 'wb') as out:
            subprocess.run([program, 'make', str(SEED), str(calls), str(keys), str(workers)], stdout=out, check=True)
    return path


def measure(commands, trace, rounds):
    """Of each command the least user time, the least whole time and the memory; they must print the same."""
    best, outputs = {}, {}
    for _ in range(rounds):
        for name, words in commands.items():
            run = Timed(words, trace)
            if run.status:
                note('left out: %s: status %d on %s' % (name, run.status, os.path.basename(trace)))
                continue
            outputs[name] = run.output
            user, whole, memory = best.get(name, (1e9, 1e9, 0))
            best[name] = (min(user, run.user), min(whole, run.whole), max(memory, run.memory))
    if len(set(outputs.values())) > 1:
        note('the summaries differ on %s: %s' % (os.path.basename(trace), outputs))
        sys.exit(1)
    return best


def table(title, traces, commands, rounds):
    print('\n%s' % title)
    print('| trace | program | user s | whole s | memory MB | user, to the twin | whole, to the twin |')
    print('|---|---|---|---|---|---|---|')
    found = []
    for label, trace in traces:
        best = measure(commands, trace, rounds)
        twin = best.get('twin')
        for name, (user, whole, memory) in best.items():
            ratios = ('%.2f | %.2f' % (user / twin[0], whole / twin[1])) if twin else ' | '
            print('| %s | %s | %.3f | %.3f | %.0f | %s |' % (label, name, user, whole, memory / 1024, ratios), flush=True)
        found.append((label, best))
    return found


def growth(title, found):
    """How times change from the first trace to the others."""
    print('\n%s' % title)
    print('| program | ' + ' | '.join('user, whole: %s to %s' % (found[0][0], label) for label, _ in found[1:]) + ' |')
    print('|---' * len(found) + '|')
    first = found[0][1]
    for name in first:
        cells = []
        for _, best in found[1:]:
            cells.append('%.2f, %.2f' % (best[name][0] / first[name][0], best[name][1] / first[name][1]) if name in best else '')
        print('| %s | %s |' % (name, ' | '.join(cells)))


def instructions(words, trace):
    """How many instructions a run takes, by callgrind."""
    run = Timed(['valgrind', '--tool=callgrind', '--callgrind-out-file=/dev/null'] + words, trace)
    counted = re.search(rb'Collected : (\d+)', run.errors)
    if run.status or not counted:
        note('not counted: %s: %s' % (words[0], run.errors.decode(errors='replace')[-300:]))
        sys.exit(1)
    return int(counted.group(1)), run.output


def count(title, traces, commands):
    """The instructions of `flit run` and of the twin, and their ratio."""
    print('\n%s' % title)
    print('| trace | flit run, millions | twin, millions | to the twin |')
    print('|---|---|---|---|')
    for label, trace in traces:
        (ours, told), (plain, counts) = [instructions(commands[name], trace) for name in ('flit run', 'twin')]
        if told != counts:
            note('the summaries differ on %s' % os.path.basename(trace))
            sys.exit(1)
        print('| %s | %.0f | %.0f | %.2f |' % (label, ours / 1e6, plain / 1e6, ours / plain), flush=True)


def knows(program, words, trace):
    return Timed([program] + words, trace).status == 0


def main():
    parser = argparse.ArgumentParser(description=__doc__, formatter_class=argparse.RawDescriptionHelpFormatter)
    parser.add_argument('--rounds', type=int, default=5, help='how often each is run; the least time counts')
    parser.add_argument('--program', help='the built program; without it ./flit builds it')
    parser.add_argument('--calls', type=int, default=500000, help='calls of the largest trace')
    parser.add_argument('--instructions', action='store_true', help='count `flit run` and the twin by callgrind, a quarter of the calls')
    given = parser.parse_args()
    program = built_program(given.program)
    folder = tempfile.mkdtemp(prefix='flit_bench_')
    try:
        commands = {}
        small = make_trace(program, folder, 1000, 100, 2)
        for name, words in [('flit run', ['run', '--summary']), ('flit step', ['step', '--summary'])]:
            if knows(program, words, small):
                commands[name] = [program] + words
            else:
                note('left out: %s, which the program does not answer yet' % name)
        commands.update(build_plain(folder))
        trace = lambda calls, keys, workers: make_trace(program, folder, calls, keys, workers)
        n = given.calls
        if given.instructions:
            count('Instructions, %d calls for 8 workers' % (n // 4), [
                ('%d keys a worker' % keys, trace(n // 4, keys, 8)) for keys in (32768, 1024)], commands)
            return
        print('%d processors; %d rounds, least times; seed %d' % (os.cpu_count(), given.rounds, SEED))
        long = table('Long lists (32768 keys a worker, 8 workers): N and 2N', [
            ('N = %d' % (n // 2), trace(n // 2, 32768, 8)), ('N = %d' % n, trace(n, 32768, 8))], commands, given.rounds)
        growth('How time grows with N, long lists', long)
        short = table('Lists of a fixed length (1024 keys a worker, 8 workers): N and 2N', [
            ('N = %d' % (n // 2), trace(n // 2, 1024, 8)), ('N = %d' % n, trace(n, 1024, 8))], commands, given.rounds)
        growth('How time grows with N, lists of a fixed length', short)
        workers, w = [], 1
        while w <= (os.cpu_count() or 1):
            workers.append(('%d' % w, trace(n, 32768 // w, w)))
            w *= 2
        threads = table('One map of 32768 keys, 1 to %s threads' % workers[-1][0], workers, commands, given.rounds)
        growth('How time changes with threads', threads)
    finally:
        shutil.rmtree(folder)


if __name__ == '__main__':
    main()
