#!/usr/bin/env python3
"""turns.py: what a turn costs beside a lock.

1, 2, 4 and 8 threads count one number a million times in all, by the program `gauge`: each time at a turn of its own (`cat_turns`), or under the lock of the
standard library. Time is the least of several runs, less that of a run which counts nothing.
"""
import os, subprocess, time

TOP = os.path.dirname(os.path.dirname(os.path.abspath(__file__)))
GAUGE = os.path.join(TOP, 'crates', 'gauge', 'out', 'gauge')
COUNTS = 1_000_000
ROUNDS = 7

def seconds(word, threads, acts):
    start = time.perf_counter()
    subprocess.run([GAUGE, word, str(threads), str(acts)], stdin=subprocess.DEVNULL, stdout=subprocess.DEVNULL, check=True)
    return time.perf_counter() - start

def cost(word, threads):
    """Nanoseconds of one count."""
    taken = min(seconds(word, threads, COUNTS // threads) for _ in range(ROUNDS)) - min(seconds(word, threads, 0) for _ in range(ROUNDS))
    return taken / COUNTS * 1e9

print('threads  turn, ns  lock, ns  ratio')
for threads in (1, 2, 4, 8):
    turn, lock = cost('turns', threads), cost('lock', threads)
    print(f'{threads:7}  {turn:8.0f}  {lock:8.0f}  {turn / lock:5.1f}')
