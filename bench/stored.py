#!/usr/bin/env python3
"""stored.py [COUNT [LINES]]: what a store costs.

A session over a new store gets so many lines (200, if nothing is said), each of which changes one row, with nothing else in the catalogue and with COUNT
(5,000) settled Components in it; beside it stand the same session without a store, and a plain loop of the same statements of SQLite over a file in the same
folder, by Python's sqlite3 with a log and a sync at each commit. Then the store is opened. The same with `--journal` where the program has it, beside a
loop of write and fsync.
"""
import json, os, sqlite3, subprocess, sys, tempfile, time

TOP = os.path.dirname(os.path.dirname(os.path.abspath(__file__)))
PROGRAM = os.path.join(TOP, 'catalogue')
PUT = 'INSERT INTO cat_rows (tab, key, value) VALUES (?, ?, ?) ON CONFLICT (tab, key) DO UPDATE SET value = excluded.value'


class Session:
    def __init__(self, words):
        self.run = subprocess.Popen([PROGRAM, 'session', *words], stdin=subprocess.PIPE, stdout=subprocess.PIPE)

    def say(self, line):
        self.run.stdin.write(line.encode() + b'\n')
        self.run.stdin.flush()
        return self.run.stdout.readline()

    def end(self):
        self.run.stdin.close()
        self.run.wait()


def component(k, owner):
    return {'entity': {'apiVersion': 'backstage.io/v1alpha1', 'kind': 'Component', 'metadata': {'name': f'c{k}'}, 'spec': {'type': 'service', 'lifecycle': 'production', 'owner': f'g{owner % 10}'}}}


def timed(work):
    start = time.perf_counter()
    work()
    return time.perf_counter() - start


def told(what, seconds, times):
    print(f'{what:60} {1000 * seconds / times:9.3f} ms  {times / seconds:10.0f} a second')


def puts(session, lines, mark):
    for k in range(lines):
        assert session.say(f'put file:/{mark}{k} {{"n":{k}}}') == b'ok\n'


def deltas(session, lines, serial):
    for k in range(lines):
        body = json.dumps({'serial': serial + k, 'added': [component(17, k + 1)], 'removed': []}, separators=(',', ':'))
        assert session.say(f'delta git {body}') == b'ok\n'


def settles(session, lines, serial):
    seconds = 0
    for k in range(lines):
        deltas(session, 1, serial + k)
        start = time.perf_counter()
        assert session.say('settle').startswith(b'settled')
        seconds += time.perf_counter() - start
    return seconds


def plain_statements(folder, lines):
    it = sqlite3.connect(os.path.join(folder, 'plain.db'), isolation_level=None)
    it.execute('PRAGMA journal_mode=WAL')
    it.execute('PRAGMA synchronous=FULL')
    it.execute('CREATE TABLE cat_rows (tab INTEGER, key TEXT, value TEXT, PRIMARY KEY (tab, key))')
    for k in range(lines):
        it.execute('BEGIN')
        it.execute(PUT, (4, f'file:/a{k}', f'"{{\\"n\\":{k}}}"'))
        it.execute('COMMIT')
    it.close()


def plain_writes(folder, lines):
    it = os.open(os.path.join(folder, 'plain.log'), os.O_RDWR | os.O_CREAT)
    for k in range(lines):
        os.write(it, b'\1' + bytes(8) + f'[[4,"file:/a{k}","x"]]'.encode() + b'\0')
        os.fsync(it)
    os.close(it)


def measured(words, name, count, lines):
    session = Session(words)
    told(f'{name}: a text of the shelf, nothing else there', timed(lambda: puts(session, lines, 'a')), lines)
    body = json.dumps({'serial': 1, 'entities': [component(k, k) for k in range(count)]}, separators=(',', ':'))
    told(f'{name}: {count} Components at once', timed(lambda: session.say(f'full git {body}')), 1)
    told(f'{name}: settle of {count}', timed(lambda: session.say('settle')), 1)
    told(f'{name}: a text of the shelf, {count} Components there', timed(lambda: puts(session, lines, 'b')), lines)
    told(f'{name}: a Component has another owner, of {count}', timed(lambda: deltas(session, lines, 2)), lines)
    told(f'{name}: the settle after such a change, of {count}', settles(session, lines, 2 + lines), lines)
    session.end()
    if words:
        told(f'{name}: opening it again', timed(lambda: Session(words).end()), 1)


def main():
    count = int(sys.argv[1]) if len(sys.argv) > 1 else 5000
    lines = int(sys.argv[2]) if len(sys.argv) > 2 else 200
    measured([], 'no store', count, lines)
    with tempfile.TemporaryDirectory() as folder:
        told('plain statements of SQLite', timed(lambda: plain_statements(folder, lines)), lines)
        measured(['--store', os.path.join(folder, 'kept.db')], '--store', count, lines)
        print(f"--store: {os.path.getsize(os.path.join(folder, 'kept.db'))} bytes")
        if subprocess.run([PROGRAM, 'session', '--journal', os.path.join(folder, 'there')], stdin=subprocess.DEVNULL, stdout=subprocess.DEVNULL).returncode == 2:
            return
        told('plain writes, each with fsync', timed(lambda: plain_writes(folder, lines)), lines)
        measured(['--journal', os.path.join(folder, 'kept.log')], '--journal', count, lines)
        print(f"--journal: {os.path.getsize(os.path.join(folder, 'kept.log'))} bytes")


main()
