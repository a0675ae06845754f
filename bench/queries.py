#!/usr/bin/env python3
"""queries.py COUNT..: how long the built program takes to answer questions, in milliseconds each.

For each COUNT the sample catalogue with so many Components over ten Groups is given and settled in a session, and then asked: for an entity by name, for
the list of those that keep to three conditions, for a page of 20 ordered by name with its total, and for the facet of owners. The questions are those that
`postgres.py` asks of the same documents in PostgreSQL; run both at one time. A question lists 1,024 of the documents that are new to the index, so pages are
asked first until all are listed; what they took is printed. Each figure is the mean of as many replies as come in three seconds, of which there is one at
least; beside it stands the size of a reply.
"""
import json, os, subprocess, sys, time

TOP = os.path.dirname(os.path.dirname(os.path.abspath(__file__)))
PROGRAM = os.path.join(TOP, 'catalogue')


def sample(seed, count):
    """Components by number, each with the number of its owner and of what it depends on, if anything."""
    x = seed
    for k in range(count):
        x = (x * 1103515245 + 12345) % 2**31
        d = x // 65536
        yield k, d % 10, d % k if k else None


def entity(kind, name, spec):
    return {'entity': {'apiVersion': 'backstage.io/v1alpha1', 'kind': kind, 'metadata': {'name': name}, 'spec': spec}}


def given(count):
    """The lines that give the sample catalogue: a line holds 8 MiB at most, so a large one comes from several providers."""
    items = [entity('Group', f'g{j}', {'type': 'team', 'children': []}) for j in range(10)]
    for k, j, i in sample(7, count):
        spec = {'lifecycle': 'production', 'owner': f'g{j}', 'type': 'service'}
        if i is not None:
            spec['dependsOn'] = [f'component:c{i}']
        items.append(entity('Component', f'c{k}', spec))
    for start in range(0, len(items), 30000):
        yield f'full sample{start} ' + json.dumps({'serial': 1, 'entities': items[start:start + 30000]}, separators=(',', ':'))


# how many documents a question has the index list
LISTED_AT_ONCE = 1024

QUESTIONS = {
    'by name': lambda k, count: f'get component:default/c{k * 7919 % count}',
    'filter': lambda k, count: 'list filter=kind=component,spec.type=service,relations.ownedBy=group:default/g3',
    'page': lambda k, count: 'page limit=20&orderField=metadata.name,asc&filter=kind=component',
    'facet': lambda k, count: 'facets facet=spec.owner&filter=kind=component',
}


def main():
    for count in [int(word) for word in sys.argv[1:]] or [5000]:
        run = subprocess.Popen([PROGRAM, 'session'], stdin=subprocess.PIPE, stdout=subprocess.PIPE)

        def ask(line):
            run.stdin.write(line.encode() + b'\n')
            run.stdin.flush()
            return run.stdout.readline()

        lines = list(given(count))
        start = time.time()
        for line in lines:
            assert ask(line).startswith(b'ok')
        print(f'{count}: given in {time.time() - start:.2f} s', end='')
        start = time.time()
        ask('settle')
        print(f', settled in {time.time() - start:.2f} s')
        first = []
        for _ in range(count // LISTED_AT_ONCE + 2):
            start = time.time()
            ask(QUESTIONS['page'](0, count))
            first.append((time.time() - start) * 1000)
        print(f'the first {len(first)} pages: {min(first[:-1]):.1f} to {max(first):.1f} ms')
        for name, line in QUESTIONS.items():
            start, times = time.time(), 0
            while time.time() - start < 3:
                reply = ask(line(times, count))
                times += 1
            print(f'{name}: {(time.time() - start) / times * 1000:.3f} ms, {len(reply)} bytes')
        run.stdin.close()
        run.wait()


main()
