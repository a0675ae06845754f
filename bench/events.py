#!/usr/bin/env python3
"""events.py [COUNT ..]: what one event costs beside so many Components.

For each count: so many Components over ten Groups are given by one provider and settled, and then single events follow, each as the
least of three: a text of the shelf that nobody reads, a `delta` that changes one owner, one that adds a Component, one that takes it
away, a refresh, a forget, and the settle behind each change. Times are from writing a line to its reply, in milliseconds.
"""
import subprocess, sys, time

from settle import Session, entity, full, sample, text

def delta(serial, added=(), removed=()):
    value = {'serial': serial, 'added': [{'entity': x} for x in added], 'removed': list(removed)}
    return f'delta sample {text(value)}\n'

def main():
    counts = [int(x) for x in sys.argv[1:]] or [1000, 5000, 20000, 30000]
    names = ['shelf', 'owner', 'settle', 'added', 'settle', 'removed', 'refresh', 'settle', 'forget', 'settle']
    print(f'{"Components":>10} {"full":>8} {"settle":>8}   ' + ' '.join(f'{x:>8}' for x in names))
    for count in counts:
        session, entities = Session(), sample(count)
        first = [session.ask(full(1, entities)), session.ask('settle\n')]
        assert first[0][1] == 'ok', first[0][1]
        serial, rounds = 1, []
        for k in range(3):
            changed = {**entities[10 + k], 'spec': {**entities[10 + k]['spec'], 'owner': 'g9' if k % 2 else 'g8'}}
            new = entity('Component', f'new{k}', entities[10]['spec'])
            lines = [f'put file:/x{k}.json []\n', delta(serial + 1, [changed]), 'settle\n', delta(serial + 2, [new]), 'settle\n',
                     delta(serial + 3, [], [f'component:default/new{k}']), 'refresh component:default/c5\n', 'settle\n',
                     'forget component:default/c7\n', 'settle\n']
            serial += 3
            asked = [session.ask(line) for line in lines]
            assert all(reply.startswith(('ok', 'settled')) for _, reply in asked), [reply for _, reply in asked]
            rounds.append([seconds for seconds, _ in asked])
        session.close()
        best = [min(column) for column in zip(*rounds)]
        print(f'{count:>10} ' + ' '.join(f'{1000 * seconds:>8.1f}' for seconds, _ in first) + '   ' + ' '.join(f'{1000 * x:>8.2f}' for x in best), flush=True)

if __name__ == '__main__':
    main()
