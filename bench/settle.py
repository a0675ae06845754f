#!/usr/bin/env python3
"""settle.py [COUNT ..]: how long the built program takes to process and stitch.

For each count: so many Components over ten Groups, each but the first with one dependency, given by one provider and settled;
then the same inputs with one owner changed, and settled again. Last, a chain of 100 Locations, each offering the next.
"""
import json, os, subprocess, sys, time

TOP = os.path.dirname(os.path.dirname(os.path.abspath(__file__)))
PROGRAM = os.path.join(TOP, 'catalogue')

def entity(kind, name, spec):
    return {'apiVersion': 'backstage.io/v1alpha1', 'kind': kind, 'metadata': {'name': name}, 'spec': spec}

def text(value):
    return json.dumps(value, separators=(',', ':'))

def full(serial, entities):
    return f'full sample {text({"serial": serial, "entities": [{"entity": x} for x in entities]})}\n'

def sample(count):
    x, entities = 1, [entity('Group', f'g{j}', {'type': 'team', 'children': []}) for j in range(10)]
    for k in range(count):
        x = (x * 1103515245 + 12345) % 2 ** 31
        draw = x // 65536
        spec = {'type': 'service', 'lifecycle': 'production', 'owner': f'g{draw % 10}'}
        if k:
            spec['dependsOn'] = [f'component:c{draw % k}']
        entities.append(entity('Component', f'c{k}', spec))
    return entities

class Session:
    def __init__(self):
        self.program = subprocess.Popen([PROGRAM, 'session'], stdin=subprocess.PIPE, stdout=subprocess.PIPE)

    def ask(self, line):
        """The seconds until the reply to a line stood, and the reply."""
        start = time.time()
        self.program.stdin.write(line.encode())
        self.program.stdin.flush()
        reply = self.program.stdout.readline().decode().strip()
        return time.time() - start, reply

    def close(self):
        self.program.stdin.close()
        self.program.wait()

def location(k, last):
    return entity('Location', f'l{k}', {'type': 'file', 'target': f'/{k}.json'}) if k < last else sample(1)[10]

def main():
    counts = [int(x) for x in sys.argv[1:]] or [100, 300, 1000, 3000]
    subprocess.run([PROGRAM, 'session'], stdin=subprocess.DEVNULL, check=True)
    print(f'{"input":26} {"full, s":>8} {"settle, s":>10} {"one owner changed, s":>21} {"settle, s":>10}   replies')
    for count in counts:
        entities, session = sample(count), Session()
        given, _ = session.ask(full(1, entities))
        first, settled = session.ask('settle\n')
        entities[10]['spec']['owner'] = 'g9' if entities[10]['spec']['owner'] != 'g9' else 'g8'
        changed, _ = session.ask(full(2, entities))
        second, again = session.ask('settle\n')
        session.close()
        print(f'{count:6} Components          {given:8.2f} {first:10.2f} {changed:21.2f} {second:10.2f}   {settled}; {again}', flush=True)
    session = Session()
    given, _ = session.ask(full(1, [location(0, 100)]))
    for k in range(100):
        session.ask(f'put file:/{k}.json {text(location(k + 1, 100))}\n')
    first, settled = session.ask('settle\n')
    session.close()
    print(f'   100 Locations in a chain {given:7.2f} {first:10.2f} {"":21} {"":10}   {settled}')

if __name__ == '__main__':
    main()
