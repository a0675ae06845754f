#!/usr/bin/env python3
"""leaves.py: megabytes a second of reading, writing and checking descriptors, and of reading them from block YAML.

A list of 1,000, 3,000 and 10,000 descriptors goes to the program `gauge`, which reads, writes or checks it 1 time and 21 times;
the difference is 20 times. Where the megabytes a second are the same for each size, the work is linear in its input. For block
YAML the same descriptors are documents parted by `---`, and the megabytes are those of the JSON. Then texts of 2, 4 and 8 MB of one kind are
read as block YAML once; each may be refused, and takes twice the time of the one half as long where the work is linear. Time is what
the processor spends in the gauge, the least of several runs, so that other work on the machine counts for little.
"""
import json, os, resource, subprocess

TOP = os.path.dirname(os.path.dirname(os.path.abspath(__file__)))
GAUGE = os.path.join(TOP, 'crates', 'gauge', 'out', 'gauge')

def descriptor(k):
    return {'apiVersion': 'backstage.io/v1alpha1', 'kind': 'Component',
            'metadata': {'name': f'service-{k}', 'title': f'Service {k}', 'description': 'Takes orders and hands them on',
                         'labels': {'example.com/tier': 'gold'}, 'annotations': {'example.com/project-slug': f'org/service-{k}'},
                         'tags': ['java', 'orders'], 'links': [{'url': 'https://example.com/shop', 'title': 'Shop'}]},
            'spec': {'type': 'service', 'lifecycle': 'production', 'owner': f'team-{k % 50}', 'system': f'system-{k % 200}',
                     'dependsOn': [f'component:service-{k // 2}', f'resource:database-{k % 70}'], 'providesApis': [f'api-{k}']}}

def plain(value):
    return value if value[0].isalnum() and ': ' not in value and ' #' not in value else json.dumps(value)

def block(value, indent):
    """The lines of a map or a list of maps and texts in block YAML, each list at the indent of its key."""
    lines, space = [], ' ' * indent
    if isinstance(value, list):
        for entry in value:
            below = block(entry, indent + 2) if isinstance(entry, dict) else [space + '  ' + plain(entry)]
            lines += [space + '- ' + below[0].lstrip(' ')] + below[1:]
        return lines
    for key, entry in value.items():
        if isinstance(entry, str):
            lines.append(f'{space}{plain(key)}: {plain(entry)}')
        else:
            lines += [f'{space}{plain(key)}:'] + block(entry, indent + 2 * isinstance(entry, dict))
    return lines

def yaml(descriptors):
    return '---\n'.join('\n'.join(block(x, 0)) + '\n' for x in descriptors).encode()

KINDS = {'one line of a plain text': lambda n: b'a: ' + b'x' * n, 'one line of a quoted text': lambda n: b'a: "' + b'x' * n + b'"',
         'one line of a list in brackets': lambda n: b'a: [' + b'x, ' * (n // 3) + b'x]', 'one line of `- - - -`': lambda n: b'- ' * (n // 2),
         'lines of `- - - -`, 127 deep': lambda n: (b'- ' * 126 + b'-\n') * (n // 254),
         'blank lines below 127 levels': lambda n: b'- ' * 126 + b'-' + b'\n' * n, 'blank lines': lambda n: b'a:' + b'\n' * n,
         'comments': lambda n: b'a:\n' + b'# x\n' * (n // 4), 'literal text': lambda n: b'a: |\n' + b'  x\n' * (n // 4),
         'maps 127 deep': lambda n: b''.join(b'k%d:\n' % j + b''.join(b' ' * k + b'a:\n' for k in range(1, 126)) for j in range(n // 8130)),
         'documents': lambda n: b'--- # x\n- a\n' * (n // 12)}

ROUNDS = 5

def taken_so_far():
    used = resource.getrusage(resource.RUSAGE_CHILDREN)
    return used.ru_utime + used.ru_stime

def seconds(word, times, text):
    start = taken_so_far()
    subprocess.run([GAUGE, word, str(times)], input=text, stdout=subprocess.DEVNULL, check=True)
    return taken_so_far() - start

def main():
    print(f'{"descriptors":>11} {"MB":>6} {"read, MB/s":>11} {"write, MB/s":>12} {"check, MB/s":>12} {"YAML, MB":>9} {"read, MB/s of JSON":>19}')
    for count in [1000, 3000, 10000]:
        descriptors = [descriptor(k) for k in range(count)]
        text, documents = json.dumps(descriptors, separators=(',', ':')).encode(), yaml(descriptors)
        read = subprocess.run([GAUGE, 'yaml'], input=documents, stdout=subprocess.PIPE, check=True).stdout
        assert json.loads(read) == descriptors
        works = [('read', text), ('write', text), ('check', text), ('read-yaml', documents)]
        rounds = [[seconds(word, 21, given) - seconds(word, 1, given) for word, given in works] for _ in range(ROUNDS)]
        rates = [20 * len(text) / 1000000 / min(taken) for taken in zip(*rounds)]
        print(f'{count:11} {len(text) / 1000000:6.2f} {rates[0]:11.1f} {rates[1]:12.1f} {rates[2]:12.1f} {len(documents) / 1000000:9.2f} {rates[3]:19.1f}', flush=True)
    print(f'\n{"block YAML of one kind":32} {"2 MB, s":>9} {"4 MB, s":>9} {"8 MB, s":>9}')
    for kind, text_of in KINDS.items():
        taken = [min(seconds('read-yaml', 1, text_of(size * 1000000)) for _ in range(3)) for size in [2, 4, 8]]
        print(f'{kind:32} {taken[0]:9.3f} {taken[1]:9.3f} {taken[2]:9.3f}', flush=True)

main()
