#!/usr/bin/env python3
"""wire.py [COUNT [REQUESTS]]: how fast the built program answers HTTP requests over one connection.

COUNT Components (5,000, if nothing is said) over ten Groups are given and settled in one connection, and then so many requests of one kind follow (2,000).
The figures are requests a second for those alone: the time of the whole run less that of the same run without them. Beside them stands how long `cat`
takes to hand on the same bytes in and out.
"""
import json, os, subprocess, sys, tempfile, time

TOP = os.path.dirname(os.path.dirname(os.path.abspath(__file__)))
PROGRAM = os.path.join(TOP, 'catalogue')


def request(method, path, body=None):
    body = b'' if body is None else json.dumps(body, separators=(',', ':')).encode()
    return f'{method} {path} HTTP/1.1\r\nHost: x\r\nContent-Length: {len(body)}\r\n\r\n'.encode() + body


def entity(kind, name, spec):
    return {'entity': {'apiVersion': 'backstage.io/v1alpha1', 'kind': kind, 'metadata': {'name': name}, 'spec': spec}}


def begun(count):
    """The requests that fill a catalogue and settle it; a body holds 4 MiB at most, so the Components come in several."""
    groups = [entity('Group', f'g{j}', {'type': 'team', 'children': []}) for j in range(10)]
    parts = [request('POST', '/providers/git/full', {'serial': 1, 'entities': groups})]
    names = list(range(count))
    for serial, start in enumerate(range(0, count, 10000), 2):
        some = [entity('Component', f'c{k}', {'type': 'service', 'lifecycle': 'production', 'owner': f'g{k % 10}'}) for k in names[start:start + 10000]]
        parts.append(request('POST', '/providers/git/delta', {'serial': serial, 'added': some, 'removed': []}))
    return b''.join(parts) + request('POST', '/settle')


def timed(words, given):
    with tempfile.TemporaryFile() as source, tempfile.TemporaryFile() as sink:
        source.write(given)
        source.seek(0)
        start = time.time()
        status = subprocess.run(words, stdin=source, stdout=sink).returncode
        return time.time() - start, sink.seek(0, 2), status


def main():
    count = int(sys.argv[1]) if len(sys.argv) > 1 else 5000
    times = int(sys.argv[2]) if len(sys.argv) > 2 else 2000
    subprocess.run([PROGRAM, 'session'], stdin=subprocess.DEVNULL, stdout=subprocess.DEVNULL, check=True)
    base = begun(count)
    alone, _, status = timed([PROGRAM, 'wire'], base)
    print(f'{count} Components given and settled: {alone:.2f} s, status {status}')
    large = json.dumps({'serial': 1, 'entities': [], 'x': 'x' * 4190000}).encode()
    kinds = [
        ('by name', [request('GET', f'/entities/by-name/component/default/c{k * 7919 % count}') for k in range(times)]),
        ('a page of 20 by name', [request('GET', '/entities/by-query?limit=20&orderField=metadata.name&filter=kind=component')] * max(1, times // 100)),
        ('facet of owners', [request('GET', '/entity-facets?facet=spec.owner')] * max(1, times // 100)),
        ('a body of 4 MB', [f'POST /providers/big/full HTTP/1.1\r\nHost: x\r\nContent-Length: {len(large)}\r\n\r\n'.encode() + large] * 20),
    ]
    print(f'{"request":24} {"requests/s":>11} {"MB in/s":>9} {"cat, MB/s":>10}')
    for name, requests in kinds:
        more = b''.join(requests)
        seconds, _, status = timed([PROGRAM, 'wire'], base + more)
        seconds = max(seconds - alone, 1e-9)
        beside, _, _ = timed(['cat'], more)
        print(f'{name:24} {len(requests) / seconds:11.0f} {len(more) / seconds / 1e6:9.2f} {len(more) / beside / 1e6:10.1f}' + (f'  status {status}' if status else ''))


main()
