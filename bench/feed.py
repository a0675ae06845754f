#!/usr/bin/env python3
"""feed.py [COUNT]: what a question for changes costs.

COUNT Components (50,000, if nothing is said) over ten Groups are given to `serve` and settled. Then the feed is asked without a place, from its own place with
nothing changed, and from its own place after ten Components got another owner; beside these stands the list of all documents. Each is the least time of five.
"""
import http.client, json, os, socket, subprocess, sys, time

TOP = os.path.dirname(os.path.dirname(os.path.abspath(__file__)))
PROGRAM = os.path.join(TOP, 'catalogue')


def started():
    with socket.socket() as it:
        it.bind(('127.0.0.1', 0))
        port = it.getsockname()[1]
    process = subprocess.Popen([PROGRAM, 'serve', f'127.0.0.1:{port}', '--workers', '1'])
    for _ in range(200):
        try:
            socket.create_connection(('127.0.0.1', port)).close()
            return process, http.client.HTTPConnection('127.0.0.1', port, timeout=3600)
        except OSError:
            time.sleep(0.05)
    sys.exit('serve takes no connection')


def asked(connection, method, path, body=None):
    start = time.monotonic()
    connection.request(method, path, None if body is None else json.dumps(body, separators=(',', ':')))
    reply = connection.getresponse()
    text = reply.read()
    seconds = time.monotonic() - start
    if reply.status != 200:
        sys.exit(f'{path}: {reply.status} {text[:200]}')
    return seconds, text


def entity(kind, name, spec):
    return {'entity': {'apiVersion': 'backstage.io/v1alpha1', 'kind': kind, 'metadata': {'name': name}, 'spec': spec}}


def component(k, owner):
    return entity('Component', f'c{k}', {'type': 'service', 'lifecycle': 'production', 'owner': f'g{owner % 10}'})


def main():
    count = int(sys.argv[1]) if len(sys.argv) > 1 else 50000
    process, connection = started()
    try:
        groups = [entity('Group', f'g{j}', {'type': 'team', 'children': []}) for j in range(10)]
        asked(connection, 'POST', '/providers/git/full', {'serial': 1, 'entities': groups})
        serial = 1
        for start in range(0, count, 10000):
            serial += 1
            asked(connection, 'POST', '/providers/git/delta', {'serial': serial, 'added': [component(k, k) for k in range(start, min(count, start + 10000))], 'removed': []})
        asked(connection, 'POST', '/settle')
        while json.loads(asked(connection, 'GET', '/changes')[1])['changes'].__len__() < count + 10:
            time.sleep(0.5)
        place = lambda text: json.loads(text)['to']
        whole = [asked(connection, 'GET', '/changes') for _ in range(5)]
        lists = [asked(connection, 'GET', '/entities') for _ in range(5)]
        at = place(whole[-1][1])
        none = [asked(connection, 'GET', f'/changes?since={at}') for _ in range(5)]
        some = []
        for turn in range(5):
            serial += 1
            asked(connection, 'POST', '/providers/git/delta', {'serial': serial, 'added': [component(k, k + turn + 1) for k in range(0, 10000, 1000)], 'removed': []})
            asked(connection, 'POST', '/settle')
            time.sleep(1)
            some.append(asked(connection, 'GET', f'/changes?since={at}'))
            at = place(some[-1][1])
        for name, found in ('the list of all documents', lists), ('changes without a place', whole), ('changes where there are none', none), ('changes of ten Components', some):
            print(f'{name:30} {1000 * min(seconds for seconds, _ in found):9.2f} ms {len(found[-1][1]):12} bytes')
    finally:
        process.kill()


main()
