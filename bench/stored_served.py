#!/usr/bin/env python3
"""stored_served.py [COUNT [CHANGES]]: what a change costs a server that keeps its catalogue.

COUNT Components (5,000, if nothing is said) over ten Groups are given to `serve` with one pair of workers, without a store, with `--store` and with
`--journal`. Once all documents are there, one client gives one Component another owner so many times (100), each by a request that is answered before the next
one. Printed are the seconds from the first Component given to the last document, and the mean and the longest of a change in milliseconds.
"""
import http.client, json, os, sys, tempfile, time

sys.path.insert(0, os.path.dirname(os.path.abspath(__file__)))
from served import PROGRAM, counted, entity, free_port, given, started


def change(connection, serial, owner):
    item = entity('Component', 'c17', {'type': 'service', 'lifecycle': 'production', 'owner': f'g{owner}'})
    body = json.dumps({'serial': serial, 'added': [item], 'removed': []}, separators=(',', ':'))
    start = time.time()
    connection.request('POST', '/providers/git/delta', body)
    reply = connection.getresponse()
    reply.read()
    assert reply.status == 200, reply.status
    return (time.time() - start) * 1000


def main():
    count, changes = [int(word) for word in sys.argv[1:3]] + [5000, 100][len(sys.argv) - 1:]
    for words in ([], ['--store', 'kept.db'], ['--journal', 'kept.log']):
        with tempfile.TemporaryDirectory() as folder:
            port = free_port()
            server = started([PROGRAM, 'serve', f'127.0.0.1:{port}', '--connections', '2', '--workers', '1', *[os.path.join(folder, it) if '.' in it else it for it in words]], port)
            try:
                start = time.time()
                given(port, count)
                while counted(port) < count + 10:
                    time.sleep(0.02)
                took = time.time() - start
                connection = http.client.HTTPConnection('127.0.0.1', port, timeout=600)
                times = [change(connection, 1000 + k, k % 10) for k in range(changes)]
                print(f'{words[0] if words else "no store"}: {count} Components in {took:.1f} s; a change {sum(times) / len(times):.2f} ms, at most {max(times):.2f}')
            finally:
                server.kill()
                server.wait()


if __name__ == '__main__':
    main()
