#!/usr/bin/env python3
"""served.py [COUNT [SECONDS]]: how fast the built program serves many connections.

COUNT Components (5,000, if nothing is said) over ten Groups are given to `serve` with 5 connections, and `wrk` asks over 4 of them for so many seconds (5) an
entity by name and a page of 20; the same with one client beside it that writes. Beside them stands nginx, which serves the same bytes as a file. Then as many
Components are given to servers with 1 and with 4 pairs of workers, and the time is taken until all documents are there. It needs `wrk` and `nginx`.
"""
import http.client, json, os, re, socket, subprocess, sys, tempfile, threading, time

TOP = os.path.dirname(os.path.dirname(os.path.abspath(__file__)))
PROGRAM = os.path.join(TOP, 'catalogue')
BY_NAME = '/entities/by-name/component/default/c17'
PAGE = '/entities/by-query?limit=20&orderField=metadata.name&filter=kind=component'


def free_port():
    with socket.socket() as it:
        it.bind(('127.0.0.1', 0))
        return it.getsockname()[1]


def started(words, port):
    process = subprocess.Popen(words, stdout=subprocess.DEVNULL)
    for _ in range(200):
        try:
            socket.create_connection(('127.0.0.1', port)).close()
            return process
        except OSError:
            time.sleep(0.05)
    sys.exit(f'{words[0]} takes no connection')


def served(workers):
    port = free_port()
    return started([PROGRAM, 'serve', f'127.0.0.1:{port}', '--connections', '5', '--workers', str(workers)], port), port


def asked(port, method, path, body=None):
    connection = http.client.HTTPConnection('127.0.0.1', port, timeout=600)
    connection.request(method, path, None if body is None else json.dumps(body, separators=(',', ':')))
    reply = connection.getresponse()
    text = reply.read()
    connection.close()
    return reply.status, text


def entity(kind, name, spec):
    return {'entity': {'apiVersion': 'backstage.io/v1alpha1', 'kind': kind, 'metadata': {'name': name}, 'spec': spec}}


def component(k):
    return entity('Component', f'c{k}', {'type': 'service', 'lifecycle': 'production', 'owner': f'g{k % 10}'})


def given(port, count):
    groups = [entity('Group', f'g{j}', {'type': 'team', 'children': []}) for j in range(10)]
    asked(port, 'POST', '/providers/git/full', {'serial': 1, 'entities': groups})
    for serial, start in enumerate(range(0, count, 10000), 2):
        asked(port, 'POST', '/providers/git/delta', {'serial': serial, 'added': [component(k) for k in range(start, min(count, start + 10000))], 'removed': []})


def counted(port):
    status, text = asked(port, 'GET', '/entity-facets?facet=kind')
    return sum(value['count'] for value in json.loads(text)['facets']['kind']) if status == 200 else 0


def rate(port, path, seconds):
    told = subprocess.run(['wrk', '-t', '2', '-c', '4', '-d', f'{seconds}s', f'http://127.0.0.1:{port}{path}'], stdout=subprocess.PIPE, text=True).stdout
    if 'Non-2xx' in told:
        sys.exit(told)
    return float(re.search(r'Requests/sec:\s+([\d.]+)', told)[1])


class Writer(threading.Thread):
    """Changes the owner of one Component again and again."""

    def __init__(self, port):
        super().__init__(daemon=True)
        self.port, self.writes, self.going = port, 0, True

    def run(self):
        while self.going:
            self.writes += 1
            asked(self.port, 'POST', '/providers/more/delta', {'serial': self.writes, 'added': [entity('Component', 'more', {'type': 'service', 'lifecycle': 'production', 'owner': f'g{self.writes % 10}'})], 'removed': []})


def beside_nginx(text, seconds):
    with tempfile.TemporaryDirectory() as folder:
        port = free_port()
        with open(os.path.join(folder, 'page'), 'wb') as it:
            it.write(text)
        with open(os.path.join(folder, 'conf'), 'w') as it:
            it.write(f'daemon off; worker_processes 4; pid {folder}/pid; error_log /dev/null; events {{}} http {{ access_log off; server {{ listen 127.0.0.1:{port}; root {folder}; }} }}')
        os.chmod(folder, 0o755)
        process = started(['nginx', '-c', os.path.join(folder, 'conf')], port)
        try:
            return rate(port, '/page', seconds)
        finally:
            process.terminate()
            process.wait()


def main():
    count = int(sys.argv[1]) if len(sys.argv) > 1 else 5000
    seconds = int(sys.argv[2]) if len(sys.argv) > 2 else 5
    process, port = served(2)
    try:
        given(port, count)
        asked(port, 'POST', '/settle')
        for name, path in ('by name', BY_NAME), ('a page of 20', PAGE):
            _, text = asked(port, 'GET', path)
            alone, files = rate(port, path, seconds), beside_nginx(text, seconds)
            writer = Writer(port)
            writer.start()
            busy = rate(port, path, seconds)
            writer.going = False
            writer.join()
            print(f'{name:14} {alone:9.0f} a second, with a writer {busy:9.0f} ({writer.writes / seconds:.0f} writes a second), nginx with the same bytes {files:9.0f}')
    finally:
        process.kill()
    for workers in 1, 4:
        process, port = served(workers)
        try:
            start = time.time()
            given(port, count)
            while counted(port) < count + 10:
                time.sleep(0.02)
            print(f'{count} Components by {workers} pairs of workers: {time.time() - start:.2f} s')
        finally:
            process.kill()


if __name__ == '__main__':
    main()
