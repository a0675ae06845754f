#!/usr/bin/env python3
"""lines.py [MEGABYTES]: how fast the built program answers lines, and how much memory it takes.

Each kind of line is sent through one session until so many megabytes were sent (100, if nothing is said). The figures are
megabytes of input a second, over the whole run of the program, and the most memory that it held, in MiB.
"""
import os, subprocess, sys, time

TOP = os.path.dirname(os.path.dirname(os.path.abspath(__file__)))
PROGRAM = os.path.join(TOP, 'catalogue')
KINDS = [
    ('unknown word, 60 bytes', b'nothing ' + b'x' * 51 + b'\n'),
    ('unknown word, 64 KiB', b'nothing ' + b'x' * 65527 + b'\n'),
    ('over the longest line', b'x' * 9000000 + b'\n'),
    ('malformed JSON, 1 KiB', b'full git {"serial":1,"entities":[' + b' ' * 990 + b'\n'),
    ('get of an absent entity', b'get component:default/absent\n'),
    ('shelf text, 1 KiB', b'put file:/a.json ' + b'[' + b' ' * 1005 + b']\n'),
]

def run(line, megabytes):
    times = max(1, megabytes * 1000000 // len(line))
    piece = line * max(1, min(times, 1000000 // len(line)))
    count = max(1, times * len(line) // len(piece))
    program = subprocess.Popen([PROGRAM, 'session'], stdin=subprocess.PIPE, stdout=subprocess.DEVNULL)
    start = time.time()
    for _ in range(count):
        program.stdin.write(piece)
    program.stdin.flush()
    held = next(int(line.split()[1]) for line in open(f'/proc/{program.pid}/status') if line.startswith('VmHWM'))
    program.stdin.close()
    status = program.wait()
    seconds = time.time() - start
    sent = count * len(piece) / 1000000
    return sent, seconds, held / 1024, status

def main():
    megabytes = int(sys.argv[1]) if len(sys.argv) > 1 else 100
    subprocess.run([PROGRAM, 'session'], stdin=subprocess.DEVNULL, stdout=subprocess.DEVNULL, check=True)
    print(f'{"line":28} {"MB":>6} {"seconds":>8} {"MB/s":>8} {"MiB held":>9}')
    for name, line in KINDS:
        sent, seconds, held, status = run(line, megabytes)
        print(f'{name:28} {sent:6.0f} {seconds:8.2f} {sent / seconds:8.1f} {held:9.1f}' + (f'  status {status}' if status else ''))

main()
