"""The fenced blocks of a document."""
import os, sys

TOP = os.path.dirname(os.path.dirname(os.path.abspath(__file__)))


def blocks(document):
    """Each block of a document: its words, the number of the line before it, its lines, and whether only empty lines part it from the block before."""
    found, lines, follows = [], None, False
    with open(os.path.join(TOP, document), encoding='utf-8') as page:
        for number, line in enumerate(page, 1):
            line = line.rstrip('\n')
            if lines is None and line.startswith('```'):
                words, start, lines = line[3:].split(' '), number, []
            elif line == '```':
                found.append((words, start, lines, follows))
                lines, follows = None, True
            elif lines is not None:
                lines.append(line)
            elif line:
                follows = False
    if lines is not None:
        sys.exit(f'the block at line {start} of {document} has no end')
    return found


def commands(document):
    """The blocks of commands of a document: the line before each, the commands, and what they print, where that is in the block behind."""
    found = blocks(document)
    for place, (words, start, lines, _) in enumerate(found):
        after = found[place + 1] if place + 1 < len(found) else (['none'], 0, [], False)
        if words == ['sh']:
            yield start, lines, text(after[2]) if after[0] == [''] and after[3] else None


def text(lines):
    return ''.join(line + '\n' for line in lines)
